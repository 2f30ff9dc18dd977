/* Every digit takes the same path to its worth. The processor's trap flag stops a token read behind each instruction, and the addresses are
   kept. A number's digits are valued when its end has been found, and nothing goes through them again behind that. So the paths of numbers that
   differ in one digit end alike, and alike for longer with each digit more that stands before it; where the step from a digit to its worth
   branched, they would part there. Prints how many kinds of numbers were tried; ends with status 1 where paths part, or a token is not the one
   expected. A table would not be seen. */
#define _GNU_SOURCE
#include "laqhoncu.h"
#include <signal.h>
#include <stdio.h>
#include <stdlib.h>
#include <string.h>
#include <ucontext.h>

enum { MOST = 4096, ZEROS = 5 };

/* The digits that are tried, and what stands round each and the zeros before it. Those that the base does not have come to the step too,
   but where a prefix or a suffix b has looked at them before. */
static const struct {
    const char *prefix, *first, *tried, *last, *suffix;
    int base;
} kinds[] = {
    {"0b", "", "01", "", "", 2},
    {"0o", "", "01234567", "", "", 8},
    {"0d", "", "0123456789", "", "", 10},
    {"0x", "", "0123456789ABCDEFabcdef", "", "", 16},
    {"", "1", "01", "0", "b", 2},
    {"", "1", "01234567", "0", "o", 8},
    {"", "1", "89ABCDEFabcdef", "0", "o", 8},
    {"", "1", "0123456789", "0", "d", 10},
    {"", "1", "ABCDEFabcdef", "0", "d", 10},
    {"", "1", "0123456789ABCDEFabcdef", "0", "h", 16},
    {"", "1", "0123456789ABCDEFabcdef", "", "h", 16},
    {"", "1", "0123456789", "0", "", 10},
    {"", "1", "ABCDEFabcdef", "0", "", 10},
};

static size_t path[MOST], of_first[MOST];
static volatile size_t steps;

static void stopped(int signal, siginfo_t *info, void *context) {
    (void)signal, (void)info;
    if (steps == MOST) _Exit(2);
    path[steps++] = (size_t)((ucontext_t *)context)->uc_mcontext.gregs[REG_RIP];
}

/* The flags are pushed beyond the 128 bytes beneath the stack, which are the compiler's. */
#define TRAP(change) __asm__ volatile("lea -128(%%rsp), %%rsp; pushfq; " change ", (%%rsp); popfq; lea 128(%%rsp), %%rsp" ::: "memory", "cc")

/* Not inlined: a second copy would have other addresses. */
__attribute__((noinline)) static struct laqhoncu_token_found traced(const char *text, size_t length) {
    struct laqhoncu_token_found found;
    steps = 0;
    TRAP("orq $0x100");
    found = laqhoncu_token((const uint8_t *)text, length, 0);
    TRAP("andq $~0x100");
    return found;
}

/* How many instructions at their end the paths of all numbers of a kind with so many zeros have in common. */
static size_t alike(size_t kind, int zeros) {
    size_t least = MOST, steps_of_first = 0;
    for (const char *digit = kinds[kind].tried; *digit; digit++) {
        char number[16], text[24], *rest;
        size_t same = 0;
        snprintf(number, sizeof number, "%s%.*s%c%s", kinds[kind].first, zeros, "0000000", *digit, kinds[kind].last);
        int length = snprintf(text, sizeof text, "%s%s%s", kinds[kind].prefix, number, kinds[kind].suffix);
        /* A digit that the base does not have makes its number's first byte a token of its own. */
        long value = strtol(number, &rest, kinds[kind].base);
        int fits = *rest == 0;
        struct laqhoncu_token_found found = traced(text, (size_t)length);
        if (found.kind != (fits ? '0' : '!') || found.value != (fits ? value : text[0]) || found.end != (fits ? (size_t)length : 1)) {
            printf("%s is read as a token of kind %d and value %d that ends at %zu\n", text, found.kind, found.value, found.end);
            exit(1);
        }
        if (digit == kinds[kind].tried) memcpy(of_first, path, sizeof path), steps_of_first = steps;
        while (same < steps && same < steps_of_first && path[steps - 1 - same] == of_first[steps_of_first - 1 - same]) same++;
        if (same < least) least = same;
    }
    return least;
}

int main(void) {
    struct sigaction action;
    memset(&action, 0, sizeof action);
    action.sa_sigaction = stopped;
    action.sa_flags = SA_SIGINFO;
    if (sigaction(SIGTRAP, &action, NULL) != 0) return 2;
    traced("0", 1);
    if (steps == 0) {
        printf("the trap flag does not stop this program\n");
        return 2;
    }
    for (size_t kind = 0; kind < sizeof kinds / sizeof *kinds; kind++) {
        size_t before = alike(kind, 0);
        for (int zeros = 1; zeros <= ZEROS; zeros++) {
            size_t now = alike(kind, zeros);
            if (now <= before) {
                printf("%s..%s, one of %s behind %d zeros: the paths end alike for %zu instructions, behind one zero less for %zu\n",
                       kinds[kind].prefix, kinds[kind].suffix, kinds[kind].tried, zeros, now, before);
                return 1;
            }
            before = now;
        }
    }
    printf("%zu\n", sizeof kinds / sizeof *kinds);
    return 0;
}
