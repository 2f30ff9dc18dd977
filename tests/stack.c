/* How much stack each function of the library touches. Each call runs on a stack of its own that held a pattern before; the deepest byte
   that has changed counts, from where the call is made. The inputs go to the limits: the longest sources, 16 `times` with an operand in the
   innermost whose expression is 32 deep, lines that the patch reads alone. Prints for each constant of the header the most that its functions
   have touched; ends with status 1 where less than a fifth of it is to spare, or where an answer shows that an input missed its limit. */
#define _XOPEN_SOURCE 700
#include "laqhoncu.h"
#include <stdio.h>
#include <stdlib.h>
#include <string.h>
#include <ucontext.h>

enum { STACK = 1 << 19, PATTERN = 0xA5, ROOM = LAQHONCU_LISTING_FACTOR * LAQHONCU_SOURCE_MAX };

static unsigned char stack[STACK];
static ucontext_t here, there;
static void (*called)(void);
static size_t top;

/* `top` is where the frame stands that the call is made from. */
static void enter(void) {
    unsigned char mark = 0;
    top = (size_t)((uintptr_t)&mark - (uintptr_t)stack);
    called();
}

static void on_the_stack(void (*call)(void)) {
    called = call;
    if (getcontext(&there) != 0) exit(2);
    there.uc_stack.ss_sp = stack;
    there.uc_stack.ss_size = STACK;
    there.uc_link = &here;
    makecontext(&there, enter, 0);
    if (swapcontext(&here, &there) != 0) exit(2);
}

/* How many bytes below that frame a call has touched. */
static size_t touched(void (*call)(void)) {
    size_t i = 0;
    memset(stack, PATTERN, STACK);
    on_the_stack(call);
    while (i < STACK && stack[i] == PATTERN) i++;
    if (i == 0 || i > top) {
        printf("the stack of %d bytes was touched from its first byte on, or not at all\n", STACK);
        exit(1);
    }
    return top - i;
}

/* What a call is given, and what it answers with. */
static uint8_t old[LAQHONCU_SOURCE_MAX + 1], text[LAQHONCU_SOURCE_MAX + 1], source[LAQHONCU_SOURCE_MAX], listing[ROOM], out[ROOM];
static size_t old_length, text_length, listing_length, place;
static struct laqhoncu_numbers answer;

static void full_read(void) { answer = laqhoncu_full_read(old, old_length, out, ROOM).refusal; }
static void full_read_lean(void) { answer = laqhoncu_full_read_lean(old, old_length, out, ROOM).refusal; }
static void statement_read(void) { answer = laqhoncu_statement_read(old, old_length, place, out, ROOM).refusal; }
static void token_read(void) { answer = laqhoncu_token_read(old, old_length, place).refusal; }
static void token(void) { laqhoncu_token(old, old_length, place); }
static void count(void) { laqhoncu_count(old, old_length); }
static void operation(void) { laqhoncu_operation(old, old_length); }
static void name(void) { laqhoncu_name(old, old_length); }
static void directive(void) { laqhoncu_directive(old, old_length); }
static void patch(void) {
    answer = laqhoncu_patch(old, old_length, listing, listing_length, place, text, text_length, source, sizeof source, out, ROOM).refusal;
}
static void evaluate(void) {
    uint8_t i;
    for (i = 0; i < 5; i++) laqhoncu_evaluate(i, INT32_MIN, -1);
}

enum which { FULL_READ, FULL_READ_LEAN, PATCH, STATEMENT_READ, OTHER, CONSTANTS };
static size_t most[CONSTANTS];

static void run(enum which which, void (*call)(void)) {
    size_t n = touched(call);
    if (n > most[which]) most[which] = n;
}

static void expect(uint32_t number, const char *what) {
    if (answer.number == number) return;
    printf("%s: %u, not %u\n", what, (unsigned)answer.number, (unsigned)number);
    exit(1);
}

/* Bytes at the end of a buffer. */
static void put(uint8_t *buffer, size_t *length, const char *bytes, size_t times) {
    while (times-- > 0) {
        memcpy(buffer + *length, bytes, strlen(bytes));
        *length += strlen(bytes);
    }
}

/* A statement as deep as the limits allow: so many `times` and parentheses, and what begins, fills and ends the expression. */
static void deep(uint8_t *buffer, size_t *length, size_t times, const char *head, const char *open, size_t depth, const char *inner,
                 const char *closing, const char *tail) {
    put(buffer, length, "times 1 ", times);
    put(buffer, length, head, 1);
    put(buffer, length, open, depth);
    put(buffer, length, inner, 1);
    put(buffer, length, closing, depth);
    put(buffer, length, tail, 1);
}

/* Statements at the limits (refused by 0) and one step beyond them. */
static const struct {
    size_t times;
    const char *head, *open;
    size_t depth;
    const char *inner, *closing, *tail;
    uint32_t number;
} statements[] = {
    {16, "mov ax,[es:bx+si+", "(", 30, "0FFFFh", ")", "]", 0},
    {16, "mov word [es:bp+di-", "(", 31, "0x7fffffff", ")", "],ax", 3},
    {16, "mov byte [bx+si+", "(", 30, "'c'", ")", "],cl", 0},
    {16, "mov ax,", "(", 31, "$$", ")", "", 0},
    {16, "mov ax,", "(", 32, "$$", ")", "", 3},
    {16, "mov ax,", "-", 31, "name", "", "", 0},
    {16, "jmp 1:", "(", 31, "2", ")", "", 0},
    {16, "equ ", "1+(", 15, "017o", ")", "", 0},
    {16, "times ", "(", 31, "1", ")", " nop", 5},
    {15, "times ", "(", 31, "1", ")", " nop", 0},
    {16, "db ", "'text',0ffh ", 1000, "12", "", "", 0},
    {16, "a:", "", 0, "", "", "", 0},
    {16, "mov ax,[si+", "", 0, "di", "", "]", 33},
    {16, "mov ax,[es:", "", 0, "]", "", "", 32},
    {16, "mov ax,", "(", 31, "12b", ")", "", 30},
    {16, "mov ax,", "(", 31, "0xffffffff", ")", "", 31},
    {16, "", "", 0, "", "", "", 34},
};
enum { STATEMENTS = sizeof statements / sizeof statements[0] };

static void statement(uint8_t *buffer, size_t *length, int i) {
    deep(buffer, length, statements[i].times, statements[i].head, statements[i].open, statements[i].depth, statements[i].inner, statements[i].closing,
         statements[i].tail);
}

/* The listing of the old source. */
static void listed(void) {
    struct laqhoncu_full_reading said = laqhoncu_full_read(old, old_length, listing, ROOM);
    answer = said.refusal;
    listing_length = said.length;
}

static void reads(void) {
    static const char *fill[] = {"\n", " ", "a\n", "in\n", ";\n", "nop\n", "mov ax,[bx+4]\n", "db 'abc'\n", "\x80"};
    static const uint32_t number[] = {0, 0, 0, 0, 0, 0, 0, 0, 2};
    size_t i, lengths[] = {0, 1, 1024, 1025, 4096, 4097, 16384, 16385, LAQHONCU_SOURCE_MAX}, j;
    int k;
    for (i = 0; i < sizeof fill / sizeof fill[0]; i++) {
        for (j = 0; j < sizeof lengths / sizeof lengths[0]; j++) {
            old_length = 0;
            while (old_length + strlen(fill[i]) <= lengths[j]) put(old, &old_length, fill[i], 1);
            while (old_length < lengths[j]) put(old, &old_length, " ", 1);
            place = 0;
            run(FULL_READ, full_read);
            expect(old_length ? number[i] : 0, "a full read of many lines");
            run(FULL_READ_LEAN, full_read_lean);
            expect(old_length ? number[i] : 0, "a lean full read of many lines");
            run(STATEMENT_READ, statement_read);
            run(OTHER, token_read);
            run(OTHER, token);
            run(OTHER, count);
            run(OTHER, operation);
            run(OTHER, name);
            run(OTHER, directive);
        }
    }
    memset(old, '\n', sizeof old);
    old_length = sizeof old;
    run(FULL_READ, full_read);
    expect(LAQHONCU_SOURCE_TOO_LONG, "a full read of a byte too much");
    run(FULL_READ_LEAN, full_read_lean);
    expect(LAQHONCU_SOURCE_TOO_LONG, "a lean full read of a byte too much");
    run(STATEMENT_READ, statement_read);
    run(OTHER, token_read);
    /* the deep statements alone, and at the end of the longest source */
    for (k = 0; k < STATEMENTS; k++) {
        size_t size;
        old_length = 0;
        statement(old, &old_length, k);
        place = 0;
        run(FULL_READ, full_read);
        expect(statements[k].number, statements[k].head);
        run(FULL_READ_LEAN, full_read_lean);
        expect(statements[k].number, statements[k].head);
        run(STATEMENT_READ, statement_read);
        expect(statements[k].number, statements[k].head);
        for (i = 0; i < 3; i++) {
            place = i * old_length / 2;
            run(OTHER, token_read);
            run(OTHER, token);
        }
        run(OTHER, count);
        size = old_length;
        old_length = 0;
        put(old, &old_length, "\n", LAQHONCU_SOURCE_MAX - size);
        place = old_length;
        statement(old, &old_length, k);
        run(FULL_READ, full_read);
        expect(statements[k].number, statements[k].head);
        run(FULL_READ_LEAN, full_read_lean);
        expect(statements[k].number, statements[k].head);
        run(STATEMENT_READ, statement_read);
        expect(statements[k].number, statements[k].head);
    }
    run(OTHER, evaluate);
}

/* Words of each length that a table may hold, and numbers with each prefix and suffix. */
static void words(void) {
    static const char *all[] = {"",  "a",  "in", "jmp", "word", "times", "loopnz", "unknown", "AX", "es",
                                "_", "0b1", "0o7", "0d9", "0xf", "1b",  "1d",     "7o",      "0fh", "99999999999"};
    size_t i;
    for (i = 0; i < sizeof all / sizeof all[0]; i++) {
        old_length = 0;
        put(old, &old_length, all[i], 1);
        place = 0;
        run(OTHER, operation);
        run(OTHER, name);
        run(OTHER, directive);
        run(OTHER, token);
        run(OTHER, token_read);
        run(OTHER, count);
    }
}

static void patches(void) {
    int k, l;
    for (k = 0; k < STATEMENTS; k++) {
        /* the new line deep, in the longest source with its listing; the lines that 40 is about are read alone */
        size_t n;
        text_length = 0;
        statement(text, &text_length, k);
        for (l = 0; l < 2; l++) {
            old_length = 0;
            put(old, &old_length, l ? "in\n" : "a\n", (LAQHONCU_SOURCE_MAX - text_length - 1) / (l ? 3 : 2));
            listed();
            expect(0, "the old source of a patch");
            place = old_length;
            run(PATCH, patch);
            expect(statements[k].number == LAQHONCU_TIMES_WITHOUT_CONTENT ? LAQHONCU_TIMES_LEFT_OPEN : statements[k].number, statements[k].head);
        }
        /* a deep line replaced, and one above the new line: read alone too. Where the full read takes it, it has its listing. */
        old_length = 0;
        statement(old, &old_length, k);
        n = old_length;
        put(old, &old_length, "\n", 1);
        put(old, &old_length, ";\n", (LAQHONCU_SOURCE_MAX - old_length) / 2 - 1);
        listed();
        expect(statements[k].number, statements[k].head);
        text_length = 0;
        put(text, &text_length, "ret", 1);
        for (l = 0; l < 2; l++) {
            place = l ? n + 1 : 0;
            run(PATCH, patch);
            expect(statements[k].number == LAQHONCU_TIMES_WITHOUT_CONTENT ? LAQHONCU_TIMES_LEFT_OPEN : 0, statements[k].head);
        }
    }
    /* the longest line, text and listing; a listing that is none; each first test */
    old_length = text_length = listing_length = place = 0;
    put(text, &text_length, "in ", LAQHONCU_SOURCE_MAX / 3);
    run(PATCH, patch);
    memset(text, 'a', LAQHONCU_SOURCE_MAX);
    text_length = LAQHONCU_SOURCE_MAX;
    run(PATCH, patch);
    expect(0, "the longest text");
    put(old, &old_length, "in\n", LAQHONCU_SOURCE_MAX / 3);
    listed();
    expect(0, "the longest listing");
    text_length = 0;
    run(PATCH, patch);
    expect(0, "the longest listing's first line");
    listing[0] = 0;
    run(PATCH, patch);
    expect(LAQHONCU_LISTING_NOT_WELL_FORMED, "a listing that is none");
    place = 1;
    run(PATCH, patch);
    expect(LAQHONCU_NO_SUCH_PLACE, "no line's place");
}

static const struct {
    const char *title;
    size_t constant;
} said[] = {
    {"full read", LAQHONCU_STACK_FULL_READ},
    {"lean full read", LAQHONCU_STACK_FULL_READ_LEAN},
    {"patch", LAQHONCU_STACK_PATCH},
    {"statement read", LAQHONCU_STACK_STATEMENT_READ},
    {"others", LAQHONCU_STACK_OTHER},
};

int main(void) {
    int i, over = 0;
    reads();
    words();
    patches();
    for (i = 0; i < CONSTANTS; i++) {
        printf("%s%s %lu of %lu", i ? ", " : "", said[i].title, (unsigned long)most[i], (unsigned long)said[i].constant);
        /* The header says that a fifth of it is to spare. */
        over |= most[i] > said[i].constant - said[i].constant / 5;
    }
    printf(over ? " bytes: less is to spare than the header says\n" : " bytes\n");
    return over;
}
