/* Calls every function that include/laqhoncu.h declares, with answers that RULES give: their samples, their edits, each of their refusals.
   Buffers hold a pattern before each call and are looked through after it. The arguments are what the header's comment says of operations and
   registers: `operation` or `register`, its number and a spelling, as often as there are such. Ends with status 1 at the first difference; else
   prints how many answers were compared. */
#include "laqhoncu.h"
#include <stdio.h>
#include <stdlib.h>
#include <string.h>

enum { LONGEST = LAQHONCU_SOURCE_MAX, ROOM = 4096 };

static unsigned long checks;

static void check(int same, const char *what, const char *source) {
    checks++;
    if (same) return;
    for (; *source; source++) printf(*source >= ' ' && *source <= '~' ? "%c" : "\\x%02x", (unsigned char)*source);
    printf(": %s\n", what);
    exit(1);
}

/* Another value from byte to byte. */
static uint8_t pattern(size_t i) { return (uint8_t)((i * 29) ^ 0xA5); }

static void fill(uint8_t *buffer, size_t room) {
    size_t i;
    for (i = 0; i < room; i++) buffer[i] = pattern(i);
}

/* Whether the bytes behind the first `written` are as they were. */
static int left(const uint8_t *buffer, size_t written, size_t room) {
    size_t i;
    for (i = written; i < room; i++)
        if (buffer[i] != pattern(i)) return 0;
    return 1;
}

static const uint8_t *bytes(const char *text) { return (const uint8_t *)text; }

/* Without registers. */
static struct laqhoncu_numbers refusal(uint32_t number, uint32_t from, uint32_t to) {
    struct laqhoncu_numbers n = {0, 0, 0, LAQHONCU_NONE, LAQHONCU_NONE};
    n.number = number;
    n.from = from;
    n.to = to;
    return n;
}

/* The numbers that were wanted, and answered. */
static int met[256];

static int same_numbers(struct laqhoncu_numbers a, struct laqhoncu_numbers b) {
    if (a.number != b.number || a.from != b.from || a.to != b.to || a.first != b.first || a.second != b.second) return 0;
    if (a.number < 256) met[a.number] = 1;
    return 1;
}

/* The bytes of records such as `ST 0; LL 0 1`: two letters, then fields of four bytes, low first; behind LD's three fields, bytes. */
static size_t listing(const char *text, uint8_t *out) {
    size_t n = 0;
    while (*text) {
        int fields = 0, data = text[0] == 'L' && text[1] == 'D';
        out[n++] = (uint8_t)text[0];
        out[n++] = (uint8_t)text[1];
        text += 2;
        while (*text == ' ') {
            char *end;
            uint32_t value = (uint32_t)strtoul(text, &end, 10);
            int i, width = data && fields >= 3 ? 1 : 4;
            for (i = 0; i < width; i++) out[n++] = (uint8_t)(value >> (8 * i));
            fields++;
            text = end;
        }
        while (*text == ';' || *text == ' ') text++;
    }
    return n;
}

/* Both full reads, each into a buffer that held the pattern: one answer, and the same bytes in the whole buffer. */
static struct laqhoncu_full_reading full_read(const uint8_t *source, size_t length, uint8_t *out, size_t room, const char *name) {
    uint8_t again[ROOM];
    struct laqhoncu_full_reading said, lean;
    fill(out, ROOM);
    fill(again, ROOM);
    said = laqhoncu_full_read(source, length, out, room);
    lean = laqhoncu_full_read_lean(source, length, again, room);
    check(same_numbers(lean.refusal, said.refusal) && lean.length == said.length, "the lean full read's answer", name);
    check(memcmp(again, out, ROOM) == 0, "the lean full read's bytes", name);
    return said;
}

/* A full read that writes these records: lent more than enough, just enough, and a byte too little (4). */
static void reads(const char *source, const char *records) {
    uint8_t wanted[ROOM], out[ROOM];
    size_t length = strlen(source), n = listing(records, wanted);
    size_t rooms[2];
    int i;
    rooms[0] = n + 9;
    rooms[1] = n;
    check(n <= LAQHONCU_LISTING_FACTOR * length, "the listing is longer than the header allows", source);
    for (i = 0; i < 2; i++) {
        struct laqhoncu_full_reading said = full_read(bytes(source), length, out, rooms[i], source);
        check(same_numbers(said.refusal, refusal(0, 0, 0)), "the full read refuses it", source);
        check(said.length == n, "the full read's length", source);
        check(memcmp(out, wanted, n) == 0, "the full read's bytes", source);
        check(left(out, n, ROOM), "the full read wrote beyond its result", source);
    }
    if (n > 0) {
        struct laqhoncu_full_reading said = full_read(bytes(source), length, out, n - 1, source);
        check(same_numbers(said.refusal, refusal(4, 0, 0)), "the full read in a byte too little", source);
        check(said.length == 0 && left(out, 0, ROOM), "the full read wrote at a refusal", source);
    }
}

/* A full read that gives these numbers and writes nothing. */
static void says(const uint8_t *source, size_t length, struct laqhoncu_numbers wanted, const char *name) {
    uint8_t out[ROOM];
    struct laqhoncu_full_reading said = full_read(source, length, out, ROOM, name);
    check(same_numbers(said.refusal, wanted), "the full read's refusal", name);
    check(said.length == 0 && left(out, 0, ROOM), "the full read wrote at a refusal", name);
}

static void refuses(const char *source, uint32_t number, uint32_t from, uint32_t to) {
    says(bytes(source), strlen(source), refusal(number, from, to), source);
}

static void full_reads(void) {
    static uint8_t feeds[LONGEST + 1];
    struct laqhoncu_numbers registers = refusal(25, 6, 5);
    registers.first = 8;
    /* K1 to K12 */
    reads("mov ax,[bx+4]", "ST 0; OR 4 6 8; VC 11 12 4; PF 10 12 0; OX 7 13 7 1 0 0; LI 0 13 0 2 4 13");
    reads("equ -1+2*3", "ST 0; VC 5 6 1; PF 4 6 1; VC 7 8 2; VC 9 10 3; IN 7 10 2; IN 4 10 0; LC 0 10");
    reads("equ 8/4/2", "ST 0; VC 4 5 8; VC 6 7 4; IN 4 7 3; VC 8 9 2; IN 4 9 3; LC 0 9");
    reads("equ $$", "ST 0; VS 4 5; LC 0 6");
    refuses("dw 70000", 60, 3, 8);
    refuses("db ,,", 23, 0, 2);
    reads("jmp 1:2", "ST 0; VC 4 5 1; VC 6 7 2; OF 4 7; LI 0 7 59 1 4 7");
    says(bytes("mov [ ax],bx"), 12, registers, "mov [ ax],bx");
    refuses("mov ax,[si+di]", 33, 8, 13);
    reads("dw 0abh", "ST 0; LD 0 7 2 171 0");
    reads("dw 10bh", "ST 0; LD 0 7 2 11 1");
    refuses("equ *5", 22, 0, 0);
    /* the other samples, and the tests of the source */
    reads("", "");
    reads("k equ 2\n", "ST 0; LL 0 1; ST 2; VC 6 7 2; LC 2 7");
    reads("equ 0x7fffffff", "ST 0; VC 4 14 2147483647; LC 0 14");
    refuses("equ 0x80000000", 31, 4, 14);
    refuses("equ 2147483648", 21, 4, 5);
    refuses("times 2", 34, 0, 5);
    refuses("a\x80", 2, 1, 2);
    /* the other refusals of a reading */
    reads("equ (((((((((((((((((((((((((((((((1)))))))))))))))))))))))))))))))", "ST 0; VC 35 36 1; LC 0 67");
    refuses("equ ((((((((((((((((((((((((((((((((1))))))))))))))))))))))))))))))))", 3, 36, 37);
    refuses("times 1 times 1 times 1 times 1 times 1 times 1 times 1 times 1 times 1 times 1 times 1 times 1 times 1 times 1 times 1 times 1 times 1 nop",
            5, 128, 133);
    refuses("equ 2 3", 10, 6, 7);
    refuses("mov ax bx", 11, 7, 9);
    refuses("mov [es ax],1", 12, 8, 10);
    refuses("mov ax,[bx+si 4", 13, 15, 15);
    refuses("equ (1", 14, 6, 6);
    refuses("equ 'a", 16, 4, 6);
    refuses("equ 'ab'", 17, 4, 8);
    refuses("1", 20, 0, 1);
    refuses("mov ax,[(]", 24, 8, 9);
    refuses("db 'a", 26, 3, 5);
    refuses("mov ax,[es:]", 32, 7, 12);
    reads("db 255", "ST 0; LD 0 6 1 255");
    reads("dw 65535", "ST 0; LD 0 8 2 255 255");
    refuses("db 256", 60, 3, 6);
    refuses("dw 65536", 60, 3, 8);
    refuses("times 2 db 0x100,12b", 60, 11, 16);
    refuses("db 1,12b,256", 30, 5, 8);
    /* dots in names, and dots that start a token */
    reads("w12.a equ 5", "ST 0; LL 0 5; ST 6; VC 10 11 5; LC 6 11");
    reads("a.", "ST 0; LL 0 2");
    reads("a..b", "ST 0; LL 0 4");
    reads("a.b:", "ST 0; LL 0 3");
    reads("a.:", "ST 0; LL 0 2");
    reads("a.5h", "ST 0; LL 0 4");
    reads("a. b", "ST 0; LL 0 2; ST 3; LL 3 4");
    refuses(".a", 20, 0, 1);
    refuses("a .b", 20, 2, 3);
    refuses("1.a", 20, 0, 1);
    refuses("db 1.a", 15, 4, 5);
    refuses("equ $.a", 10, 5, 6);
    reads("in ax.b", "ST 0; VL 3 7; OI 3 7; LI 0 7 4 1 3 7");
    reads("in byte.", "ST 0; VL 3 8; OI 3 8; LI 0 8 4 1 3 8");
    reads("in [bx.a]", "ST 0; VL 4 8; OD 3 9 0 0; LI 0 9 4 1 3 9");
    refuses("in [es.x:1]", 13, 8, 9);
    refuses("in [.a]", 24, 4, 5);
    reads("mov.x ax", "ST 0; LL 0 5; ST 6; LL 6 8");
    reads("k equ.5", "ST 0; LL 0 1; ST 2; LL 2 7");
    reads("equ 2*w.1-w.", "ST 0; VC 4 5 2; VL 6 9; IN 4 9 2; VL 10 12; IN 4 12 1; LC 0 12");
    refuses("times a.b", 34, 0, 5);
    reads("times 0b.1", "ST 0; VC 6 7 0; LL 7 10; LT 0 0");
    refuses("times 10b.x", 20, 9, 10);
    refuses("times 1bh.x", 20, 9, 10);
    /* the letter behind the digits, and numbers that it leaves as they were */
    reads("equ 0adh", "ST 0; VC 4 8 173; LC 0 8");
    reads("equ 1DH", "ST 0; VC 4 7 29; LC 0 7");
    reads("equ 00bh", "ST 0; VC 4 8 11; LC 0 8");
    refuses("equ 1bo", 21, 4, 5);
    refuses("equ 9bO", 21, 4, 5);
    reads("equ 7ffffffbh", "ST 0; VC 4 13 2147483643; LC 0 13");
    refuses("equ 0ffffffffbh", 21, 4, 5);
    reads("times 1bhlt", "ST 0; VC 6 9 27; LL 9 11; LT 0 0");
    refuses("times 10bh", 34, 0, 5);
    refuses("times 1bor ax,bx", 21, 6, 7);
    refuses("dw 12b", 30, 3, 6);
    refuses("dw 0ab", 30, 3, 6);
    refuses("dw 12b h", 30, 3, 6);
    refuses("dw 0bh", 15, 4, 6);
    refuses("db 0dh,0ah", 15, 4, 6);
    reads("times 0dh", "ST 0; VC 6 7 0; LL 7 9; LT 0 0");
    registers = refusal(25, 4, 9);
    registers.first = 14;
    registers.second = 11;
    says(bytes("in [si+bx]"), 10, registers, "in [si+bx]");
    memset(feeds, '\n', sizeof feeds);
    says(feeds, LONGEST, refusal(0, 0, 0), "65,536 line feeds");
    says(feeds, LONGEST + 1, refusal(1, 0, 0), "65,537 line feeds");
}

static void statement(const char *source, size_t place, struct laqhoncu_numbers wanted, uint8_t found, const char *records, uint32_t ahead) {
    uint8_t bytes_wanted[ROOM], out[ROOM];
    size_t n = listing(records, bytes_wanted);
    struct laqhoncu_statement_reading said;
    fill(out, ROOM);
    said = laqhoncu_statement_read(bytes(source), strlen(source), place, out, ROOM);
    check(same_numbers(said.refusal, wanted), "the statement read's refusal", source);
    check(said.found == found, "whether a statement was found", source);
    check(said.length == n && memcmp(out, bytes_wanted, n) == 0, "the statement read's records", source);
    check(left(out, n, ROOM), "the statement read wrote beyond its result", source);
    check(said.ahead == ahead, "the place of the token ahead", source);
    if (n > 0) {
        fill(out, ROOM);
        said = laqhoncu_statement_read(bytes(source), strlen(source), place, out, n - 1);
        check(same_numbers(said.refusal, refusal(4, 0, 0)) && left(out, 0, ROOM), "the statement read in a byte too little", source);
    }
}

/* Statement reads, each from where the one before has stopped, give the bytes of the full read. */
static void walk(const char *source) {
    uint8_t wanted[ROOM], out[ROOM];
    size_t length = strlen(source), at = 0, n = 0;
    struct laqhoncu_full_reading all = full_read(bytes(source), length, wanted, ROOM, source);
    struct laqhoncu_statement_reading one = laqhoncu_statement_read(bytes(source), length, at, out, ROOM);
    check(all.refusal.number == 0, "the full read refuses it", source);
    while (one.refusal.number == 0 && one.found) {
        n += one.length;
        check(one.ahead > at, "a statement read stands still", source);
        at = one.ahead;
        one = laqhoncu_statement_read(bytes(source), length, at, out + n, ROOM - n);
    }
    check(one.refusal.number == 0 && n == all.length && memcmp(out, wanted, n) == 0, "the statement reads' records", source);
}

static void statement_reads(void) {
    statement("k equ 2", 0, refusal(0, 0, 0), 1, "ST 0; LL 0 1", 2);
    statement("k equ 2", 2, refusal(0, 0, 0), 1, "ST 2; VC 6 7 2; LC 2 7", 7);
    statement("k equ 2", 7, refusal(0, 0, 0), 0, "", 0);
    statement("\n ;k", 0, refusal(0, 0, 0), 0, "", 0);
    statement("k equ 2", 8, refusal(42, 0, 0), 0, "", 0);
    statement("a.b c", 0, refusal(0, 0, 0), 1, "ST 0; LL 0 3", 4);
    statement(";a.b", 0, refusal(0, 0, 0), 0, "", 0);
    statement(";a.b", 1, refusal(0, 0, 0), 1, "ST 1; LL 1 4", 4);
    statement("a dw 12b", 2, refusal(30, 5, 8), 0, "", 0);
    statement("a: dw 0abh\nb", 3, refusal(0, 0, 0), 1, "ST 3; LD 3 10 2 171 0", 11);
    statement("a db 256", 2, refusal(60, 5, 8), 0, "", 0);
    statement("a equ *5", 2, refusal(22, 0, 0), 0, "", 0);
    statement("a\x80", 0, refusal(2, 1, 2), 0, "", 0);
    walk("k equ 2\n\n a: b: ; c\n times 3\n\n rep movsb\n db 1,2 \n jmp 1:2\n;d");
}

static void token(const char *source, size_t place, uint8_t kind, int32_t value, size_t end) {
    struct laqhoncu_token_found found = laqhoncu_token(bytes(source), strlen(source), place);
    struct laqhoncu_token_reading said = laqhoncu_token_read(bytes(source), strlen(source), place);
    check(found.kind == kind && found.value == value && found.end == end, "the token", source);
    if (kind == 30 || kind == 31) {
        check(same_numbers(said.refusal, refusal(kind, (uint32_t)place, (uint32_t)end)), "the token read's refusal", source);
        check(said.token.kind == 0 && said.token.value == 0 && said.token.end == 0, "the token of a refusal", source);
    } else {
        check(same_numbers(said.refusal, refusal(0, 0, 0)), "the token read refuses it", source);
        check(said.token.kind == kind && said.token.value == value && said.token.end == end, "the token read", source);
    }
}

static void token_refused(const char *source, size_t place, struct laqhoncu_numbers wanted) {
    struct laqhoncu_token_reading said = laqhoncu_token_read(bytes(source), strlen(source), place);
    check(same_numbers(said.refusal, wanted), "the token read's refusal", source);
    check(said.token.kind == 0 && said.token.value == 0 && said.token.end == 0, "the token of a refusal", source);
}

static void tokens(void) {
    const char *source = "a1 [0x1F]'c''d\n;e\n!$\r", *punctuation = "]):,$./-[(+*";
    static uint8_t feeds[LONGEST + 1];
    struct laqhoncu_token_found found;
    size_t i;
    for (i = 0; punctuation[i]; i++) token(punctuation, i, (uint8_t)punctuation[i], 0, i + 1);
    token(source, 0, LAQHONCU_KIND_IDENTIFIER, 0, 2);
    token(source, 2, LAQHONCU_KIND_WHITESPACE, 0, 3);
    token(source, 3, '[', 0, 4);
    token(source, 4, LAQHONCU_KIND_NUMBER, 31, 8);
    token(source, 8, ']', 0, 9);
    token(source, 9, LAQHONCU_KIND_CLOSED_STRING, 0, 12);
    token(source, 12, LAQHONCU_KIND_UNCLOSED_STRING, 0, 14);
    token(source, 14, LAQHONCU_KIND_NEW_LINE, 0, 15);
    token(source, 15, LAQHONCU_KIND_COMMENT, 0, 17);
    token(source, 18, LAQHONCU_KIND_INVALID, '!', 19);
    token(source, 19, '$', 0, 20);
    token(source, 20, ' ', 0, 21);
    token(source, 21, LAQHONCU_KIND_END_OF_FILE, 0, 21);
    token("dw 12b", 3, LAQHONCU_BINARY_LARGER_DIGIT, 0, 6);
    token("10bh", 0, LAQHONCU_KIND_NUMBER, 267, 4);
    token("10bh", 1, LAQHONCU_KIND_NUMBER, 0, 2);
    token("0abH", 0, LAQHONCU_KIND_NUMBER, 171, 4);
    token("0adh", 0, LAQHONCU_KIND_NUMBER, 173, 4);
    token("1bo", 0, LAQHONCU_KIND_INVALID, '1', 1);
    token("0dh", 0, LAQHONCU_KIND_NUMBER, 0, 1);
    token("equ 0x80000000", 4, LAQHONCU_PREFIXED_TOO_LARGE, 0, 14);
    token("w12.a..:", 0, LAQHONCU_KIND_IDENTIFIER, 0, 7);
    token("w12.a..:", 3, '.', 0, 4);
    token("1.a", 0, LAQHONCU_KIND_NUMBER, 1, 1);
    token("", 0, LAQHONCU_KIND_END_OF_FILE, 0, 0);
    found = laqhoncu_token(bytes("a"), 1, 7);
    check(found.kind == LAQHONCU_KIND_END_OF_FILE && found.value == 0 && found.end == 7, "the token beyond the end", "a");
    found = laqhoncu_token(bytes("\x80"), 1, 0);
    check(found.kind == LAQHONCU_KIND_INVALID && found.value == 128 && found.end == 1, "the token of a byte above 127", "\x80");
    token_refused("a", 2, refusal(42, 0, 0));
    token_refused("a\x80", 0, refusal(2, 1, 2));
    memset(feeds, '\n', sizeof feeds);
    check(laqhoncu_token_read(feeds, LONGEST + 1, 0).refusal.number == 1, "the token read", "65,537 line feeds");
    check(laqhoncu_token_read(feeds, LONGEST + 1, LONGEST + 2).refusal.number == 42, "42 comes before 1", "65,537 line feeds");
    check(laqhoncu_count(bytes(source), strlen(source)) == 13, "how many tokens", source);
    check(laqhoncu_count(bytes("dw 12b\x80"), 7) == 4, "how many tokens", "dw 12b and a byte above 127");
    check(laqhoncu_count(feeds, LONGEST) == LONGEST, "how many tokens", "65,536 line feeds");
}

/* An operator on two numbers: the value where the number is 0. */
static void value(uint8_t operator_number, int32_t a, int32_t b, uint32_t number, int32_t wanted) {
    struct laqhoncu_valuation said = laqhoncu_evaluate(operator_number, a, b);
    check(same_numbers(said.refusal, refusal(number, 0, 0)), "its refusal", "evaluate");
    check(said.value == wanted, "its value", "evaluate");
}

static void values(void) {
    int none;
    value(0, 2, -5, 0, -3);
    value(1, 2, -5, 0, 7);
    value(2, -46341, 46340, 0, -2147441940);
    value(3, -7, 2, 0, -3);
    value(3, 7, -2, 0, -3);
    value(0, INT32_MAX, 1, 50, 0);
    value(1, INT32_MIN, 1, 50, 0);
    value(2, 65536, 32768, 50, 0);
    value(3, INT32_MIN, -1, 50, 0);
    value(3, 1, 0, 51, 0);
    for (none = 4; none < 256; none++) value((uint8_t)none, 1, 1, 255, 0);
}

static void word(const char *text, uint8_t operation, uint16_t name, uint8_t directive) {
    size_t length = strlen(text);
    check(laqhoncu_operation(bytes(text), length) == operation, "its operation", text);
    check(laqhoncu_name(bytes(text), length) == name, "its register, segment or size", text);
    check(laqhoncu_directive(bytes(text), length) == directive, "its directive", text);
}

static void words(void) {
    word("mov", 0, LAQHONCU_NO_NAME, LAQHONCU_NONE);
    word("Jmp", 59, LAQHONCU_NO_NAME, LAQHONCU_NONE);
    word("SALC", 98, LAQHONCU_NO_NAME, LAQHONCU_NONE);
    word("sal", LAQHONCU_NONE, LAQHONCU_NO_NAME, LAQHONCU_NONE);
    word("al", LAQHONCU_NONE, 0, LAQHONCU_NONE);
    word("BH", LAQHONCU_NONE, 7, LAQHONCU_NONE);
    word("ax", LAQHONCU_NONE, 8, LAQHONCU_NONE);
    word("di", LAQHONCU_NONE, 15, LAQHONCU_NONE);
    word("es", LAQHONCU_NONE, LAQHONCU_SEGMENT_BASE, LAQHONCU_NONE);
    word("DS", LAQHONCU_NONE, LAQHONCU_SEGMENT_BASE + 3, LAQHONCU_NONE);
    word("byte", LAQHONCU_NONE, LAQHONCU_SIZE_BASE, LAQHONCU_NONE);
    word("word", LAQHONCU_NONE, LAQHONCU_SIZE_BASE + 1, LAQHONCU_NONE);
    word("equ", LAQHONCU_NONE, LAQHONCU_NO_NAME, 0);
    word("DB", LAQHONCU_NONE, LAQHONCU_NO_NAME, 1);
    word("dw", LAQHONCU_NONE, LAQHONCU_NO_NAME, 2);
    word("times", LAQHONCU_NONE, LAQHONCU_NO_NAME, 3);
    word("mov.x", LAQHONCU_NONE, LAQHONCU_NO_NAME, LAQHONCU_NONE);
    word("ax.b", LAQHONCU_NONE, LAQHONCU_NO_NAME, LAQHONCU_NONE);
    word("byte.", LAQHONCU_NONE, LAQHONCU_NO_NAME, LAQHONCU_NONE);
    word("times.", LAQHONCU_NONE, LAQHONCU_NO_NAME, LAQHONCU_NONE);
    word("", LAQHONCU_NONE, LAQHONCU_NO_NAME, LAQHONCU_NONE);
}

/* What the header's comment says of words: RULES 3.6 has 117 spellings of 99 operations and 16 registers. */
static void spelled(int argc, char **argv) {
    int i, operations = 0, registers = 0, last = -1;
    for (i = 1; i + 2 < argc; i += 3) {
        const char *text = argv[i + 2];
        int number = atoi(argv[i + 1]);
        if (strcmp(argv[i], "operation") == 0) {
            check(laqhoncu_operation(bytes(text), strlen(text)) == number && number < 99, "not the operation that the header says", text);
            check(number == last || number == last + 1, "the header leaves an operation out", text);
            last = number;
            operations++;
        } else {
            check(laqhoncu_name(bytes(text), strlen(text)) == number && number == registers, "not the register that the header says", text);
            registers++;
        }
    }
    check(operations == 117 && last == 98, "the header does not have all operations", "its comment");
    check(registers == 16, "the header does not have all registers", "its comment");
}

struct edit {
    const char *old, *records; /* the old source and the listing lent with it */
    size_t place;
    const char *text;
};

/* The old source may hold any byte but 0. */
static struct laqhoncu_patching patched(const struct edit *e, uint8_t *source, size_t source_room, uint8_t *out, size_t room) {
    uint8_t lent[ROOM];
    size_t n = listing(e->records, lent);
    fill(source, ROOM);
    fill(out, ROOM);
    return laqhoncu_patch(bytes(e->old), strlen(e->old), lent, n, e->place, bytes(e->text), strlen(e->text), source, source_room, out, room);
}

static void patch_refused(struct edit e, size_t source_room, size_t room, struct laqhoncu_numbers wanted) {
    uint8_t source[ROOM], out[ROOM];
    struct laqhoncu_patching said = patched(&e, source, source_room, out, room);
    check(same_numbers(said.refusal, wanted), "the patch's refusal", e.old);
    check(said.source == 0 && said.listing == 0, "the patch's lengths at a refusal", e.old);
    check(left(source, 0, ROOM) && left(out, 0, ROOM), "the patch wrote at a refusal", e.old);
}

static void patch_written(struct edit e, const char *edited, const char *records) {
    uint8_t wanted[ROOM], source[ROOM], out[ROOM];
    size_t s = strlen(edited), n = listing(records, wanted);
    struct laqhoncu_patching said = patched(&e, source, s, out, n);
    check(same_numbers(said.refusal, refusal(0, 0, 0)), "the patch refuses it", e.old);
    check(said.source == s && memcmp(source, edited, s) == 0, "the edited source", e.old);
    check(said.listing == n && memcmp(out, wanted, n) == 0, "the edited source's listing", e.old);
    check(left(source, s, ROOM) && left(out, n, ROOM), "the patch wrote beyond its result", e.old);
    if (n > 0) patch_refused(e, s, n - 1, refusal(4, 0, 0));
    if (s > 0) patch_refused(e, s - 1, n, refusal(6, 0, 0));
    if (s > 0 && n > 0) patch_refused(e, s - 1, n - 1, refusal(6, 0, 0));
}

static struct edit edit(const char *old, const char *records, size_t place, const char *text) {
    struct edit e;
    e.old = old;
    e.records = records;
    e.place = place;
    e.text = text;
    return e;
}

static void patches(void) {
    static char blanks[LONGEST + 2];
    const char *both = "ST 0; LL 0 1; ST 2; LL 2 3";
    patch_written(edit("a\nb\n", both, 0, "k equ 2"), "k equ 2\nb\n", "ST 0; LL 0 1; ST 2; VC 6 7 2; LC 2 7; ST 8; LL 8 9");
    patch_written(edit("a\nb\n", both, 2, ""), "a\n\n", "ST 0; LL 0 1");
    patch_written(edit("a\nb\n", both, 4, "c"), "a\nb\nc", "ST 0; LL 0 1; ST 2; LL 2 3; ST 4; LL 4 5");
    /* 40 is by the full read of the line alone, which refuses a byte above 127 with 2 */
    patch_written(edit("times 2;\x80", "", 0, ""), "", "");
    patch_refused(edit("times 2;", "", 0, ""), ROOM, ROOM, refusal(40, 0, 0));
    patch_refused(edit("times 2\n ;c\nb", "", 12, "c"), ROOM, ROOM, refusal(40, 0, 0));
    patch_refused(edit("nop", "", 0, "times 1"), ROOM, ROOM, refusal(40, 0, 0));
    patch_refused(edit("times a.b\nb", "", 10, "c"), ROOM, ROOM, refusal(40, 0, 0));
    patch_written(edit("w12 equ 5\n", "ST 0; LL 0 3; ST 4; VC 8 9 5; LC 4 9", 0, "w12.a equ 5"), "w12.a equ 5\n", "ST 0; LL 0 5; ST 6; VC 10 11 5; LC 6 11");
    patch_refused(edit("nop", "", 0, "times 1;\x80"), ROOM, ROOM, refusal(2, 8, 9));
    memset(blanks, ' ', LONGEST + 1);
    memcpy(blanks, "times 1", 7);
    patch_refused(edit("nop", "", 0, blanks), ROOM, ROOM, refusal(1, 0, 0));
    patch_refused(edit(blanks, "", 0, ""), ROOM, ROOM, refusal(1, 0, 0));
    patch_refused(edit("a\nb\n", both, 1, "c"), ROOM, ROOM, refusal(42, 0, 0));
    patch_refused(edit("a\nb\n", both, 5, "c"), ROOM, ROOM, refusal(42, 0, 0));
    patch_refused(edit("a\nb\n", both, 0, "c\n"), ROOM, ROOM, refusal(43, 0, 0));
    patch_refused(edit("a\nb\n", "LL 0 1", 0, "c"), ROOM, ROOM, refusal(41, 0, 0));
    patch_refused(edit("a\nb\n", both, 2, "equ *5"), ROOM, ROOM, refusal(22, 0, 0));
    patch_refused(edit("a\nb\n", both, 2, "dw 12b"), ROOM, ROOM, refusal(30, 5, 8));
}

/* NULL for each pointer, where the length behind it is 0. */
static void nulls(void) {
    uint8_t source[ROOM], out[ROOM], lent[ROOM];
    const uint8_t *old = bytes("a\nb\n"), *text = bytes("c");
    size_t n = listing("ST 0; LL 0 1; ST 2; LL 2 3", lent);
    struct laqhoncu_numbers accepted = refusal(0, 0, 0);
    struct laqhoncu_full_reading full = laqhoncu_full_read(NULL, 0, NULL, 0);
    struct laqhoncu_full_reading lean = laqhoncu_full_read_lean(NULL, 0, NULL, 0);
    struct laqhoncu_statement_reading one = laqhoncu_statement_read(NULL, 0, 0, NULL, 0);
    struct laqhoncu_token_reading read = laqhoncu_token_read(NULL, 0, 0);
    struct laqhoncu_token_found found = laqhoncu_token(NULL, 0, 0);
    struct laqhoncu_patching said = laqhoncu_patch(NULL, 0, NULL, 0, 0, NULL, 0, NULL, 0, NULL, 0);
    check(same_numbers(full.refusal, accepted) && full.length == 0, "the full read", "NULL");
    check(same_numbers(lean.refusal, accepted) && lean.length == 0, "the lean full read", "NULL");
    check(same_numbers(one.refusal, accepted) && one.found == 0 && one.length == 0 && one.ahead == 0, "the statement read", "NULL");
    check(same_numbers(read.refusal, accepted) && read.token.kind == 0 && read.token.value == 0 && read.token.end == 0, "the token read", "NULL");
    check(found.kind == 0 && found.value == 0 && found.end == 0, "the token", "NULL");
    check(same_numbers(said.refusal, accepted) && said.source == 0 && said.listing == 0, "the patch", "NULL");
    check(laqhoncu_count(NULL, 0) == 0, "how many tokens", "NULL");
    check(laqhoncu_operation(NULL, 0) == LAQHONCU_NONE, "its operation", "NULL");
    check(laqhoncu_name(NULL, 0) == LAQHONCU_NO_NAME, "its name", "NULL");
    check(laqhoncu_directive(NULL, 0) == LAQHONCU_NONE, "its directive", "NULL");
    /* one at a time, beside buffers that are there */
    fill(source, ROOM);
    fill(out, ROOM);
    full = full_read(NULL, 0, out, ROOM, "no source");
    check(same_numbers(full.refusal, accepted) && full.length == 0 && left(out, 0, ROOM), "the full read", "no source");
    full = laqhoncu_full_read(old, 4, NULL, 0);
    check(same_numbers(full.refusal, refusal(4, 0, 0)) && full.length == 0, "the full read", "no room");
    lean = laqhoncu_full_read_lean(old, 4, NULL, 0);
    check(same_numbers(lean.refusal, refusal(4, 0, 0)) && lean.length == 0, "the lean full read", "no room");
    one = laqhoncu_statement_read(NULL, 0, 0, out, ROOM);
    check(same_numbers(one.refusal, accepted) && one.found == 0 && left(out, 0, ROOM), "the statement read", "no source");
    one = laqhoncu_statement_read(old, 4, 0, NULL, 0);
    check(same_numbers(one.refusal, refusal(4, 0, 0)) && one.found == 0, "the statement read", "no room");
    check(same_numbers(laqhoncu_token_read(NULL, 0, 1).refusal, refusal(42, 0, 0)), "the token read", "a place in no source");
    said = laqhoncu_patch(old, 4, lent, n, 0, text, 1, NULL, 0, out, ROOM);
    check(same_numbers(said.refusal, refusal(6, 0, 0)) && left(out, 0, ROOM), "the patch", "no room for the source");
    said = laqhoncu_patch(old, 4, lent, n, 0, text, 1, source, ROOM, NULL, 0);
    check(same_numbers(said.refusal, refusal(4, 0, 0)) && left(source, 0, ROOM), "the patch", "no room for the listing");
    said = laqhoncu_patch(old, 4, lent, n, 0, NULL, 0, source, ROOM, out, ROOM);
    check(same_numbers(said.refusal, accepted) && said.source == 3 && memcmp(source, "\nb\n", 3) == 0, "the patch", "no text");
    check(said.listing == listing("ST 1; LL 1 2", lent) && memcmp(out, lent, said.listing) == 0, "the patch's listing", "no text");
    said = laqhoncu_patch(NULL, 0, NULL, 0, 0, text, 1, source, ROOM, out, ROOM);
    check(same_numbers(said.refusal, accepted) && said.source == 1 && source[0] == 'c', "the patch", "no old source");
    check(said.listing == listing("ST 0; LL 0 1", lent) && memcmp(out, lent, said.listing) == 0, "the patch's listing", "no old source");
    said = laqhoncu_patch(old, 4, NULL, 0, 4, text, 1, source, ROOM, out, ROOM);
    check(same_numbers(said.refusal, accepted) && said.source == 5 && memcmp(source, "a\nb\nc", 5) == 0, "the patch", "no listing");
    check(said.listing == listing("ST 4; LL 4 5", lent) && memcmp(out, lent, said.listing) == 0, "the patch's listing", "no listing");
}

/* The header's names have the numbers of RULES 11.1, and each was met above, and no other. */
static void named(void) {
    static const int names[][2] = {
        {LAQHONCU_ACCEPTED, 0},
        {LAQHONCU_SOURCE_TOO_LONG, 1},
        {LAQHONCU_NOT_ASCII, 2},
        {LAQHONCU_EXPRESSION_TOO_DEEP, 3},
        {LAQHONCU_LISTING_NO_ROOM, 4},
        {LAQHONCU_TIMES_TOO_DEEP, 5},
        {LAQHONCU_SOURCE_NO_ROOM, 6},
        {LAQHONCU_LINE_END_EXPECTED, 10},
        {LAQHONCU_COMMA_EXPECTED, 11},
        {LAQHONCU_COLON_EXPECTED, 12},
        {LAQHONCU_CLOSE_BRACKET_EXPECTED, 13},
        {LAQHONCU_CLOSE_PARENTHESIS_EXPECTED, 14},
        {LAQHONCU_LITERAL_EXPECTED, 15},
        {LAQHONCU_CLOSED_STRING_EXPECTED, 16},
        {LAQHONCU_ONE_CHARACTER_EXPECTED, 17},
        {LAQHONCU_INSTRUCTION_EXPECTED, 20},
        {LAQHONCU_OPERAND_EXPECTED, 21},
        {LAQHONCU_INVALID_PREFIX_OPERATOR, 22},
        {LAQHONCU_DATA_DEFINITION_WITHOUT_DATA, 23},
        {LAQHONCU_SEGMENT_OR_ADDRESS_EXPECTED, 24},
        {LAQHONCU_INVALID_INDIRECT_ENCODING, 25},
        {LAQHONCU_UNTERMINATED_STRING_LITERAL, 26},
        {LAQHONCU_BINARY_LARGER_DIGIT, 30},
        {LAQHONCU_PREFIXED_TOO_LARGE, 31},
        {LAQHONCU_NOTHING_AFTER_OVERRIDE, 32},
        {LAQHONCU_TWO_INDEX_REGISTERS, 33},
        {LAQHONCU_TIMES_WITHOUT_CONTENT, 34},
        {LAQHONCU_TIMES_LEFT_OPEN, 40},
        {LAQHONCU_LISTING_NOT_WELL_FORMED, 41},
        {LAQHONCU_NO_SUCH_PLACE, 42},
        {LAQHONCU_LINE_FEED_IN_TEXT, 43},
        {LAQHONCU_BEYOND_32_BITS, 50},
        {LAQHONCU_ZERO_DIVISOR, 51},
        {LAQHONCU_NUMBER_TOO_WIDE, 60},
        {LAQHONCU_NO_SUCH_OPERATOR, 255},
    };
    char version[32];
    size_t i;
    int others = 0;
    for (i = 0; i < sizeof names / sizeof names[0]; i++) {
        check(names[i][0] == names[i][1], "a refusal's number in the header", "its names");
        check(met[names[i][1]], "a refusal that no call has given", "its names");
        met[names[i][1]] = 0;
    }
    for (i = 0; i < 256; i++) others += met[i];
    check(others == 0, "a refusal that the header does not name", "its names");
    check(LAQHONCU_SOURCE_MAX == 65536 && LAQHONCU_LISTING_FACTOR == 18, "the limits of RULES 1.2 and 8.4", "its limits");
    sprintf(version, "%d.%d.%d", LAQHONCU_VERSION_MAJOR, LAQHONCU_VERSION_MINOR, LAQHONCU_VERSION_PATCH);
    check(strcmp(version, LAQHONCU_VERSION) == 0, "the parts of the version", version);
}

int main(int argc, char **argv) {
    full_reads();
    statement_reads();
    tokens();
    values();
    words();
    spelled(argc, argv);
    patches();
    nulls();
    named();
    printf("%lu\n", checks);
    return 0;
}
