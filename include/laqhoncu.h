/* Laqhoncu reads 8086 assembly marker files: it lists their statements, reads a token or a statement at a place, and exchanges one line
   together with the listing. Link with liblaqhoncu.a, which needs nothing but memcpy and memset of the C library.

   Bytes. Sources, texts, words and listings are bytes with a length, and no C strings: no zero is looked for or written. Places count
   bytes from 0. A span is from..to, and `to` is not in it. A line begins at place 0 and behind each line feed.

   Calls. A pointer and the length behind it name bytes that the caller lends for the call; NULL may be given where the length is 0.
   A buffer that is written (`out`, and `source` in the patch) may overlap no other of that call; those that are only read may overlap.
   Beyond that nothing is asked: any bytes, lengths and places may be given, and what the rules do not take is refused with a number.
   A refusal leaves every buffer as it was; an accepted call writes its result, from a buffer's first byte on, and no byte behind it.

   State. Nothing is kept after a call, nothing is allocated, and there is no global state: calls may run at once on several threads, as
   long as none of them writes a buffer that another one is using. All working memory is on the stack: see LAQHONCU_STACK_.. below.

   The answer of a call is a struct by value. Its contract, as it is proved, stands in the repository, in crates/laqhoncu_c/src/lib.rt. */
#ifndef LAQHONCU_H
#define LAQHONCU_H
#include <stddef.h>
#include <stdint.h>

#ifdef __cplusplus
extern "C" {
#endif

#define LAQHONCU_VERSION "0.1.0"
#define LAQHONCU_VERSION_MAJOR 0
#define LAQHONCU_VERSION_MINOR 1
#define LAQHONCU_VERSION_PATCH 0

/* The most bytes that a source may have. */
#define LAQHONCU_SOURCE_MAX 65536

/* A listing is never longer than so many times its source: a buffer of that length is always long enough. */
#define LAQHONCU_LISTING_FACTOR 18

/* The bytes of stack that a call needs, with all that it calls; a fifth of each or more is to spare. A thread that calls needs its own
   besides. The full read takes most of its number for a source above 16,384 bytes, and less for a shorter one; the patch takes more than
   half of its own, however short the source; the lean full read and the statement read take most of theirs only where a statement nests as
   deep as the limits 3 and 5 allow. OTHER is for each function that has no number of its own. */
#define LAQHONCU_STACK_FULL_READ 356352
#define LAQHONCU_STACK_FULL_READ_LEAN 28672
#define LAQHONCU_STACK_PATCH 114688
#define LAQHONCU_STACK_STATEMENT_READ 28672
#define LAQHONCU_STACK_OTHER 4096

/* Where a number says that something is not there: no operation, no directive, no register of a refusal. */
#define LAQHONCU_NONE 255

/* What laqhoncu_name gives: a register's number as it is, a segment's and a size's from these on, or that it is none of them. */
#define LAQHONCU_SEGMENT_BASE 256
#define LAQHONCU_SIZE_BASE 512
#define LAQHONCU_NO_NAME 65535

/* Why a call refuses, and the span that it gives. "Ahead" is the token that the reader looks at and has not passed. Where several hold, the
   order is 42, 43, 1, 2, 41, 40, then what is met first in reading the source, then 6, then 4. */
enum laqhoncu_refusal {
    LAQHONCU_ACCEPTED = 0, /* not refused; span 0..0 */
    LAQHONCU_SOURCE_TOO_LONG = 1, /* a source above 65,536 bytes, in the patch the old or the edited one; span 0..0 */
    LAQHONCU_NOT_ASCII = 2, /* a byte above 127, in the patch one of the edited source; span: the first such byte */
    LAQHONCU_EXPRESSION_TOO_DEEP = 3, /* an expression would begin inside 32 others; span: the token ahead */
    LAQHONCU_LISTING_NO_ROOM = 4, /* `out` is shorter than the records to write; span 0..0 */
    LAQHONCU_TIMES_TOO_DEEP = 5, /* a `times` inside 16 others; span: that word */
    LAQHONCU_SOURCE_NO_ROOM = 6, /* patch: `source` is shorter than the edited source; span 0..0 */
    LAQHONCU_LINE_END_EXPECTED = 10, /* something stands behind a statement; span: the token ahead */
    LAQHONCU_COMMA_EXPECTED = 11, /* no comma between two operands; span: the token ahead */
    LAQHONCU_COLON_EXPECTED = 12, /* no colon behind a segment in a bracket; span: the token ahead */
    LAQHONCU_CLOSE_BRACKET_EXPECTED = 13, /* no `]`; span: the token ahead */
    LAQHONCU_CLOSE_PARENTHESIS_EXPECTED = 14, /* no `)`; span: the token ahead */
    LAQHONCU_LITERAL_EXPECTED = 15, /* data that is no number and no string; span: the token ahead */
    LAQHONCU_CLOSED_STRING_EXPECTED = 16, /* an unclosed string in an expression; span: the token ahead */
    LAQHONCU_ONE_CHARACTER_EXPECTED = 17, /* a string in an expression that has not one character; span: the token ahead */
    LAQHONCU_INSTRUCTION_EXPECTED = 20, /* a statement that begins with no word; span: the token ahead */
    LAQHONCU_OPERAND_EXPECTED = 21, /* nothing that an expression or operand begins with; span: the token ahead */
    LAQHONCU_INVALID_PREFIX_OPERATOR = 22, /* an expression that begins with `*` or `/`; span 0..0 */
    LAQHONCU_DATA_DEFINITION_WITHOUT_DATA = 23, /* `db` or `dw` without a byte; span: that word */
    LAQHONCU_SEGMENT_OR_ADDRESS_EXPECTED = 24, /* a bracket that begins with no number and no name; span: the token ahead */
    LAQHONCU_INVALID_INDIRECT_ENCODING = 25, /* registers that address nothing, in `first` and `second`; span: see below */
    LAQHONCU_UNTERMINATED_STRING_LITERAL = 26, /* an unclosed string in data; span: that string */
    LAQHONCU_BINARY_LARGER_DIGIT = 30, /* a number with suffix b and a character above 1; span: the digits with the suffix */
    LAQHONCU_PREFIXED_TOO_LARGE = 31, /* a number with a prefix, above 2147483647; span: the prefix and the digits */
    LAQHONCU_NOTHING_AFTER_OVERRIDE = 32, /* `[es:]`; span: from bracket to bracket */
    LAQHONCU_TWO_INDEX_REGISTERS = 33, /* si or di, plus si or di; span: both registers */
    LAQHONCU_TIMES_WITHOUT_CONTENT = 34, /* the source ends before a `times` has its content; span: the innermost such word */
    LAQHONCU_TIMES_LEFT_OPEN = 40, /* patch: one of the lines that laqhoncu_patch names below is, read alone, refused with 34; span 0..0 */
    LAQHONCU_LISTING_NOT_WELL_FORMED = 41, /* patch: `listing` is no listing of a source of that length; span 0..0 */
    LAQHONCU_NO_SUCH_PLACE = 42, /* a place beyond the end, in the patch one where no line begins; span 0..0 */
    LAQHONCU_LINE_FEED_IN_TEXT = 43, /* patch: the new text has a line feed; span 0..0 */
    LAQHONCU_BEYOND_32_BITS = 50, /* evaluate: the value has no 32 signed bits; span 0..0 */
    LAQHONCU_ZERO_DIVISOR = 51, /* evaluate: division by 0; span 0..0 */
    LAQHONCU_NUMBER_TOO_WIDE = 60, /* a number above 255 in `db`, or above 65,535 in `dw`; span: that number */
    LAQHONCU_NO_SUCH_OPERATOR = 255, /* evaluate: an operator number above 3, which the rules do not know; span 0..0 */
};

/* A call's verdict: a number of enum laqhoncu_refusal, its span, and at 25 the registers, numbered as in the record OR. `first` and `second`
   are LAQHONCU_NONE in every other case, and `second` where only one register was read. Of one register, 25's span goes from its start to
   the end of the token before it, so that `to` is not above `from`; of two it covers both. The places are the source's; in the patch, the edited
   source's, whose new line begins where the old one did. */
struct laqhoncu_numbers {
    uint32_t number;
    uint32_t from;
    uint32_t to;
    uint32_t first;
    uint32_t second;
};

/* The kinds of tokens. A punctuation's kind is its own character: one of ] ) : , $ . / - [ ( + *. From laqhoncu_token alone, a refused
   number has the kind LAQHONCU_BINARY_LARGER_DIGIT (30) or LAQHONCU_PREFIXED_TOO_LARGE (31). */
enum laqhoncu_kind {
    LAQHONCU_KIND_END_OF_FILE = 0, /* no byte is left */
    LAQHONCU_KIND_NEW_LINE = '\n', /* a line feed */
    LAQHONCU_KIND_WHITESPACE = ' ', /* spaces, tabs and carriage returns */
    LAQHONCU_KIND_COMMENT = ';', /* from `;` to before the line feed */
    LAQHONCU_KIND_IDENTIFIER = 'a', /* a word: a letter or `_`, then letters, digits, `_` and dots */
    LAQHONCU_KIND_NUMBER = '0', /* a number, up to 2147483647 */
    LAQHONCU_KIND_CLOSED_STRING = '\'', /* a string with both its quotes */
    LAQHONCU_KIND_UNCLOSED_STRING = '"', /* a string that the line's or the source's end cuts off */
    LAQHONCU_KIND_INVALID = '!', /* one byte that begins no other token, as the first digit of a number that does not fit */
};

/* A token. `kind`: see above. `value`: a number's value, an invalid token's byte, and else 0. `end`: the place behind the token, where the
   next one begins; at the end of file, the place that was asked for. */
struct laqhoncu_token_found {
    uint8_t kind;
    int32_t value;
    size_t end;
};

/* Listings. A listing is a row of records without gaps. A record opens with its mark, two letters; its fields follow, each of 4 bytes, low
   byte first. Children stand before their parent, and in source order.

   mark  fields                                             what it is, and the children before it
   ST    place                                              a statement begins at this place; not inside a `times`
   VC    from to value                                      a number, 32 bits signed; or a string of one character
   VL    from to                                            a name
   VI    from to                                            `$`
   VS    from to                                            `$$`; the span has the first `$` only
   PF    from to operator                                   a prefix operator; its expression
   IN    from to operator                                   an infix operator; its left and its right expression
   OR    from to register                                   operand: a register
   OS    from to segment                                    operand: a segment register
   OI    from to                                            operand: an immediate; its expression
   OF    from to                                            operand: a far address a:b; the expressions a and b
   OD    from to size segment                               operand: memory at an address; its expression
   OX    from to encoding has-displacement size segment     operand: memory by registers; where has-displacement is 1, its expression
   LL    from to                                            line: a label, its colon not in the span
   LI    from to operation operand-count from to            line: an instruction, then its operands' span; 0 to 2 operands
   LD    from to count                                      line: `db` or `dw`; behind the count, so many bytes of data; 1 or more
   LC    from to                                            line: `equ`; its expression
   LT    0 0                                                line: `times`; its expression, then its content's records up to their line

   A statement is ST, then what stands before its line record, then that line record. An expression is VC, VL, VI, VS, PF or IN.

   operator          0 +, 1 -, 2 *, 3 /; PF has 0 or 1
   register          0 al, 1 cl, 2 dl, 3 bl, 4 ah, 5 ch, 6 dh, 7 bh, 8 ax, 9 cx, 10 dx, 11 bx, 12 sp, 13 bp, 14 si, 15 di
   segment           OS: 0 es, 1 cs, 2 ss, 3 ds; OD and OX: 0 none, 1 es, 2 cs, 3 ss, 4 ds
   size              0 none, 1 byte, 2 word
   encoding          0 bx+si, 1 bx+di, 2 bp+si, 3 bp+di, 4 si, 5 di, 6 bp, 7 bx
   has-displacement  0 or 1

   operation         0 mov, 1 push, 2 pop, 3 xchg, 4 in, 5 out, 6 xlatb, 7 lea, 8 lds, 9 les, 10 lahf, 11 sahf, 12 pushf, 13 popf,
                     14 add, 15 adc, 16 inc, 17 aaa, 18 daa, 19 sub, 20 sbb ssb, 21 dec, 22 neg, 23 cmp, 24 aas, 25 das, 26 mul,
                     27 imul, 28 aam, 29 div, 30 idiv, 31 aad, 32 cbw, 33 cwd, 34 not, 35 shl, 36 shr, 37 sar, 38 rol, 39 ror,
                     40 rcl, 41 rcr, 42 and, 43 test, 44 or, 45 xor, 46 rep, 47 repne repnz, 48 movsb, 49 movsw, 50 cmpsb,
                     51 cmpsw, 52 scasb, 53 scasw, 54 lodsb, 55 lodsw, 56 stosb, 57 stosw, 58 call, 59 jmp, 60 ret, 61 je jz,
                     62 jl jnge, 63 jle jng, 64 jb jc jnae, 65 jbe jna, 66 jp jpe, 67 jo, 68 js, 69 jne jnz, 70 jge jnl,
                     71 jg jnle, 72 jae jnb jnc, 73 ja jnbe, 74 jnp jpo, 75 jno, 76 jns, 77 loop, 78 loope loopz,
                     79 loopne loopnz, 80 jcxz, 81 int, 82 int1, 83 int3, 84 into, 85 iret, 86 clc, 87 cmc, 88 stc, 89 cld,
                     90 std, 91 cli, 92 sti, 93 hlt, 94 wait, 95 esc, 96 lock, 97 nop, 98 salc */

/* All statements of a source, as a listing in `out`, which has `room` bytes. */
struct laqhoncu_full_reading {
    struct laqhoncu_numbers refusal;
    uint32_t length; /* the bytes written to `out`; at a refusal 0 */
};
struct laqhoncu_full_reading laqhoncu_full_read(const uint8_t *source, size_t length, uint8_t *out, size_t room);

/* The same answers and the same bytes, for a thread with little stack: less than a twelfth of what the full read needs. It keeps no records on
   the stack, but measures them, and reads the source again to write them; so it takes about twice as long. */
struct laqhoncu_full_reading laqhoncu_full_read_lean(const uint8_t *source, size_t length, uint8_t *out, size_t room);

/* The statement at a place, as records in `out`: a listing of that statement alone, with the places of the whole source. Line feeds, blanks
   and comments before it are passed. Where only such are left there is no statement: number, found, length and ahead are 0 then.
   To go through a source, begin at place 0 and go on at `ahead`. */
struct laqhoncu_statement_reading {
    struct laqhoncu_numbers refusal;
    uint8_t found; /* 1 where a statement was read; where none is left, and at a refusal, 0 */
    uint32_t length; /* the bytes written to `out`; where none is left, and at a refusal, 0 */
    uint32_t ahead; /* the place of the token ahead, which the next statement is read from; where none is left, and at a refusal, 0 */
};
struct laqhoncu_statement_reading laqhoncu_statement_read(const uint8_t *source, size_t length, size_t place, uint8_t *out, size_t room);

/* The token at a place, which may be inside another token: it is read from there. 42, 1 and 2 are looked for first, in the whole source. */
struct laqhoncu_token_reading {
    struct laqhoncu_numbers refusal;
    struct laqhoncu_token_found token; /* at a refusal, of 30 and 31 too, its kind, value and end are 0 */
};
struct laqhoncu_token_reading laqhoncu_token_read(const uint8_t *source, size_t length, size_t place);

/* The same without 42, 1 and 2: of a source of any length and any bytes, in a time that depends on the token alone. A refused number has the
   kind 30 or 31, the value 0, and its end. Beyond the source's end there is the end of file. */
struct laqhoncu_token_found laqhoncu_token(const uint8_t *source, size_t length, size_t place);

/* How many tokens a source of any length and any bytes has, whitespace, comments and refused numbers among them, the end of file not. */
size_t laqhoncu_count(const uint8_t *source, size_t length);

/* One line of a source exchanged: the line that begins at `place` of the `old` source gives way to the text, without its line feed, which
   stays. The edited source goes to `source` (`source_room` bytes) and its listing to `out` (`room` bytes). `listing` is the old source's, as
   the full read has written it; only the new line is read, beside those that 40 is about. With such a listing the answer and what is in
   `out` are those of a full read of the edited source, but for 6, 40, 42 and 43. The records of any other well-formed listing are copied and
   moved all the same. 40 is about the old line, the new one, and the nearest above that has more than blanks and a comment: none may end in a
   `times` whose content is on a later line. To change such a line, edit the source and read all of it. */
struct laqhoncu_patching {
    struct laqhoncu_numbers refusal;
    size_t source; /* the bytes written to `source`; at a refusal 0 */
    size_t listing; /* the bytes written to `out`; at a refusal 0 */
};
struct laqhoncu_patching laqhoncu_patch(const uint8_t *old, size_t length, const uint8_t *listing, size_t listing_length, size_t place,
                                        const uint8_t *text, size_t text_length, uint8_t *source, size_t source_room, uint8_t *out,
                                        size_t room);

/* The operator 0 +, 1 -, 2 * or 3 / on two numbers; the quotient is truncated toward zero. Refused with 50, 51 or 255. */
struct laqhoncu_valuation {
    struct laqhoncu_numbers refusal;
    int32_t value; /* at a refusal 0 */
};
struct laqhoncu_valuation laqhoncu_evaluate(uint8_t operator_number, int32_t left, int32_t right);

/* What a word names, case ignored. Its operation, numbered as in the record LI, or LAQHONCU_NONE. */
uint8_t laqhoncu_operation(const uint8_t *word, size_t length);

/* Its register, numbered as in the record OR; LAQHONCU_SEGMENT_BASE and the segment's number, as in OS; LAQHONCU_SIZE_BASE for `byte`, and 1
   more for `word`; or LAQHONCU_NO_NAME. */
uint16_t laqhoncu_name(const uint8_t *word, size_t length);

/* Its directive: 0 equ, 1 db, 2 dw, 3 times, or LAQHONCU_NONE. */
uint8_t laqhoncu_directive(const uint8_t *word, size_t length);

#ifdef __cplusplus
}
#endif
#endif
