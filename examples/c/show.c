/* show FILE LINE TEXT: prints the listing of a marker file, and then the line LINE, which counts from 1, as it would stand in the file if TEXT
   took its place. FILE is only read.

       cc -I PREFIX/include show.c PREFIX/lib/liblaqhoncu.a -o show

   The listing has a line for each record: its mark and its fields in decimal, LD's bytes last; then `END` and how many records there are. What
   the library refuses is printed as `REF number from to first second`. Ends with 0 where both were printed, with 1 where the file or the text is
   refused, with 2 where it was called wrongly or the system failed. */
#include <laqhoncu.h>

#include <errno.h>
#include <stdio.h>
#include <stdlib.h>
#include <string.h>

enum { DONE = 0, REFUSED = 1, FAILED = 2 };

/* One byte more than a source may have, so that a longer file is refused and not cut off. */
enum { SOURCE_ROOM = LAQHONCU_SOURCE_MAX + 1, LISTING_ROOM = LAQHONCU_LISTING_FACTOR * LAQHONCU_SOURCE_MAX };

struct buffers {
    uint8_t *source, *listing;               /* the file and its listing */
    uint8_t *edited_source, *edited_listing; /* the same with the line exchanged */
};

static int failed(const char *what) {
    fprintf(stderr, "show: %s: %s\n", what, strerror(errno));
    return FAILED;
}

static int refused(struct laqhoncu_numbers r) {
    printf("REF %lu %lu %lu %lu %lu\n", (unsigned long)r.number, (unsigned long)r.from, (unsigned long)r.to, (unsigned long)r.first,
           (unsigned long)r.second);
    return REFUSED;
}

static int read_file(const char *path, uint8_t *source, size_t *length) {
    FILE *file = fopen(path, "rb");
    int status = DONE;
    if (!file) return failed(path);
    *length = fread(source, 1, SOURCE_ROOM, file);
    if (ferror(file)) status = failed(path);
    fclose(file);
    return status;
}

/* The marks, and how many fields each has. */
static const struct {
    char mark[3];
    size_t fields;
} shapes[] = {
    {"ST", 1}, {"VC", 3}, {"VL", 2}, {"VI", 2}, {"VS", 2}, {"PF", 3}, {"IN", 3}, {"OR", 3}, {"OS", 3},
    {"OI", 2}, {"OF", 2}, {"OD", 4}, {"OX", 6}, {"LL", 2}, {"LI", 6}, {"LD", 3}, {"LC", 2}, {"LT", 2},
};

static size_t fields_of(const uint8_t *mark) {
    size_t i;
    for (i = 0; i < sizeof shapes / sizeof shapes[0]; i++)
        if (memcmp(shapes[i].mark, mark, 2) == 0) return shapes[i].fields;
    return 0;
}

static uint32_t field(const uint8_t *record, size_t i) {
    const uint8_t *at = record + 2 + 4 * i;
    return at[0] | (uint32_t)at[1] << 8 | (uint32_t)at[2] << 16 | (uint32_t)at[3] << 24;
}

static long as_signed(uint32_t bits) { return bits <= INT32_MAX ? (long)bits : -(long)(UINT32_MAX - bits) - 1; }

/* Prints the record that `left` bytes begin with, and gives its length; 0 where they begin with none, which a listing's never do. */
static size_t print_record(const uint8_t *record, size_t left) {
    size_t fields = left < 2 ? 0 : fields_of(record), size = 2 + 4 * fields, data = 0, i;
    if (fields == 0 || left < size) return 0;
    if (memcmp(record, "LD", 2) == 0) data = field(record, 2);
    if (left - size < data) return 0;
    printf("%.2s", (const char *)record);
    for (i = 0; i < fields; i++) {
        if (i == 2 && memcmp(record, "VC", 2) == 0)
            printf(" %ld", as_signed(field(record, i)));
        else
            printf(" %lu", (unsigned long)field(record, i));
    }
    for (i = 0; i < data; i++) printf(" %u", (unsigned)record[size + i]);
    printf("\n");
    return size + data;
}

static int print_listing(const uint8_t *listing, size_t length) {
    unsigned long count = 0;
    size_t at, size;
    for (at = 0; at < length; at += size) {
        size = print_record(listing + at, length - at);
        if (size == 0) {
            fprintf(stderr, "show: no record at byte %lu of the listing\n", (unsigned long)at);
            return FAILED;
        }
        count++;
    }
    printf("END %lu\n", count);
    return DONE;
}

/* Where a line begins. Where there are not so many lines, a place beyond the end, which the library refuses with 42. */
static size_t line_place(const uint8_t *source, size_t length, unsigned long line) {
    size_t i;
    if (line == 1) return 0;
    for (i = 0; i < length; i++)
        if (source[i] == '\n' && --line == 1) return i + 1;
    return length + 1;
}

static int show(const char *path, unsigned long line, const char *text, struct buffers b) {
    struct laqhoncu_full_reading read;
    struct laqhoncu_patching patched;
    size_t length, place, end;
    int status = read_file(path, b.source, &length);
    if (status != DONE) return status;

    read = laqhoncu_full_read(b.source, length, b.listing, LISTING_ROOM);
    if (read.refusal.number != LAQHONCU_ACCEPTED) return refused(read.refusal);
    status = print_listing(b.listing, read.length);
    if (status != DONE) return status;

    place = line_place(b.source, length, line);
    patched = laqhoncu_patch(b.source, length, b.listing, read.length, place, (const uint8_t *)text, strlen(text), b.edited_source,
                             LAQHONCU_SOURCE_MAX, b.edited_listing, LISTING_ROOM);
    if (patched.refusal.number != LAQHONCU_ACCEPTED) return refused(patched.refusal);
    for (end = place; end < patched.source && b.edited_source[end] != '\n'; end++) putchar(b.edited_source[end]);
    putchar('\n');
    return DONE;
}

int main(int argc, char **argv) {
    struct buffers b;
    unsigned long line = 0;
    char *behind = NULL;
    int status;
    if (argc == 4 && argv[2][0] >= '0' && argv[2][0] <= '9') line = strtoul(argv[2], &behind, 10);
    if (line == 0 || *behind != '\0') {
        fprintf(stderr, "usage: show FILE LINE TEXT\nLINE counts from 1; TEXT takes the place of that line.\n");
        return FAILED;
    }
    b.source = malloc(SOURCE_ROOM);
    b.listing = malloc(LISTING_ROOM);
    b.edited_source = malloc(LAQHONCU_SOURCE_MAX);
    b.edited_listing = malloc(LISTING_ROOM);
    if (b.source && b.listing && b.edited_source && b.edited_listing)
        status = show(argv[1], line, argv[3], b);
    else
        status = failed("memory");
    free(b.source);
    free(b.listing);
    free(b.edited_source);
    free(b.edited_listing);
    if (fflush(stdout) != 0 || ferror(stdout)) status = failed("standard output");
    return status;
}
