/* Lists a record file as the program `listing` does: example FILE [FROM TO]
 * Prints its rows for a spreadsheet: example rows FILE; lists a file of rows: example back FILE
 * Prints how much looking its listing takes, with its blocks and edges: example looks FILE
 * Prints whether its listing may be followed, or which assumption is broken first: example check FILE
 * Exit status: 0 done, 1 refused, 2 nothing could be read or printed. */
#include "cakirotu.h"

#include <errno.h>
#include <inttypes.h>
#include <stdio.h>
#include <stdlib.h>
#include <string.h>

/* One byte more than a record may have: a longer file is refused by its first bytes. */
#define MOST 65537

/* One byte more than the program `from_csv` takes. The library has no such limit. */
#define MOST_ROWS 262145

struct listing {
    uint64_t sizes[CAKIROTU_SIZES];
    uint8_t *text;
    uint32_t *ends;
    uint8_t *kinds;
    uint64_t *addresses;
    uint16_t *marks;
    uint16_t *places;
    uint32_t *lines;
};

static void *need(void *memory) {
    if (memory == NULL) {
        fputs("example: out of memory\n", stderr);
        exit(2);
    }
    return memory;
}

/* Room for n entries. */
static void *room(uint64_t n, size_t entry) { return need(malloc(n > 0 ? (size_t)n * entry : 1)); }

/* The file's bytes, at most so many, in memory of just their size. */
static uint8_t *read_file(const char *name, size_t most, size_t *len) {
    FILE *file = fopen(name, "rb");
    if (file == NULL) {
        fprintf(stderr, "example: %s: %s\n", name, strerror(errno));
        exit(2);
    }
    uint8_t *bytes = room(most, 1);
    *len = fread(bytes, 1, most, file);
    if (ferror(file)) {
        fprintf(stderr, "example: %s cannot be read\n", name);
        exit(2);
    }
    fclose(file);
    return need(realloc(bytes, *len > 0 ? *len : 1));
}

/* A number of the header; any will do for a record without one, which is refused. */
static size_t header(const uint8_t *record, size_t len, size_t at) {
    return len < 24 ? 0 : (size_t)record[at] | (size_t)record[at + 1] << 8;
}

static size_t blocks(const uint8_t *record, size_t len) { return header(record, len, 4); }
static size_t edges(const uint8_t *record, size_t len) { return header(record, len, 8); }

static void lend(struct listing *l) {
    l->text = room(l->sizes[CAKIROTU_TEXT_BYTES], sizeof *l->text);
    l->ends = room(l->sizes[CAKIROTU_TOKENS], sizeof *l->ends);
    l->kinds = room(l->sizes[CAKIROTU_TOKENS], sizeof *l->kinds);
    l->addresses = room(l->sizes[CAKIROTU_LINES], sizeof *l->addresses);
    l->marks = room(l->sizes[CAKIROTU_LINES], sizeof *l->marks);
    l->places = room(l->sizes[CAKIROTU_LINES], sizeof *l->places);
    l->lines = room(l->sizes[CAKIROTU_LINES], sizeof *l->lines);
}

static void give_back(struct listing *l) {
    free(l->text);
    free(l->ends);
    free(l->kinds);
    free(l->addresses);
    free(l->marks);
    free(l->places);
    free(l->lines);
}

static uint8_t fill(const uint8_t *record, size_t len, size_t from, size_t to, struct listing *l) {
    size_t text = (size_t)l->sizes[CAKIROTU_TEXT_BYTES];
    size_t tokens = (size_t)l->sizes[CAKIROTU_TOKENS];
    size_t lines = (size_t)l->sizes[CAKIROTU_LINES];
    return cakirotu_list(record, len, from, to, l->text, text, l->ends, tokens, l->kinds, tokens, l->addresses, lines, l->marks, lines,
                         l->places, lines, l->lines, lines, l->sizes, CAKIROTU_SIZES);
}

static void print(const struct listing *l) {
    size_t begin = 0;
    printf("lines=%" PRIu64 "\n", l->sizes[CAKIROTU_LINES]);
    for (size_t i = 0; i < l->sizes[CAKIROTU_LINES]; i++) {
        size_t end = l->lines[i] > 0 ? l->ends[l->lines[i] - 1] : 0;
        if (l->marks[i] & CAKIROTU_ADDRESSED) {
            printf("%016" PRIX64 " ", l->addresses[i]);
        } else {
            fputs("---------------- ", stdout);
        }
        printf("%*s", 2 * (l->marks[i] & CAKIROTU_INDENT), "");
        fwrite(l->text + begin, 1, end - begin, stdout);
        putchar('\n');
        begin = end;
    }
}

/* The listing of a range, or a number. */
static uint8_t list(const uint8_t *record, size_t len, size_t from, size_t to, struct listing *l) {
    uint8_t no = cakirotu_size(record, len, from, to, l->sizes, CAKIROTU_SIZES);
    lend(l);
    return no == CAKIROTU_LISTED ? fill(record, len, from, to, l) : no;
}

static uint8_t print_rows(const struct listing *l) {
    size_t text = (size_t)l->sizes[CAKIROTU_TEXT_BYTES];
    size_t tokens = (size_t)l->sizes[CAKIROTU_TOKENS];
    size_t lines = (size_t)l->sizes[CAKIROTU_LINES];
    size_t most = (size_t)CAKIROTU_ROWS_BYTES(text, tokens, lines);
    uint8_t *rows = room(most, 1);
    uint64_t size;
    uint8_t no = cakirotu_write_rows(l->text, text, l->ends, tokens, l->kinds, tokens, l->addresses, lines, l->marks, lines, l->places,
                                     lines, l->lines, lines, l->sizes, CAKIROTU_SIZES, rows, most, &size, 1);
    fwrite(rows, 1, (size_t)size, stdout);
    free(rows);
    return no;
}

/* The listing of rows, or a number. */
static uint8_t read_rows(const uint8_t *rows, size_t len, struct listing *l) {
    size_t tokens = len / 6, lines = len / 12;
    l->sizes[CAKIROTU_TEXT_BYTES] = len;
    l->sizes[CAKIROTU_TOKENS] = tokens;
    l->sizes[CAKIROTU_LINES] = lines;
    lend(l);
    return cakirotu_read_rows(rows, len, l->text, len, l->ends, tokens, l->kinds, tokens, l->addresses, lines, l->marks, lines, l->places,
                              lines, l->lines, lines, l->sizes, CAKIROTU_SIZES);
}

static uint8_t print_looks(const uint8_t *record, size_t len) {
    uint64_t sizes[CAKIROTU_SIZES_AND_LOOKS];
    size_t all = blocks(record, len);
    uint8_t no = cakirotu_size(record, len, 0, all, sizes, CAKIROTU_SIZES_AND_LOOKS);
    if (no == CAKIROTU_LISTED) {
        printf("looks=%" PRIu64 " blocks=%zu edges=%zu\n", sizes[CAKIROTU_LOOKS], all, edges(record, len));
    }
    return no;
}

/* The assumptions, by number. */
static const char *const assumed[] = {
    NULL,
    "there is at least one block",
    "jumps, conditional branches and returns stand only last in a block",
    "no last instruction is skip-marked",
    "no setcc or cmovcc has a near branch",
    "no edge is Case",
    "no atlas entry has a block's start as its address",
    "no atlas or mnemonic 0 name begins with loc_",
    "no mnemonic 0 name is do, if, goto or return",
    "a direct jump to a block of the record has its one Uncond edge to that block",
    "a block that does not end in a jmp or return has the next block as its one Fall or False edge",
    "every conditional branch goes to a block of the record",
    "every goto to a block names a label that stands in the listing",
};

static uint8_t print_check(const uint8_t *record, size_t len) {
    uint64_t broken;
    uint8_t no = cakirotu_check(record, len, &broken, 1);
    if (no == CAKIROTU_LISTED && broken == CAKIROTU_FOLLOWS) {
        puts("follows");
    } else if (no == CAKIROTU_LISTED) {
        printf("breaks %" PRIu64 ": %s\n", broken, assumed[broken]);
    }
    return no;
}

/* The listing of a record's range or of rows, printed as it is or as rows. */
static uint8_t print_listing(const uint8_t *bytes, size_t len, size_t from, size_t to, int rows, int back) {
    struct listing l;
    uint8_t no = back ? read_rows(bytes, len, &l) : list(bytes, len, from, to, &l);
    if (no == CAKIROTU_LISTED && rows) {
        no = print_rows(&l);
    } else if (no == CAKIROTU_LISTED) {
        print(&l);
    }
    give_back(&l);
    return no;
}

static int usage(void) {
    fputs("usage: example FILE [FROM TO], example rows|back|looks|check FILE\n", stderr);
    return 2;
}

int main(int argc, char **argv) {
    int rows = argc == 3 && strcmp(argv[1], "rows") == 0;
    int back = argc == 3 && strcmp(argv[1], "back") == 0;
    int looks = argc == 3 && strcmp(argv[1], "looks") == 0;
    int check = argc == 3 && strcmp(argv[1], "check") == 0;
    if (argc != 2 && argc != 4 && !rows && !back && !looks && !check) {
        return usage();
    }
    size_t len;
    uint8_t *bytes = read_file(argv[argc == 3 ? 2 : 1], back ? MOST_ROWS : MOST, &len);
    size_t from = argc == 4 ? (size_t)strtoull(argv[2], NULL, 10) : 0;
    size_t to = argc == 4 ? (size_t)strtoull(argv[3], NULL, 10) : blocks(bytes, len);
    uint8_t no = looks ? print_looks(bytes, len) : check ? print_check(bytes, len) : print_listing(bytes, len, from, to, rows, back);
    if (no != CAKIROTU_LISTED) {
        printf("no %d\n", no);
    }
    free(bytes);
    if (fflush(stdout) != 0) {
        fputs("example: standard output cannot be written\n", stderr);
        return 2;
    }
    return no == CAKIROTU_LISTED ? 0 : 1;
}
