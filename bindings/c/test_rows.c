/* Tests rows as C calls them: test_rows FILE MORE.., where FILE is the record of examples/worked.txt; the listing of each goes both ways.
 * Prints `test_rows: N passed`, or what failed. */
#include "held.h"

/* Writing into a list of this length, with each byte 0xee, gives this answer; the rows with 0, nothing with a number. */
static void written(const struct lists *l, const uint64_t *sizes, size_t n, size_t out_len, uint8_t answer, const uint8_t *rows,
                    size_t rows_len) {
    uint8_t *out = malloc(out_len > 0 ? out_len : 1);
    CHECK(out != NULL);
    memset(out, 0xee, out_len);
    uint64_t size = 7;
    CHECK(write_rows(l, sizes, n, out, out_len, &size, 1) == answer);
    size_t filled = answer == CAKIROTU_LISTED ? rows_len : 0;
    CHECK(size == filled);
    CHECK(memcmp(out, rows, filled) == 0);
    CHECK(all_are(out, filled, out_len, 0xee));
    free(out);
}

/* Nothing at all: NULL for everything. An entry for looks stays as it was. */
static void test_null(void) {
    struct lists none = lend(NONE);
    uint64_t sizes[CAKIROTU_SIZES_AND_LOOKS] = {7, 7, 7, 7}, size = 7;
    CHECK(write_rows(&none, NULL, 0, NULL, 0, NULL, 0) == CAKIROTU_LISTED);
    CHECK(write_rows(&none, NULL, 0, NULL, 0, &size, 1) == CAKIROTU_LISTED && size == 0);
    CHECK(read_rows(NULL, 0, &none, NULL, 0) == CAKIROTU_LISTED);
    CHECK(read_rows(NULL, 0, &none, sizes, CAKIROTU_SIZES_AND_LOOKS) == CAKIROTU_LISTED);
    CHECK(sizes[0] == 0 && sizes[1] == 0 && sizes[2] == 0 && sizes[CAKIROTU_LOOKS] == 7);
    CHECK(read_rows(ROWS, ROWS_LEN, &none, sizes, CAKIROTU_SIZES_AND_LOOKS) == CAKIROTU_NO_TEXT_ROOM);
    CHECK(sizes[0] == 0 && sizes[1] == 0 && sizes[2] == 0 && sizes[CAKIROTU_LOOKS] == 7);
    CHECK(read_rows(ROWS, ROWS_LEN, &none, NULL, 0) == CAKIROTU_NO_TEXT_ROOM);
    CHECK(read_rows(ROWS + 1, ROWS_LEN - 1, &none, NULL, 0) == CAKIROTU_NO_ROWS);
    sizes[CAKIROTU_LINES] = 1;
    CHECK(write_rows(&none, sizes, CAKIROTU_SIZES, NULL, 0, NULL, 0) == CAKIROTU_NO_ROWS);
}

/* Writing: an exact fit, room to spare, one byte less and none; sizes that are missing are 0. */
static void test_writing(void) {
    uint64_t sizes[CAKIROTU_SIZES + 1];
    struct lists l = read_example(sizes);
    sizes[CAKIROTU_SIZES] = 7;
    CHECK(CAKIROTU_ROWS_BYTES(sizes[0], sizes[1], sizes[2]) >= ROWS_LEN);
    for (size_t more = 0; more < 4; more++) {
        written(&l, sizes, CAKIROTU_SIZES, ROWS_LEN + more, CAKIROTU_LISTED, ROWS, ROWS_LEN);
    }
    written(&l, sizes, CAKIROTU_SIZES, ROWS_LEN - 1, CAKIROTU_NO_TEXT_ROOM, ROWS, ROWS_LEN);
    written(&l, sizes, CAKIROTU_SIZES, 0, CAKIROTU_NO_TEXT_ROOM, ROWS, ROWS_LEN);
    written(&l, sizes, 4, ROWS_LEN, CAKIROTU_LISTED, ROWS, ROWS_LEN);
    written(&l, sizes, 2, ROWS_LEN, CAKIROTU_NO_ROWS, ROWS, ROWS_LEN);
    written(&l, sizes, 1, ROWS_LEN, CAKIROTU_NO_ROWS, ROWS, ROWS_LEN);
    written(&l, sizes, 0, ROWS_LEN, CAKIROTU_LISTED, ROWS, 0);
    uint8_t out[ROWS_LEN];
    uint64_t size[2] = {7, 7};
    CHECK(write_rows(&l, sizes, CAKIROTU_SIZES, out, sizeof out, size, 2) == CAKIROTU_LISTED);
    CHECK(size[0] == ROWS_LEN && size[1] == 7);
    CHECK(write_rows(&l, sizes, CAKIROTU_SIZES, out, sizeof out, NULL, 0) == CAKIROTU_LISTED);
    give_back(&l);
}

/* Lists that hold no rows are refused before room is asked for, and so is each list that is one shorter than the sizes say. */
static void test_no_rows(void) {
    uint64_t sizes[CAKIROTU_SIZES];
    for (size_t i = 0; i < CHANGES; i++) {
        struct lists l = read_example(sizes);
        changes[i](&l, sizes);
        written(&l, sizes, CAKIROTU_SIZES, ROWS_LEN, CAKIROTU_NO_ROWS, ROWS, ROWS_LEN);
        written(&l, sizes, CAKIROTU_SIZES, 0, CAKIROTU_NO_ROWS, ROWS, ROWS_LEN);
        give_back(&l);
    }
    for (int i = 0; i < LISTS; i++) {
        struct lists l = read_example(sizes);
        l.len[i]--;
        written(&l, sizes, CAKIROTU_SIZES, ROWS_LEN, CAKIROTU_NO_ROWS, ROWS, ROWS_LEN);
        give_back(&l);
    }
}

/* Reading: lists that fit, that are longer, and each one too short or NULL; a list of sizes of any length gets the first ones. */
static void test_reading(void) {
    uint64_t need[CAKIROTU_SIZES];
    size_t fit[LISTS];
    struct lists filled = read_example(need);
    exact(need, fit);
    for (size_t more = 0; more < 3; more++) {
        size_t longer[LISTS];
        for (int i = 0; i < LISTS; i++) {
            longer[i] = fit[i] + more * (size_t)(i + 1);
        }
        struct lists l = lend(longer);
        uint64_t sizes[CAKIROTU_SIZES];
        CHECK(read_rows(ROWS, ROWS_LEN, &l, sizes, CAKIROTU_SIZES) == CAKIROTU_LISTED);
        CHECK(memcmp(sizes, need, sizeof sizes) == 0);
        for (int i = 0; i < LISTS; i++) {
            CHECK(memcmp(l.at[i], filled.at[i], fit[i] * ENTRY[i]) == 0);
        }
        CHECK(unchanged(&l, fit));
    }
    for (int i = 0; i < 2 * LISTS; i++) {
        size_t shorter[LISTS];
        memcpy(shorter, fit, sizeof fit);
        shorter[i % LISTS] = i < LISTS ? fit[i] - 1 : 0;
        struct lists l = lend(shorter);
        uint64_t sizes[CAKIROTU_SIZES] = {7, 7, 7};
        CHECK(read_rows(ROWS, ROWS_LEN, &l, sizes, CAKIROTU_SIZES) == TOO_SHORT[i % LISTS]);
        CHECK(sizes[0] == 0 && sizes[1] == 0 && sizes[2] == 0);
        CHECK(unchanged(&l, NONE));
    }
    for (size_t n = 0; n <= CAKIROTU_SIZES + 1; n++) {
        uint64_t sizes[CAKIROTU_SIZES + 1] = {7, 7, 7, 7};
        struct lists l = lend(fit);
        CHECK(read_rows(ROWS, ROWS_LEN, &l, sizes, n) == CAKIROTU_LISTED);
        CHECK(unchanged(&l, fit));
        for (size_t i = 0; i <= CAKIROTU_SIZES; i++) {
            CHECK(sizes[i] == (i < n && i < CAKIROTU_SIZES ? need[i] : 7));
        }
    }
    give_back(&filled);
}

/* These bytes are refused and change nothing, or what is read of them is written as the same bytes. */
static int accepted(const uint8_t *file, size_t len) {
    size_t room[LISTS] = {len, len / 6, len / 6, len / 12, len / 12, len / 12, len / 12};
    struct lists l = lend(room);
    uint64_t sizes[CAKIROTU_SIZES] = {7, 7, 7};
    uint8_t no = read_rows(file, len, &l, sizes, CAKIROTU_SIZES);
    CHECK(no == CAKIROTU_LISTED || no == CAKIROTU_NO_ROWS);
    if (no == CAKIROTU_LISTED) {
        written(&l, sizes, CAKIROTU_SIZES, len, CAKIROTU_LISTED, file, len);
        give_back(&l);
        return 1;
    }
    CHECK(sizes[0] == 0 && sizes[1] == 0 && sizes[2] == 0);
    CHECK(unchanged(&l, NONE));
    return 0;
}

/* Every shorter file, which is rows only where a row ends, and changes of every byte. */
static void test_damaged(void) {
    static const uint8_t bytes[] = {0, '"', ',', '\r', '\n', '0', '9', 'A', 'X', 'a', ' ', '\\', 0xff};
    for (size_t n = 0; n <= ROWS_LEN; n++) {
        uint8_t *cut = copied(ROWS, n);
        CHECK(accepted(cut, n) == (n == 0 || cut[n - 1] == '\n'));
        free(cut);
    }
    int rows = 0;
    for (size_t at = 0; at < ROWS_LEN; at++) {
        for (size_t i = 0; i < sizeof bytes; i++) {
            uint8_t *changed = copied(ROWS, ROWS_LEN);
            changed[at] = bytes[i];
            rows += accepted(changed, ROWS_LEN);
            free(changed);
        }
    }
    CHECK(rows > 500 && rows < 2000);
}

/* Any bytes in a text come back; a quote has two bytes in the file, each other byte one. */
static void test_bytes(void) {
    uint8_t text[256];
    uint32_t end = 256, line = 1;
    uint8_t kind = 7, out[300];
    uint64_t address = UINT64_MAX, sizes[CAKIROTU_SIZES] = {256, 1, 1}, size;
    uint16_t mark = 256 + 254, place = UINT16_MAX;
    for (int i = 0; i < 256; i++) {
        text[i] = (uint8_t)i;
    }
    struct lists l = {{256, 1, 1, 1, 1, 1, 1}, {text, &end, &kind, &address, &mark, &place, &line}};
    CHECK(write_rows(&l, sizes, CAKIROTU_SIZES, out, sizeof out, &size, 1) == CAKIROTU_LISTED);
    CHECK(size == 257 + CAKIROTU_ROWS_BYTES(0, 1, 1));
    CHECK(memcmp(out, "FFFFFFFFFFFFFFFF,254,65535,F,\"", 30) == 0);
    CHECK(out[30 + 35] == '"' && out[30 + 92 + 1] == '\\' && out[30 + 92 + 2] == ']');
    CHECK(accepted(out, (size_t)size));
}

/* The listing of a record, written and read back into lists that fit: the same lists. Tells whether there is a listing. */
static int both_ways(const uint8_t *rec, size_t len) {
    uint64_t sizes[CAKIROTU_SIZES], again[CAKIROTU_SIZES], size;
    size_t blocks = len < 24 ? 0 : (size_t)rec[4] | (size_t)rec[5] << 8, fit[LISTS];
    if (cakirotu_size(rec, len, 0, blocks, sizes, CAKIROTU_SIZES) != CAKIROTU_LISTED) {
        return 0;
    }
    exact(sizes, fit);
    struct lists l = lend(fit), back = lend(fit);
    CHECK(list(rec, len, 0, blocks, &l, sizes, CAKIROTU_SIZES) == CAKIROTU_LISTED);
    size_t most = (size_t)CAKIROTU_ROWS_BYTES(sizes[0], sizes[1], sizes[2]);
    uint8_t *rows = malloc(most > 0 ? most : 1);
    CHECK(rows != NULL);
    CHECK(write_rows(&l, sizes, CAKIROTU_SIZES, rows, most, &size, 1) == CAKIROTU_LISTED);
    CHECK(read_rows(rows, (size_t)size, &back, again, CAKIROTU_SIZES) == CAKIROTU_LISTED);
    CHECK(memcmp(sizes, again, sizeof sizes) == 0);
    for (int i = 0; i < LISTS; i++) {
        CHECK(fit[i] == 0 || memcmp(l.at[i], back.at[i], fit[i] * ENTRY[i]) == 0);
    }
    written(&back, sizes, CAKIROTU_SIZES, (size_t)size, CAKIROTU_LISTED, rows, (size_t)size);
    free(rows);
    give_back(&l);
    give_back(&back);
    return 1;
}

/* The record of a file, which the example's rows are written of if it is the first one, also with the looks behind the sizes. */
static int test_record(const char *name, int first) {
    static uint8_t rec[MOST_RECORD];
    size_t len = read_record(name, rec);
    if (first) {
        uint64_t sizes[CAKIROTU_SIZES_AND_LOOKS];
        struct lists l = read_example(sizes);
        CHECK(list(rec, len, 0, 3, &l, sizes, CAKIROTU_SIZES_AND_LOOKS) == CAKIROTU_LISTED);
        CHECK(sizes[CAKIROTU_LOOKS] > 0);
        written(&l, sizes, CAKIROTU_SIZES, ROWS_LEN, CAKIROTU_LISTED, ROWS, ROWS_LEN);
        written(&l, sizes, CAKIROTU_SIZES_AND_LOOKS, ROWS_LEN, CAKIROTU_LISTED, ROWS, ROWS_LEN);
        give_back(&l);
    }
    return both_ways(rec, len);
}

int main(int argc, char **argv) {
    int listed = 0;
    test_null();
    test_writing();
    test_no_rows();
    test_reading();
    test_damaged();
    test_bytes();
    CHECK(argc > 1);
    for (int i = 1; i < argc; i++) {
        listed += test_record(argv[i], i == 1);
    }
    CHECK(listed > 0);
    printf("test_rows: %d passed, %d listings both ways\n", passed, listed);
    return 0;
}
