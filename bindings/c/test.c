/* Tests the library as C calls it: test FILE, where FILE is the record of examples/worked.txt. Prints `test: N passed`, or what failed.
 * test_rows.c tests rows. */
#include "lent.h"

#define BLOCKS 3
#define PLACES 5

/* Three sizes and the looks. */
#define ALL CAKIROTU_SIZES_AND_LOOKS

/* No size and no look. */
static int nothing(const uint64_t sizes[ALL]) { return sizes[0] == 0 && sizes[1] == 0 && sizes[2] == 0 && sizes[CAKIROTU_LOOKS] == 0; }

/* Everything empty and NULL, the record too. */
static void test_null(const uint8_t *rec, size_t len) {
    struct lists none = lend(NONE);
    uint64_t sizes[ALL] = {7, 7, 7, 7};
    CHECK(cakirotu_size(NULL, 0, 0, 0, NULL, 0) == CAKIROTU_NO_HEADER);
    CHECK(list(NULL, 0, 0, 0, &none, NULL, 0) == CAKIROTU_NO_HEADER);
    CHECK(list(NULL, 0, 0, 0, &none, sizes, ALL) == CAKIROTU_NO_HEADER);
    CHECK(nothing(sizes));
    CHECK(list(rec, len, 1, 1, &none, NULL, 0) == CAKIROTU_LISTED);
    CHECK(list(rec, len, 0, BLOCKS, &none, NULL, 0) == CAKIROTU_NO_TEXT_ROOM);
    CHECK(cakirotu_size(rec, len, 0, BLOCKS, NULL, 0) == CAKIROTU_LISTED);
    CHECK(cakirotu_size(rec, len, 0, BLOCKS + 1, NULL, 0) == CAKIROTU_NO_RANGE);
}

/* Lists that fit, that are longer, and each one too short or NULL. */
static void test_lengths(const uint8_t *rec, size_t len, const uint64_t need[ALL]) {
    size_t fit[LISTS];
    exact(need, fit);
    for (size_t more = 0; more < 3; more++) {
        size_t longer[LISTS];
        for (int i = 0; i < LISTS; i++) {
            longer[i] = fit[i] + more * (size_t)(i + 1);
        }
        struct lists l = lend(longer);
        uint64_t sizes[ALL];
        CHECK(list(rec, len, 0, BLOCKS, &l, sizes, ALL) == CAKIROTU_LISTED);
        CHECK(memcmp(sizes, need, sizeof sizes) == 0);
        CHECK(unchanged(&l, fit));
    }
    for (int i = 0; i < 2 * LISTS; i++) {
        size_t shorter[LISTS];
        memcpy(shorter, fit, sizeof fit);
        shorter[i % LISTS] = i < LISTS ? fit[i] - 1 : 0;
        struct lists l = lend(shorter);
        uint64_t sizes[ALL] = {7, 7, 7, 7};
        CHECK(list(rec, len, 0, BLOCKS, &l, sizes, ALL) == TOO_SHORT[i % LISTS]);
        CHECK(nothing(sizes));
        CHECK(unchanged(&l, NONE));
    }
}

/* Of a list of so many entries the first ones are these, and all behind them are as they were lent. */
static void stored(const uint64_t sizes[ALL + 1], size_t n, const uint64_t want[ALL]) {
    for (size_t i = 0; i <= ALL; i++) {
        CHECK(sizes[i] == (i < n && i < ALL ? want[i] : 7));
    }
}

/* A list of sizes of any length gets the first ones, and of a refusal so many zeros. */
static void test_sizes(const uint8_t *rec, size_t len, const uint64_t need[ALL]) {
    static const uint64_t zeros[ALL];
    size_t fit[LISTS];
    exact(need, fit);
    for (size_t n = 0; n <= ALL + 1; n++) {
        uint64_t sizes[4][ALL + 1] = {{7, 7, 7, 7, 7}, {7, 7, 7, 7, 7}, {7, 7, 7, 7, 7}, {7, 7, 7, 7, 7}};
        struct lists l = lend(fit), none = lend(NONE);
        CHECK(cakirotu_size(rec, len, 0, BLOCKS, sizes[0], n) == CAKIROTU_LISTED);
        CHECK(list(rec, len, 0, BLOCKS, &l, sizes[1], n) == CAKIROTU_LISTED);
        CHECK(unchanged(&l, fit));
        CHECK(cakirotu_size(rec, len, 0, BLOCKS + 1, sizes[2], n) == CAKIROTU_NO_RANGE);
        CHECK(list(rec, len, 0, BLOCKS, &none, sizes[3], n) == CAKIROTU_NO_TEXT_ROOM);
        for (int i = 0; i < 4; i++) {
            stored(sizes[i], n, i < 2 ? need : zeros);
        }
    }
}

/* The looks of a range by both calls. */
static void looked(const uint8_t *rec, size_t len, size_t from, size_t to, uint64_t looks) {
    uint64_t sized[ALL], sizes[ALL];
    size_t fit[LISTS];
    CHECK(cakirotu_size(rec, len, from, to, sized, ALL) == CAKIROTU_LISTED);
    exact(sized, fit);
    struct lists l = lend(fit);
    CHECK(list(rec, len, from, to, &l, sizes, ALL) == CAKIROTU_LISTED);
    CHECK(memcmp(sizes, sized, sizeof sizes) == 0);
    CHECK(sizes[CAKIROTU_LOOKS] == looks);
    CHECK(unchanged(&l, fit));
}

/* The record's looks, counted by hand from the words of #111. Block 0 has the edges True to block 2 and False to block 1, block 1 has Fall to
 * block 2, block 2 has none; block 2 alone wants a label.
 * 0 to 3, block 0: the loop search reads the edges of blocks 2, 1 and 0 and no True edge to block 0: 0 + 1 + 2. The branch goes to block 2, so
 * block 1 may be an if-region: the entry test reads the edges of blocks 0 and 2, 2 + 0, then the escape test that of block 1, 1. Block 1 is now a
 * range of its own: its search reads 1. Block 2: its search reads 0, and its label depends on no test, as it is not the first of its range. In
 * all 7.
 * 0 to 2: the same, but that the search begins with block 1 and block 2 is not listed: 1 + 2, 2 + 0, 1, 1.
 * 0 to 1: the search reads 2; block 2 is out of bounds.
 * 1 to 3 and 1 to 2: the search for block 1 reads 1.
 * 2 to 3: the search reads 0. Block 2 is first: the outside test reads the True edge of block 0, which decides. */
static void test_looks(const uint8_t *rec, size_t len) {
    looked(rec, len, 0, 3, 7);
    looked(rec, len, 0, 2, 7);
    looked(rec, len, 0, 1, 2);
    looked(rec, len, 1, 3, 1);
    looked(rec, len, 1, 2, 1);
    looked(rec, len, 2, 3, 1);
    for (size_t at = 0; at <= BLOCKS; at++) {
        looked(rec, len, at, at, 0);
    }
}

/* The places of a range's lines are these, and the entry behind them is as it was. */
static void placed(const uint8_t *rec, size_t len, size_t from, const uint16_t *want, size_t n) {
    uint64_t sizes[CAKIROTU_SIZES];
    size_t longer[LISTS];
    CHECK(cakirotu_size(rec, len, from, BLOCKS, sizes, CAKIROTU_SIZES) == CAKIROTU_LISTED);
    CHECK(sizes[CAKIROTU_LINES] == n);
    exact(sizes, longer);
    longer[PLACES] = n + 1;
    struct lists l = lend(longer);
    CHECK(list(rec, len, from, BLOCKS, &l, sizes, CAKIROTU_SIZES) == CAKIROTU_LISTED);
    const uint16_t *places = l.at[PLACES];
    for (size_t i = 0; i < n; i++) {
        CHECK(places[i] == want[i]);
    }
    longer[PLACES] = n;
    CHECK(unchanged(&l, longer));
}

/* The record's places, of the whole and of parts: `if`, an instruction, the brace, a label, the return. */
static void test_places(const uint8_t *rec, size_t len) {
    static const uint16_t places[] = {0, 1, 0, 2, 2};
    static const uint16_t part[] = {1, 2, 2};
    placed(rec, len, 0, places, 5);
    placed(rec, len, 1, part, 3);
    placed(rec, len, 2, part + 1, 2);
    placed(rec, len, 3, NULL, 0);
}

/* Every shorter record is refused: by 1 without a header, else by 4. */
static void test_cut(const uint8_t *rec, size_t len) {
    for (size_t n = 0; n < len; n++) {
        uint8_t *cut = copied(rec, n);
        uint64_t sizes[ALL] = {7, 7, 7, 7};
        CHECK(cakirotu_size(cut, n, 0, BLOCKS, sizes, ALL) == (n < 24 ? CAKIROTU_NO_HEADER : CAKIROTU_NO_LENGTH));
        CHECK(nothing(sizes));
        free(cut);
    }
}

/* Where the record's blocks have their starts and marks, its three edges their targets and kinds, and the body of its branch. */
#define STARTS 24
#define MARKS 48
#define EDGE_TARGETS 60
#define EDGE_KINDS 84
#define BRANCH (EDGE_KINDS + 3 + 4 * 8 + 92)

/* A copy of the record with one byte changed is refused by this number, with no size and no look. */
static void refused_with(const uint8_t *rec, size_t len, size_t at, uint8_t byte, uint8_t no) {
    uint8_t *changed = copied(rec, len);
    struct lists l = lend(NONE);
    uint64_t sized[ALL] = {7, 7, 7, 7}, sizes[ALL] = {7, 7, 7, 7};
    changed[at] = byte;
    CHECK(cakirotu_size(changed, len, 0, BLOCKS, sized, ALL) == no && nothing(sized));
    CHECK(list(changed, len, 0, BLOCKS, &l, sizes, ALL) == no && nothing(sizes));
    free(changed);
}

/* True edges that contradict the branch: none, two, to another target, of a plain block, and of a branch that is none. */
static void test_branches(const uint8_t *rec, size_t len) {
    refused_with(rec, len, EDGE_KINDS, 2, CAKIROTU_NO_BRANCHES);
    refused_with(rec, len, EDGE_KINDS + 1, 1, CAKIROTU_NO_BRANCHES);
    refused_with(rec, len, EDGE_KINDS + 2, 1, CAKIROTU_NO_BRANCHES);
    refused_with(rec, len, EDGE_TARGETS + 7, 1, CAKIROTU_NO_BRANCHES);
    refused_with(rec, len, BRANCH + 1, 0, CAKIROTU_NO_BRANCHES);
    refused_with(rec, len, BRANCH + 18, 5, CAKIROTU_NO_BRANCHES);
    refused_with(rec, len, EDGE_KINDS, 5, CAKIROTU_NO_EDGES);
    refused_with(rec, len, BRANCH + 1, 17, CAKIROTU_NO_INSTRUCTIONS);
}

/* The record with an atlas entry at 2000, the name `x`, and a span from 1000 to 2fff. */
#define ATLAS (8 + 2 + 16 + 1)
static void add_atlas(const uint8_t *rec, size_t len, uint8_t *longer) {
    static const uint8_t atlas[ATLAS] = {0, 0x20, 0, 0, 0, 0, 0, 0, 3, 1, 0, 0x10, 0, 0, 0, 0, 0, 0, 0xff, 0x2f, 0, 0, 0, 0, 0, 0, 'x'};
    memcpy(longer, rec, len);
    memcpy(longer + len, atlas, ATLAS);
    longer[10] = longer[12] = longer[22] = 1;
}

/* The other numbers: 2 to 6 and 11 of the record, 9 and 10 of one with an atlas. */
static void test_refusals(const uint8_t *rec, size_t len) {
    static uint8_t longer[MOST_RECORD + ATLAS];
    uint64_t sizes[ALL] = {7, 7, 7, 7};
    refused_with(rec, len, 0, 48, CAKIROTU_NO_SETTINGS);
    refused_with(rec, len, 4, 201, CAKIROTU_NO_LIMITS);
    refused_with(rec, len, 4, 2, CAKIROTU_NO_LENGTH);
    refused_with(rec, len, MARKS, 1, CAKIROTU_NO_COUNTS);
    refused_with(rec, len, STARTS + 8, 0, CAKIROTU_NO_STARTS);
    CHECK(cakirotu_size(rec, len, 2, 1, sizes, ALL) == CAKIROTU_NO_RANGE && nothing(sizes));
    add_atlas(rec, len, longer);
    CHECK(cakirotu_size(longer, len + ATLAS, 0, BLOCKS, sizes, ALL) == CAKIROTU_LISTED && !nothing(sizes));
    refused_with(longer, len + ATLAS, len + 8, 4, CAKIROTU_NO_ATLAS);
    refused_with(longer, len + ATLAS, len + 10 + 9, 1, CAKIROTU_NO_SPANS);
}

/* The check of a record, with lists of one, no and two entries: the answer, and what the first entry gets. */
static void checked(const uint8_t *rec, size_t len, uint8_t no, uint64_t want) {
    uint64_t broken[2] = {7, 7};
    CHECK(cakirotu_check(rec, len, broken, 1) == no);
    CHECK(broken[0] == want && broken[1] == 7);
    CHECK(cakirotu_check(rec, len, broken, 0) == no);
    CHECK(broken[0] == want && broken[1] == 7);
    broken[0] = 7;
    CHECK(cakirotu_check(rec, len, broken, 2) == no);
    CHECK(broken[0] == want && broken[1] == 7);
}

static void checked_with(const uint8_t *rec, size_t len, size_t at, uint8_t byte, uint8_t no, uint64_t want) {
    uint8_t *changed = copied(rec, len);
    changed[at] = byte;
    checked(changed, len, no, want);
    free(changed);
}

/* The record follows. Before the body of its branch stands that of test, behind it those of mov and ret. */
static void test_check(const uint8_t *rec, size_t len) {
    static uint8_t longer[MOST_RECORD + ATLAS];
    static const uint8_t none[24] = {64};
    CHECK(cakirotu_check(NULL, 0, NULL, 0) == CAKIROTU_NO_HEADER);
    checked(rec, len, CAKIROTU_LISTED, CAKIROTU_FOLLOWS);
    checked(none, sizeof none, CAKIROTU_LISTED, CAKIROTU_BREAKS_BLOCKS);
    /* A jmp in place of the test before the branch, the mark of the return. */
    checked_with(rec, len, BRANCH - 92, 25, CAKIROTU_LISTED, CAKIROTU_BREAKS_TURNS);
    checked_with(rec, len, BRANCH + 2 * 92 + 3, 1, CAKIROTU_LISTED, CAKIROTU_BREAKS_MARKS);
    checked_with(rec, len, EDGE_KINDS + 1, 4, CAKIROTU_LISTED, CAKIROTU_BREAKS_CASES);
    checked_with(rec, len, EDGE_KINDS + 1, 0, CAKIROTU_LISTED, CAKIROTU_BREAKS_FALLS);
    checked_with(rec, len, EDGE_TARGETS + 8, 5, CAKIROTU_LISTED, CAKIROTU_BREAKS_FALLS);
    /* With a number 0 is stored. */
    checked_with(rec, len, 4, 201, CAKIROTU_NO_LIMITS, 0);
    checked_with(rec, len, EDGE_KINDS, 2, CAKIROTU_NO_BRANCHES, 0);
    checked(rec, len - 1, CAKIROTU_NO_LENGTH, 0);
    add_atlas(rec, len, longer);
    checked(longer, len + ATLAS, CAKIROTU_LISTED, CAKIROTU_FOLLOWS);
    checked_with(longer, len + ATLAS, len + 1, 0x10, CAKIROTU_LISTED, CAKIROTU_BREAKS_STARTS);
}

int main(int argc, char **argv) {
    static uint8_t rec[MOST_RECORD];
    CHECK(argc == 2);
    size_t len = read_record(argv[1], rec);
    uint64_t need[ALL];
    CHECK(cakirotu_size(rec, len, 0, BLOCKS, need, ALL) == CAKIROTU_LISTED);
    CHECK(need[CAKIROTU_LINES] == 5);
    test_null(rec, len);
    test_lengths(rec, len, need);
    test_sizes(rec, len, need);
    test_looks(rec, len);
    test_places(rec, len);
    test_cut(rec, len);
    test_branches(rec, len);
    test_refusals(rec, len);
    test_check(rec, len);
    printf("test: %d passed\n", passed);
    return 0;
}
