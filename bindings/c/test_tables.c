/* Tests command tables as C calls them: test_tables FILE MORE.., where FILE is the record of examples/keyer-commands.txt.
 * Prints `test_tables: N passed`, or what failed. */
#include "held.h"

/* A name, in memory of just its length. */
struct name {
    size_t len;
    uint8_t *at;
};

static struct name name_of(const char *text) {
    size_t len = strlen(text);
    return (struct name){len, len > 0 ? copied((const uint8_t *)text, len) : NULL};
}

/* The lists for a table: bytes, rows, calls. */
#define COLUMNS 3
static const size_t COLUMN_ENTRY[COLUMNS] = {sizeof(uint8_t), sizeof(uint64_t), sizeof(uint64_t)};
static const uint8_t COLUMN_SHORT[COLUMNS] = {CAKIROTU_NO_TEXT_ROOM, CAKIROTU_NO_TOKEN_ROOM, CAKIROTU_NO_LINE_ROOM};

struct table {
    size_t len[COLUMNS];
    void *at[COLUMNS];
};

/* Memory for each list with every byte 0xee; NULL for a list of length 0. */
static struct table lend_table(const size_t len[COLUMNS]) {
    struct table t;
    for (int i = 0; i < COLUMNS; i++) {
        t.len[i] = len[i];
        t.at[i] = memory(len[i] * COLUMN_ENTRY[i]);
    }
    return t;
}

/* Frees the lists and tells whether they are as they were lent behind so many bytes and rows. */
static int table_unchanged(struct table *t, const uint64_t counts[CAKIROTU_COUNTS]) {
    int same = 1;
    for (int i = 0; i < COLUMNS; i++) {
        size_t from = (size_t)counts[i == 0 ? CAKIROTU_TABLE_BYTES : CAKIROTU_TABLE_ROWS];
        same = same && all_are(t->at[i], from * COLUMN_ENTRY[i], t->len[i] * COLUMN_ENTRY[i], 0xee);
        free(t->at[i]);
    }
    return same;
}

static uint8_t make(const struct lists *l, const uint64_t *sizes, size_t n, struct name call, struct name reg, const struct table *t,
                    uint64_t *counts, size_t count) {
    return cakirotu_command_table(l->at[0], l->len[0], l->at[1], l->len[1], l->at[2], l->len[2], l->at[3], l->len[3], l->at[4], l->len[4],
                                  l->at[5], l->len[5], l->at[6], l->len[6], sizes, n, call.at, call.len, reg.at, reg.len, t->at[0], t->len[0],
                                  t->at[1], t->len[1], t->at[2], t->len[2], counts, count);
}

/* A call with these names and lists of these lengths is refused with this number: no list is changed and the counts are 0. */
static void refused(const struct lists *l, const uint64_t *sizes, const char *call, const char *reg, const size_t len[COLUMNS], uint8_t no) {
    static const uint64_t none[CAKIROTU_COUNTS];
    uint64_t counts[CAKIROTU_COUNTS] = {7, 7};
    struct name c = name_of(call), r = name_of(reg);
    struct table t = lend_table(len);
    CHECK(make(l, sizes, CAKIROTU_SIZES, c, r, &t, counts, CAKIROTU_COUNTS) == no);
    CHECK(memcmp(counts, none, sizeof none) == 0);
    CHECK(table_unchanged(&t, none));
    free(c.at);
    free(r.at);
}

/* A table as the program `keyer` prints it, made in lists of these lengths, and its counts. */
static void print_table(const struct lists *l, const uint64_t *sizes, const char *call, const char *reg, const size_t len[COLUMNS], char *out,
                        uint64_t counts[CAKIROTU_COUNTS]) {
    struct name c = name_of(call), r = name_of(reg);
    struct table t = lend_table(len);
    uint64_t begin = 0;
    CHECK(make(l, sizes, CAKIROTU_SIZES, c, r, &t, counts, CAKIROTU_COUNTS) == CAKIROTU_LISTED);
    for (size_t i = 0; i < counts[CAKIROTU_TABLE_ROWS]; i++) {
        uint64_t row = ((const uint64_t *)t.at[1])[i];
        out += sprintf(out, "%016llX ", (unsigned long long)((const uint64_t *)t.at[2])[i]);
        CHECK(CAKIROTU_ROW_END(row) >= begin && CAKIROTU_ROW_END(row) <= counts[CAKIROTU_TABLE_BYTES]);
        CHECK(!CAKIROTU_ROW_NONE(row) || CAKIROTU_ROW_END(row) == begin);
        for (; begin < CAKIROTU_ROW_END(row); begin++) {
            out += sprintf(out, "%02X", ((const uint8_t *)t.at[0])[begin]);
        }
        out += sprintf(out, CAKIROTU_ROW_NONE(row) ? "-\n" : "\n");
    }
    *out = 0;
    CHECK(begin == counts[CAKIROTU_TABLE_BYTES]);
    CHECK(table_unchanged(&t, counts));
    free(c.at);
    free(r.at);
}

/* This table, in lists that suffice for any, that fit, that are longer, each one too short and NULL. */
static void tabled(const struct lists *l, const uint64_t *sizes, const char *call, const char *reg, const char *text) {
    static char out[1 << 16];
    size_t lines = (size_t)sizes[CAKIROTU_LINES], most[COLUMNS] = {CAKIROTU_LITERAL_BYTES * lines, lines, lines};
    uint64_t counts[CAKIROTU_COUNTS];
    print_table(l, sizes, call, reg, most, out, counts);
    CHECK(text == NULL || strcmp(out, text) == 0);
    size_t rows = (size_t)counts[CAKIROTU_TABLE_ROWS], fit[COLUMNS] = {(size_t)counts[CAKIROTU_TABLE_BYTES], rows, rows};
    for (size_t more = 0; more < 3; more++) {
        size_t longer[COLUMNS] = {fit[0] + more, fit[1] + 2 * more, fit[2] + 3 * more};
        print_table(l, sizes, call, reg, longer, out, counts);
        CHECK(text == NULL || strcmp(out, text) == 0);
    }
    for (int i = 0; i < 2 * COLUMNS; i++) {
        size_t shorter[COLUMNS] = {fit[0], fit[1], fit[2]};
        if (fit[i % COLUMNS] > 0) {
            shorter[i % COLUMNS] = i < COLUMNS ? fit[i] - 1 : 0;
            refused(l, sizes, call, reg, shorter, COLUMN_SHORT[i % COLUMNS]);
        }
    }
}

/* Names that are empty are refused before all else. */
static void unnamed(const struct lists *l, const uint64_t *sizes) {
    static const size_t none[COLUMNS], some[COLUMNS] = {80, 4, 4};
    refused(l, sizes, "", "rdx", none, CAKIROTU_NO_NAMES);
    refused(l, sizes, "SendText", "", some, CAKIROTU_NO_NAMES);
    refused(l, sizes, "", "", some, CAKIROTU_NO_NAMES);
}

/* The lists of rows. */
static struct lists lists_of(const char *file, uint64_t sizes[CAKIROTU_SIZES]) {
    size_t len = strlen(file), room[LISTS] = {len, len / 6, len / 6, len / 12, len / 12, len / 12, len / 12};
    struct lists l = lend(room);
    CHECK(read_rows((const uint8_t *)file, len, &l, sizes, CAKIROTU_SIZES) == CAKIROTU_LISTED);
    return l;
}

/* Nothing at all: NULL for everything. */
static void test_null(void) {
    struct lists none = lend(NONE);
    struct table t = lend_table(NONE);
    struct name nobody = name_of(""), some = name_of("x");
    uint64_t counts[CAKIROTU_COUNTS] = {7, 7};
    CHECK(make(&none, NULL, 0, nobody, nobody, &t, NULL, 0) == CAKIROTU_NO_NAMES);
    CHECK(make(&none, NULL, 0, some, some, &t, NULL, 0) == CAKIROTU_LISTED);
    CHECK(make(&none, NULL, 0, some, some, &t, counts, CAKIROTU_COUNTS) == CAKIROTU_LISTED);
    CHECK(counts[0] == 0 && counts[1] == 0);
    uint64_t sizes[CAKIROTU_SIZES] = {0, 0, 1};
    CHECK(make(&none, sizes, CAKIROTU_SIZES, some, some, &t, NULL, 0) == CAKIROTU_NO_ROWS);
    free(some.at);
}

#define SET "0000000000001000,1,0,R,\"rdx\",P,\" = \",A,\"\"\"FA\\r\"\"\",P,\";\"\r\n"
#define CALL "0000000000001008,1,0,R,\"rax\",P,\" = \",S,\"Send\",P,\"(\",R,\"rdx\",P,\");\"\r\n"
#define FOUND "0000000000001008 46410D\n"
#define DASH "0000000000001008 -\n"

/* Lists of sizes and of counts of any length: what is missing counts as 0, or is not stored. */
static void test_lengths(void) {
    uint64_t sizes[CAKIROTU_SIZES + 1];
    struct lists l = lists_of(SET CALL, sizes);
    struct name call = name_of("Send"), reg = name_of("rdx");
    static const size_t fit[COLUMNS] = {3, 1, 1};
    sizes[CAKIROTU_SIZES] = 7;
    for (size_t n = 0; n <= CAKIROTU_SIZES + 1; n++) {
        struct table t = lend_table(fit);
        uint64_t counts[CAKIROTU_COUNTS];
        uint8_t want = n == 1 || n == 2 ? CAKIROTU_NO_ROWS : CAKIROTU_LISTED;
        CHECK(make(&l, sizes, n, call, reg, &t, counts, CAKIROTU_COUNTS) == want);
        CHECK(counts[CAKIROTU_TABLE_BYTES] == (n > 2 ? 3 : 0) && counts[CAKIROTU_TABLE_ROWS] == (n > 2 ? 1 : 0));
        CHECK(table_unchanged(&t, counts));
    }
    for (size_t n = 0; n <= CAKIROTU_COUNTS + 1; n++) {
        uint64_t counts[CAKIROTU_COUNTS + 1] = {7, 7, 7}, none[CAKIROTU_COUNTS + 1] = {7, 7, 7};
        static const uint64_t want[CAKIROTU_COUNTS] = {3, 1};
        struct table t = lend_table(fit), empty = lend_table(NONE);
        CHECK(make(&l, sizes, CAKIROTU_SIZES, call, reg, &t, counts, n) == CAKIROTU_LISTED);
        CHECK(make(&l, sizes, CAKIROTU_SIZES, call, reg, &empty, none, n) == CAKIROTU_NO_TEXT_ROOM);
        for (size_t i = 0; i <= CAKIROTU_COUNTS; i++) {
            int given = i < n && i < CAKIROTU_COUNTS;
            CHECK(counts[i] == (given ? want[i] : 7) && none[i] == (given ? 0 : 7));
        }
        CHECK(table_unchanged(&t, want));
    }
    free(call.at);
    free(reg.at);
    give_back(&l);
}

/* Lists that hold no rows are refused before room is asked for, empty names before that. */
static void test_no_rows(void) {
    static const size_t none[COLUMNS], some[COLUMNS] = {80, 4, 4};
    uint64_t sizes[CAKIROTU_SIZES];
    for (size_t i = 0; i < CHANGES + LISTS; i++) {
        struct lists l = read_example(sizes);
        if (i < CHANGES) {
            changes[i](&l, sizes);
        } else {
            l.len[i - CHANGES]--;
        }
        refused(&l, sizes, "SendText", "rdx", none, CAKIROTU_NO_ROWS);
        refused(&l, sizes, "SendText", "rdx", some, CAKIROTU_NO_ROWS);
        unnamed(&l, sizes);
        give_back(&l);
    }
    struct lists l = read_example(sizes);
    unnamed(&l, sizes);
    tabled(&l, sizes, "SendText", "rdx", "");
    give_back(&l);
}

/* Rows, and the table of `Send` and `rdx`. */
static void test_lines(void) {
    static const char *const cases[][2] = {
        {"", ""},
        {CALL, DASH},
        {SET CALL, FOUND},
        {SET CALL CALL, FOUND DASH},
        {SET SET CALL, FOUND},
        {SET "0000000000001004,1,0,R,\"rdx\",P,\" = \",R,\"rcx\",P,\";\"\r\n" CALL, DASH},
        {SET "0000000000001004,1,0,R,\"rdx\",P,\" += \",N,\"1\",P,\";\"\r\n" CALL, DASH},
        {SET "0000000000001004,1,0,R,\"edx\",P,\" = \",N,\"0\",P,\";\"\r\n" CALL, FOUND},
        {SET "0000000000001004,1,0,R,\"rdx\",P,\" = \",A,\"L\"\"TX;\"\"\"\r\n" CALL, "0000000000001008 54583B\n"},
        {SET "0000000000001004,1,0,R,\"rdx\",X,\" = \",A,\"\"\"\"\"\"\r\n" CALL, "0000000000001008 \n"},
        {SET "0000000000001004,1,0,R,\"rdx\",P,\" = \",A,\"\"\"\\u{0}\"\"\"\r\n" CALL, DASH},
        {SET "0000000000001004,1,0,R,\"rdx\",P,\" = \",S,\"\"\"FB\"\"\"\r\n" CALL, DASH},
        {SET "0000000000001004,1,1,R,\"rdx\",P,\" = \",A,\"\"\"FB\"\"\"\r\n" CALL, FOUND},
        {SET "0000000000001004,1,0,R,\"rax\",P,\" = \",S,\"Other\",P,\"();\"\r\n" CALL, DASH},
        {SET "0000000000001004,1,1,R,\"rax\",P,\" = \",S,\"Send\",P,\"();\"\r\n" CALL, "0000000000001004 -\n" FOUND},
        {SET ",1,0,R,\"rax\",P,\" = \",S,\"Send\",P,\"();\"\r\n" CALL, FOUND},
        {SET "0000000000001004,1,0,S,\"rax\",P,\" = \",S,\"Send\",P,\"();\"\r\n" CALL, FOUND},
        {SET "0000000000001004,1,0,R,\"rax\",P,\" =\",S,\"Send\",P,\"();\"\r\n" CALL, FOUND},
        {SET "0000000000001004,1,0,R,\"rax\",P,\" = \",S,\"Send\",S,\"();\"\r\n" CALL, FOUND},
        {SET "0000000000001004,1,0,R,\"rax\",P,\" = \",S,\"Send\",P,\" ();\"\r\n" CALL, FOUND},
        {SET "0000000000001004,1,0,R,\"rax\",P,\" = \",S,\"Send\"\r\n" CALL, FOUND},
        {SET "0000000000001004,1,0,R,\"rax\",P,\" = \",S,\"Sen\",P,\"();\"\r\n", ""},
        {SET "0000000000000000,1,0,R,\"rax\",K,\" = \",N,\"Send\",P,\"(\"\r\n", "0000000000000000 46410D\n"},
    };
    uint64_t sizes[CAKIROTU_SIZES];
    for (size_t i = 0; i < sizeof cases / sizeof *cases; i++) {
        struct lists l = lists_of(cases[i][0], sizes);
        tabled(&l, sizes, "Send", "rdx", cases[i][1]);
        unnamed(&l, sizes);
        give_back(&l);
    }
}

/* The listing of a record; tells whether there is one. */
static int listed(const char *name, struct lists *l, uint64_t sizes[CAKIROTU_SIZES]) {
    static uint8_t rec[MOST_RECORD];
    size_t len = read_record(name, rec), blocks = len < 24 ? 0 : (size_t)rec[4] | (size_t)rec[5] << 8, fit[LISTS];
    if (cakirotu_size(rec, len, 0, blocks, sizes, CAKIROTU_SIZES) != CAKIROTU_LISTED) {
        return 0;
    }
    exact(sizes, fit);
    *l = lend(fit);
    CHECK(list(rec, len, 0, blocks, l, sizes, CAKIROTU_SIZES) == CAKIROTU_LISTED);
    return 1;
}

/* Token i of a listing as a name. */
static const char *token(const struct lists *l, size_t i, char out[512]) {
    size_t begin = i > 0 ? U32(*l, ENDS)[i - 1] : 0, len = U32(*l, ENDS)[i] - begin;
    len = len < 511 ? len : 511;
    memcpy(out, U8(*l, TEXT) + begin, len);
    out[len] = 0;
    return out;
}

/* Tables of a listing: each line's third token as the call's name, each line's first as the register's. Answers how many were made. */
static int test_record(const char *name, int first) {
    uint64_t sizes[CAKIROTU_SIZES];
    struct lists l;
    char call[512], reg[512];
    int tables = 0;
    if (!listed(name, &l, sizes)) {
        return 0;
    }
    for (size_t i = 0; i < sizes[CAKIROTU_LINES]; i++) {
        size_t begin = i > 0 ? U32(l, LINES)[i - 1] : 0;
        for (size_t j = 0; U32(l, LINES)[i] > begin + 2 && j < sizes[CAKIROTU_LINES]; j++) {
            tabled(&l, sizes, token(&l, begin + 2, call), token(&l, j > 0 ? U32(l, LINES)[j - 1] : 0, reg), NULL);
            tables++;
        }
    }
    if (first) {
        tabled(&l, sizes, "SendText", "rdx",
               "0000000000401014 46410D\n0000000000401023 54583B\n0000000000401036 504F52545C3100\n0000000000401041 -\n");
        tabled(&l, sizes, "SendTex", "rdx", "");
        tabled(&l, sizes, "SendText", "edx", "0000000000401014 -\n0000000000401023 -\n0000000000401036 -\n0000000000401041 -\n");
    }
    give_back(&l);
    return tables;
}

int main(int argc, char **argv) {
    int tables = 0;
    test_null();
    test_lengths();
    test_no_rows();
    test_lines();
    CHECK(argc > 1);
    for (int i = 1; i < argc; i++) {
        tables += test_record(argv[i], i == 1);
    }
    printf("test_tables: %d passed, %d tables of records\n", passed, tables);
    return 0;
}
