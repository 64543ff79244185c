/* Tests records by columns as C calls them: test_columns FILE MORE.., where FILE is the record of examples/worked.txt; every byte of each of the others
 * comes back. Prints `test_columns: N passed`, or what failed. */
#include "lent.h"

#define HEADER 24
#define BODY 92

/* One direction. */
typedef uint8_t rearranger(const uint8_t *rec, size_t rec_len, uint8_t *out, size_t out_len, uint64_t *size, size_t size_len);

static rearranger *const ways[2] = {cakirotu_to_columns, cakirotu_from_columns};

/* Where the bodies of a record begin. */
static size_t bodies_at(const uint8_t *rec) { return HEADER + 12 * u16_at(rec, 4) + 9 * u16_at(rec, 8) + 8 * u16_at(rec, 6); }

/* A call in memory of just the lengths, each byte 0xee before it: this answer, and with 0 these bytes. */
static void stores(rearranger *way, const uint8_t *rec, size_t len, size_t room, uint8_t answer, const uint8_t *want) {
    const size_t lent[LISTS] = {room}, filled[LISTS] = {answer == CAKIROTU_LISTED ? len : 0};
    struct lists l = lend(lent);
    uint8_t *own = copied(rec, len);
    uint64_t size = 7;
    CHECK(way(own, len, l.at[0], room, &size, 1) == answer);
    CHECK(size == filled[0]);
    CHECK(filled[0] == 0 || memcmp(l.at[0], want, len) == 0);
    CHECK(memcmp(own, rec, len) == 0);
    CHECK(unchanged(&l, filled));
    free(own);
}

/* The record by columns: byte k of every body, for each k in turn. */
static void by_columns(const uint8_t *rec, size_t len, uint8_t *out) {
    size_t at = bodies_at(rec), bodies = u16_at(rec, 6);
    memcpy(out, rec, len);
    for (size_t byte = 0; byte < BODY; byte++) {
        for (size_t body = 0; body < bodies; body++) {
            out[at + bodies * byte + body] = rec[at + BODY * body + byte];
        }
    }
}

/* Both ways of a record that is accepted, in lists that fit, that are longer, one byte too short and empty. */
static void both_ways(const uint8_t *rec, size_t len) {
    uint8_t *stored = copied(rec, len), *turned = copied(rec, len);
    uint64_t size;
    by_columns(rec, len, stored);
    stores(cakirotu_from_columns, stored, len, len, CAKIROTU_LISTED, rec);
    CHECK(cakirotu_from_columns(rec, len, turned, len, &size, 1) == CAKIROTU_LISTED);
    stores(cakirotu_to_columns, turned, len, len, CAKIROTU_LISTED, rec);
    const uint8_t *const want[2] = {stored, turned};
    for (int i = 0; i < 2; i++) {
        stores(ways[i], rec, len, len, CAKIROTU_LISTED, want[i]);
        stores(ways[i], rec, len, len + 3, CAKIROTU_LISTED, want[i]);
        stores(ways[i], rec, len, len - 1, CAKIROTU_NO_TEXT_ROOM, NULL);
        stores(ways[i], rec, len, 0, CAKIROTU_NO_TEXT_ROOM, NULL);
    }
    free(stored);
    free(turned);
}

/* Bytes that are refused, whatever room there is. */
static void refused(const uint8_t *rec, size_t len, uint8_t answer) {
    for (int i = 0; i < 2; i++) {
        stores(ways[i], rec, len, 0, answer, NULL);
        stores(ways[i], rec, len, len + 3, answer, NULL);
    }
}

/* Nothing at all: NULL for everything. */
static void test_null(const uint8_t *rec, size_t len) {
    for (int i = 0; i < 2; i++) {
        uint64_t size = 7;
        CHECK(ways[i](NULL, 0, NULL, 0, NULL, 0) == CAKIROTU_NO_HEADER);
        CHECK(ways[i](NULL, 0, NULL, 0, &size, 1) == CAKIROTU_NO_HEADER && size == 0);
        CHECK(ways[i](rec, len, NULL, 0, NULL, 0) == CAKIROTU_NO_TEXT_ROOM);
    }
}

/* A list for the size of no, one and two entries, with a record and with a refusal. */
static void test_sizes(const uint8_t *rec, size_t len) {
    for (size_t n = 0; n < 6; n++) {
        uint64_t size[2][2] = {{7, 7}, {7, 7}};
        uint8_t *out = copied(rec, len);
        CHECK(ways[n % 2](rec, len, out, len, size[0], n / 2) == CAKIROTU_LISTED);
        CHECK(ways[n % 2](rec, len, out, len - 1, size[1], n / 2) == CAKIROTU_NO_TEXT_ROOM);
        CHECK(size[0][0] == (n / 2 > 0 ? len : 7) && size[0][1] == 7);
        CHECK(size[1][0] == (n / 2 > 0 ? 0 : 7) && size[1][1] == 7);
        free(out);
    }
}

/* Every shorter record, and each of the first four questions before those behind it and before 12. */
static void test_refused(const uint8_t *rec, size_t len) {
    uint8_t *own = copied(rec, len);
    for (size_t n = 0; n < len; n++) {
        refused(rec, n, n < HEADER ? CAKIROTU_NO_HEADER : CAKIROTU_NO_LENGTH);
    }
    own[4]++;
    refused(own, len, CAKIROTU_NO_LENGTH);
    own[21] = 56;
    refused(own, len, CAKIROTU_NO_LIMITS);
    own[0]++;
    refused(own, len, CAKIROTU_NO_SETTINGS);
    free(own);
}

/* A record of these sizes with any bytes where the first four questions do not look: most later ones would get a no. */
static void of_sizes(const size_t sizes[6], uint8_t rec[CAKIROTU_RECORD_BYTES]) {
    static const size_t places[6] = {4, 6, 8, 10, 12, 22}, bytes[6] = {12, 100, 9, 10, 16, 1};
    uint32_t any = 1;
    size_t len = HEADER;
    memset(rec, 0, HEADER);
    rec[0] = 64;
    for (int i = 0; i < 6; i++) {
        rec[places[i]] = (uint8_t)sizes[i];
        rec[places[i] + 1] = (uint8_t)(sizes[i] >> 8);
        len += sizes[i] * bytes[i];
    }
    CHECK(len <= CAKIROTU_RECORD_BYTES);
    for (size_t at = HEADER; at < len; at++) {
        any = any * 1664525 + 1013904223;
        rec[at] = (uint8_t)(any >> 24);
    }
    both_ways(rec, len);
}

/* No to ten bodies, as many as one byte counts, and every size at its limit. */
static void test_sizes_of_records(void) {
    static uint8_t rec[CAKIROTU_RECORD_BYTES];
    static const size_t bodies[] = {0, 1, 2, 3, 10, 91, 92, 93, 255, 256, 257, 499, 500};
    for (size_t i = 0; i < sizeof bodies / sizeof *bodies; i++) {
        of_sizes((const size_t[6]){2, bodies[i], 1, 1, 1, 3}, rec);
        of_sizes((const size_t[6]){0, bodies[i], 0, 0, 0, 0}, rec);
    }
    of_sizes((const size_t[6]){200, 500, 600, 200, 32, 4000}, rec);
}

/* A file's record: by columns and back if the first four questions get a yes. Answers 1 then. */
static int test_record(const char *name) {
    static uint8_t rec[MOST_RECORD];
    size_t len = read_record(name, rec);
    uint8_t no = cakirotu_to_columns(rec, len, NULL, 0, NULL, 0);
    if (no != CAKIROTU_NO_TEXT_ROOM) {
        CHECK(no >= CAKIROTU_NO_HEADER && no <= CAKIROTU_NO_LENGTH);
        refused(rec, len, no);
        return 0;
    }
    both_ways(rec, len);
    return 1;
}

int main(int argc, char **argv) {
    static uint8_t rec[MOST_RECORD];
    int records = 0;
    CHECK(argc > 1);
    size_t len = read_record(argv[1], rec);
    test_null(rec, len);
    test_sizes(rec, len);
    test_refused(rec, len);
    test_sizes_of_records();
    for (int i = 2; i < argc; i++) {
        records += test_record(argv[i]);
    }
    printf("test_columns: %d passed, %d records by columns and back\n", passed, records);
    return 0;
}
