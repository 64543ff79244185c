/* Tests small routines as C calls them: test_routines. Makes every one, compares it with a record made here from its number, lists it, and puts the
 * listing into rows and back. Prints `test_routines: N passed`, or what failed. */
#include "lent.h"

#define HEADER 24
#define BODY 92
#define MOST_BLOCKS 3

/* What a block ends with, and the block that it jumps to. */
enum ending { RET, FALL, JMP, JNE };
struct block {
    enum ending ending;
    size_t to;
};

/* A routine's blocks by its number; answers how many there are. */
static size_t blocks_of(size_t k, struct block blocks[MOST_BLOCKS]) {
    size_t n = k < 2 ? 1 : k < 20 ? 2 : 3, rest = k - (k < 2 ? 0 : k < 20 ? 2 : 20);
    for (size_t place = n; place-- > 0;) {
        size_t falls = place + 1 < n ? 1 : 0, endings = falls ? 2 + 2 * n : 1 + n, choice = rest % endings;
        rest /= endings;
        if (choice <= falls) {
            blocks[place] = (struct block){choice == 0 ? RET : FALL, place + 1};
        } else {
            choice -= 1 + falls;
            blocks[place] = (struct block){choice < n ? JMP : JNE, choice % n};
        }
    }
    return n;
}

static void put(uint8_t *at, size_t bytes, uint64_t number) {
    for (size_t i = 0; i < bytes; i++) {
        at[i] = (uint8_t)(number >> 8 * i);
    }
}

static uint64_t start(size_t place) { return 0x1000 + 16 * (uint64_t)place; }

static void put_body(uint8_t body[BODY], struct block b) {
    static const uint8_t mnemonics[4] = {24, 1, 25, 0}, operands[4] = {0, 2, 1, 1};
    body[0] = mnemonics[b.ending];
    body[2] = operands[b.ending];
    body[7] = 1;
    if (b.ending == FALL) {
        body[19] = 64;
        body[28] = 5;
        body[30] = 1;
    } else if (b.ending != RET) {
        body[18] = 2;
        put(body + 20, 8, start(b.to));
    }
    if (b.ending == JNE) {
        body[1] = 6;
        memcpy(body + 68, "jne", 3);
    }
}

/* The edges of a block: targets and kinds from these places on; answers how many there are. */
static size_t put_edges(uint8_t *targets, uint8_t *kinds, struct block b, size_t place) {
    static const size_t counts[4] = {0, 1, 1, 2};
    static const uint8_t first[4] = {0, 3, 0, 1};
    if (b.ending != RET) {
        put(targets, 8, start(b.to));
        kinds[0] = first[b.ending];
    }
    if (b.ending == JNE) {
        put(targets + 8, 8, start(place + 1));
        kinds[1] = 2;
    }
    return counts[b.ending];
}

/* The record of a routine by its number; answers how many bytes it has. */
static size_t record_of(size_t k, uint8_t rec[CAKIROTU_ROUTINE_BYTES]) {
    struct block blocks[MOST_BLOCKS];
    size_t n = blocks_of(k, blocks), edges = 0, at = 0;
    for (size_t place = 0; place < n; place++) {
        edges += blocks[place].ending == JNE ? 2 : blocks[place].ending == RET ? 0 : 1;
    }
    uint8_t *starts = rec + HEADER, *marks = starts + 8 * n, *targets = marks + 4 * n, *kinds = targets + 8 * edges;
    uint8_t *addresses = kinds + edges, *bodies = addresses + 8 * n;
    memset(rec, 0, CAKIROTU_ROUTINE_BYTES);
    rec[0] = 64;
    rec[2] = rec[21] = 1;
    rec[4] = rec[6] = (uint8_t)n;
    rec[8] = (uint8_t)edges;
    for (size_t place = 0; place < n; place++) {
        size_t own = put_edges(targets + 8 * at, kinds + at, blocks[place], place);
        put(starts + 8 * place, 8, start(place));
        put(marks + 4 * place, 4, 1 | own << 16 | 1 << 24);
        put(addresses + 8 * place, 8, start(place));
        put_body(bodies + BODY * place, blocks[place]);
        at += own;
    }
    return (size_t)(bodies - rec) + BODY * n;
}

/* A call in memory of just the length, each byte 0xee before it: this answer, and with 0 these bytes. */
static void makes(size_t k, size_t room, uint8_t answer, const uint8_t *want, size_t len) {
    const size_t lent[LISTS] = {room}, filled[LISTS] = {answer == CAKIROTU_LISTED ? len : 0};
    struct lists l = lend(lent);
    uint64_t size = 7;
    CHECK(cakirotu_routine(k, l.at[0], room, &size, 1) == answer);
    CHECK(size == filled[0]);
    CHECK(filled[0] == 0 || memcmp(l.at[0], want, len) == 0);
    CHECK(unchanged(&l, filled));
}

/* A list for the size of no, one and two entries, with a record and with both numbers. */
static void test_sizes(size_t k, size_t len) {
    static uint8_t out[CAKIROTU_ROUTINE_BYTES];
    for (size_t n = 0; n < 3; n++) {
        uint64_t size[3][2] = {{7, 7}, {7, 7}, {7, 7}};
        CHECK(cakirotu_routine(k, out, sizeof out, size[0], n) == CAKIROTU_LISTED);
        CHECK(cakirotu_routine(k, out, len - 1, size[1], n) == CAKIROTU_NO_TEXT_ROOM);
        CHECK(cakirotu_routine(k + CAKIROTU_ROUTINES, out, sizeof out, size[2], n) == CAKIROTU_NO_ROUTINE);
        for (int call = 0; call < 3; call++) {
            CHECK(size[call][0] == (n == 0 ? 7 : call == 0 ? len : 0) && size[call][1] == 7);
        }
    }
}

/* The listing of a record goes into rows and comes back. */
static void test_listing(const uint8_t *rec, size_t len) {
    static uint8_t rows[2][4096];
    uint64_t sizes[CAKIROTU_SIZES], again[CAKIROTU_SIZES], size[2];
    size_t fit[LISTS];
    CHECK(cakirotu_size(rec, len, 0, u16_at(rec, 4), sizes, CAKIROTU_SIZES) == CAKIROTU_LISTED);
    exact(sizes, fit);
    struct lists listed = lend(fit), back = lend(fit);
    CHECK(list(rec, len, 0, u16_at(rec, 4), &listed, sizes, CAKIROTU_SIZES) == CAKIROTU_LISTED);
    CHECK(write_rows(&listed, sizes, CAKIROTU_SIZES, rows[0], sizeof rows[0], &size[0], 1) == CAKIROTU_LISTED);
    CHECK(read_rows(rows[0], size[0], &back, again, CAKIROTU_SIZES) == CAKIROTU_LISTED);
    CHECK(write_rows(&back, again, CAKIROTU_SIZES, rows[1], sizeof rows[1], &size[1], 1) == CAKIROTU_LISTED);
    CHECK(size[0] == size[1] && memcmp(rows[0], rows[1], size[0]) == 0);
    CHECK(unchanged(&listed, fit) && unchanged(&back, fit));
}

/* Every routine in lists that fit, that are longer, and of every shorter length; answers how many may be followed. */
static int test_routines(void) {
    static uint8_t rec[CAKIROTU_ROUTINE_BYTES];
    int follow = 0;
    for (size_t k = 0; k < CAKIROTU_ROUTINES; k++) {
        size_t len = record_of(k, rec);
        uint64_t broken;
        for (size_t room = 0; room < len; room++) {
            makes(k, room, CAKIROTU_NO_TEXT_ROOM, NULL, 0);
        }
        makes(k, len, CAKIROTU_LISTED, rec, len);
        makes(k, len + 3, CAKIROTU_LISTED, rec, len);
        makes(k, CAKIROTU_ROUTINE_BYTES, CAKIROTU_LISTED, rec, len);
        test_sizes(k, len);
        test_listing(rec, len);
        CHECK(cakirotu_check(rec, len, &broken, 1) == CAKIROTU_LISTED);
        follow += broken == CAKIROTU_FOLLOWS;
    }
    return follow;
}

/* Numbers that no routine has: the next ones, those that have a routine's in their low bits, the last ones. 18 comes before 12. */
static void test_refused(void) {
    static const size_t turns[] = {CAKIROTU_ROUTINES, 1 << 9, 1 << 16, (size_t)1 << 32, (size_t)1 << 63, SIZE_MAX - CAKIROTU_ROUTINES + 1};
    for (size_t i = 0; i < sizeof turns / sizeof *turns; i++) {
        for (size_t k = 0; k < CAKIROTU_ROUTINES; k++) {
            makes(turns[i] + k, 0, CAKIROTU_NO_ROUTINE, NULL, 0);
            makes(turns[i] + k, CAKIROTU_ROUTINE_BYTES, CAKIROTU_NO_ROUTINE, NULL, 0);
        }
    }
    CHECK(cakirotu_routine(0, NULL, 0, NULL, 0) == CAKIROTU_NO_TEXT_ROOM);
    CHECK(cakirotu_routine(CAKIROTU_ROUTINES, NULL, 0, NULL, 0) == CAKIROTU_NO_ROUTINE);
}

int main(void) {
    int follow = test_routines();
    CHECK(follow == 137);
    test_refused();
    printf("test_routines: %d passed, %d routines, of which %d may be followed\n", passed, CAKIROTU_ROUTINES, follow);
    return 0;
}
