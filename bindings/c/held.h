/* What the tests of rows and of command tables share: the listing of examples/worked.txt, and changes after which its lists hold no rows. */
#ifndef HELD_H
#define HELD_H

#include "lent.h"

/* Its rows. */
static const char EXAMPLE[] = "0000000000001002,1,0,K,\"if\",P,\" (\",R,\"eax\",P,\" == \",N,\"0\",P,\") {\"\r\n"
                              "0000000000001004,2,1,R,\"eax\",P,\" = \",N,\"5\",P,\";\"\r\n"
                              ",1,0,P,\"}\"\r\n"
                              "0000000000001010,0,2,S,\"loc_1010\",P,\":\"\r\n"
                              "0000000000001010,1,2,K,\"return\",P,\";\"\r\n";
#define ROWS ((const uint8_t *)EXAMPLE)
#define ROWS_LEN (sizeof EXAMPLE - 1)

/* The lists by their places, and their entries. */
enum { TEXT, ENDS, KINDS, ADDRESSES, MARKS, PLACES, LINES };
#define U8(l, which) ((uint8_t *)(l).at[which])
#define U16(l, which) ((uint16_t *)(l).at[which])
#define U32(l, which) ((uint32_t *)(l).at[which])
#define U64(l, which) ((uint64_t *)(l).at[which])

static void give_back(struct lists *l) {
    for (int i = 0; i < LISTS; i++) {
        free(l->at[i]);
    }
}

/* The example's lists, as reading fills them. */
static struct lists read_example(uint64_t sizes[CAKIROTU_SIZES]) {
    static const uint64_t need[CAKIROTU_SIZES] = {40, 15, 5};
    size_t fit[LISTS];
    exact(need, fit);
    struct lists l = lend(fit);
    CHECK(read_rows(ROWS, ROWS_LEN, &l, sizes, CAKIROTU_SIZES) == CAKIROTU_LISTED);
    CHECK(memcmp(sizes, need, sizeof need) == 0);
    return l;
}

static int all_are(const uint8_t *bytes, size_t from, size_t to, uint8_t byte) {
    for (size_t at = from; at < to; at++) {
        if (bytes[at] != byte) {
            return 0;
        }
    }
    return 1;
}

/* A change of the example's lists or sizes. */
typedef void change(struct lists *l, uint64_t sizes[CAKIROTU_SIZES]);

static void more_text(struct lists *l, uint64_t *sizes) { (void)l, sizes[CAKIROTU_TEXT_BYTES]++; }
static void less_text(struct lists *l, uint64_t *sizes) { (void)l, sizes[CAKIROTU_TEXT_BYTES]--; }
static void more_tokens(struct lists *l, uint64_t *sizes) { (void)l, sizes[CAKIROTU_TOKENS]++; }
static void less_tokens(struct lists *l, uint64_t *sizes) { (void)l, sizes[CAKIROTU_TOKENS]--; }
static void more_lines(struct lists *l, uint64_t *sizes) { (void)l, sizes[CAKIROTU_LINES]++; }
static void less_lines(struct lists *l, uint64_t *sizes) { (void)l, sizes[CAKIROTU_LINES]--; }
static void most_lines(struct lists *l, uint64_t *sizes) { (void)l, sizes[CAKIROTU_LINES] = UINT64_MAX; }
static void wrapped_text(struct lists *l, uint64_t *sizes) { (void)l, sizes[CAKIROTU_TEXT_BYTES] += (uint64_t)1 << 32; }
static void empty_token(struct lists *l, uint64_t *sizes) { (void)sizes, U32(*l, ENDS)[3] = U32(*l, ENDS)[2]; }
static void end_falls(struct lists *l, uint64_t *sizes) { (void)sizes, U32(*l, ENDS)[3] = U32(*l, ENDS)[2] - 1; }
static void end_too_far(struct lists *l, uint64_t *sizes) { (void)sizes, U32(*l, ENDS)[0] = UINT32_MAX; }
static void last_end_short(struct lists *l, uint64_t *sizes) { (void)sizes, U32(*l, ENDS)[14]--; }
static void empty_line(struct lists *l, uint64_t *sizes) { (void)sizes, U32(*l, LINES)[2] = U32(*l, LINES)[1]; }
static void empty_first(struct lists *l, uint64_t *sizes) { (void)sizes, U32(*l, LINES)[0] = 0; }
static void line_too_far(struct lists *l, uint64_t *sizes) { (void)sizes, U32(*l, LINES)[0] = UINT32_MAX; }
static void last_line_short(struct lists *l, uint64_t *sizes) { (void)sizes, U32(*l, LINES)[4]--; }
static void kind_8(struct lists *l, uint64_t *sizes) { (void)sizes, U8(*l, KINDS)[0] = 8; }
static void mark_512(struct lists *l, uint64_t *sizes) { (void)sizes, U16(*l, MARKS)[0] = 512; }
static void indent_255(struct lists *l, uint64_t *sizes) { (void)sizes, U16(*l, MARKS)[0] = 256 + 255; }
static void no_mark(struct lists *l, uint64_t *sizes) { (void)sizes, U16(*l, MARKS)[0] = 1; }
static void address_of_none(struct lists *l, uint64_t *sizes) { (void)sizes, U64(*l, ADDRESSES)[2] = 1; }

static change *const changes[] = {
    more_text,  less_text,      more_tokens, less_tokens, more_lines,   less_lines,      most_lines, wrapped_text, empty_token, end_falls,
    end_too_far, last_end_short, empty_line,  empty_first, line_too_far, last_line_short, kind_8,     mark_512,     indent_255,  no_mark,
    address_of_none,
};
#define CHANGES (sizeof changes / sizeof *changes)

#endif
