/* What the C tests share: checks that are counted, and lists in memory of just their length, so that a memory checker sees every step past
 * them. */
#ifndef LENT_H
#define LENT_H

#include "cakirotu.h"

#include <stdio.h>
#include <stdlib.h>
#include <string.h>

#define LISTS 7

static const size_t ENTRY[LISTS] = {sizeof(uint8_t),  sizeof(uint32_t), sizeof(uint8_t), sizeof(uint64_t),
                                    sizeof(uint16_t), sizeof(uint16_t), sizeof(uint32_t)};
static const uint8_t TOO_SHORT[LISTS] = {CAKIROTU_NO_TEXT_ROOM, CAKIROTU_NO_TOKEN_ROOM, CAKIROTU_NO_TOKEN_ROOM, CAKIROTU_NO_LINE_ROOM,
                                         CAKIROTU_NO_LINE_ROOM, CAKIROTU_NO_LINE_ROOM,  CAKIROTU_NO_LINE_ROOM};
static int passed;

#define CHECK(what)                                                            \
    do {                                                                       \
        if (!(what)) {                                                         \
            printf("%s: line %d failed: %s\n", __FILE__, __LINE__, #what);     \
            exit(1);                                                           \
        }                                                                      \
        passed++;                                                              \
    } while (0)

/* The lists in the call's order: text, ends, kinds, addresses, marks, places, lines. */
struct lists {
    size_t len[LISTS];
    void *at[LISTS];
};

/* Memory of so many bytes, each 0xee; NULL for none. */
static void *memory(size_t bytes) {
    if (bytes == 0) {
        return NULL;
    }
    void *at = malloc(bytes);
    CHECK(at != NULL);
    return memset(at, 0xee, bytes);
}

/* Memory for each list with every byte 0xee; NULL for a list of length 0. */
static struct lists lend(const size_t len[LISTS]) {
    struct lists l;
    for (int i = 0; i < LISTS; i++) {
        l.len[i] = len[i];
        l.at[i] = memory(len[i] * ENTRY[i]);
    }
    return l;
}

/* Frees the lists and tells whether they are as they were lent from these places on. Inline, as others below, since not every test calls it. */
static inline int unchanged(struct lists *l, const size_t from[LISTS]) {
    int same = 1;
    for (int i = 0; i < LISTS; i++) {
        const uint8_t *bytes = l->at[i];
        for (size_t at = from[i] * ENTRY[i]; at < l->len[i] * ENTRY[i]; at++) {
            same = same && bytes[at] == 0xee;
        }
        free(l->at[i]);
    }
    return same;
}

static inline uint8_t *copied(const uint8_t *bytes, size_t len) {
    uint8_t *copy = malloc(len > 0 ? len : 1);
    CHECK(copy != NULL);
    memcpy(copy, bytes, len);
    return copy;
}

/* The bytes of a record's file; answers how many there are. */
#define MOST_RECORD 65536
static inline size_t read_record(const char *name, uint8_t rec[MOST_RECORD]) {
    FILE *file = fopen(name, "rb");
    CHECK(file != NULL);
    size_t len = fread(rec, 1, MOST_RECORD, file);
    fclose(file);
    return len;
}

/* A number of a record's header. */
static inline size_t u16_at(const uint8_t *rec, size_t at) { return (size_t)rec[at] | (size_t)rec[at + 1] << 8; }

static inline uint8_t list(const uint8_t *rec, size_t len, size_t from, size_t to, const struct lists *l, uint64_t *sizes, size_t n) {
    return cakirotu_list(rec, len, from, to, l->at[0], l->len[0], l->at[1], l->len[1], l->at[2], l->len[2], l->at[3], l->len[3], l->at[4],
                         l->len[4], l->at[5], l->len[5], l->at[6], l->len[6], sizes, n);
}

static inline uint8_t write_rows(const struct lists *l, const uint64_t *sizes, size_t n, uint8_t *out, size_t out_len, uint64_t *size,
                                 size_t size_len) {
    return cakirotu_write_rows(l->at[0], l->len[0], l->at[1], l->len[1], l->at[2], l->len[2], l->at[3], l->len[3], l->at[4], l->len[4],
                               l->at[5], l->len[5], l->at[6], l->len[6], sizes, n, out, out_len, size, size_len);
}

static inline uint8_t read_rows(const uint8_t *file, size_t len, const struct lists *l, uint64_t *sizes, size_t n) {
    return cakirotu_read_rows(file, len, l->at[0], l->len[0], l->at[1], l->len[1], l->at[2], l->len[2], l->at[3], l->len[3], l->at[4],
                              l->len[4], l->at[5], l->len[5], l->at[6], l->len[6], sizes, n);
}

static const size_t NONE[LISTS];

/* The lengths that a listing of these sizes needs. */
static inline void exact(const uint64_t sizes[CAKIROTU_SIZES], size_t len[LISTS]) {
    static const int which[LISTS] = {CAKIROTU_TEXT_BYTES, CAKIROTU_TOKENS, CAKIROTU_TOKENS, CAKIROTU_LINES,
                                     CAKIROTU_LINES,      CAKIROTU_LINES,  CAKIROTU_LINES};
    for (int i = 0; i < LISTS; i++) {
        len[i] = (size_t)sizes[which[i]];
    }
}

#endif
