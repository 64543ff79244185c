/* A record file and its arrays (docs/RECORD.md, "Header" and "Arrays"). */
#ifndef RECORD_H
#define RECORD_H

#include "bytes.h"

enum { BODY = 92, FALSE_EDGE = 2, FALL_EDGE = 3 };

struct record {
    struct bytes file;
    unsigned bits;
    size_t blocks, insns, edges;
    const uint8_t *marks, *targets, *kinds, *addresses, *bodies;
};

/* 0 if the file is shorter than its sizes say. */
int record_read(struct record *record, const char *path);

uint64_t record_address(const struct record *record, size_t insn);

/* How many instructions and edges a block has. */
size_t record_block_insns(const struct record *record, size_t block);
size_t record_block_edges(const struct record *record, size_t block);

#endif
