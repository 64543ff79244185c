#include "record.h"

enum { HEADER = 24 };

int record_read(struct record *record, const char *path) {
    record->file = read_file(path);
    const uint8_t *file = record->file.at;
    if (record->file.length < HEADER)
        return 0;
    record->bits = (unsigned)get(file, 2);
    record->blocks = get(file + 4, 2);
    record->insns = get(file + 6, 2);
    record->edges = get(file + 8, 2);
    record->marks = file + HEADER + 8 * record->blocks;
    record->targets = record->marks + 4 * record->blocks;
    record->kinds = record->targets + 8 * record->edges;
    record->addresses = record->kinds + record->edges;
    record->bodies = record->addresses + 8 * record->insns;
    size_t least = HEADER + 12 * record->blocks + 9 * record->edges + (8 + BODY) * record->insns;
    return record->file.length >= least;
}

uint64_t record_address(const struct record *record, size_t insn) { return get(record->addresses + 8 * insn, 8); }

size_t record_block_insns(const struct record *record, size_t block) { return get(record->marks + 4 * block, 2); }

size_t record_block_edges(const struct record *record, size_t block) { return record->marks[4 * block + 2]; }
