/* Every instruction of a record against what Zydis decodes at its address. */
#ifndef COMPARE_H
#define COMPARE_H

#include "image.h"
#include "record.h"

#include <Zydis/Zydis.h>

struct driver {
    struct image image;
    ZydisDecoder decoder;
};

/* Instructions are each counted once: as agreeing, explained, differing or not decoded by Zydis. */
struct totals {
    unsigned long insns, agree, explained, differ, undecoded;
    unsigned long lengths, other_lengths;
};

extern struct totals total;

/* Counts into `total` and the tally; the path is that of the record. */
void compare_record(const struct driver *driver, const struct record *record, const char *path);

#endif
