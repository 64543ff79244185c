/* Differences whose reason is known and that are no mistakes of the record: both decoders are right, or Zydis is not. */
#ifndef EXPLAINED_H
#define EXPLAINED_H

#include "operands.h"

/* One field of one instruction in which record and Zydis differ. */
struct difference {
    const char *field;
    const struct decoded *decoded;
    const uint8_t *recorded, *made;
};

struct explanation {
    const char *reason;
    int (*explains)(const struct difference *difference);
};

extern const struct explanation explanations[];
extern const size_t explanation_count;

/* The place of the first that explains the difference, or -1 if there is none. */
int explanation_of(const struct difference *difference);

#endif
