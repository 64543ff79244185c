/* Counts of differences by field and mnemonic, with the first example of each. */
#ifndef TALLY_H
#define TALLY_H

#include "explained.h"

/* Counts a difference; the path is that of the record. */
void tally_difference(const struct difference *difference, int explanation, const char *path);

/* Prints the explanations that were needed, then every unexplained field and mnemonic. */
void tally_print(void);

#endif
