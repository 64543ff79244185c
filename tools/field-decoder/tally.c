#include "tally.h"

#include <stdio.h>
#include <string.h>

enum { ROWS = 1024, TEXT = 512, SHOWN = 46 };

struct row {
    char key[64], example[TEXT];
    int explanation;
    unsigned long count;
};

static struct row rows[ROWS];
static size_t row_count;

static void hex(char *out, const uint8_t *bytes, size_t length) {
    for (size_t n = 0; n < length; n++)
        sprintf(out + 2 * n, "%02x", bytes[n]);
}

/* The record's file, the address, the instruction's bytes, and both bodies from the count of operands to the third one. */
static void describe(char *out, const struct difference *d, const char *path) {
    char bytes[2 * ZYDIS_MAX_INSTRUCTION_LENGTH + 1] = "", recorded[2 * SHOWN + 1], made[2 * SHOWN + 1];
    const char *name = strrchr(path, '/') == NULL ? path : strrchr(path, '/') + 1;
    hex(bytes, d->decoded->bytes, d->decoded->insn.length);
    hex(recorded, d->recorded + 2, SHOWN);
    hex(made, d->made + 2, SHOWN);
    snprintf(out, TEXT, "%s %llx: %s: recorded %s %.24s, by Zydis %s %.24s", name, (unsigned long long)d->decoded->address, bytes, recorded,
             (const char *)d->recorded + 68, made, (const char *)d->made + 68);
}

static struct row *find(const char *key, int explanation) {
    for (size_t n = 0; n < row_count; n++)
        if (rows[n].explanation == explanation && strcmp(rows[n].key, key) == 0)
            return &rows[n];
    if (row_count == ROWS)
        return &rows[ROWS - 1];
    snprintf(rows[row_count].key, sizeof rows->key, "%s", key);
    rows[row_count].explanation = explanation;
    return &rows[row_count++];
}

void tally_difference(const struct difference *difference, int explanation, const char *path) {
    char key[64];
    snprintf(key, sizeof key, "%s of %s", difference->field, ZydisMnemonicGetString(difference->decoded->insn.mnemonic));
    struct row *row = find(key, explanation);
    if (row->count++ == 0)
        describe(row->example, difference, path);
}

static void print_explained(int explanation) {
    unsigned long count = 0;
    for (size_t n = 0; n < row_count; n++)
        if (rows[n].explanation == explanation)
            count += rows[n].count;
    if (count > 0)
        printf("decoder: explained: %lu: %s\n", count, explanations[explanation].reason);
}

void tally_print(void) {
    for (size_t n = 0; n < explanation_count; n++)
        print_explained((int)n);
    for (size_t n = 0; n < row_count; n++)
        if (rows[n].explanation < 0)
            printf("decoder: differs: %lu: %s: %s\n", rows[n].count, rows[n].key, rows[n].example);
}
