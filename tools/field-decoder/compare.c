#include "compare.h"

#include "names.h"
#include "tally.h"

#include <stdio.h>
#include <string.h>

enum { SKIP = 3 };

static const struct {
    const char *name;
    size_t at, width;
} fields[] = {
    {"mnemonic", 0, 1}, {"condition", 1, 1}, {"operands", 2, 1}, {"segment", 4, 1}, {"base", 5, 1}, {"index", 6, 1}, {"scale", 7, 1},
    {"size", 8, 2}, {"memory address", 10, 8},
    {"kind 1", 18, 1}, {"register 1", 19, 1}, {"number 1", 20, 8},
    {"kind 2", 28, 1}, {"register 2", 29, 1}, {"number 2", 30, 8},
    {"kind 3", 38, 1}, {"register 3", 39, 1}, {"number 3", 40, 8},
    {"kind 4", 48, 1}, {"register 4", 49, 1}, {"number 4", 50, 8},
    {"kind 5", 58, 1}, {"register 5", 59, 1}, {"number 5", 60, 8},
    {"name", 68, 24},
};

struct totals total;

static int decode(const struct driver *driver, uint64_t address, struct decoded *decoded) {
    size_t length = 0;
    const uint8_t *bytes = image_at(&driver->image, address, &length);
    decoded->address = address;
    decoded->bytes = bytes;
    return bytes != NULL &&
           ZYAN_SUCCESS(ZydisDecoderDecodeFull(&driver->decoder, bytes, length, &decoded->insn, decoded->operands));
}

/* Whether the field is the same, or differs and is explained. */
static int compare_field(size_t n, const struct difference *difference, const char *path) {
    if (memcmp(difference->recorded + fields[n].at, difference->made + fields[n].at, fields[n].width) == 0)
        return 1;
    int explanation = explanation_of(difference);
    tally_difference(difference, explanation, path);
    return explanation >= 0;
}

static void compare_fields(const uint8_t *recorded, const struct decoded *decoded, const char *path) {
    uint8_t made[BODY] = {0};
    int unexplained = 0;
    put_name(made, &decoded->insn);
    put_operands(made, decoded);
    for (size_t n = 0; n < sizeof fields / sizeof *fields; n++) {
        struct difference difference = {fields[n].name, decoded, recorded, made};
        unexplained += !compare_field(n, &difference, path);
    }
    made[SKIP] = recorded[SKIP];
    int same = memcmp(recorded, made, BODY) == 0;
    total.agree += same;
    total.differ += unexplained > 0;
    total.explained += !same && unexplained == 0;
}

static void compare_length(uint64_t behind, uint64_t next, const char *path) {
    total.lengths++;
    if (behind != next && total.other_lengths++ < 10)
        printf("decoder: differs: length: %s: what follows is at %llx, by Zydis at %llx\n", path, (unsigned long long)next,
               (unsigned long long)behind);
}

/* What follows a block's last instruction is where its False or Fall edge leads. */
static void compare_last(const struct record *record, size_t first_edge, size_t count, uint64_t behind, const char *path) {
    for (size_t n = first_edge; n < first_edge + count && n < record->edges; n++)
        if (record->kinds[n] == FALSE_EDGE || record->kinds[n] == FALL_EDGE)
            compare_length(behind, get(record->targets + 8 * n, 8), path);
}

static uint64_t compare_insn(const struct driver *driver, const struct record *record, size_t n, const char *path) {
    struct decoded decoded;
    uint64_t address = record_address(record, n);
    total.insns++;
    if (!decode(driver, address, &decoded)) {
        if (total.undecoded++ < 10)
            printf("decoder: differs: %s: Zydis does not decode the bytes at %llx\n", path, (unsigned long long)address);
        return 0;
    }
    compare_fields(record->bodies + BODY * n, &decoded, path);
    return address + decoded.insn.length;
}

void compare_record(const struct driver *driver, const struct record *record, const char *path) {
    size_t insn = 0, edge = 0;
    for (size_t block = 0; block < record->blocks; block++) {
        size_t end = insn + record_block_insns(record, block), count = record_block_edges(record, block);
        for (; insn < end && insn < record->insns; insn++) {
            uint64_t behind = compare_insn(driver, record, insn, path);
            if (behind != 0 && insn + 1 < end)
                compare_length(behind, record_address(record, insn + 1), path);
            else if (behind != 0)
                compare_last(record, edge, count, behind, path);
        }
        edge += count;
    }
}
