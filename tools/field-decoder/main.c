/* Compares records with what Zydis decodes of the driver's bytes: decoder < LIST
 * A line of LIST has a driver's path, a tab and a record's path. Every instruction's body is made again after docs/RECORD.md and compared
 * field by field, but for the skip mark; then its length is compared with the address of what follows. The last line counts.
 * Exit status: 0 if every difference is explained, 1 if not, 2 if something cannot be read. */
#include "compare.h"
#include "tally.h"

#include <stdio.h>
#include <stdlib.h>
#include <string.h>

static void set_decoder(ZydisDecoder *decoder, unsigned bits) {
    int wide = bits == 64;
    ZydisDecoderInit(decoder, wide ? ZYDIS_MACHINE_MODE_LONG_64 : ZYDIS_MACHINE_MODE_LEGACY_32,
                     wide ? ZYDIS_STACK_WIDTH_64 : ZYDIS_STACK_WIDTH_32);
}

static void compare_line(struct driver *driver, const char *driver_path, const char *record_path) {
    static char last[8192];
    struct record record;
    if (strcmp(last, driver_path) != 0) {
        free(driver->image.file.at);
        driver->image = image_read(driver_path);
        snprintf(last, sizeof last, "%s", driver_path);
    }
    if (!record_read(&record, record_path)) {
        fprintf(stderr, "decoder: %s is no record\n", record_path);
        exit(2);
    }
    set_decoder(&driver->decoder, record.bits);
    compare_record(driver, &record, record_path);
    free(record.file.at);
}

int main(void) {
    static struct driver driver;
    char line[8192];
    unsigned long records = 0;
    while (fgets(line, sizeof line, stdin) != NULL) {
        char *tab = strchr(line, '\t');
        line[strcspn(line, "\n")] = 0;
        if (tab == NULL)
            return 2;
        *tab = 0;
        compare_line(&driver, line, tab + 1);
        records++;
    }
    if (records == 0) {
        fputs("decoder: the list has no records\n", stderr);
        return 2;
    }
    tally_print();
    printf("decoder: %lu records, %lu lengths, %lu differ\n", records, total.lengths, total.other_lengths);
    printf("decoder: %lu instructions, %lu agree, %lu differ and are explained, %lu differ\n", total.insns, total.agree, total.explained,
           total.differ + total.undecoded);
    return total.differ + total.undecoded + total.other_lengths > 0;
}
