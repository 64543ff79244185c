#include "image.h"

#include <stdio.h>
#include <stdlib.h>

enum { FILE_HEADER = 24, SECTION = 40, PE32_PLUS = 0x20b };

static void need(int holds, const char *path) {
    if (!holds) {
        fprintf(stderr, "decoder: %s is no PE file\n", path);
        exit(2);
    }
}

struct image image_read(const char *path) {
    struct image image = {.file = read_file(path)};
    const uint8_t *file = image.file.at;
    size_t length = image.file.length;
    need(length >= 64 && get(file, 2) == 0x5a4d, path);
    size_t header = get(file + 60, 4);
    need(header + FILE_HEADER + 32 <= length && get(file + header, 4) == 0x4550, path);
    image.count = get(file + header + 6, 2);
    size_t optional = header + FILE_HEADER;
    size_t sections = optional + get(file + header + 20, 2);
    need(sections + image.count * SECTION <= length, path);
    image.sections = file + sections;
    image.base = get(file + optional, 2) == PE32_PLUS ? get(file + optional + 24, 8) : get(file + optional + 28, 4);
    return image;
}

const uint8_t *image_at(const struct image *image, uint64_t address, size_t *length) {
    for (size_t n = 0; n < image->count; n++) {
        const uint8_t *section = image->sections + n * SECTION;
        uint64_t from = get(section + 20, 4), size = get(section + 16, 4), first = image->base + get(section + 12, 4);
        if (address < first || address - first >= size || from + size > image->file.length)
            continue;
        *length = size - (address - first);
        return image->file.at + from + (address - first);
    }
    return NULL;
}
