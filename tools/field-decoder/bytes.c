#include "bytes.h"

#include <stdio.h>
#include <stdlib.h>

static void fail(const char *path, const char *why) {
    fprintf(stderr, "decoder: %s: %s\n", path, why);
    exit(2);
}

struct bytes read_file(const char *path) {
    FILE *file = fopen(path, "rb");
    struct bytes out = {NULL, 0};
    long length;
    if (file == NULL)
        fail(path, "cannot be opened");
    if (fseek(file, 0, SEEK_END) != 0 || (length = ftell(file)) < 0 || fseek(file, 0, SEEK_SET) != 0)
        fail(path, "cannot be measured");
    out.length = (size_t)length;
    out.at = malloc(out.length > 0 ? out.length : 1);
    if (out.at == NULL || fread(out.at, 1, out.length, file) != out.length)
        fail(path, "cannot be read");
    fclose(file);
    return out;
}

uint64_t get(const uint8_t *at, size_t width) {
    uint64_t number = 0;
    for (size_t n = width; n > 0; n--)
        number = number << 8 | at[n - 1];
    return number;
}

void put(uint8_t *at, uint64_t number, size_t width) {
    for (size_t n = 0; n < width; n++, number >>= 8)
        at[n] = (uint8_t)number;
}
