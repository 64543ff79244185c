/* A PE file as it is mapped: the bytes at an address. */
#ifndef IMAGE_H
#define IMAGE_H

#include "bytes.h"

struct image {
    struct bytes file;
    uint64_t base;
    const uint8_t *sections;
    size_t count;
};

/* Ends the program with status 2 if the file is no PE file. */
struct image image_read(const char *path);

/* The file's bytes from an address to its section's end, and how many; NULL if the file has none there. */
const uint8_t *image_at(const struct image *image, uint64_t address, size_t *length);

#endif
