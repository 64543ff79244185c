/* Files as bytes, and little-endian numbers in them. */
#ifndef BYTES_H
#define BYTES_H

#include <stddef.h>
#include <stdint.h>

struct bytes {
    uint8_t *at;
    size_t length;
};

/* The whole file; ends the program with status 2 if it cannot be read. */
struct bytes read_file(const char *path);

/* A number of so many bytes, at most 8. */
uint64_t get(const uint8_t *at, size_t width);
void put(uint8_t *at, uint64_t number, size_t width);

#endif
