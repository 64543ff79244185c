/* The speed of libcsv on files of rows: rows SET FILE.., prints `libcsv WAY SET MB/s`. Both ways work in memory; the best of several turns counts.
 * Reading stores the fields' bytes and ends and the rows' ends; writing quotes every field. */
#include <csv.h>
#include <stdio.h>
#include <stdlib.h>
#include <time.h>

#define MOST (1 << 24)

static unsigned char file[MOST], text[MOST], out[2 * MOST];
static size_t ends[MOST / 2], rows[MOST / 4], len, bytes, fields, lines;

static void field(void *s, size_t n, void *p) {
    const unsigned char *from = s;
    (void)p;
    for (size_t i = 0; i < n; i++) {
        text[bytes++] = from[i];
    }
    ends[fields++] = bytes;
}

static void line(int c, void *p) {
    (void)c, (void)p;
    rows[lines++] = fields;
}

static void reads(void) {
    struct csv_parser parser;
    bytes = fields = lines = 0;
    csv_init(&parser, CSV_STRICT | CSV_STRICT_FINI);
    if (csv_parse(&parser, file, len, field, line, NULL) != len || csv_fini(&parser, field, line, NULL) != 0) {
        puts("libcsv refuses the files");
        exit(1);
    }
    csv_free(&parser);
}

static void writes(void) {
    size_t at = 0, from = 0, f = 0;
    for (size_t l = 0; l < lines; l++) {
        for (; f < rows[l]; f++) {
            at += csv_write(out + at, sizeof out - at, text + from, ends[f] - from);
            from = ends[f];
            out[at++] = ',';
        }
        out[at - 1] = '\r';
        out[at++] = '\n';
    }
}

static double now(void) {
    struct timespec t;
    clock_gettime(CLOCK_MONOTONIC, &t);
    return (double)t.tv_sec + 1e-9 * (double)t.tv_nsec;
}

static void best(const char *way, const char *set, void (*work)(void)) {
    double least = 1e9, began = now();
    while (now() - began < 0.5) {
        double start = now();
        work();
        double took = now() - start;
        least = took < least ? took : least;
    }
    printf("libcsv %s %s %.1f\n", way, set, (double)len / least / 1e6);
}

int main(int argc, char **argv) {
    for (int i = 2; i < argc; i++) {
        FILE *from = fopen(argv[i], "rb");
        if (from == NULL) {
            return 1;
        }
        len += fread(file + len, 1, sizeof file - len, from);
        fclose(from);
    }
    reads();
    best("write", argv[1], writes);
    best("read", argv[1], reads);
    return 0;
}
