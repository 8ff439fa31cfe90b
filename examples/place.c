/*
 * Places the network image of a file by the C functions, and prints cameras and points as decimal numbers. From the root of the repository:
 *
 *   bench/library
 *   gcc -std=c11 -O2 -o target/place examples/place.c target/staticlib/libexports.a
 *   target/place examples/healthy-strip.image
 */
#include "../include/vobzeile.h"
#include <stdio.h>
#include <stdlib.h>

/* Room for `count` elements, never NULL and never of size 0: a buffer of length 0 still wants an address. */
static void *room(size_t count, size_t size) {
    void *memory = calloc(count + 1, size);
    if (!memory) {
        fputs("no memory\n", stderr);
        exit(2);
    }
    return memory;
}

/* The bytes of a file. */
static uint8_t *load(const char *name, size_t *length) {
    FILE *file = fopen(name, "rb");
    if (!file) {
        perror(name);
        exit(2);
    }
    size_t space = 1 << 16, used = 0, got;
    uint8_t *bytes = room(space, 1);
    while ((got = fread(bytes + used, 1, space - used, file)) > 0) {
        used += got;
        if (used == space) {
            space *= 2;
            uint8_t *more = realloc(bytes, space);
            if (!more) {
                fputs("no memory\n", stderr);
                exit(2);
            }
            bytes = more;
        }
    }
    if (ferror(file)) {
        perror(name);
        exit(2);
    }
    fclose(file);
    *length = used;
    return bytes;
}

/* Ends the program where a call refused; the header has the numbers in words. 11 to 13, which only a solve returns, name a camera too. */
static void check(const char *call, size_t code, const size_t *report) {
    if (code != 0) {
        fprintf(stderr, "%s: refused %zu place %zu", call, code, report[0]);
        if (code >= 11 && code <= 13)
            fprintf(stderr, " camera %zu", report[1]);
        fputc('\n', stderr);
        exit(1);
    }
}

static void print(char name, size_t count, const double *v) {
    for (size_t i = 0; i < count; i++)
        printf("%c %zu %.17g %.17g %.17g\n", name, i, v[3 * i], v[3 * i + 1], v[3 * i + 2]);
}

int main(int argc, char **argv) {
    if (argc != 2) {
        fprintf(stderr, "usage: %s IMAGE\n", argv[0]);
        return 2;
    }
    size_t length, report[4] = {0};
    uint8_t *bytes = load(argv[1], &length);

    /* The counts say how long the buffers must be. */
    check("counts", vobzeile_counts(bytes, length, report, 4), report);
    const size_t n = report[0], m = report[1], b = report[2], e = report[3], r = b + e;
    size_t *ends = room(2 * r, sizeof *ends), *offsets = room(m + 1, sizeof *offsets), *rows = room(b, sizeof *rows);
    double *rays = room(3 * r, sizeof *rays), *weights = room(r, sizeof *weights), *scales = room(r, sizeof *scales);
    double *points = room(3 * m, sizeof *points), *cameras = room(3 * n, sizeof *cameras), *placed = room(3 * m, sizeof *placed);
    check("read", vobzeile_read(bytes, length, ends, 2 * r, rays, 3 * r, weights, r, scales, r, points, 3 * m, report, 4), report);
    /* The solve would take the bearings of a point in any order; these are ascending. */
    check("list_points", vobzeile_list_points(m, b, ends, 2 * r, offsets, m + 1, rows, b, report, 1), report);

    /* Cameras of different parts are placed, but their distance means nothing. */
    size_t *nodes = room(n + m, sizeof *nodes), *labels = room(n, sizeof *labels);
    check("parts", vobzeile_parts(n, m, b, e, ends, 2 * r, weights, r, nodes, n + m, labels, n, report, 1), report);
    const size_t parts = report[0];

    /* Iterative, then dense where that refuses and n-1 is at most the limit; 48 is the solve program's. */
    const size_t route = 3, limit = 48;
    check("work_length", vobzeile_work_length(n, m, b, e, route, limit, report, 1), report);
    const size_t work_len = report[0];
    double *work = room(work_len, sizeof *work);
    size_t *marks = room(b, sizeof *marks);
    check("solve",
        vobzeile_solve(n, m, b, e, ends, 2 * r, rays, 3 * r, weights, r, scales, r, points, 3 * m, offsets, m + 1, rows, b, marks, b,
            route, limit, work, work_len, cameras, 3 * n, placed, 3 * m, report, 4),
        report);

    printf("cameras %zu points %zu bearings %zu directions %zu parts %zu\n", n, m, b, e, parts);
    printf("anchor %zu route %zu rounds %zu\nfew %zu\n", report[0], report[1], report[2], report[3]);
    print('c', n, cameras);
    print('p', m, placed);

    free(bytes), free(ends), free(offsets), free(rows), free(rays), free(weights), free(scales), free(points), free(cameras), free(placed);
    free(nodes), free(labels), free(work), free(marks);
    return ferror(stdout) || fflush(stdout) ? 2 : 0;
}
