/* Connectivity and the parts listing at full size, through the static library. Build and run: bench/graph */
#include "../include/vobzeile.h"
#include <stdio.h>
#include <stdlib.h>
#include <time.h>

enum { N = 4096, M = 65536, B = 262144, E = 65536, R = B + E };
static size_t ends[2 * R], nodes[N + M], labels[N];
static double weights[R];
static uint64_t state = 88172645463325252ull;
static size_t below(size_t k) {
    state ^= state << 13;
    state ^= state >> 7;
    state ^= state << 17;
    return state % k;
}
static double now(void) { struct timespec t; clock_gettime(CLOCK_MONOTONIC, &t); return t.tv_sec + 1e-9 * t.tv_nsec; }

static void row(size_t r, size_t first, size_t second) { ends[2 * r] = first; ends[2 * r + 1] = second; weights[r] = 1.0; }

/* any rows */
static void any(void) {
    for (size_t r = 0; r < B; r++) row(r, below(N), below(M));
    for (size_t r = B; r < R; r++) { size_t s = below(N); row(r, s, (s + 1 + below(N - 1)) % N); }
}
/* one chain through all cameras and points, its links given from the high end or from the low */
static void chain(int high_first) {
    for (size_t r = 0; r < B; r++) { size_t k = (high_first ? B - 1 - r : r) % (2 * M); row(r, (k / 2 + k % 2) % N, k / 2); }
    for (size_t r = B; r < R; r++) { size_t k = (high_first ? R - 1 - r : r - B) % (N - 1); row(r, k, k + 1); }
}

static void run(const char *name) {
    size_t report[1] = {0}, code = 0;
    double yes = 1e9, list = 1e9;
    for (int i = 0; i < 20; i++) {
        double t0 = now();
        code = vobzeile_connected(N, M, B, E, ends, 2 * R, weights, R, nodes, N + M, report, 1);
        double t1 = now();
        size_t answer = report[0];
        vobzeile_parts(N, M, B, E, ends, 2 * R, weights, R, nodes, N + M, labels, N, report, 1);
        double t2 = now();
        if (t1 - t0 < yes) yes = t1 - t0;
        if (t2 - t1 < list) list = t2 - t1;
        if (i == 19) printf("%-28s yes or no %6.2f ms   parts %6.2f ms   (code %zu, answer %zu, parts %zu)\n", name, yes * 1e3, list * 1e3, code, answer, report[0]);
    }
}

int main(void) {
    any(); run("any rows");
    chain(0); run("a chain, low end first");
    chain(1); run("a chain, high end first");
    weights[R - 1] = -1.0; run("the tests alone (last row bad)");
    return 0;
}
