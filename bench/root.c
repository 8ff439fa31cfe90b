/* The root of crates/sqrt beside the hardware's, through the static library: the same inputs, bits compared, then both timed.
   Build and run: bench/root */
#include <math.h>
#include <stdint.h>
#include <stdio.h>
#include <stdlib.h>
#include <string.h>
#include <time.h>

double vobzeile_sqrt(double x);

static uint64_t state = 88172645463325252ull;
static uint64_t next(void) {
    state ^= state << 13;
    state ^= state >> 7;
    state ^= state << 17;
    return state;
}
static uint64_t bits(double d) { uint64_t b; memcpy(&b, &d, 8); return b; }
static double of_bits(uint64_t b) { double d; memcpy(&d, &b, 8); return d; }

static long compared, differing;
static void compare(double x) {
    double ours = vobzeile_sqrt(x), theirs = sqrt(x);
    compared++;
    if (isnan(ours) && isnan(theirs)) return;
    if (bits(ours) == bits(theirs)) return;
    if (differing++ < 10) printf("differs at %a: %a, hardware %a\n", x, ours, theirs);
}

static void inputs(void) {
    static const double special[] = {0.0, -0.0, INFINITY, -INFINITY, NAN, 1, 2, 3, 4, -1, 0x1p-1074, -0x1p-1074, 0x1p-1073,
        0x1p-1022, 0x1.fffffffffffffp-1023, 0x1.fffffffffffffp0, 0x1.fffffffffffffp1, 0x1.fffffffffffffp1023, 0x1p1023};
    for (size_t i = 0; i < sizeof special / sizeof *special; i++) compare(special[i]);
    /* every exponent and sign, 2,000 significands of each */
    for (uint64_t e = 0; e < 4096; e++)
        for (int i = 0; i < 2000; i++) compare(of_bits(e << 52 | next() >> 12));
    /* any 64 bits */
    for (long i = 0; i < 60000000; i++) compare(of_bits(next()));
    /* subnormals of every length */
    for (long i = 0; i < 15000000; i++) compare(of_bits(next() >> (12 + next() % 52)));
    /* squares and their neighbours */
    for (long i = 0; i < 15000000; i++) {
        double g = of_bits(0x3ffull << 52 | next() >> 12);
        compare(of_bits(bits(g * g) + next() % 5 - 2));
    }
    /* the ends of the two ranges of significands, and the least and the first normal doubles */
    for (uint64_t i = 0; i < 1000000; i++) {
        compare(of_bits(0x3ff0000000000000ull + i)); compare(of_bits(0x3fffffffffffffffull - i));
        compare(of_bits(0x4000000000000000ull + i)); compare(of_bits(0x400fffffffffffffull - i));
        compare(of_bits(1 + i)); compare(of_bits(0x0010000000000000ull - i));
    }
    /* whole numbers */
    for (long i = 1; i < 5000000; i++) compare((double)i);
}

static double now(void) { struct timespec t; clock_gettime(CLOCK_MONOTONIC, &t); return t.tv_sec + 1e-9 * t.tv_nsec; }

#define N 65536
static double values[N];
static double sink;

/* ns a call, the best of 60 passes over N values: throughput adds the results up, latency feeds each into the next call */
#define TIME(name, f) \
    static void name(void) { \
        double t = 1e9, l = 1e9; \
        for (int r = 0; r < 60; r++) { \
            double a = 0, c = 0, t0 = now(); \
            for (int i = 0; i < N; i++) a += f(values[i]); \
            double t1 = now(); \
            for (int i = 0; i < N; i++) c = f(values[i] + c * 0.0); \
            double t2 = now(); \
            if ((t1 - t0) / N * 1e9 < t) t = (t1 - t0) / N * 1e9; \
            if ((t2 - t1) / N * 1e9 < l) l = (t2 - t1) / N * 1e9; \
            sink += a + c; \
        } \
        printf("%-12s throughput %5.1f ns   latency %5.1f ns (with one product and one sum)\n", #f, t, l); \
    }
TIME(time_ours, vobzeile_sqrt)
TIME(time_hardware, sqrt)

int main(void) {
    inputs();
    printf("%ld inputs, %ld differ\n", compared, differing);
    for (int i = 0; i < N; i++) values[i] = of_bits(next() >> 2 | 1ull << 61);
    time_ours();
    time_hardware();
    return differing != 0 || sink == 1;
}
