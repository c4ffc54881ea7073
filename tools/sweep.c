// The proved logarithm and exponential against the f64 answer, on every f32 in their ranges, and tools/elementary.c against them.
#include <math.h>
#include <stdio.h>
#include <stdlib.h>

#include "float_bits.h"

extern float gain_ln(float x);
extern float gain_exp(float x);
extern float steps_ln(float x);
extern float steps_exp(float x);

static const double limit = 4.0;

// How far r is from y, in units of the last place of an f32 as large as y.
static double error(float r, double y) {
    if (y == 0.0) return bits(r) == 0 ? 0.0 : INFINITY;
    uint64_t n;
    memcpy(&n, &y, 8);
    uint64_t field = n >> 52 & 2047;
    n = (field - 23) << 52;
    double unit;
    memcpy(&unit, &n, 8);
    return fabs((double)r - y) / unit;
}

struct run {
    uint64_t count, inexact, over, other;
    double largest;
    uint32_t at;
};

// One argument: a NaN as a result counts as over the limit. The result in C has to be the same by bits.
static inline void one(struct run *run, uint32_t n, float r, float c, double y) {
    double e = error(r, y);
    run->count++;
    if (r != (float)y) run->inexact++;
    if (!(e <= limit)) run->over++;
    if (bits(r) != bits(c)) run->other++;
    if (!(e <= run->largest)) {
        run->largest = e;
        run->at = n;
    }
}

static int report(const char *name, struct run run) {
    printf("%-18s %10llu arguments, largest error %.4f units in the last place, at 0x%08x (%.9g), %llu not the nearest f32, %llu over %.0f, %llu other than in C\n",
           name, (unsigned long long)run.count, run.largest, run.at, from_bits(run.at), (unsigned long long)run.inexact,
           (unsigned long long)run.over, limit, (unsigned long long)run.other);
    fflush(stdout);
    return run.over != 0 || run.other != 0;
}

// Every argument, or with a number as the first word every so many-th.
int main(int words, char **word) {
    uint32_t step = words > 1 ? (uint32_t)atoi(word[1]) : 1;
    if (step == 0) step = 1;
    int bad = 0;
    struct run ln = {0}, up = {0}, down = {0};
    for (uint32_t n = bits(1.0f); n <= bits(1073741824.0f); n += step) one(&ln, n, gain_ln(from_bits(n)), steps_ln(from_bits(n)), log((double)from_bits(n)));
    bad |= report("ln 1 ..= 2^30", ln);
    for (uint32_t n = bits(0.0f); n <= bits(10.5f); n += step) one(&up, n, gain_exp(from_bits(n)), steps_exp(from_bits(n)), exp((double)from_bits(n)));
    bad |= report("exp 0 ..= 10.5", up);
    for (uint32_t n = bits(-0.0f); n <= bits(-1.0f); n += step) one(&down, n, gain_exp(from_bits(n)), steps_exp(from_bits(n)), exp((double)from_bits(n)));
    bad |= report("exp -1 ..= -0", down);
    uint32_t zero = bits(gain_ln(1.0f));
    printf("ln 1 is 0x%08x\n", zero);
    bad |= zero != 0;
    puts(bad ? "sweep: FAILED" : "sweep: ok");
    return bad;
}
