// The untouched gain.rs beside the proved gain step, on equal tables, histories, indexes and codes.
// Usage: compare SEED CASES: the seed makes the tables too, so each run is one table set.
#include <math.h>
#include <stdint.h>
#include <stdio.h>
#include <stdlib.h>
#include <string.h>

#include "float_bits.h"

unsigned char compare_tables[3908];

extern int16_t gain_decode(const uint8_t *bytes, size_t length, float *history, size_t index, const int16_t *code, int16_t *pitch);
extern int16_t oracle_decode(float *history, size_t index, const int16_t *code, int16_t *pitch);

// splitmix64
static uint64_t state;

static uint64_t next(void) {
    uint64_t z = state += 0x9e3779b97f4a7c15u;
    z = (z ^ z >> 30) * 0xbf58476d1ce4e5b9u;
    z = (z ^ z >> 27) * 0x94d049bb133111ebu;
    return z ^ z >> 31;
}

// Uniform in -size..size.
static float spread(float size) { return ((float)(next() >> 40) * 0x1p-23f - 1.0f) * size; }

static void put(int word, float x) { memcpy(compare_tables + 4 * word, &x, 4); }

static float get(int word) {
    float x;
    memcpy(&x, compare_tables + 4 * word, 4);
    return x;
}

// 128 pitch gains, also past both ends of 0..=32,767; 128 log gains and the bias within 16.
static void fill(void) {
    static const float sizes[] = {16.0f, 8.0f, 4.0f, 1.0f};
    float size = sizes[next() % 4];
    for (int i = 0; i < 128; i++) {
        put(i, next() % 8 ? spread(16384.0f) + 16384.0f : spread(65536.0f));
        put(128 + i, spread(size));
    }
    put(256, spread(16.0f));
    for (int i = 257; i < 977; i++) put(i, spread(1.0f));
}

// A code of any loudness: zero, a few pulses, or noise.
static void make_code(int16_t *code) {
    int kind = next() % 8;
    int size = 1 << next() % 16;
    for (int i = 0; i < 80; i++) {
        int v = (int)(next() % (2 * (uint64_t)size)) - size;
        code[i] = kind == 0 ? 0 : kind < 4 && next() % 8 ? 0 : (int16_t)v;
    }
}

// Four numbers within 16. Three times in four the first is set so that the exponential's argument comes to a target in -1.2..=10.7.
static void make_history(float *history, size_t index, const int16_t *code) {
    for (int i = 0; i < 4; i++) history[i] = spread(16.0f);
    if (next() % 4 == 0) return;
    double sum = 0;
    for (int i = 0; i < 80; i++) sum += (double)code[i] * code[i];
    double energy = sum / 80 < 1 ? 1 : sum / 80;
    double target = 4.75 + spread(5.95f);
    double rest = history[1] * 0.5 + history[2] * 0.33 + history[3] * 0.16 - 0.5 * log(energy) + get(256) + get(128 + (int)index);
    double first = (target - rest) / 0.68;
    if (fabs(first) <= 16) history[0] = (float)first;
}

int main(int count, char **words) {
    if (count != 3) return 2;
    uint64_t seed = strtoull(words[1], 0, 10), cases = strtoull(words[2], 0, 10);
    state = seed;
    fill();
    uint64_t inside = 0, differ = 0, wrong = 0;
    for (uint64_t n = 0; n < cases; n++) {
        int16_t code[80], pitch, other_pitch;
        float history[4], ours[4], theirs[4];
        size_t index = next() % 128;
        make_code(code);
        make_history(history, index, code);
        memcpy(ours, history, sizeof ours);
        memcpy(theirs, history, sizeof theirs);
        int gain = gain_decode(compare_tables, 3908, ours, index, code, &pitch);
        int other = oracle_decode(theirs, index, code, &other_pitch);
        inside += gain > 0 && gain < 32767;
        if (pitch != other_pitch || memcmp(ours, theirs, sizeof ours) || abs(gain - other) > 1) {
            wrong++;
            printf("WRONG ");
        }
        if (gain != other) differ++;
        if (gain != other || pitch != other_pitch || memcmp(ours, theirs, sizeof ours)) {
            uint64_t sum = 0;
            for (int i = 0; i < 80; i++) sum += (uint64_t)((int)code[i] * code[i]);
            printf("difference seed %llu case %llu: history %08x %08x %08x %08x, log gain %08x, bias %08x, squares %llu: code gain %d here, %d there\n",
                   (unsigned long long)seed, (unsigned long long)n, bits(history[0]), bits(history[1]), bits(history[2]),
                   bits(history[3]), bits(get(128 + (int)index)), bits(get(256)), (unsigned long long)sum, gain, other);
        }
    }
    printf("run seed %llu: %llu cases, %llu with a code gain in 1..=32766, %llu code gains differ by 1, %llu wrong\n", (unsigned long long)seed,
           (unsigned long long)cases, (unsigned long long)inside, (unsigned long long)differ, (unsigned long long)wrong);
    return wrong != 0;
}
