// A float's bits, and the float of some bits.
#include <stdint.h>
#include <string.h>

static inline uint32_t bits(float x) {
    uint32_t n;
    memcpy(&n, &x, 4);
    return n;
}

static inline float from_bits(uint32_t n) {
    float x;
    memcpy(&x, &n, 4);
    return x;
}
