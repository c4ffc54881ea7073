// docs/ELEMENTARY.md's two sequences, operation by operation, in C: for a machine that the proved archive does not link on. tools/sweep compares
// them with the proved functions by bits, on every argument. To be compiled with -ffp-contract=off: each operation is rounded once.
#include "float_bits.h"

static float high(void) { return from_bits(0x3f317400); }
static float low(void) { return from_bits(0x37f40417); }

float steps_ln(float x) {
    float p0 = from_bits(0x3eaaaa83), p1 = from_bits(0x3e7fff78), p2 = from_bits(0x3e4ce81a), p3 = from_bits(0x3e2acee7);
    float p4 = from_bits(0x3e0f6b90), p5 = from_bits(0x3df988af), p6 = from_bits(0x3e0f3373), p7 = from_bits(0x3e0402bc);
    uint32_t i = bits(x) % 0x80000000u + 0x555555;
    float f = from_bits(i % 0x800000 + 0x3f2aaaab) - 1.0f;
    float d = (float)(i / 0x800000) - 127.0f;
    float z = f * f;
    float a0 = p0 - p1 * f, a2 = p2 - p3 * f, a4 = p4 - p5 * f, a6 = p6 - p7 * f;
    float p = a0 + z * (a2 + z * (a4 + z * a6));
    float s = ((f * z) * p - d * low()) - 0.5f * z;
    return (s + f) + d * high();
}

float steps_exp(float x) {
    float inverse = from_bits(0x3fb8aa3b), q0 = from_bits(0x3efffffe), q1 = from_bits(0x3e2aaa49), q2 = from_bits(0x3d2aac69);
    float q3 = from_bits(0x3c091ce7), q4 = from_bits(0x3ab51220);
    float t = x * inverse + 12582944.0f;
    uint32_t n = bits(t) % 64;
    float k = (float)n - 32.0f;
    float g = x - k * high(), c = k * low();
    float r = g + c, z = r * r;
    float b0 = q1 * r + q0, b2 = q3 * r + q2;
    float q = (q4 * z + b2) * z + b0;
    float y = ((z * q + c) + g) + 1.0f;
    return y * from_bits((n + 95) * 0x800000);
}
