// logf and expf for the oracle: the proved routines. They are sorted here as gain.rs's caller never sorts them:
// e^x below -1 rounds to a gain of 0, above 10.5 to one of 32,767.
#include <math.h>

extern float gain_ln(float x);
extern float gain_exp(float x);

float logf(float x) { return gain_ln(x); }

float expf(float x) { return x >= -1.0f ? x <= 10.5f ? gain_exp(x) : INFINITY : 0.0f; }
