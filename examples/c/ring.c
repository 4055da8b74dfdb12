/* One ring fit: a corner whose axes stand at 20 and 110 degrees, in whole grey values, then the same with a NaN.
 * From the top of the repository, after `tools/build jengubool`:
 *   cc -I include examples/c/ring.c target/staticlib/libjengubool.a -o ring && ./ring */
#include <math.h>
#include <stdio.h>
#include "jengubool.h"

#define DEGREES 57.29578f /* in one radian */

/* The brightness that the model expects at an angle, as a whole number. The library's own sine and tanh give the same
 * samples on every machine. */
static float sample_at(float angle)
{
    float h1 = jb_tanh(4.0f * jb_sin(angle - 20.0f / DEGREES));
    float h2 = jb_tanh(4.0f * jb_sin(angle - 110.0f / DEGREES));
    return (float)(int)(128.5f + 60.0f * h1 * h2);
}

static void report(const float *samples, const float *angles)
{
    float fit[7];
    uint32_t counts[4];
    uint32_t code = jb_ring_record(samples, 16, angles, 16, fit, 7, counts, 4);
    if (code != 0) {
        printf("refused: number %u, place %u\n", (unsigned)(code / 65536), (unsigned)(code % 65536));
        return;
    }
    printf("axes %.2f and %.2f degrees", fit[1] * DEGREES, fit[2] * DEGREES);
    if (counts[3] != 0)
        printf(", errors %.2f and %.2f degrees\n", fit[3] * DEGREES, fit[4] * DEGREES);
    else
        printf(", errors not known\n");
    printf("amplitude %.2f about a mean of %.2f, rms %.3f\n", fit[0], fit[6], fit[5]);
    printf("starts %u, updates %u and %u\n", (unsigned)counts[0], (unsigned)counts[1], (unsigned)counts[2]);
}

int main(void)
{
    float samples[16], angles[16];
    for (int i = 0; i < 16; i++) {
        angles[i] = (float)i * 0.39269908f; /* an eighth of PI */
        samples[i] = sample_at(angles[i]);
    }
    report(samples, angles);
    samples[5] = NAN;
    report(samples, angles);
    return 0;
}
