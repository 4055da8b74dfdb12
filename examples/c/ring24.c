/* One corner seen twice, its axes at 20 and 110 degrees: by a ring of 24 samples and by one of 16, both in whole grey
 * values. Then the ring of 16 is given to the fit for 24, which refuses it.
 * From the top of the repository, after `tools/build jengubool`:
 *   cc -I include examples/c/ring24.c target/staticlib/libjengubool.a -o ring24 && ./ring24 */
#include <stdio.h>
#include "jengubool.h"

#define DEGREES 57.29578f /* in one radian */

/* The brightness that the model expects at an angle, as a whole number. The library's own sine and tanh give the same
 * samples on every machine. */
static float sample_at(float angle)
{
    float h1 = jb_tanh(4.0f * jb_sin(angle - 20.0f / DEGREES));
    float h2 = jb_tanh(4.0f * jb_sin(angle - 110.0f / DEGREES));
    return (float)(int)(128.5f + 60.0f * h1 * h2);
}

static void make_ring(float *samples, float *angles, int n, float step)
{
    for (int i = 0; i < n; i++) {
        angles[i] = (float)i * step;
        samples[i] = sample_at(angles[i]);
    }
}

static void report(uint32_t code, const float *fit)
{
    if (code != 0) {
        printf("refused: number %u, place %u\n", (unsigned)(code / 65536), (unsigned)(code % 65536));
        return;
    }
    printf("axes %.2f and %.2f degrees, amplitude %.2f, rms %.3f\n", fit[1] * DEGREES, fit[2] * DEGREES, fit[0], fit[5]);
}

int main(void)
{
    float samples[24], angles[24], fit[6];
    uint32_t counts[4];
    make_ring(samples, angles, 24, 0.2617994f); /* a twelfth of PI */
    report(jb_fit_ring24(samples, 24, angles, 24, fit, 6, counts, 4), fit);
    make_ring(samples, angles, 16, 0.39269908f); /* an eighth */
    report(jb_fit_ring(samples, 16, angles, 16, fit, 6, counts, 4), fit);
    report(jb_fit_ring24(samples, 16, angles, 16, fit, 6, counts, 4), fit);
    return 0;
}
