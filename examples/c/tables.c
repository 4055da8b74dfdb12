/* Corners under a ring that does not move: its table is stored once, and every fit that makes a second start takes its
 * seed from there. Then what a refusal looks like: an angle that is NaN, and a fourth table, for which there is no room.
 * Neither changes the tables, so the fit that follows is answered as before.
 * From the top of the repository, after `tools/build jengubool`:
 *   cc -I include examples/c/tables.c target/staticlib/libjengubool.a -o tables && ./tables */
#include <math.h>
#include <stdio.h>
#include "jengubool.h"

#define DEGREES 57.29578f /* in one radian */

/* 55 KB: a stack may be too small. */
static jb_tables tables;

/* The brightness that the model expects at an angle, as a whole number. The library's own sine and tanh give the same
 * samples on every machine. */
static float sample_at(float angle, float axis1, float axis2)
{
    float h1 = jb_tanh(4.0f * jb_sin(angle - axis1 / DEGREES));
    float h2 = jb_tanh(4.0f * jb_sin(angle - axis2 / DEGREES));
    return (float)(int)(128.5f + 60.0f * h1 * h2);
}

static void fit_corner(const float *angles, float axis1, float axis2)
{
    float samples[16], fit[7];
    uint32_t counts[4], code;
    for (int i = 0; i < 16; i++)
        samples[i] = sample_at(angles[i], axis1, axis2);
    code = jb_tables_fit(&tables, samples, 16, angles, 16, fit, 7, counts, 4);
    if (code != 0) {
        printf("refused: number %u, place %u\n", (unsigned)(code / 65536), (unsigned)(code % 65536));
        return;
    }
    printf("axes %.2f and %.2f degrees, amplitude %.2f about a mean of %.2f, rms %.3f, starts %u\n", fit[1] * DEGREES,
           fit[2] * DEGREES, fit[0], fit[6], fit[5], (unsigned)counts[0]);
}

static void store(const float *angles)
{
    uint32_t code = jb_tables_store(&tables, angles, 16);
    if (code == 0)
        printf("a table is stored\n");
    else
        printf("refused: number %u, place %u\n", (unsigned)(code / 65536), (unsigned)(code % 65536));
}

int main(void)
{
    float angles[16], other[16];
    for (int i = 0; i < 16; i++) {
        angles[i] = (float)i * 0.39269908f; /* an eighth of PI */
        other[i] = angles[i] + 0.19634954f; /* a ring turned by half a step */
    }
    jb_tables_fresh(&tables);
    store(angles);
    fit_corner(angles, 20.0f, 110.0f);
    fit_corner(angles, 30.0f, 75.0f);
    fit_corner(angles, 100.0f, 135.0f);
    store(other);
    other[5] = NAN;
    store(other);
    other[5] = 0.0f;
    store(other);
    store(other);
    fit_corner(angles, 30.0f, 75.0f);
    return 0;
}
