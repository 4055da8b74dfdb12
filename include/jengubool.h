/* Jengubool: the ring fit, the disk fit, their lines and the f32 functions below them, all proved, as C functions of
 * the static library libjengubool.a.
 *
 * Common to all of them:
 *   - No global state, no heap, no errno: any number of threads may call them. jb_answer_line, jb_fit_ring,
 *     jb_fit_ring24, jb_ring_record, jb_fit_disk and the jb_tables_ functions read and write the arrays that they are
 *     given and no other memory; the others take and return values alone.
 *   - They accept every bit pattern and always return.
 *   - They expect the rounding mode that a C program starts with (to nearest, ties to even), and subnormal numbers
 *     switched on (no flush to zero). Floating-point exception flags may be raised.
 *   - "NaN" means some NaN: neither its sign nor its payload is promised.
 *   - The bits of every result that is no NaN are fixed by a definition in exact steps: the same on every machine.
 *   - Errors, "odd", "even" and "monotone" below are measured by tests/accuracy.c, against double precision: over every
 *     f32 of the range (sine and cosine beyond 64 and atan2: over many).
 *
 * The library needs three functions of the C library: memset, memcpy and memmove. */
#ifndef JENGUBOOL_H
#define JENGUBOOL_H

#include <stddef.h>
#include <stdint.h>

#ifdef __cplusplus
extern "C" {
#endif

/* Sine of x radians. Result within -1 to 1; within 2^-24 of the true value for |x| <= 64.
 * For |x| > 64 it is the sine of the exact remainder of x by the f32 40c90fdb (next to 2 PI), which for large x is
 * far from the sine of x itself. Odd to the bit: jb_sin(-x) is -jb_sin(x), and so jb_sin(-0) is -0.
 * NaN for NaN and for an infinity. */
float jb_sin(float x);

/* Cosine of x radians. Result within -1 to 1; within 2^-24 of the true value for |x| <= 64; above 64 as jb_sin.
 * Even to the bit: jb_cos(-x) is jb_cos(x). jb_cos(0) is 1. NaN for NaN and for an infinity. */
float jb_cos(float x);

/* Hyperbolic tangent of x. Result within -1 to 1, and within 2^-23.9 of the true value for every x.
 * Odd to the bit (jb_tanh(-0) is -0). Monotone: x <= y gives jb_tanh(x) <= jb_tanh(y).
 * Exactly 1 for +infinity, -1 for -infinity. NaN for NaN. */
float jb_tanh(float x);

/* e to the x.
 * x <= 0: result within 0 to 1, monotone, relative error at most 2^-23.6 down to c2aeac4f (about -87.33654), the
 * least f32 whose exp is no subnormal; +0 below that, and for -infinity. jb_exp(0) and jb_exp(-0) are 1.
 * x > 0: the rounded quotient 1 / jb_exp(-x): relative error at most 2^-23 up to 87, and +infinity already from
 * 42aeac50 (about 87.33655) on, though the true value overflows only above 88.72.
 * NaN for NaN. */
float jb_exp(float x);

/* The angle of the point (x, y), in radians: first argument y, as in C. Result within -PI to PI, PI being the f32
 * 40490fdb; within 2^-22 of the true value. Signs of zeros count as in C: (+0, +0) gives +0, (-0, +0) gives -0,
 * (+0, -0) gives PI, (-0, -0) gives -PI. Infinities as in C too: (+infinity, +infinity) gives PI/4.
 * NaN if either argument is NaN. */
float jb_atan2(float y, float x);

/* Square root, correctly rounded: the f32 nearest to the true root, the result of IEEE 754's squareRoot.
 * -0 for -0, +infinity for +infinity. NaN for NaN and for every x below 0. */
float jb_sqrt(float x);

/* The f32 nearest to x, ties to even: C's (float)x. Subnormal results are rounded likewise; what lies 2^103 or more
 * beyond the greatest f32 (2^128 - 2^104) gives an infinity; results that round to zero keep the sign of x.
 * NaN for NaN. */
float jb_narrow(double x);

/* The answer to one frame line, without its line feed, as text into `out`.
 * Returns 0 for a fit (60 characters are written for a ring, 98 for a disk), else the number of the refusal (8
 * characters are written), and 1 if `out` is under 98 bytes: nothing is written then. Bytes of `out` past the answer
 * keep their value; no byte outside `out` is touched, and `line` is not changed. Every line is answered; `line` and
 * `out` must not overlap.
 * The characters of lines and answers are those of docs/RULES.md, Frame lines: lower-case hexadecimal, with a NaN as
 * 7fc00000. */
uint32_t jb_answer_line(const uint8_t *line, size_t line_len, uint8_t *out, size_t out_len);

/* The ring fit of 16 samples at 16 angles (radians).
 * Returns 0 for a fit: fit[0..5] = amplitude, theta1, theta2, error of theta1, error of theta2, rms; counts[0..3] =
 * starts (1 or 2), updates of the first start, of the second (0 to 6 each), 1 if the errors are known else 0.
 * Then 0 <= theta1 < PI, theta1 <= theta2 < 2 PI and both errors lie from 0 to PI; the amplitude is not below 0, or
 * NaN after an overflow. Elements behind those written keep their value.
 * The errors are known exactly if the start that is answered was not degenerate, both eliminations of the error
 * estimate succeeded, and the sum of squared residuals and the two entries of the covariance's diagonal are finite
 * (docs/RULES.md, Known). A known error of PI is an estimate of PI or more. Where they are not known, what stands in
 * fit[3] and fit[4] is no estimate: PI as a rule, and 0 or another number where an entry is not finite.
 * Otherwise returns number * 65536 + place (docs/RULES.md, Refusals), and neither buffer is changed. The first of these
 * that applies:
 *   65536 (number 1)       `fit` under 6 or `counts` under 4 elements; a slice of another length than 16
 *   196608 + place (3)     a value that is not finite: place 0 to 15 a sample, 16 to 31 an angle, the first one
 * The four arrays must not overlap. */
uint32_t jb_fit_ring(const float *samples, size_t samples_len, const float *angles, size_t angles_len,
                     float *fit, size_t fit_len, uint32_t *counts, size_t counts_len);

/* The ring fit of 24 samples at 24 angles: as jb_fit_ring in every word, with 24 in the place of 16. A slice of another
 * length than 24 returns 65536; of a value that is not finite the place is 0 to 23 for a sample, 24 to 47 for an angle. */
uint32_t jb_fit_ring24(const float *samples, size_t samples_len, const float *angles, size_t angles_len,
                       float *fit, size_t fit_len, uint32_t *counts, size_t counts_len);

/* The ring fit of 16 samples or of 24, with its mean: what jb_fit_ring or jb_fit_ring24 answers, the number of samples
 * saying which, and one value more: fit[0..5] and counts[0..3] as there, and
 *   fit[6] = mean, the brightness about which the fitted edges lie (mu of docs/RULES.md, Ring): that of the start that
 *   is answered. It is fitted with the axes and the amplitude, and differs from the mean of the samples where the dark
 *   and the bright sectors are unlike. A start without contrast to fit is degenerate (amplitude 0, errors not known)
 *   and carries its seed's mean, which is that of the samples where there was one start. After an overflow the mean
 *   may be infinite or NaN; the rms is then not finite either.
 * Returns 0 for a fit, else number * 65536 + place, and then neither buffer is changed:
 *   65536 (number 1)       `fit` under 7 or `counts` under 4 elements; samples that are neither 16 nor 24; angles that
 *                          are not as many
 *   196608 + place (3)     a value that is not finite, the first one: its place as of jb_fit_ring or jb_fit_ring24
 * The four arrays must not overlap. */
uint32_t jb_ring_record(const float *samples, size_t samples_len, const float *angles, size_t angles_len,
                        float *fit, size_t fit_len, uint32_t *counts, size_t counts_len);

/* Up to three tables of seed models, for rings that do not move: the fallback grid of a ring fit, worked out beforehand
 * from the ring's 16 angles. The memory is the caller's, some 55 KB of f32 words that are of no other use to a caller:
 * static, from malloc, or in a struct of one's own; a thread's stack may be too small. A table never goes away but by
 * jb_tables_fresh, and no function keeps a pointer. Words of all zeros hold no table. Whatever else the words are, every
 * call returns, reads and writes nothing outside, and what is promised of an answer holds. Threads may share a jb_tables
 * while none changes it. */
#define JB_TABLES_WORDS 14089
typedef struct jb_tables {
    float words[JB_TABLES_WORDS];
} jb_tables;

/* Makes the tables fresh: they hold none. To be called first, unless all words are zero. */
void jb_tables_fresh(jb_tables *tables);

/* Stores the table of a ring of 16 angles (radians) behind those that are held. Equal angles may be stored twice.
 * Returns 0 if it is stored, else number * 65536 + place, and then no word of the tables is changed. The first of these
 * that applies:
 *   65536 (number 1)       another number of angles than 16
 *   196608 + place (3)     an angle that is not finite, the first one: place 0 to 15
 *   393216 (6)             three tables are held
 * Tables that are held keep every word. The two arrays must not overlap. */
uint32_t jb_tables_store(jb_tables *tables, const float *angles, size_t angles_len);

/* The ring fit of 16 samples with its mean, as jb_ring_record in every word, but that the seed of a second start comes
 * from the first table whose angles all lie within 1e-6 of the ring's, where there is one. Such a seed is the best of
 * the same pairs of axes, scored from the table's sums, which are rounded in another order: where the direct way and
 * a table differ, it is as a rule in the last bits (docs/DIFFERENCES.md, F18). The fit itself uses the ring's own angles.
 * Where no table is near, the answer is jb_ring_record's.
 * Returns 0 for a fit, else number * 65536 + place, and then neither buffer is changed:
 *   65536 (number 1)       `fit` under 7 or `counts` under 4 elements; a slice of another length than 16
 *   196608 + place (3)     a value that is not finite, the first one: its place as of jb_fit_ring
 * The arrays must not overlap. */
uint32_t jb_tables_fit(const jb_tables *tables, const float *samples, size_t samples_len,
                       const float *angles, size_t angles_len, float *fit, size_t fit_len,
                       uint32_t *counts, size_t counts_len);

/* The disk fit of n pixels, 1 to 320, around a corner at (0, 0): element i of the five slices belongs to pixel i.
 * In: xs and ys, the place of a pixel; vals_centered, its brightness less the mean of all; grad_angles, the direction
 * of the edge there, which is the gradient's turned by PI/2 (radians, modulo PI); grad_weights, the gradient's size.
 * val_energy is the sum of the squares of vals_centered, and base0 and base1 are a first guess of the axes (radians),
 * such as a ring fit's. The function takes all of these as they come and checks none against another.
 * Returns 0 for a fit: fit[0..10] = theta1, theta2, width of the edges (0.35, 0.7, 1.4 or 2.8), amplitude, rms,
 * relative rms, correlation, edge score, objective, error of theta1, error of theta2; counts[0..1] = trials (at most
 * 144), 1 if the errors are known else 0. Then 0 <= theta1 < PI, theta1 <= theta2 < 2 PI and both errors lie from 0 to
 * PI; the amplitude is not below 0, or NaN after an overflow. Elements behind those written keep their value.
 * The errors are known as of jb_fit_ring, with more than four pixels in the place of the start; where they are not, what
 * stands in fit[9] and fit[10] is no estimate.
 * An rms of 0 is a perfect fit only where the correlation is close to 1. Where a square overflowed, or val_energy is
 * less than the sum of squares, the rms is 0 too: the correlation is then 0, NaN, infinite or above 1.
 * Otherwise returns number * 65536 + place, and neither buffer is changed. The first of these that applies:
 *   65536 (number 1)       `fit` under 11 or `counts` under 2 elements
 *   131072 (2)             xs has no element, or more than 320
 *   65536 (1)              another slice is not as long as xs
 *   196608 + place (3)     a value that is not finite, the first one: place 0 to 2 are val_energy, base0 and base1;
 *                          then come xs from 3 on, ys, vals_centered, grad_angles and grad_weights, n places each
 *   262144 + place (4)     the search finds no fit, as for a disk without contrast; the place is its number of trials
 * The seven arrays must not overlap. */
uint32_t jb_fit_disk(float val_energy, float base0, float base1, const float *xs, size_t xs_len,
                     const float *ys, size_t ys_len, const float *vals_centered, size_t vals_centered_len,
                     const float *grad_angles, size_t grad_angles_len,
                     const float *grad_weights, size_t grad_weights_len,
                     float *fit, size_t fit_len, uint32_t *counts, size_t counts_len);

#ifdef __cplusplus
}
#endif

#endif
