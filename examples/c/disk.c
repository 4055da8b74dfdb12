/* One disk fit: a skewed corner whose axes stand at 25 and 80 degrees, seen in whole grey values. Then the same disk with
 * a NaN, and one without contrast: both are refused.
 * From the top of the repository, after `tools/build jengubool`:
 *   cc -I include examples/c/disk.c target/staticlib/libjengubool.a -o disk && ./disk */
#include <math.h>
#include <stdio.h>
#include "jengubool.h"

#define PI 3.14159265f
#define DEGREES 57.29578f /* in one radian */
#define MOST 320          /* pixels that the fit takes */
#define CORNER_X 0.3f     /* the corner lies between pixels, as corners do */
#define CORNER_Y -0.2f

struct disk {
    size_t n;
    float xs[MOST], ys[MOST], vals[MOST], grad_angles[MOST], grad_weights[MOST];
    float val_energy;
};

/* On which side of the line through the corner (x, y) lies: from -1 to 1, since edges in a picture are soft. */
static float side(float x, float y, float angle)
{
    return jb_tanh((jb_cos(angle) * y - jb_sin(angle) * x) / 0.8f);
}

/* The grey value of a pixel of the picture. The library's own functions give the same picture on every machine. */
static float grey(int px, int py, float contrast)
{
    float x = (float)px - CORNER_X, y = (float)py - CORNER_Y;
    return (float)(int)(128.5f + contrast * side(x, y, 25.0f / DEGREES) * side(x, y, 80.0f / DEGREES));
}

/* The direction of the edge at a pixel, and its weight: the 3 by 3 Sobel gradient, turned by PI/2, modulo PI. */
static void gradient(int px, int py, float contrast, float *angle, float *weight)
{
    float gx = 0.0f, gy = 0.0f, turned;
    for (int k = -1; k <= 1; k++) {
        float factor = k == 0 ? 2.0f : 1.0f;
        gx += factor * (grey(px + 1, py + k, contrast) - grey(px - 1, py + k, contrast));
        gy += factor * (grey(px + k, py + 1, contrast) - grey(px + k, py - 1, contrast));
    }
    turned = jb_atan2(gy, gx) + PI * 0.5f;
    if (turned < 0.0f) turned += PI;
    if (turned >= PI) turned -= PI;
    *angle = turned;
    *weight = jb_sqrt(gx * gx + gy * gy);
}

static void add_pixel(struct disk *d, int px, int py, float contrast)
{
    float x = (float)px - CORNER_X, y = (float)py - CORNER_Y, square = x * x + y * y;
    if (square < 1.0f || square > 64.0f || d->n == MOST) return;
    d->xs[d->n] = x;
    d->ys[d->n] = y;
    d->vals[d->n] = grey(px, py, contrast);
    gradient(px, py, contrast, &d->grad_angles[d->n], &d->grad_weights[d->n]);
    d->n++;
}

/* All pixels from 1 to 8 away from the corner. The fit wants their values less the mean, and the sum of the squares. */
static void look(struct disk *d, float contrast)
{
    float sum = 0.0f, mean;
    d->n = 0;
    d->val_energy = 0.0f;
    for (int py = -9; py <= 9; py++)
        for (int px = -9; px <= 9; px++) add_pixel(d, px, py, contrast);
    for (size_t i = 0; i < d->n; i++) sum += d->vals[i];
    mean = sum / (float)d->n;
    for (size_t i = 0; i < d->n; i++) {
        d->vals[i] -= mean;
        d->val_energy += d->vals[i] * d->vals[i];
    }
}

/* The first guess, 20 and 90 degrees, is what a ring fit would bring: near, but not good enough. */
static void report(const struct disk *d)
{
    float fit[11];
    uint32_t counts[2];
    size_t n = d->n;
    uint32_t code = jb_fit_disk(d->val_energy, 20.0f / DEGREES, 90.0f / DEGREES, d->xs, n, d->ys, n, d->vals, n,
                                d->grad_angles, n, d->grad_weights, n, fit, 11, counts, 2);
    if (code != 0) {
        printf("refused: number %u, place %u\n", (unsigned)(code / 65536), (unsigned)(code % 65536));
        return;
    }
    printf("axes %.2f and %.2f degrees", fit[0] * DEGREES, fit[1] * DEGREES);
    if (counts[1] != 0)
        printf(", errors %.2f and %.2f degrees\n", fit[9] * DEGREES, fit[10] * DEGREES);
    else
        printf(", errors not known\n");
    printf("width %.2f, amplitude %.2f, rms %.3f, correlation %.4f\n", fit[2], fit[3], fit[4], fit[6]);
    printf("pixels %u, trials %u\n", (unsigned)n, (unsigned)counts[0]);
}

int main(void)
{
    static struct disk d; /* 6 KB: too much for some stacks */
    look(&d, 60.0f);
    report(&d);
    d.ys[7] = NAN;
    report(&d);
    look(&d, 0.0f);
    report(&d);
    return 0;
}
