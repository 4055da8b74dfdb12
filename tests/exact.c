/* The two functions whose every bit is fixed by IEEE 754: jb_sqrt against the machine's instruction, jb_narrow against
 * a program in whole numbers (and that program against the C cast). One differing bit fails; NaN equals NaN.
 *
 *   exact sample    every 1021st pattern of the root, with all limits
 *   exact all       all 2^32 patterns of the root, ten times the doubles */
#include "measure.h"
#include "jengubool.h"
#include <immintrin.h>

static unsigned long long checks;

/* ---- square root ------------------------------------------------------ */

static float machine_sqrt(float x) { return _mm_cvtss_f32(_mm_sqrt_ss(_mm_set_ss(x))); }

static void root_at(uint32_t b)
{
    uint32_t got = bits_of(jb_sqrt(float_of(b))), want = bits_of(machine_sqrt(float_of(b)));
    checks++;
    if (got == want || (is_nan_bits(got) && is_nan_bits(want))) return;
    printf("FAIL: jb_sqrt of %08x is %08x, the instruction sqrtss gives %08x\n", b, got, want);
    exit(1);
}

/* Arguments on both sides of the square of a midpoint: there the rounding of the root turns. */
static void roots_at_turns(long count)
{
    for (long i = 0; i < count; i++) {
        uint32_t r = 0x1a000000u + (uint32_t)random_bits() % (0x5f7fffffu - 0x1a000000u);
        double middle = ((double)float_of(r) + (double)float_of(r + 1)) / 2;
        uint32_t b = bits_of((float)(middle * middle));
        for (uint32_t k = 0; k < 3; k++) root_at(b - 1 + k);
    }
}

static void roots_around_powers(void)
{
    for (uint32_t e = 0; e < 512; e++)
        for (uint32_t k = 0; k < 257; k++) root_at((e << 23) - 128u + k);
}

static unsigned long long measure_roots(int all)
{
    checks = 0;
    uint64_t step = all ? 1 : 1021;
    for (uint64_t b = 0; b <= 0xffffffffu; b += step) root_at((uint32_t)b);
    roots_around_powers();
    roots_at_turns(1000000);
    return checks;
}

/* ---- narrowing -------------------------------------------------------- */

/* The f32 nearest to a double, from its bits alone. The value is m * 2^(e - 1075); one unit of the result is 2^q. */
static uint32_t narrow_by_integers(uint64_t b)
{
    uint32_t sign = (uint32_t)(b >> 63) << 31;
    int e = (int)(b >> 52 & 0x7ff);
    uint64_t m = b & 0xfffffffffffffu;
    if (e == 0x7ff) return m ? 0x7fc00000u : sign | INF_BITS;
    if (e == 0) return sign;                      /* below 2^-1022: nearest is zero */
    m |= 0x10000000000000u;
    int q = e - 1046 > -149 ? e - 1046 : -149;    /* 24 digits, or fewer for a subnormal */
    int shift = q - (e - 1075);
    if (shift > 54) return sign;                  /* below half a unit */
    uint64_t n = m >> shift, rest = m & (((uint64_t)1 << shift) - 1), half = (uint64_t)1 << (shift - 1);
    if (rest > half || (rest == half && n % 2 == 1)) n++;
    uint64_t r = ((uint64_t)(q + 149) << 23) + n; /* n's leading digit, or its carry, counts the exponent up */
    return sign | (r < INF_BITS ? (uint32_t)r : INF_BITS);
}

static int same(uint32_t a, uint32_t b) { return a == b || (is_nan_bits(a) && is_nan_bits(b)); }

static void narrow_at(uint64_t b)
{
    uint32_t got = bits_of(jb_narrow(double_of(b))), want = narrow_by_integers(b), cast = bits_of((float)double_of(b));
    checks++;
    if (same(got, want) && same(cast, want)) return;
    printf("FAIL: %s of the double %016llx is %08x, whole numbers give %08x\n",
        same(cast, want) ? "jb_narrow" : "the C cast (float)", (unsigned long long)b, same(cast, want) ? got : cast, want);
    exit(1);
}

/* Random digits at every exponent: all of them, and those that an f32 can hold, just below and just above. */
static void narrow_random(long count)
{
    for (long i = 0; i < count; i++) {
        narrow_at(random_bits());
        uint64_t e = 1023 - 152 + random_bits() % (152 + 130);
        narrow_at((random_bits() & 0x800fffffffffffffu) | e << 52);
    }
}

/* Halfway between two neighbours, and one digit to each side, at each exponent from below the least subnormal on. */
static void narrow_ties(int e, long count)
{
    int dropped = e < 1023 - 126 ? 29 + (1023 - 126 - e) : 29;
    if (dropped > 52) dropped = 52;               /* no digit is left: 2^-150 itself is the tie */
    for (long i = 0; i < count; i++) {
        uint64_t m = random_bits() & 0xfffffffffffffu;
        m = (m >> dropped << dropped) | (dropped < 52 || i % 2 ? (uint64_t)1 << (dropped - 1) : 0);
        uint64_t b = (random_bits() & 0x8000000000000000u) | (uint64_t)e << 52 | m;
        for (uint64_t k = 0; k < 3; k++) narrow_at(b - 1 + k);
    }
}

static void narrow_around(uint64_t b, uint64_t reach)
{
    for (uint64_t k = 0; k <= 2 * reach; k++) {
        narrow_at(b - reach + k);
        narrow_at((b - reach + k) ^ 0x8000000000000000u);
    }
}

/* Zero, least doubles, 2^-150, 2^-149, 2^-126, 1, the greatest f32, the tie above it, 2^128, infinity and NaNs. */
static void narrow_limits(void)
{
    static const uint64_t limits[] = {
        0, 0x0010000000000000u, 0x3690000000000000u, 0x36a0000000000000u, 0x36a8000000000000u, 0x3800000000000000u,
        0x380fffffe0000000u, 0x3810000000000000u, 0x3ff0000000000000u, 0x47efffffe0000000u, 0x47effffff0000000u,
        0x47f0000000000000u, 0x7fefffffffffffffu, 0x7ff0000000000000u, 0x7ff8000000000000u, 0x7fffffffffffffffu,
    };
    for (size_t i = 0; i < COUNT(limits); i++) narrow_around(limits[i], 5000);
    for (long i = 0; i < 100000; i++) narrow_at(random_bits() | 0x7ff0000000000000u);
}

static unsigned long long measure_narrow(int all)
{
    checks = 0;
    long part = all ? 10 : 1;
    narrow_random(4000000 * part);
    for (int e = 1023 - 152; e <= 1023 + 128; e++) narrow_ties(e, 4000 * part);
    narrow_limits();
    return checks;
}

int main(int argc, char **argv)
{
    int all = mode_is_all(argc, argv);
    unsigned long long doubles = measure_narrow(all), roots = measure_roots(all);
    printf("%llu roots as the instruction sqrtss, %llu doubles narrowed as by whole numbers, 0 differ\n", roots, doubles);
    return 0;
}
