/* Errors of jb_sin, jb_cos, jb_tanh, jb_exp and jb_atan2 against the C library's double-precision functions, and the
 * rules that hold to the bit: range, odd and even, monotone, NaN. A broken rule ends the program with a sentence; an
 * error above its bar ends it after the table.
 *
 *   accuracy sample    every 251st pattern with its successor, and the neighbourhoods of limits
 *   accuracy all       every f32 of each range, both signs
 *
 * Patterns of floats above 0, taken as whole numbers, are in the order of the floats: a walk over patterns is a walk
 * over the numbers in order. */
#include "measure.h"
#include "jengubool.h"

#define STEP 251u
#define REACH 150u                  /* patterns on each side of a limit */
#define LEAST_EXP 0x42aeac4fu       /* exp of minus this is the least normal result */
#define PI_BITS 0x40490fdbu
#define TAU_BITS 0x40c90fdbu

static int all;

/* ---- rows of the table ------------------------------------------------ */

typedef struct { float first, second; } Point;

typedef struct {
    const char *name, *range;
    double bar;                     /* as a power of two: the greatest allowed error is 2^-bar */
    int relative;                   /* what the bar is for */
    int mirrored;                   /* each noted argument stands for its negative too, whose bits were compared */
    uint64_t count;
    double abs, rel;
    Point abs_at, rel_at;
} Row;

static Row sin_row = { .name = "sin", .range = "-64 to 64", .bar = 24, .mirrored = 1 };
static Row cos_row = { .name = "cos", .range = "-64 to 64", .bar = 24, .mirrored = 1 };
static Row sin_far = { .name = "sin", .range = "beyond, of x % TAU", .bar = 24, .mirrored = 1 };
static Row cos_far = { .name = "cos", .range = "beyond, of x % TAU", .bar = 24, .mirrored = 1 };
static Row tanh_row = { .name = "tanh", .range = "all", .bar = 23.9, .mirrored = 1 };
static Row exp_80 = { .name = "exp", .range = "-80 to 0", .bar = 23.6, .relative = 1 };
static Row exp_87 = { .name = "exp", .range = "-87.33654 to -80", .bar = 23.6, .relative = 1 };
static Row exp_up = { .name = "exp", .range = "0 to 87", .bar = 23, .relative = 1 };
static Row atan2_octants = { .name = "atan2", .range = "(t, 1), 8 octants", .bar = 22 };
static Row atan2_random = { .name = "atan2", .range = "random pairs", .bar = 22 };
static Row atan2_limits = { .name = "atan2", .range = "limits crossed", .bar = 22 };
static Row *const rows[] = { &sin_row, &cos_row, &sin_far, &cos_far, &tanh_row, &exp_80, &exp_87, &exp_up,
    &atan2_octants, &atan2_random, &atan2_limits };

/* Below 2^-126 a relative error says nothing: the f32 there have fewer digits. */
static inline void note(Row *row, Point at, float got, double want)
{
    double d = fabs(got - want), r = fabs(want) < 0x1p-126 ? 0 : d / fabs(want);
    row->count++;
    if (!(d <= row->abs)) { row->abs = d; row->abs_at = at; }
    if (!(r <= row->rel)) { row->rel = r; row->rel_at = at; }
}

static void broken(const char *call, float first, float second, const char *rule)
{
    printf("FAIL: %s at %.9g (%08x)", call, first, bits_of(first));
    if (strcmp(call, "jb_atan2") == 0) printf(", %.9g (%08x)", second, bits_of(second));
    printf(": %s\n", rule);
    exit(1);
}

static void show_error(double error, Point at, int pair)
{
    char text[96];
    int n = snprintf(text, sizeof text, error == 0 ? "0" : "2^%.2f at %.9g", log2(error), at.first);
    if (error != 0 && pair) snprintf(text + n, sizeof text - (size_t)n, ", %.9g", at.second);
    printf("  %-38s", text);
}

/* Prints one row, and says whether it meets its bar. */
static int show(const Row *row)
{
    int pair = strcmp(row->name, "atan2") == 0, met = (row->relative ? row->rel : row->abs) <= exp2(-row->bar);
    printf("%-6s %-19s %10llu", row->name, row->range, (unsigned long long)row->count << row->mirrored);
    show_error(row->abs, row->abs_at, pair);
    show_error(row->rel, row->rel_at, pair);
    printf("  %s 2^-%.1f%s\n", row->relative ? "rel" : "abs", row->bar, met ? "" : "  MISSED");
    return met;
}

static int show_all(void)
{
    int missed = 0;
    printf("%-6s %-19s %10s  %-38s  %-38s  %s\n", "", "range", "count", "greatest absolute error", "greatest relative error",
        "bar");
    for (size_t i = 0; i < COUNT(rows); i++) missed += !show(rows[i]);
    return missed;
}

/* ---- walks over patterns ---------------------------------------------- */

typedef void Visit(uint32_t pattern);

static float last;                  /* result before, in the order of the patterns; reset where a walk begins */

static void run(uint32_t from, uint32_t to, float before, Visit *visit)
{
    last = before;
    for (uint64_t b = from; b <= to; b++) visit((uint32_t)b);
}

/* All of from..to; or each STEP-th with its successor, so that a step the wrong way between neighbours shows. */
static void walk(uint32_t from, uint32_t to, float before, Visit *visit)
{
    if (all) { run(from, to, before, visit); return; }
    last = before;
    for (uint64_t b = from; b < to; b += STEP) {
        visit((uint32_t)b);
        visit((uint32_t)b + 1);
    }
    visit(to);
}

static void around(uint32_t limit, uint32_t from, uint32_t to, float before, Visit *visit)
{
    uint32_t low = limit > from + REACH ? limit - REACH : from, high = limit < to - REACH ? limit + REACH : to;
    if (low <= high) run(low, high, before, visit);
}

/* Around 0, the powers of two, and the multiples of `unit`: where a reduction of the argument switches. */
static void around_limits(double unit, uint32_t from, uint32_t to, float before, Visit *visit)
{
    if (all) return;                /* the walk has met them */
    for (uint32_t e = from >> 23; e <= to >> 23; e++) around(e << 23, from, to, before, visit);
    for (double v = unit; v <= float_of(to) && v <= 128; v += unit) around(bits_of((float)v), from, to, before, visit);
}

/* ---- sine and cosine -------------------------------------------------- */

static int in_unit(float y) { return y >= -1 && y <= 1; }

static void sin_cos_rules(float x, float s, float c)
{
    if (!in_unit(s)) broken("jb_sin", x, 0, "the result leaves -1 to 1");
    if (!in_unit(c)) broken("jb_cos", x, 0, "the result leaves -1 to 1");
    if (bits_of(jb_sin(-x)) != (bits_of(s) ^ SIGN)) broken("jb_sin", x, 0, "not odd to the bit");
    if (bits_of(jb_cos(-x)) != bits_of(c)) broken("jb_cos", x, 0, "not even to the bit");
}

/* Odd and even to the bit: so the error at -x is that at x. */
static void sin_cos_at(uint32_t b)
{
    float x = float_of(b), s = jb_sin(x), c = jb_cos(x);
    sin_cos_rules(x, s, c);
    note(&sin_row, (Point){ x, 0 }, s, sin(x));
    note(&cos_row, (Point){ x, 0 }, c, cos(x));
}

static void sin_cos_far_at(uint32_t b)
{
    float x = float_of(b), s = jb_sin(x), c = jb_cos(x);
    double y = fmod(x, float_of(TAU_BITS));       /* exact */
    sin_cos_rules(x, s, c);
    note(&sin_far, (Point){ x, 0 }, s, sin(y));
    note(&cos_far, (Point){ x, 0 }, c, cos(y));
}

static void measure_sin_cos(void)
{
    uint32_t end = bits_of(64.0f);
    walk(0, end, 0, sin_cos_at);
    around_limits(M_PI / 4, 0, end, 0, sin_cos_at);
    run(end + 1, end + 1000, 0, sin_cos_far_at);
    for (uint64_t b = end + 1; b < INF_BITS; b += all ? 251 : 16001) sin_cos_far_at((uint32_t)b);
    sin_cos_far_at(INF_BITS - 1);
}

/* ---- tanh ------------------------------------------------------------- */

static void tanh_at(uint32_t b)
{
    float x = float_of(b), y = jb_tanh(x);
    if (!in_unit(y)) broken("jb_tanh", x, 0, "the result leaves -1 to 1");
    if (bits_of(jb_tanh(-x)) != (bits_of(y) ^ SIGN)) broken("jb_tanh", x, 0, "not odd to the bit");
    if (y < last) broken("jb_tanh", x, 0, "below the result at a smaller argument, so not monotone");
    last = y;
    note(&tanh_row, (Point){ x, 0 }, y, tanh(x));
}

static void measure_tanh(void)
{
    walk(0, INF_BITS, 0, tanh_at);
    around_limits(1 / 5.5, 0, INF_BITS, 0, tanh_at);
    around_limits(M_LN2 / 4, 0, INF_BITS, 0, tanh_at);
}

/* ---- exp -------------------------------------------------------------- */

/* b is the pattern of -x, so that a walk goes down from exp(-0) = 1. */
static void exp_at(uint32_t b)
{
    float x = -float_of(b), y = jb_exp(x);
    if (!(y >= 0 && y <= 1)) broken("jb_exp", x, 0, "the result leaves 0 to 1");
    if (y > last) broken("jb_exp", x, 0, "above the result at a greater argument, so not monotone");
    last = y;
    if (b > LEAST_EXP) {
        if (bits_of(y) != 0) broken("jb_exp", x, 0, "not +0 below the least argument");
        return;
    }
    if (y < 0x1p-126f) broken("jb_exp", x, 0, "subnormal");
    note(x >= -80 ? &exp_80 : &exp_87, (Point){ x, 0 }, y, exp(x));
}

static void exp_up_at(uint32_t b)
{
    float x = float_of(b);
    note(&exp_up, (Point){ x, 0 }, jb_exp(x), exp(x));
}

static void measure_exp(void)
{
    walk(0, INF_BITS, 1, exp_at);
    around_limits(M_LN2 / 2, 0, INF_BITS, 1, exp_at);
    around(LEAST_EXP, 0, INF_BITS, 1, exp_at);
    around(bits_of(80.0f), 0, INF_BITS, 1, exp_at);
    walk(0, bits_of(87.0f), 0, exp_up_at);
    around_limits(M_LN2 / 2, 0, bits_of(87.0f), 0, exp_up_at);
}

/* ---- atan2 ------------------------------------------------------------ */

static void atan2_at(Row *row, float y, float x)
{
    float pi = float_of(PI_BITS), a = jb_atan2(y, x);
    if (!(a >= -pi && a <= pi)) broken("jb_atan2", y, x, "the result leaves -PI to PI");
    note(row, (Point){ y, x }, a, atan2(y, x));
}

static void octants_at(uint32_t b)
{
    float t = float_of(b);
    for (int i = 0; i < 4; i++) {
        float u = i & 1 ? -t : t, one = i & 2 ? -1 : 1;
        atan2_at(&atan2_octants, u, one);
        atan2_at(&atan2_octants, one, u);
    }
}

/* Random bits; or both of like size; or one a hundredth of the other. */
static void atan2_random_at(long i)
{
    uint64_t r = random_bits();
    float y = (float)(int32_t)(uint32_t)r * 0x1p-24f, x = (float)(int32_t)(uint32_t)(r >> 32) * 0x1p-24f;
    if (i % 4 == 0) { y = float_of((uint32_t)r); x = float_of((uint32_t)(r >> 32)); }
    if (i % 4 == 2) x *= 0.01f;
    if (i % 4 == 3) y *= 0.01f;
    if (y == y && x == x) atan2_at(&atan2_random, y, x);
}

static const uint32_t limits[] = {
    0, 1, 2, 0x7fffffu, 0x800000u, 0x800001u, 0x1f800000u, 0x20000000u, 0x33800000u, 0x34000000u, 0x3effffffu, 0x3f000000u,
    0x3f490fdbu, 0x3f7fffffu, 0x3f800000u, 0x3f800001u, 0x3fc90fdbu, 0x40000000u, PI_BITS, TAU_BITS, 0x4b000000u,
    0x4b7fffffu, 0x5f800000u, 0x7e7fffffu, 0x7e800000u, 0x7f61b1e6u, 0x7f7fffffu, INF_BITS,
};
static float limit(size_t i) { return float_of(limits[i / 2] | (i % 2 ? SIGN : 0)); }

/* Where a zero, an infinity or a diagonal fixes the angle, the result is the f32 next to it, sign of zero included. */
static int angle_is_fixed(float y, float x) { return y == 0 || x == 0 || isinf(y) || isinf(x) || fabsf(y) == fabsf(x); }

static void atan2_limits_at(float y, float x)
{
    atan2_at(&atan2_limits, y, x);
    if (angle_is_fixed(y, x) && bits_of(jb_atan2(y, x)) != bits_of((float)atan2(y, x)))
        broken("jb_atan2", y, x, "not the f32 next to the angle");
}

static void measure_atan2(void)
{
    uint32_t small = bits_of(0x1p-13f), one = bits_of(1.0f);    /* below 2^-13 the angle is t to the last digit */
    for (uint64_t b = 0; b < small; b += STEP * 16) octants_at((uint32_t)b);
    walk(small, one, 0, octants_at);
    around_limits(0.125, 0, one, 0, octants_at);
    for (long i = 0; i < (all ? 100000000 : 4000000); i++) atan2_random_at(i);
    for (size_t i = 0; i < 2 * COUNT(limits); i++)
        for (size_t k = 0; k < 2 * COUNT(limits); k++) atan2_limits_at(limit(i), limit(k));
}

/* ---- NaN -------------------------------------------------------------- */

static void wants_nan(const char *call, float first, float second, float got)
{
    if (got == got) broken(call, first, second, "a number where NaN is the rule");
}

static void nan_at(uint32_t b)
{
    float x = float_of(b), other = limit(b % (2 * COUNT(limits)));
    wants_nan("jb_sin", x, 0, jb_sin(x));
    wants_nan("jb_cos", x, 0, jb_cos(x));
    wants_nan("jb_tanh", x, 0, jb_tanh(x));
    wants_nan("jb_exp", x, 0, jb_exp(x));
    wants_nan("jb_atan2", x, other, jb_atan2(x, other));
    wants_nan("jb_atan2", other, x, jb_atan2(other, x));
    wants_nan("jb_atan2", x, x, jb_atan2(x, x));
}

/* Returns how many patterns were tried: every NaN of both signs, and the two infinities for sine and cosine. */
static uint64_t check_nans(void)
{
    uint64_t count = 0, step = all ? 1 : STEP;
    for (uint64_t b = INF_BITS + 1; b < SIGN; b += step, count += 2) {
        nan_at((uint32_t)b);
        nan_at((uint32_t)b | SIGN);
    }
    for (uint32_t sign = 0; sign < 2; sign++) {
        float x = sign ? -INFINITY : INFINITY;
        wants_nan("jb_sin", x, 0, jb_sin(x));
        wants_nan("jb_cos", x, 0, jb_cos(x));
    }
    return count;
}

static double worst(const Row *a, const Row *b)
{
    double x = a->relative ? a->rel : a->abs, y = b->relative ? b->rel : b->abs;
    return log2(x > y ? x : y);
}

/* One line for a reader of many tests: the greatest errors, and the rules, which have ended the program if broken. */
static void summary(uint64_t nans)
{
    printf("greatest errors sin 2^%.2f, cos 2^%.2f, tanh 2^%.2f, exp 2^%.2f (relative), atan2 2^%.2f; ranges, odd, even, "
        "monotone kept; NaN at %llu patterns\n", worst(&sin_row, &sin_far), worst(&cos_row, &cos_far),
        worst(&tanh_row, &tanh_row), worst(&exp_80, &exp_87), worst(&atan2_random, &atan2_octants), (unsigned long long)nans);
}

int main(int argc, char **argv)
{
    all = mode_is_all(argc, argv);
    uint64_t nans = check_nans();
    measure_sin_cos();
    measure_tanh();
    measure_exp();
    measure_atan2();
    int missed = show_all();
    if (missed) {
        printf("FAIL: %d of the rows above miss their bar\n", missed);
        return 1;
    }
    summary(nans);
    return 0;
}
