/* Calls every function of jengubool.h through its declaration, and holds a dozen or more results each against values
 * worked out without the library: exact cases to the bit, other points against the C library's double precision.
 * The first failure ends the program with a sentence that names the call. Compiles as C and as C++. */
#include "measure.h"
#include "jengubool.h"

static int checks;

static void exact(const char *call, float got, uint32_t want)
{
    checks++;
    if (bits_of(got) == want) return;
    printf("FAIL: %s is %08x, it must be %08x\n", call, bits_of(got), want);
    exit(1);
}

static void near_to(const char *call, float got, double want, double most)
{
    checks++;
    if (fabs((double)got - want) <= most) return;
    printf("FAIL: %s is %.9g, more than %.3g away from %.17g\n", call, got, most, want);
    exit(1);
}

static void not_a_number(const char *call, float got)
{
    checks++;
    if (is_nan_bits(bits_of(got))) return;
    printf("FAIL: %s is %.9g, it must be NaN\n", call, got);
    exit(1);
}

#define EXACT(call, want) exact(#call, call, want)
#define NEAR(call, want, most) near_to(#call, call, want, most)
#define RELATIVE(call, want, most) near_to(#call, call, want, (want) * (most))
#define NOT_A_NUMBER(call) not_a_number(#call, call)

#define LEAST float_of(1)           /* 2^-149 */
#define QUIET float_of(0x7fc00000u)
#define OTHER_NAN float_of(0xff812345u)
#define INF float_of(INF_BITS)
#define SINE_BAR 0x1p-24
#define TANH_BAR exp2(-23.9)
#define EXP_BAR exp2(-23.6)
#define ATAN2_BAR 0x1p-22

/* x - x^3/6: for tiny x the nearest f32 is x itself. */
static void check_sin(void)
{
    EXACT(jb_sin(0.0f), 0);
    EXACT(jb_sin(-0.0f), SIGN);
    EXACT(jb_sin(LEAST), 1);
    EXACT(jb_sin(-LEAST), SIGN | 1);
    EXACT(jb_sin(0x1p-20f), 0x35800000u);
    EXACT(jb_sin(-0x1p-20f), 0xb5800000u);
    NOT_A_NUMBER(jb_sin(QUIET));
    NOT_A_NUMBER(jb_sin(OTHER_NAN));
    NOT_A_NUMBER(jb_sin(INF));
    NOT_A_NUMBER(jb_sin(-INF));
    NEAR(jb_sin(1.0f), sin(1.0), SINE_BAR);
    NEAR(jb_sin(-2.5f), sin(-2.5), SINE_BAR);
    NEAR(jb_sin(float_of(0x3fc90fdbu)), 1.0, SINE_BAR);
    NEAR(jb_sin(22.0f), sin(22.0), SINE_BAR);
    NEAR(jb_sin(64.0f), sin(64.0), SINE_BAR);
    NEAR(jb_sin(-63.75f), sin(-63.75), SINE_BAR);
    NEAR(jb_sin(1000.0f), sin(fmod(1000.0, float_of(0x40c90fdbu))), SINE_BAR);
}

static void check_cos(void)
{
    EXACT(jb_cos(0.0f), 0x3f800000u);
    EXACT(jb_cos(-0.0f), 0x3f800000u);
    EXACT(jb_cos(LEAST), 0x3f800000u);
    EXACT(jb_cos(0x1p-20f), 0x3f800000u);
    NOT_A_NUMBER(jb_cos(QUIET));
    NOT_A_NUMBER(jb_cos(OTHER_NAN));
    NOT_A_NUMBER(jb_cos(INF));
    NOT_A_NUMBER(jb_cos(-INF));
    NEAR(jb_cos(1.0f), cos(1.0), SINE_BAR);
    NEAR(jb_cos(-2.5f), cos(-2.5), SINE_BAR);
    NEAR(jb_cos(float_of(0x40490fdbu)), -1.0, SINE_BAR);
    NEAR(jb_cos(11.0f), cos(11.0), SINE_BAR);
    NEAR(jb_cos(64.0f), cos(64.0), SINE_BAR);
    NEAR(jb_cos(-63.75f), cos(-63.75), SINE_BAR);
    NEAR(jb_cos(1000.0f), cos(fmod(1000.0, float_of(0x40c90fdbu))), SINE_BAR);
}

/* From 9.02 on the true value lies nearer to 1 than to the f32 below. */
static void check_tanh(void)
{
    EXACT(jb_tanh(0.0f), 0);
    EXACT(jb_tanh(-0.0f), SIGN);
    EXACT(jb_tanh(LEAST), 1);
    EXACT(jb_tanh(-0x1p-20f), 0xb5800000u);
    EXACT(jb_tanh(INF), 0x3f800000u);
    EXACT(jb_tanh(-INF), 0xbf800000u);
    EXACT(jb_tanh(9.5f), 0x3f800000u);
    EXACT(jb_tanh(-3e38f), 0xbf800000u);
    NOT_A_NUMBER(jb_tanh(QUIET));
    NOT_A_NUMBER(jb_tanh(OTHER_NAN));
    NEAR(jb_tanh(0.125f), tanh(0.125), TANH_BAR);
    NEAR(jb_tanh(0.5f), tanh(0.5), TANH_BAR);
    NEAR(jb_tanh(-1.0f), tanh(-1.0), TANH_BAR);
    NEAR(jb_tanh(3.0f), tanh(3.0), TANH_BAR);
    NEAR(jb_tanh(-8.5f), tanh(-8.5), TANH_BAR);
}

/* 2^-26 is half of half the step below 1. c2aeac4f is the least argument with a normal result. */
static void check_exp(void)
{
    EXACT(jb_exp(0.0f), 0x3f800000u);
    EXACT(jb_exp(-0.0f), 0x3f800000u);
    EXACT(jb_exp(-LEAST), 0x3f800000u);
    EXACT(jb_exp(-0x1p-26f), 0x3f800000u);
    EXACT(jb_exp(-INF), 0);
    EXACT(jb_exp(-3e38f), 0);
    EXACT(jb_exp(float_of(0xc2aeac50u)), 0);
    EXACT(jb_exp(INF), INF_BITS);
    EXACT(jb_exp(100.0f), INF_BITS);
    NOT_A_NUMBER(jb_exp(QUIET));
    NOT_A_NUMBER(jb_exp(OTHER_NAN));
    RELATIVE(jb_exp(-0.5f), exp(-0.5), EXP_BAR);
    RELATIVE(jb_exp(-1.0f), exp(-1.0), EXP_BAR);
    RELATIVE(jb_exp(-20.0f), exp(-20.0), EXP_BAR);
    RELATIVE(jb_exp(-80.0f), exp(-80.0), EXP_BAR);
    RELATIVE(jb_exp(float_of(0xc2aeac4fu)), exp((double)float_of(0xc2aeac4fu)), EXP_BAR);
    RELATIVE(jb_exp(1.0f), exp(1.0), 0x1p-23);
}

/* The f32 next to PI, PI/2, PI/4 and 3 PI/4 are 40490fdb, 3fc90fdb, 3f490fdb and 4016cbe4. */
static void check_atan2(void)
{
    EXACT(jb_atan2(0.0f, 0.0f), 0);
    EXACT(jb_atan2(-0.0f, 0.0f), SIGN);
    EXACT(jb_atan2(0.0f, -0.0f), 0x40490fdbu);
    EXACT(jb_atan2(-0.0f, -0.0f), 0xc0490fdbu);
    EXACT(jb_atan2(1.0f, 0.0f), 0x3fc90fdbu);
    EXACT(jb_atan2(-1.0f, -0.0f), 0xbfc90fdbu);
    EXACT(jb_atan2(1.0f, 1.0f), 0x3f490fdbu);
    EXACT(jb_atan2(-2.0f, -2.0f), 0xc016cbe4u);
    EXACT(jb_atan2(INF, -INF), 0x4016cbe4u);
    EXACT(jb_atan2(1.0f, INF), 0);
    EXACT(jb_atan2(-1.0f, -INF), 0xc0490fdbu);
    EXACT(jb_atan2(LEAST, 3e38f), 0);
    NOT_A_NUMBER(jb_atan2(QUIET, 1.0f));
    NOT_A_NUMBER(jb_atan2(1.0f, OTHER_NAN));
    NEAR(jb_atan2(1.0f, 2.0f), atan2(1, 2), ATAN2_BAR);
    NEAR(jb_atan2(2.0f, -1.0f), atan2(2, -1), ATAN2_BAR);
    NEAR(jb_atan2(-3.0f, -40.0f), atan2(-3, -40), ATAN2_BAR);
    NEAR(jb_atan2(-1e20f, 3e19f), atan2(-1e20, 3e19), ATAN2_BAR);
}

/* Roots of 2 and 3 to 24 digits; neighbours of 1, on either side of a tie; the ends of the subnormal and of all f32. */
static void check_sqrt(void)
{
    EXACT(jb_sqrt(0.0f), 0);
    EXACT(jb_sqrt(-0.0f), SIGN);
    EXACT(jb_sqrt(1.0f), 0x3f800000u);
    EXACT(jb_sqrt(2.0f), 0x3fb504f3u);
    EXACT(jb_sqrt(3.0f), 0x3fddb3d7u);
    EXACT(jb_sqrt(6.25f), 0x40200000u);
    EXACT(jb_sqrt(float_of(0x3f800001u)), 0x3f800000u);
    EXACT(jb_sqrt(float_of(0x3f7fffffu)), 0x3f7fffffu);
    EXACT(jb_sqrt(LEAST), 0x1a3504f3u);
    EXACT(jb_sqrt(0x1p-126f), 0x20000000u);
    EXACT(jb_sqrt(float_of(0x7f7fffffu)), 0x5f7fffffu);
    EXACT(jb_sqrt(INF), INF_BITS);
    NOT_A_NUMBER(jb_sqrt(-1.0f));
    NOT_A_NUMBER(jb_sqrt(-LEAST));
    NOT_A_NUMBER(jb_sqrt(-INF));
    NOT_A_NUMBER(jb_sqrt(QUIET));
    NOT_A_NUMBER(jb_sqrt(OTHER_NAN));
}

/* Ties at 1, in the subnormals, at the least normal and above the greatest; and one digit off the tie. */
static void check_narrow(void)
{
    EXACT(jb_narrow(-0.0), SIGN);
    EXACT(jb_narrow(1.0 + 0x1p-24), 0x3f800000u);
    EXACT(jb_narrow(1.0 + 0x1p-24 + 0x1p-52), 0x3f800001u);
    EXACT(jb_narrow(1.0 + 3 * 0x1p-24), 0x3f800002u);
    EXACT(jb_narrow(-(1.0 + 5 * 0x1p-24)), 0xbf800002u);
    EXACT(jb_narrow(0x1p-149), 1);
    EXACT(jb_narrow(0x1p-150), 0);
    EXACT(jb_narrow(-0x1p-150), SIGN);
    EXACT(jb_narrow(0x1.0000000000001p-150), 1);
    EXACT(jb_narrow(0x1.8p-149), 2);
    EXACT(jb_narrow(0x1p-126 - 0x1p-150), 0x00800000u);
    EXACT(jb_narrow(5e-324), 0);
    EXACT(jb_narrow(0x1.fffffep127), 0x7f7fffffu);
    EXACT(jb_narrow(0x1.fffffefffffffp127), 0x7f7fffffu);
    EXACT(jb_narrow(0x1.ffffffp127), INF_BITS);
    EXACT(jb_narrow(-1e308), SIGN | INF_BITS);
    EXACT(jb_narrow((double)INFINITY), INF_BITS);
    NOT_A_NUMBER(jb_narrow(double_of(0x7ff8000000000000u)));
    NOT_A_NUMBER(jb_narrow(double_of(0xfff0000000000001u)));
}

static void whole(const char *what, unsigned long got, unsigned long want)
{
    checks++;
    if (got == want) return;
    printf("FAIL: %s is %lu, it must be %lu\n", what, got, want);
    exit(1);
}

/* A ring of 16 or of 24 samples, all of them 0 at angles of 0. The arrays hold one more than the longer one takes. */
static float ring_samples[25], ring_angles[25];

/* The buffers of a ring, longer by one than need be, and what they hold as long as nothing was written. */
typedef struct { float fit[8]; uint32_t counts[5]; } ring_out;
static const ring_out UNTOUCHED = {{7, 7, 7, 7, 7, 7, 7, 7}, {7, 7, 7, 7, 7}};

/* Values that the call writes: six, or seven where it is jb_ring_record or jb_tables_fit. */
static size_t values;

/* The tables of jb_tables_fit; none where another call is meant. */
static const jb_tables *ring_tables;

/* The ring fit for n samples: in all that follows the calls differ in n, in the mean and in the tables alone. */
static unsigned long fit_ring(size_t n, size_t samples_len, size_t angles_len, ring_out *out, size_t fit_len, size_t counts_len)
{
    if (ring_tables)
        return jb_tables_fit(ring_tables, ring_samples, samples_len, ring_angles, angles_len, out->fit, fit_len, out->counts, counts_len);
    if (values == 7) return jb_ring_record(ring_samples, samples_len, ring_angles, angles_len, out->fit, fit_len, out->counts, counts_len);
    if (n == 24) return jb_fit_ring24(ring_samples, samples_len, ring_angles, angles_len, out->fit, fit_len, out->counts, counts_len);
    return jb_fit_ring(ring_samples, samples_len, ring_angles, angles_len, out->fit, fit_len, out->counts, counts_len);
}

static void ring_whole(size_t n, const char *what, unsigned long got, unsigned long want)
{
    const char *name = ring_tables ? "jb_tables_fit" : values == 7 ? "jb_ring_record" : n == 24 ? "jb_fit_ring24" : "jb_fit_ring";
    char call[80];
    snprintf(call, sizeof call, "%s %s", name, what);
    whole(call, got, want);
}

/* Each wrong length: none, one too few, the other ring's, one too many. Lengths come before values. */
static void check_ring_lengths(size_t n, ring_out *out)
{
    const size_t wrong[4] = {0, n - 1, 40 - n, n + 1};
    int i;
    ring_samples[0] = QUIET;
    for (i = 0; i < 4; i++) {
        ring_whole(n, "of a wrong number of samples", fit_ring(n, wrong[i], n, out, 8, 5), 65536);
        ring_whole(n, "of a wrong number of angles", fit_ring(n, n, wrong[i], out, 8, 5), 65536);
    }
    ring_whole(n, "into a float too few", fit_ring(n, n, n, out, values - 1, 5), 65536);
    ring_whole(n, "into 3 counts", fit_ring(n, n, n, out, 8, 3), 65536);
    ring_samples[0] = 0.0f;
}

/* Each value in turn, with the last one spoilt as well: the first counts. */
static void check_ring_places(size_t n, ring_out *out)
{
    const float wild[4] = {QUIET, OTHER_NAN, INF, -INF};
    size_t i;
    for (i = 0; i < 4 * 2 * n; i++) {
        size_t place = i / 4;
        float *spoilt = place < n ? &ring_samples[place] : &ring_angles[place - n];
        ring_angles[n - 1] = QUIET;
        *spoilt = wild[i % 4];
        ring_whole(n, "of a value that is not finite", fit_ring(n, n, n, out, 8, 5), 196608 + (unsigned long)place);
        *spoilt = 0.0f;
        ring_angles[n - 1] = 0.0f;
    }
}

/* The printed examples of docs/RULES.md: n samples of 0 at n angles of 0. */
static void check_ring_of_zeros(size_t n, ring_out *out)
{
    static const uint32_t want[7] = {0, 0, 0x3fc90fdbu, 0x40490fdbu, 0x40490fdbu, 0, 0};
    size_t i;
    ring_whole(n, "of zeros", fit_ring(n, n, n, out, 8, 5), 0);
    for (i = 0; i < values; i++) exact("fit of zeros", out->fit[i], want[i]);
    for (i = values; i < 8; i++) exact("a float behind the fit", out->fit[i], 0x40e00000u);
    whole("starts", out->counts[0], 1);
    whole("updates", out->counts[1] + out->counts[2], 0);
    whole("known", out->counts[3], 0);
    whole("the count behind the counts", out->counts[4], 7);
}

/* One sample of 1 and one angle of 100: both errors are estimated above PI, capped there, and known. */
static void check_ring_capped(ring_out *out)
{
    ring_samples[8] = 1.0f;
    ring_angles[7] = 100.0f;
    ring_whole(16, "of one sample", fit_ring(16, 16, 16, out, 8, 5), 0);
    exact("the first error, capped", out->fit[3], 0x40490fdbu);
    exact("the second error, capped", out->fit[4], 0x40490fdbu);
    whole("known of capped errors", out->counts[3], 1);
    ring_samples[8] = ring_angles[7] = 0.0f;
}

/* A corner with axes at 30 and 120 degrees, as the model has it: the fit finds it again. */
static void check_ring_corner(size_t n, ring_out *out)
{
    const double axis1 = 0.5235988, axis2 = 2.0943951;
    size_t i;
    for (i = 0; i < n; i++) {
        double phi = 2.0 * 3.14159265358979 * (double)i / (double)n;
        ring_angles[i] = (float)phi;
        ring_samples[i] = (float)(128.0 + 60.0 * tanh(4.0 * sin(phi - axis1)) * tanh(4.0 * sin(phi - axis2)));
    }
    ring_whole(n, "of a corner", fit_ring(n, n, n, out, 8, 5), 0);
    near_to("the amplitude of a ring's corner", out->fit[0], 60.0, 0.01);
    near_to("theta1 of a ring's corner", out->fit[1], axis1, 0.0002);
    near_to("theta2 of a ring's corner", out->fit[2], axis2, 0.0002);
    near_to("the residual of a ring's corner", out->fit[5], 0.0, 0.01);
    if (values == 7) near_to("the mean of a ring's corner", out->fit[6], 128.0, 0.01);
    whole("starts of a ring's corner", out->counts[0], 1);
    whole("known of a ring's corner", out->counts[3], 1);
    memset(ring_samples, 0, sizeof ring_samples);
    memset(ring_angles, 0, sizeof ring_angles);
}

/* Samples of -0 at angles of 0: the mean of a degenerate start is its seed's, here that of the samples, to the bit. */
static void check_ring_mean(size_t n, ring_out *out)
{
    size_t i;
    for (i = 0; i < n; i++) ring_samples[i] = -0.0f;
    ring_whole(n, "of samples of -0", fit_ring(n, n, n, out, 8, 5), 0);
    exact("the mean of samples of -0", out->fit[6], SIGN);
    memset(ring_samples, 0, sizeof ring_samples);
}

static void check_fit_ring(size_t n, size_t written)
{
    ring_out out = UNTOUCHED;
    int i;
    values = written;
    check_ring_lengths(n, &out);
    check_ring_places(n, &out);
    for (i = 0; i < 8; i++) exact("fit after a refusal", out.fit[i], 0x40e00000u);
    for (i = 0; i < 5; i++) whole("counts after a refusal", out.counts[i], 7);
    check_ring_of_zeros(n, &out);
    if (n == 16) check_ring_capped(&out);
    if (written == 7) check_ring_mean(n, &out);
    check_ring_corner(n, &out);
}

/* Tables between floats that no call may touch, and a copy of the words to hold them against. */
static struct { float before[16]; jb_tables tables; float behind[16]; } walled;
static jb_tables kept;

/* The first word says how many tables are held, then come the three, each with its 16 angles in front. A caller need not
 * know it; here it shows which words a store must keep, and where to put what no store would. */
#define TABLE_WORDS ((JB_TABLES_WORDS - 1) / 3)
#define TABLE(k) (1 + (k) * TABLE_WORDS)

static void check_walls(void)
{
    int i;
    for (i = 0; i < 16; i++) exact("a float in front of the tables", walled.before[i], 0x40e00000u);
    for (i = 0; i < 16; i++) exact("a float behind the tables", walled.behind[i], 0x40e00000u);
}

/* Memory as a caller may find it: all bits set, which are NaNs. */
static void make_fresh(void)
{
    int i;
    for (i = 0; i < 16; i++) walled.before[i] = walled.behind[i] = 7.0f;
    memset(&walled.tables, 0xff, sizeof walled.tables);
    jb_tables_fresh(&walled.tables);
    check_walls();
}

static void words_kept(const char *what, size_t from, size_t to)
{
    whole(what, (unsigned long)(memcmp(walled.tables.words + from, kept.words + from, (to - from) * sizeof(float)) != 0), 0);
}

/* 16 angles in even steps from a first one on. */
static void ring_from(float first)
{
    int i;
    for (i = 0; i < 16; i++) ring_angles[i] = first + (float)i * 0.39269908f;
}

static unsigned long store(size_t angles_len) { return jb_tables_store(&walled.tables, ring_angles, angles_len); }

/* A call that is refused, by lengths before values, keeps every word; of values that are not finite the first counts. */
static void check_refused_stores(void)
{
    const size_t wrong[5] = {0, 1, 15, 17, 24};
    const float wild[4] = {QUIET, OTHER_NAN, INF, -INF};
    int i;
    kept = walled.tables;
    ring_from(0.0f);
    ring_angles[0] = QUIET;
    for (i = 0; i < 5; i++) whole("jb_tables_store of a wrong number of angles", store(wrong[i]), 65536);
    for (i = 0; i < 64; i++) {
        ring_from(0.0f);
        ring_angles[15] = QUIET;
        ring_angles[i / 4] = wild[i % 4];
        whole("jb_tables_store of an angle that is not finite", store(16), 196608 + (unsigned long)(i / 4));
    }
    words_kept("the words after refused stores, compared", 0, JB_TABLES_WORDS);
    check_walls();
}

/* Three tables, the third one of the second's angles. Those that are held keep every word; a fourth finds no room. */
static void check_tables_store(void)
{
    size_t k;
    make_fresh();
    check_refused_stores();
    for (k = 0; k < 3; k++) {
        kept = walled.tables;
        ring_from(k == 0 ? 0.0f : 0.25f);
        whole("jb_tables_store of a table", store(16), 0);
        words_kept("the tables that are held after a store, compared", TABLE(0), TABLE(k));
        check_refused_stores();
    }
    kept = walled.tables;
    ring_from(0.125f);
    whole("jb_tables_store of a fourth table", store(16), 393216);
    words_kept("the words after a fourth store, compared", 0, JB_TABLES_WORDS);
    check_walls();
    jb_tables_fresh(&walled.tables);
    whole("jb_tables_store after jb_tables_fresh", store(16), 0);
}

/* A corner in whole grey values. Axes that are not square to each other make a second start, and that is what asks a table. */
static void put_ring_corner(float axis1, float axis2)
{
    int i;
    for (i = 0; i < 16; i++) {
        float phi = ring_angles[i];
        ring_samples[i] = (float)(int)(128.5f + 60.0f * jb_tanh(4.0f * jb_sin(phi - axis1)) * jb_tanh(4.0f * jb_sin(phi - axis2)));
    }
}

/* What is promised of every ring that is answered. */
static void check_ring_promises(const ring_out *out)
{
    const float *fit = out->fit, pi = float_of(0x40490fdbu);
    int i;
    whole("the amplitude not below 0", !(fit[0] < 0.0f), 1);
    whole("theta1 from 0 to PI", fit[1] >= 0.0f && fit[1] < pi, 1);
    whole("theta2 from theta1 to 2 PI", fit[2] >= fit[1] && fit[2] < 2.0f * pi, 1);
    for (i = 3; i < 5; i++) whole("an error from 0 to PI", fit[i] >= 0.0f && fit[i] <= pi, 1);
    whole("starts of 1 or 2", out->counts[0] == 1 || out->counts[0] == 2, 1);
    whole("updates of at most 6", out->counts[1] <= 6 && out->counts[2] <= 6, 1);
    whole("known of 0 or 1", out->counts[3] <= 1, 1);
    exact("the float behind the fit", fit[7], 0x40e00000u);
    whole("the count behind the counts", out->counts[4], 7);
}

/* Both calls on the ring as it is: every word of both buffers. */
static void same_as_record(void)
{
    ring_out direct = UNTOUCHED, out = UNTOUCHED;
    whole("jb_ring_record", jb_ring_record(ring_samples, 16, ring_angles, 16, direct.fit, 8, direct.counts, 5), 0);
    whole("jb_tables_fit", jb_tables_fit(&walled.tables, ring_samples, 16, ring_angles, 16, out.fit, 8, out.counts, 5), 0);
    whole("jb_tables_fit and jb_ring_record, compared", (unsigned long)(memcmp(&out, &direct, sizeof out) != 0), 0);
    check_ring_promises(&out);
}

/* No table is near: axes of all separations, one start and two; no contrast; samples whose squares overflow. */
static void check_no_table_near(void)
{
    int i;
    ring_from(0.5f);
    for (i = 0; i < 32; i++) {
        put_ring_corner(0.1f * (float)i, 0.1f * (float)i + 0.3f + 0.08f * (float)(i % 16));
        same_as_record();
    }
    memset(ring_samples, 0, sizeof ring_samples);
    same_as_record();
    ring_samples[7] = 3e38f;
    same_as_record();
    memset(ring_samples, 0, sizeof ring_samples);
}

/* A skewed corner by a table that matches. Without its models, all of them 0, the same ring finds no second start: so the
 * seed was the table's. */
static void check_table_near(void)
{
    ring_out direct = UNTOUCHED, out = UNTOUCHED;
    int i;
    make_fresh();
    ring_from(0.0f);
    whole("jb_tables_store of a ring's angles", store(16), 0);
    ring_angles[9] = float_of(bits_of(ring_angles[9]) + 2); /* 4.8e-7 away, which is near */
    put_ring_corner(0.7f, 1.2f);
    kept = walled.tables;
    jb_ring_record(ring_samples, 16, ring_angles, 16, direct.fit, 8, direct.counts, 5);
    whole("jb_tables_fit by a table", jb_tables_fit(&walled.tables, ring_samples, 16, ring_angles, 16, out.fit, 8, out.counts, 5), 0);
    words_kept("the words after a fit, compared", 0, JB_TABLES_WORDS);
    check_ring_promises(&out);
    whole("starts by a table", out.counts[0], 2);
    for (i = 0; i < 7; i++) near_to("a value by a table, beside the direct one", out.fit[i], direct.fit[i], 0.001);
    near_to("theta1 by a table", out.fit[1], 0.7, 0.01);
    near_to("theta2 by a table", out.fit[2], 1.2, 0.01);
    memset(walled.tables.words + TABLE(0) + 16, 0, (TABLE_WORDS - 16) * sizeof(float));
    jb_tables_fit(&walled.tables, ring_samples, 16, ring_angles, 16, out.fit, 8, out.counts, 5);
    check_ring_promises(&out);
    whole("starts by a table without models", out.counts[0], 1);
}

/* Any words: as they come, or with a first word that counts tables or nearly so; and with the ring's angles in front of
 * each table, so that what lies behind is taken for models. */
static void check_any_words(void)
{
    const float first[9] = {1.0f, 2.0f, 3.0f, QUIET, INF, -INF, -1.0f, 3.5f, -0.0f};
    int i;
    size_t k;
    for (i = 0; i < 80; i++) {
        ring_out out = UNTOUCHED;
        unsigned long code;
        for (k = 0; k < JB_TABLES_WORDS; k++) walled.tables.words[k] = float_of((uint32_t)random_bits());
        if (i % 10 < 9) walled.tables.words[0] = first[i % 10];
        ring_from(0.0f);
        for (k = 0; i % 4 > 0 && k < 3; k++) memcpy(walled.tables.words + TABLE(k), ring_angles, 16 * sizeof(float));
        put_ring_corner(0.7f, 1.2f + 0.02f * (float)i);
        kept = walled.tables;
        whole("jb_tables_fit by any words", jb_tables_fit(&walled.tables, ring_samples, 16, ring_angles, 16, out.fit, 8, out.counts, 5), 0);
        words_kept("any words after a fit, compared", 0, JB_TABLES_WORDS);
        check_ring_promises(&out);
        code = store(16);
        whole("jb_tables_store into any words is answered or finds no room", code == 0 || code == 393216, 1);
        if (code != 0) words_kept("any words after a refused store, compared", 0, JB_TABLES_WORDS);
        check_walls();
    }
}

/* The checks of jb_ring_record, by the tables. A ring of 24, which that call takes, is refused. */
static void check_as_record(void)
{
    ring_out out = UNTOUCHED;
    memset(ring_samples, 0, sizeof ring_samples);
    memset(ring_angles, 0, sizeof ring_angles);
    ring_tables = &walled.tables;
    check_fit_ring(16, 7);
    ring_whole(24, "of 24 samples", fit_ring(24, 24, 24, &out, 8, 5), 65536);
    whole("the buffers of a refused ring of 24, compared", (unsigned long)(memcmp(&out, &UNTOUCHED, sizeof out) != 0), 0);
    ring_tables = NULL;
}

static void check_tables(void)
{
    check_tables_store();
    make_fresh();
    check_no_table_near();
    check_as_record();
    ring_from(0.0f);
    whole("jb_tables_store of the corner's angles", store(16), 0);
    memset(ring_angles, 0, sizeof ring_angles);
    whole("jb_tables_store of angles of 0", store(16), 0);
    check_as_record();
    check_no_table_near();
    memset(&walled.tables, 0, sizeof walled.tables);
    check_no_table_near();
    whole("jb_tables_store into zeros", store(16), 0);
    check_table_near();
    check_any_words();
    check_as_record();
}

/* A disk of n pixels, all of them 0: a disk without contrast. The arrays hold one pixel more than the fit takes. */
static float disk_head[3], disk_runs[5][321];

static unsigned long fit_disk(size_t n, size_t ys_len, float *fit, size_t fit_len, uint32_t *counts, size_t counts_len)
{
    return jb_fit_disk(disk_head[0], disk_head[1], disk_head[2], disk_runs[0], n, disk_runs[1], ys_len, disk_runs[2], n,
                       disk_runs[3], n, disk_runs[4], n, fit, fit_len, counts, counts_len);
}

/* Each value of a disk of three pixels in turn, with a later one spoilt as well: the first counts. */
static void check_disk_places(float *fit, uint32_t *counts)
{
    const float wild[4] = {QUIET, OTHER_NAN, INF, -INF};
    int i;
    for (i = 0; i < 18; i++) {
        float *spoilt = i < 3 ? &disk_head[i] : &disk_runs[(i - 3) / 3][(i - 3) % 3], kept = *spoilt;
        *spoilt = wild[i % 4];
        disk_runs[4][2] = QUIET;
        whole("jb_fit_disk of a value that is not finite", fit_disk(3, 3, fit, 12, counts, 3), 196608 + (unsigned long)i);
        *spoilt = kept;
        disk_runs[4][2] = 0.0f;
    }
}

/* The order of refusals of docs/RULES.md. Its example, one pixel of 0 and axes 0 and PI/2, is refused after 96 trials. */
static void check_disk_refusals(void)
{
    float fit[12];
    uint32_t counts[3];
    int i;
    for (i = 0; i < 12; i++) fit[i] = 7.0f;
    for (i = 0; i < 3; i++) counts[i] = 7;
    disk_head[2] = float_of(0x3fc90fdbu);
    whole("jb_fit_disk into 10 floats", fit_disk(0, 0, fit, 10, counts, 3), 65536);
    whole("jb_fit_disk into 1 count", fit_disk(0, 0, fit, 12, counts, 1), 65536);
    whole("jb_fit_disk of no pixel", fit_disk(0, 3, fit, 12, counts, 3), 131072);
    whole("jb_fit_disk of 321 pixels", fit_disk(321, 320, fit, 12, counts, 3), 131072);
    disk_head[0] = QUIET;
    whole("jb_fit_disk of 3 and 2 pixels", fit_disk(3, 2, fit, 12, counts, 3), 65536);
    whole("jb_fit_disk of 3 and 4 pixels", fit_disk(3, 4, fit, 12, counts, 3), 65536);
    disk_head[0] = 0.0f;
    check_disk_places(fit, counts);
    whole("jb_fit_disk of a pixel of 0", fit_disk(1, 1, fit, 12, counts, 3), 262144 + 96);
    whole("jb_fit_disk of 320 pixels of 0", fit_disk(320, 320, fit, 12, counts, 3), 262144 + 96);
    for (i = 0; i < 12; i++) exact("fit after a refused disk", fit[i], 0x40e00000u);
    for (i = 0; i < 3; i++) whole("counts after a refused disk", counts[i], 7);
}

/* Five pixels, docs/DIFFERENCES.md, K6: an entry of the covariance is infinite, so that nothing is known, though the
 * second error looks like one. */
static void check_disk_not_known(void)
{
    const size_t n = 5;
    float fit[12];
    uint32_t counts[3] = {7, 7, 7};
    disk_head[0] = float_of(0x5f000000u);
    disk_head[1] = disk_head[2] = 0.0f;
    disk_runs[0][2] = float_of(0xb58637bfu);
    disk_runs[0][3] = float_of(0x42aeac50u);
    disk_runs[0][4] = disk_runs[1][0] = float_of(0x5f000000u);
    disk_runs[1][3] = -1.0f;
    disk_runs[2][4] = 72.0f;
    whole("jb_fit_disk of five pixels", fit_disk(n, n, fit, 12, counts, 3), 0);
    exact("the first error of five pixels", fit[9], 0x40490fdbu);
    exact("the second error of five pixels", fit[10], 0x3acfe561u);
    whole("known of five pixels", counts[1], 0);
    memset(disk_head, 0, sizeof disk_head);
    memset(disk_runs, 0, sizeof disk_runs);
}

/* One pixel of a corner with axes at 30 and 120 degrees and edges 0.7 wide; its gradients are the model's. */
static void put_pixel(size_t i, float x, float y)
{
    const float sine = 0.5f, cosine = 0.8660254f;
    float h1 = tanhf((cosine * y - sine * x) / 0.7f), h2 = tanhf((-sine * y - cosine * x) / 0.7f);
    float k1 = (1.0f - h1 * h1) * h2, k2 = h1 * (1.0f - h2 * h2);
    float gx = -k1 * sine - k2 * cosine, gy = k1 * cosine - k2 * sine;
    float angle = atan2f(gy, gx) + float_of(0x3fc90fdbu);
    disk_runs[0][i] = x;
    disk_runs[1][i] = y;
    disk_runs[2][i] = 60.0f * h1 * h2;
    disk_runs[3][i] = angle < 0.0f ? angle + float_of(0x40490fdbu) : angle;
    disk_runs[4][i] = sqrtf(gx * gx + gy * gy);
    disk_head[0] += disk_runs[2][i] * disk_runs[2][i];
}

/* 196 pixels, whose mean is 0 since the corner turned by a quarter is its own negative. */
static void check_fit_disk(void)
{
    float fit[12];
    uint32_t counts[3] = {7, 7, 7};
    size_t n = 0;
    int i;
    check_disk_refusals();
    check_disk_not_known();
    for (i = 0; i < 17 * 17; i++) {
        float x = (float)(i % 17 - 8), y = (float)(i / 17 - 8);
        if (x * x + y * y >= 1.0f && x * x + y * y <= 64.0f) put_pixel(n++, x, y);
    }
    disk_head[1] = 0.4f;
    disk_head[2] = 2.2f;
    fit[11] = 7.0f;
    whole("jb_fit_disk of a corner", fit_disk(n, n, fit, 12, counts, 3), 0);
    near_to("theta1 of a corner", fit[0], 0.523599, 0.02);
    near_to("theta2 of a corner", fit[1], 2.094395, 0.02);
    exact("the width", fit[2], 0x3f333333u);
    near_to("the amplitude", fit[3], 60.0, 2.0);
    near_to("the correlation", fit[6], 1.0, 0.01);
    near_to("the objective", fit[8], fit[5] - 1.25f * fit[7], 0.0);
    near_to("the first error", fit[9], 0.01, 0.01);
    near_to("the second error", fit[10], 0.01, 0.01);
    exact("the float behind the disk fit", fit[11], 0x40e00000u);
    whole("trials over 144", counts[0] > 144, 0);
    whole("known", counts[1], 1);
    whole("the count behind the disk's counts", counts[2], 7);
}

/* A ring's line: type 01 has 16 samples, 03 has 24. Each with the length of the other is malformed. */
static void check_ring_line(char type, size_t length, size_t other)
{
    char want[61];
    uint8_t line[386], out[120];
    size_t i;
    snprintf(want, sizeof want, "8%c0000000000000000003fc90fdb40490fdb40490fdb0000000001000000", type);
    memset(line, '0', sizeof line);
    line[1] = (uint8_t)type;
    memset(out, '.', sizeof out);
    whole("jb_answer_line into 97 bytes", jb_answer_line(line, length, out, 97), 1);
    whole("the first byte of a short buffer", out[0], '.');
    whole("jb_answer_line of zeros", jb_answer_line(line, length, out, 98), 0);
    whole("the answer to zeros, compared", (unsigned long)(memcmp(out, want, 60) != 0), 0);
    for (i = 60; i < sizeof out; i++) whole("a byte behind the answer", out[i], '.');
    whole("jb_answer_line of the other ring's length", jb_answer_line(line, other, out, 120), 5);
    whole("the answer to a wrong length, compared", (unsigned long)(memcmp(out, "ff050000", 8) != 0), 0);
    whole("the byte behind a refusal", out[8], (unsigned char)want[8]);
    line[2] = '7', line[3] = 'f', line[4] = 'c';
    snprintf(want, sizeof want, "8%c030000", type);
    whole("jb_answer_line of a NaN", jb_answer_line(line, length, out, 120), 3);
    whole("the answer to a NaN, compared", (unsigned long)(memcmp(out, want, 8) != 0), 0);
    line[length - 1] = 'A';
    whole("jb_answer_line of a capital", jb_answer_line(line, length, out, 120), 5);
    whole("jb_answer_line of nothing", jb_answer_line(line, 0, out, 120), 5);
    whole("the answer to nothing, compared", (unsigned long)(memcmp(out, "ff050000", 8) != 0), 0);
}

int main(void)
{
    check_sin();
    check_cos();
    check_tanh();
    check_exp();
    check_atan2();
    check_sqrt();
    check_narrow();
    check_fit_ring(16, 6);
    check_fit_ring(24, 6);
    check_fit_ring(16, 7);
    check_fit_ring(24, 7);
    check_tables();
    check_fit_disk();
    check_ring_line('1', 258, 386);
    check_ring_line('3', 386, 258);
    printf("%d checks of the header's functions\n", checks);
    return 0;
}
