/* funclines: one ported function called by each line of standard input, one answer a line. Two hexadecimal digits are
 * the function's number, words of eight its arguments; the answer is words alone, or `?` for a line that is not of this
 * form or leaves the function's domain. docs/RULES.md has the numbers, oracle/README.md the domains.
 *
 * A new function takes an export, its declaration in funclines.h, its line_NN here and its ROW in the table. */
#include "funclines.h"
#include "jengubool.h"
#include <string.h>
#include <unistd.h>

#define WORDS 2304              /* of the longest line: a disk of 320 pixels, two rows and a few words more */
#define LIMIT (2 + 8 * WORDS)   /* its characters */
#define ANSWER (1 + 4 * PAIRS)  /* words of the longest answer: a pool of 276 pairs */

/* ---- reading: the words of a line are taken one after another. A line that lacks them, or whose count or tag leaves its
 * domain, is bad: what is read from it then means nothing, and `ends` keeps it from being used. */

static uint32_t words[WORDS];
static float values[WORDS];     /* the same words as floats */
static size_t count, at;
static bool bad;

/* The place of the next n words. */
static size_t take(size_t n)
{
    size_t from = at;
    if (bad || n > count - at) {
        bad = true;
        return 0;
    }
    at += n;
    return from;
}

static bool ends(void) { return !bad && at == count; }

static uint32_t word(void) { return words[take(1)]; }

static float value(void) { return values[take(1)]; }

static const float *floats(size_t n) { return values + take(n); }

static size_t number(size_t most)
{
    size_t n = word();
    if (n <= most) return n;
    bad = true;
    return 0;
}

static struct seed5 seed5(void)
{
    struct seed5 s = {.some = number(1)};
    if (s.some) memcpy(s.values, floats(5), sizeof s.values);
    return s;
}

static struct fit9 fit9(void)
{
    struct fit9 f = {.some = number(1)};
    if (f.some) memcpy(f.values, floats(9), sizeof f.values);
    return f;
}

static struct pair pair(void)
{
    struct pair p = {.some = number(1)};
    if (p.some) {
        p.i = word();
        p.j = word();
    }
    return p;
}

static struct set set(size_t most)
{
    struct set s = {.n = number(most)};
    memcpy(s.angles, floats(s.n), s.n * sizeof(float));
    return s;
}

struct disk {
    size_t n;
    float val_energy;
    const float *xs, *ys, *vals_centered, *grad_angles, *grad_weights;
};

static struct disk disk(void)
{
    struct disk d = {.n = number(PIXELS)};
    d.val_energy = value();
    d.xs = floats(d.n);
    d.ys = floats(d.n);
    d.vals_centered = floats(d.n);
    d.grad_angles = floats(d.n);
    d.grad_weights = floats(d.n);
    return d;
}

/* A run of the disk d, as an export takes a slice; and all five. */
#define RUN(name) d.name, d.n
#define RUNS RUN(xs), RUN(ys), RUN(vals_centered), RUN(grad_angles), RUN(grad_weights)

static bool is_repeated(const struct pairs *p, size_t k)
{
    for (size_t t = 0; t < k; t++)
        if (p->pairs[t].i == p->pairs[k].i && p->pairs[t].j == p->pairs[k].j) return true;
    return false;
}

/* No two pairs share both i and j: the Rust's selection is not defined there. */
static struct pairs pairs(void)
{
    struct pairs p = {.n = number(PAIRS)};
    for (size_t k = 0; k < p.n && !bad; k++) {
        p.pairs[k].i = (uint16_t)number(65535);
        p.pairs[k].j = (uint16_t)number(65535);
        p.pairs[k].edge_score = value();
        p.pairs[k].forced = number(1);
        bad = bad || is_repeated(&p, k);
    }
    return p;
}

/* ---- answering: an answer without a word is `?`, unless it is empty by right */

static uint32_t answer[ANSWER];
static size_t answered;
static bool is_empty;

static void put(size_t n) { answer[answered++] = (uint32_t)n; }

/* Every NaN written is the one NaN. */
static void put_value(float x)
{
    uint32_t bits;
    memcpy(&bits, &x, sizeof bits);
    put(x != x ? 0x7fc00000u : bits);
}

static void put_values(const float *x, size_t n)
{
    for (size_t k = 0; k < n; k++) put_value(x[k]);
}

static void put_some(bool some, const float *x, size_t n)
{
    put(some);
    if (some) put_values(x, n);
}

static void put_start(struct start s)
{
    put_values(s.values, 6);
    put(s.updates);
}

static void put_counts(struct ring r)
{
    for (size_t k = 0; k < 3; k++) put(r.counts[k]);
}

static void put_ring(struct ring r)
{
    put_values(r.values, 6);
    put_counts(r);
}

static void put_some_start(struct start s)
{
    put(s.some);
    if (s.some) put_start(s);
}

static void put_seed(struct seed5 s) { put_some(s.some, s.values, 5); }

static void put_fit(struct fit9 f) { put_some(f.some, f.values, 9); }

static void put_set(struct set s)
{
    put(s.n);
    put_values(s.angles, s.n);
}

static void put_pair(struct pair p)
{
    put(p.some);
    if (!p.some) return;
    put(p.i);
    put(p.j);
}

static void put_pairs(struct pairs p)
{
    put(p.n);
    for (size_t k = 0; k < p.n; k++) {
        put(p.pairs[k].i);
        put(p.pairs[k].j);
        put_value(p.pairs[k].edge_score);
        put(p.pairs[k].forced);
    }
}

/* ---- functions of one value or two */

static void one(float (*f)(float))
{
    float x = value();
    if (ends()) put_value(f(x));
}

static void two(float (*f)(float, float))
{
    float x = value(), y = value();
    if (ends()) put_value(f(x, y));
}

static void test(bool (*f)(float, float))
{
    float x = value(), y = value();
    if (ends()) put(f(x, y));
}

/* ---- 10 to 24: what Rust's library does, and the elementary functions */

static void line_10(void)
{
    float x = value();
    uint32_t divisor = word();
    if (!ends()) return;
    if (divisor == 0x40490fdbu) put_value(fl_rem_euclid_pi(x));
    if (divisor == 0x40c90fdbu) put_value(fl_rem_euclid_tau(x));
}

static void line_11(void) { two(fl_max); }
static void line_12(void) { two(fl_min); }
static void line_13(void) { one(fl_sqrt); }

/* The upper half comes first; every NaN read is the one NaN. */
static void line_14(void)
{
    uint64_t upper = word(), bits = upper << 32 | word();
    double x;
    if ((bits & 0x7fffffffffffffffu) > 0x7ff0000000000000u) bits = 0x7ff8000000000000u;
    memcpy(&x, &bits, sizeof x);
    if (ends()) put_value(fl_narrow(x));
}

static void line_15(void)
{
    uint32_t a = fl_total_key(value()), b = fl_total_key(value());
    if (ends()) put(a < b ? 0 : a == b ? 1 : 2);
}

static void line_16(void) { one(fl_to_radians); }

static void line_17(void)
{
    float angle = value();
    if (ends()) put(fl_bin_of(angle));
}

static void line_20(void) { one(fl_sin); }
static void line_21(void) { one(fl_cos); }
static void line_22(void) { one(fl_tanh); }
static void line_23(void) { one(fl_exp); }
static void line_24(void) { two(fl_atan2); }

/* ---- 30 to 35: angles of lines */

static void line_30(void) { one(fl_wrap_pi); }
static void line_31(void) { two(fl_signed_line_delta); }
static void line_32(void) { two(fl_line_delta); }
static void line_33(void) { two(fl_line_separation); }

static void line_34(void)
{
    const float *a = floats(4);
    if (ends()) put_value(fl_pair_disagreement(a[0], a[1], a[2], a[3]));
}

static void line_35(void) { test(fl_valid_pair); }

/* ---- 40 to 46: the solver */

static void line_40(void)
{
    const float *a = floats(16), *b = floats(4);
    if (!ends()) return;
    struct four x = fl_solve_4x4(a, b);
    put_some(x.some, x.values, 4);
}

static void line_41(void)
{
    const float *jtj = floats(16);
    float ssr = value();
    size_t n = number(PIXELS);
    if (ends()) put_values(fl_axis_std_errors(jtj, ssr, n).values, 2);
}

static void line_42(void)
{
    float centered_var = value();
    if (ends()) put_values(fl_degenerate_fit(centered_var).values, 6);
}

static void line_43(void)
{
    const float *p = floats(3);
    if (!ends()) return;
    struct swapped a = fl_canonicalize_tracking_swap(p[0], p[1], p[2]);
    put_values(a.values, 3);
    put(a.swapped);
}

static void line_44(void) { one(fl_wrap_to_tau); }

static void line_45(void)
{
    const float *samples = floats(SAMPLES), *ring_phi = floats(SAMPLES), *seed = floats(4);
    float centered_var = value();
    if (ends()) put_start(fl_fit_with_seed(samples, ring_phi, seed, centered_var));
}

static void line_46(void)
{
    const float *jtj = floats(16);
    float ssr = value();
    size_t n = number(PIXELS);
    if (!ends()) return;
    struct known2 e = fl_axis_std_errors_known(jtj, ssr, n);
    put_values(e.values, 2);
    put(e.known);
}

/* ---- 50 to 54: seeds */

static void line_50(void)
{
    const float *samples = floats(SAMPLES), *ring_phi = floats(SAMPLES);
    float mean = value();
    if (ends()) put_values(fl_second_harmonic(samples, ring_phi, mean).values, 2);
}

static void line_51(void) { test(fl_valid_pair); }
static void line_52(void) { two(fl_line_separation); }

static void line_53(void)
{
    const float *centered = floats(SAMPLES), *p = floats(2), *h1 = floats(SAMPLES), *h2 = floats(SAMPLES);
    const float *theta = floats(2);
    if (ends()) put_seed(fl_score_seed_pair(centered, p[0], p[1], h1, h2, theta[0], theta[1]));
}

static void line_54(void)
{
    struct seed5 top = seed5();
    const float *candidate = floats(5);
    if (ends()) put_seed(fl_insert_seed_candidate(top, candidate));
}

/* ---- 60 to 65: the whole ring, last that of 24 points */

static void line_60(void)
{
    const float *samples = floats(SAMPLES), *ring_phi = floats(SAMPLES);
    if (ends()) put_ring(fl_fit_ring(samples, ring_phi));
}

static void line_61(void)
{
    const float *fit = floats(6);
    if (ends()) put(fl_fit_is_suspicious(fit));
}

static void line_62(void)
{
    const float *fit = floats(6);
    if (ends()) put_value(fl_relative_rms(fit));
}

static void line_63(void)
{
    const float *samples = floats(SAMPLES), *ring_phi = floats(SAMPLES), *p = floats(2);
    if (ends()) put_some_start(fl_robust_grid_fit(samples, ring_phi, p[0], p[1]));
}

static void line_64(void)
{
    const float *samples = floats(SAMPLES), *ring_phi = floats(SAMPLES);
    float centered_var = value();
    struct seed5 top = seed5();
    if (ends()) put_some_start(fl_refine_seed_candidates(samples, ring_phi, centered_var, top));
}

static void line_65(void)
{
    const float *samples = floats(SAMPLES24), *ring_phi = floats(SAMPLES24);
    if (ends()) put_ring(fl_fit_ring24(samples, ring_phi));
}

static void line_66(void)
{
    const float *samples = floats(SAMPLES), *ring_phi = floats(SAMPLES);
    if (!ends()) return;
    struct ring r = fl_fit_ring(samples, ring_phi);
    put_values(r.values, 6);
    put_value(r.mean);
    put_counts(r);
}

/* ---- 67 to 69: tables of seed models, made fresh and stored by the product's own calls */

static jb_tables tables;

/* A fresh state in memory that holds anything: by turns bytes of ff, numbers without order, and what the line before left. */
static void fresh_tables(void)
{
    static uint32_t turn;
    uint32_t kind = turn++ % 3;
    if (kind == 0) memset(&tables, 0xff, sizeof tables);
    if (kind == 1)
        for (uint32_t k = 0; k < JB_TABLES_WORDS; k++) {
            uint32_t bits = (k + turn) * 2654435761u;
            memcpy(&tables.words[k], &bits, sizeof bits);
        }
    jb_tables_fresh(&tables);
}

static bool are_finite(const float *x, size_t n)
{
    for (size_t k = 0; k < n; k++)
        if (!(x[k] - x[k] == 0)) return false;
    return true;
}

static void line_67(void)
{
    size_t t = number(TABLES);
    const float *angles = floats(SAMPLES * t), *samples = floats(SAMPLES), *ring_phi = floats(SAMPLES);
    if (!ends() || !are_finite(angles, SAMPLES * t)) return;
    fresh_tables();
    for (size_t k = 0; k < t; k++)
        if (jb_tables_store(&tables, angles + SAMPLES * k, SAMPLES) != 0) return;
    put_ring(fl_tables_fit(tables.words, samples, ring_phi));
    size_t match = fl_tables_match(tables.words, ring_phi);
    put(match < TABLES);
    if (match < TABLES) put(match);
}

static void line_68(void)
{
    const float *centered = floats(SAMPLES), *p = floats(5), *q = floats(SAMPLES);
    float denom = value();
    if (ends()) put_seed(fl_score_cached_seed_model(centered, p[0], p[1], p[2], p[3], p[4], q, denom));
}

/* One table more than there is room for. */
static void line_69(void)
{
    size_t t = number(TABLES + 1);
    const float *angles = floats(SAMPLES * t);
    if (!ends()) return;
    fresh_tables();
    for (size_t k = 0; k < t; k++) put(jb_tables_store(&tables, angles + SAMPLES * k, SAMPLES));
    is_empty = t == 0;
}

/* ---- 70 to 77: candidate angles and their pairs */

static void line_70(void)
{
    struct set s = set(ANGLES);
    const float *p = floats(2);
    if (ends()) put_set(fl_push_unique(s, p[0], p[1]));
}

static void line_71(void)
{
    struct disk d = disk();
    const float *base = floats(2);
    if (ends()) put_set(fl_histogram_candidates(RUN(grad_angles), RUN(grad_weights), base[0], base[1]));
}

static void line_72(void)
{
    struct set s = set(ANGLES);
    const float *base = floats(2);
    if (ends()) put_pair(fl_forced_seed_pair(s, base[0], base[1]));
}

static void line_73(void)
{
    struct set s = set(ANGLES);
    const float *edges = floats(s.n);
    if (ends()) put_pair(fl_forced_histogram_pair(s, edges, s.n));
}

static void line_74(void)
{
    struct set s = set(ANGLES);
    float target = value();
    if (!ends()) return;
    struct index closest = fl_closest_candidate(s, target);
    put(closest.some);
    if (closest.some) put(closest.i);
}

static void line_75(void)
{
    struct pair forced = pair();
    size_t i = word(), j = word();
    if (ends()) put(fl_matches_pair(forced, i, j));
}

static void line_76(void)
{
    struct set s = set(PAIRED_ANGLES);
    const float *edges = floats(s.n);
    float total = value();
    struct pair seed = pair(), histogram = pair();
    if (ends()) put_pairs(fl_build_pair_pool(s, edges, s.n, total, seed, histogram));
}

static void line_77(void)
{
    const float *p = floats(3);
    if (ends()) put_value(fl_combine_edge_pair(p[0], p[1], p[2]));
}

/* ---- 80 to 83: the score of a pair */

static void line_80(void)
{
    struct disk d = disk();
    const float *p = floats(4), *h0 = floats(d.n), *h1 = floats(d.n);
    if (ends()) put_fit(fl_score_pair_cached(d.val_energy, RUN(vals_centered), p[0], p[1], p[2], p[3], h0, d.n, h1, d.n));
}

static void line_81(void)
{
    struct disk d = disk();
    struct set s = set(ANGLES);
    if (!ends()) return;
    struct sums sums = fl_precompute_edge_alignments(RUN(grad_angles), RUN(grad_weights), s);
    put_value(sums.total);
    put_values(sums.sums, s.n);
}

static void line_82(void)
{
    const float *a = floats(9), *b = floats(9);
    if (ends()) put(fl_fit_is_better(a, b));
}

static void line_83(void)
{
    struct disk d = disk();
    const float *fit = floats(9);
    if (ends()) put_values(fl_fit_std_errors(RUN(xs), RUN(ys), RUN(vals_centered), fit).values, 2);
}

/* ---- 90 to 95: the search */

static void line_90(void)
{
    struct disk d = disk();
    const float *base = floats(2);
    if (!ends()) return;
    struct best best = fl_best_disk_fit(d.val_energy, base[0], base[1], RUNS);
    put_fit(best.fit);
    put(best.trials);
}

static void line_91(void)
{
    struct pairs pool = pairs();
    if (ends()) put_pairs(fl_rank(pool));
}

static void line_92(void)
{
    struct fit9 first = fit9(), second = fit9();
    const float *fit = floats(9);
    if (!ends()) return;
    struct leaders top = fl_insert_top(first, second, fit);
    put_fit(top.first);
    put_fit(top.second);
}

static void line_93(void)
{
    struct disk d = disk();
    const float *seed = floats(9);
    if (!ends()) return;
    struct fit9 best = fl_refine_fit_cached(seed, d.val_energy, RUNS);
    put_values(best.values, 9);
}

static void line_94(void)
{
    struct disk d = disk();
    if (ends()) put_value(fl_edge_weight_total(RUN(grad_weights)));
}

static void line_95(void)
{
    struct disk d = disk();
    float base = value();
    const float *offsets = floats(3);
    float width = value();
    if (!ends()) return;
    struct rows r = fl_build_axis_rows(RUN(xs), RUN(ys), RUN(grad_angles), RUN(grad_weights), base, offsets, width);
    put_values(r.sums, 3);
    for (size_t k = 0; k < 3; k++) put_values(r.rows[k], d.n);
}

/* ---- the table: a number is its two digits read in hexadecimal, so number 95 is 0x95 */

#define ROW(number) [0x##number] = line_##number

static void (*const lines[256])(void) = {
    ROW(10), ROW(11), ROW(12), ROW(13), ROW(14), ROW(15), ROW(16), ROW(17),
    ROW(20), ROW(21), ROW(22), ROW(23), ROW(24),
    ROW(30), ROW(31), ROW(32), ROW(33), ROW(34), ROW(35),
    ROW(40), ROW(41), ROW(42), ROW(43), ROW(44), ROW(45), ROW(46),
    ROW(50), ROW(51), ROW(52), ROW(53), ROW(54),
    ROW(60), ROW(61), ROW(62), ROW(63), ROW(64), ROW(65), ROW(66), ROW(67), ROW(68), ROW(69),
    ROW(70), ROW(71), ROW(72), ROW(73), ROW(74), ROW(75), ROW(76), ROW(77),
    ROW(80), ROW(81), ROW(82), ROW(83),
    ROW(90), ROW(91), ROW(92), ROW(93), ROW(94), ROW(95),
};

/* ---- characters in and out */

/* A digit's value and one more; 0 for what is no digit. */
static const uint8_t digit[256] = {
    ['0'] = 1, ['1'] = 2, ['2'] = 3, ['3'] = 4, ['4'] = 5, ['5'] = 6, ['6'] = 7, ['7'] = 8, ['8'] = 9, ['9'] = 10,
    ['a'] = 11, ['b'] = 12, ['c'] = 13, ['d'] = 14, ['e'] = 15, ['f'] = 16,
};

static uint32_t digits(const char *line, size_t n)
{
    uint32_t sum = 0;
    for (size_t k = 0; k < n; k++) {
        uint32_t d = digit[(unsigned char)line[k]];
        bad = bad || d == 0;
        sum = sum * 16 + d - 1;
    }
    return sum;
}

/* Every NaN read is the one NaN. */
static void read_word(const char *line, size_t k)
{
    uint32_t bits = words[k] = digits(line, 8);
    if ((bits & 0x7fffffffu) > 0x7f800000u) bits = 0x7fc00000u;
    memcpy(&values[k], &bits, sizeof bits);
}

static void call(const char *line, size_t n)
{
    answered = at = 0;
    is_empty = false;
    bad = n < 2 || n > LIMIT || (n - 2) % 8 != 0;
    if (bad) return;
    uint32_t function = digits(line, 2);
    count = (n - 2) / 8;
    for (size_t k = 0; k < count && !bad; k++) read_word(line + 2 + 8 * k, k);
    if (!bad && lines[function] != NULL) lines[function]();
}

static char text[65536];
static size_t written;

/* A closed output loses what is written and nothing else: the program goes on to the end of its input. */
static void flush(void)
{
    ssize_t n;
    for (size_t k = 0; k < written; k += (size_t)n) {
        n = write(STDOUT_FILENO, text + k, written - k);
        if (n <= 0) break;
    }
    written = 0;
}

static void write_answer(void)
{
    if (written + 8 * ANSWER + 2 > sizeof text) flush();
    for (size_t k = 0; k < answered; k++)
        for (int shift = 28; shift >= 0; shift -= 4) text[written++] = "0123456789abcdef"[answer[k] >> shift & 15];
    if (answered == 0 && !is_empty) text[written++] = '?';
    text[written++] = '\n';
}

static char input[98304];

/* What stands in the text is written out before a read, so that whoever waits for an answer has it. Of a line over the
 * limit nothing is kept but that it was. */
int main(void)
{
    size_t from = 0, total = 0;
    bool is_long = false;
    for (;;) {
        char *line = input + from, *end = memchr(line, '\n', total - from);
        if (end != NULL) {
            call(line, is_long ? LIMIT + 1 : (size_t)(end - line));
            write_answer();
            is_long = false;
            from = (size_t)(end - input) + 1;
            continue;
        }
        is_long = is_long || total - from > LIMIT;
        total = is_long ? 0 : total - from;
        memmove(input, line, total);
        from = 0;
        flush();
        ssize_t n = read(STDIN_FILENO, input + total, sizeof input - total);
        if (n <= 0) break;
        total += (size_t)n;
    }
    if (total > 0 || is_long) {
        call(input, is_long ? LIMIT + 1 : total);
        write_answer();
    }
    flush();
    return 0;
}
