/* Measures the stack of every function of the library by painting: each call runs on a stack of its own, filled with a
 * pattern beforehand, and the deepest byte that lost it is looked for afterwards. Two patterns, so that a byte which
 * happens to be written with the one is seen with the other. Counted from the frame of the caller, whose own few words
 * (arguments, return address) are in the figure. Exits with a sentence where a fit or a line passes its bar. */
#include "measure.h"
#include "jengubool.h"
#include <ucontext.h>

#define RING_BAR 3584
#define RECORD_BAR 4096
#define RING24_BAR 5120
#define TABLES_BAR 4096
#define BAR 65536
#define SIZE 131072
#define WORDS 1000
#define RINGS 6000
#define TABLES 1000
#define DISKS 600
#define PIXELS 320
#define RING_LINE(n) (2 + 16 * (n))
#define DISK_LINE (30 + 40 * PIXELS)

static uint64_t painted[SIZE / 8] __attribute__((aligned(64)));
static ucontext_t here, there;
static void (*subject)(void);
static unsigned char *caller;

static float x, y, samples[24], angles[24], disk[3 + 5 * PIXELS], fit[11];
static volatile float result; /* else the compiler jumps where it should call */
static double wide;
static uint32_t counts[4], status;
static jb_tables tables;
static uint8_t line[DISK_LINE + 1], answer[98];
static size_t line_len;

/* No stack beyond what any caller has: arguments in globals. */
#define CALL(name, expression) \
    static __attribute__((noinline)) void name(void) \
    { \
        caller = __builtin_frame_address(0); \
        expression; \
    }

CALL(call_nothing, )
CALL(call_sin, result = jb_sin(x))
CALL(call_cos, result = jb_cos(x))
CALL(call_tanh, result = jb_tanh(x))
CALL(call_exp, result = jb_exp(x))
CALL(call_atan2, result = jb_atan2(y, x))
CALL(call_sqrt, result = jb_sqrt(x))
CALL(call_narrow, result = jb_narrow(wide))
CALL(call_ring, status = jb_fit_ring(samples, 16, angles, 16, fit, 6, counts, 4))
CALL(call_ring24, status = jb_fit_ring24(samples, 24, angles, 24, fit, 6, counts, 4))
CALL(call_record, status = jb_ring_record(samples, 16, angles, 16, fit, 7, counts, 4))
CALL(call_record24, status = jb_ring_record(samples, 24, angles, 24, fit, 7, counts, 4))
CALL(call_fresh, jb_tables_fresh(&tables); status = 0) /* it returns nothing: without the store it would be jumped to */
CALL(call_store, status = jb_tables_store(&tables, angles, 16))
CALL(call_tables, status = jb_tables_fit(&tables, samples, 16, angles, 16, fit, 7, counts, 4))
CALL(call_disk, status = jb_fit_disk(disk[0], disk[1], disk[2], disk + 3, PIXELS, disk + 3 + PIXELS, PIXELS,
                                     disk + 3 + 2 * PIXELS, PIXELS, disk + 3 + 3 * PIXELS, PIXELS,
                                     disk + 3 + 4 * PIXELS, PIXELS, fit, 11, counts, 2))
CALL(call_line, status = jb_answer_line(line, line_len, answer, sizeof answer))

static size_t depth_with(void (*call)(void), unsigned char pattern)
{
    uint64_t whole = pattern * 0x0101010101010101u, *word = painted;
    memset(painted, pattern, SIZE);
    if (getcontext(&there) != 0) { printf("FAIL: no context to run in\n"); exit(1); }
    there.uc_stack.ss_sp = painted;
    there.uc_stack.ss_size = SIZE;
    there.uc_link = &here;
    subject = call;
    makecontext(&there, subject, 0);
    if (swapcontext(&here, &there) != 0) { printf("FAIL: no stack to run on\n"); exit(1); }
    while ((unsigned char *)word < caller && *word == whole) word++;
    unsigned char *deepest = (unsigned char *)word;
    while (deepest < caller && *deepest == pattern) deepest++;
    if (word == painted) { printf("FAIL: a call used all of %d bytes\n", SIZE); exit(1); }
    return (size_t)(caller - deepest);
}

/* Raises `most` where the call goes deeper. */
static void measure(void (*call)(void), size_t *most)
{
    size_t a = depth_with(call, 0xa5), b = depth_with(call, 0x5a);
    if (a > *most) *most = a;
    if (b > *most) *most = b;
}

static double uniform(double low, double high)
{
    return low + (high - low) * (double)(random_bits() >> 11) / 9007199254740992.0;
}

static float any_finite(void) { return float_of((uint32_t)random_bits() % 0x7f800000u); }

/* The functions of numbers, on any patterns: no bar, since they have hardly a frame. */
static void measure_numbers(void)
{
    static const struct { const char *name; void (*call)(void); } functions[] = {
        {"sin", call_sin}, {"cos", call_cos}, {"tanh", call_tanh}, {"exp", call_exp},
        {"atan2", call_atan2}, {"sqrt", call_sqrt}, {"narrow", call_narrow}};
    for (size_t k = 0; k < sizeof functions / sizeof *functions; k++) {
        size_t most = 0;
        for (int i = 0; i < WORDS; i++) {
            uint64_t bits = random_bits();
            x = i % 2 ? (float)uniform(-100, 100) : float_of((uint32_t)random_bits());
            y = i % 2 ? (float)uniform(-100, 100) : float_of((uint32_t)random_bits());
            memcpy(&wide, &bits, sizeof wide);
            if (i % 2) wide = uniform(-1e-38, 1e-38);
            measure(functions[k].call, &most);
        }
        printf("stack of jb_%s at most %zu bytes\n", functions[k].name, most);
    }
}

/* Of n samples. Of every ten rings: eight corners of two axes at any separation (the skewed and the noisy ones make two
 * starts), one flat, one of random finite patterns. */
static void make_ring(int n, int i)
{
    double first = uniform(0, M_PI), second = first + (i % 2 ? uniform(1.2, 1.9) : uniform(0, M_PI));
    double amp = i % 10 == 8 ? 0 : uniform(2, 120), slope = uniform(0.7, 12), phase = uniform(-M_PI, M_PI);
    double noise = i % 3 == 0 ? 0.3 * amp : i % 3 == 1 ? 0.02 * amp : 0;
    for (int k = 0; k < n; k++) {
        double phi = phase + k * 2 * M_PI / n;
        double model = tanh(slope * sin(phi - first)) * tanh(slope * sin(phi - second));
        samples[k] = (float)(128 + amp * model + noise * uniform(-1, 1));
        angles[k] = (float)phi;
    }
    for (int k = 0; i % 10 == 9 && k < n; k++) {
        samples[k] = any_finite();
        angles[k] = any_finite();
    }
}

/* One pixel of a corner with soft edges: place, value, direction and weight of its gradient. */
static void make_pixel(int at, double px, double py, const double *axes, double amp, double width, double noise)
{
    double h1 = tanh((cos(axes[0]) * py - sin(axes[0]) * px) / width), h2 = tanh((cos(axes[1]) * py - sin(axes[1]) * px) / width);
    double k1 = amp / width * (1 - h1 * h1) * h2, k2 = amp / width * (1 - h2 * h2) * h1;
    double gx = -k1 * sin(axes[0]) - k2 * sin(axes[1]) + noise * uniform(-1, 1);
    double gy = k1 * cos(axes[0]) + k2 * cos(axes[1]) + noise * uniform(-1, 1), turned = atan2(gy, gx) + M_PI / 2;
    float *pixel = disk + 3 + at;
    pixel[0] = (float)px;
    pixel[PIXELS] = (float)py;
    pixel[2 * PIXELS] = (float)(amp * h1 * h2 + noise * uniform(-1, 1));
    pixel[3 * PIXELS] = (float)(turned < 0 ? turned + M_PI : turned);
    pixel[4 * PIXELS] = (float)hypot(gx, gy);
    disk[0] += pixel[2 * PIXELS] * pixel[2 * PIXELS];
}

/* 320 pixels from 1 to about 10 away from the centre. Of every ten disks: eight corners, one flat, one of random finite
 * patterns. */
static void make_disk(int i)
{
    double first = uniform(0, M_PI), axes[2] = {first, first + (i % 2 ? uniform(1.2, 1.9) : uniform(0, M_PI))};
    double amp = i % 10 == 8 ? 0 : uniform(2, 120), width = uniform(0.3, 3);
    double cx = uniform(-0.5, 0.5), cy = uniform(-0.5, 0.5), noise = i % 3 == 0 ? 0.3 * amp : i % 3 == 1 ? 0.02 * amp : 0;
    int at = 0;
    disk[0] = 0;
    disk[1] = (float)(axes[0] + uniform(-0.2, 0.2));
    disk[2] = (float)(axes[1] + uniform(-0.2, 0.2));
    for (int k = 0; k < 23 * 23 && at < PIXELS; k++) {
        double px = k % 23 - 11 - cx, py = k / 23 - 11 - cy, square = px * px + py * py;
        if (square >= 1 && square <= 106) make_pixel(at++, px, py, axes, amp, width, noise);
    }
    if (at < PIXELS) { printf("FAIL: disk %d has only %d pixels\n", i, at); exit(1); }
    for (int k = 0; i % 10 == 9 && k < 3 + 5 * PIXELS; k++) disk[k] = any_finite();
}

static void make_line(const char *head, const float *first, int n, const float *second, int m)
{
    int at = sprintf((char *)line, "%s", head);
    for (int k = 0; k < n; k++) at += sprintf((char *)line + at, "%08x", bits_of(first[k]));
    for (int k = 0; k < m; k++) at += sprintf((char *)line + at, "%08x", bits_of(second[k]));
    line_len = (size_t)at;
}

/* 1 where the bar is passed. */
static int hold(const char *what, size_t most, size_t bar)
{
    if (most > bar) printf("FAIL: %s uses %zu bytes of stack, the bar is %zu\n", what, most, bar);
    return most > bar;
}

/* Rings of n samples, by the function for them, with their mean, and as lines of their type. */
static void measure_rings(int n, void (*ring)(void), void (*record)(void), const char *type, size_t *call, size_t *with_mean, size_t *whole)
{
    int starts[3] = {0, 0, 0};
    for (int i = 0; i < RINGS; i++) {
        make_ring(n, i);
        measure(ring, call);
        if (status != 0 || counts[0] < 1 || counts[0] > 2) { printf("FAIL: ring %d of %d is answered %u\n", i, n, status); exit(1); }
        starts[counts[0]]++;
        measure(record, with_mean);
        if (status != 0) { printf("FAIL: the record of ring %d of %d is answered %u\n", i, n, status); exit(1); }
        make_line(type, samples, n, angles, n);
        measure(call_line, whole);
        if (status != 0 || line_len != RING_LINE((size_t)n)) { printf("FAIL: line %d of type %s is answered %u\n", i, type, status); exit(1); }
    }
    if (starts[1] < RINGS / 10 || starts[2] < RINGS / 10) { printf("FAIL: only %d rings with one start, %d with two\n", starts[1], starts[2]); exit(1); }
    printf("%d rings of %d samples with one start, %d with two\n", starts[1], n, starts[2]);
}

/* A ring's fit by tables: with none, then with its own. Measuring stores a table twice, once for each pattern. */
static void measure_tables(size_t *store, size_t *fit_by)
{
    size_t fresh = 0;
    int asked = 0;
    for (int i = 0; i < TABLES; i++) {
        make_ring(16, i);
        measure(call_fresh, &fresh);
        measure(call_tables, fit_by);
        if (status != 0) { printf("FAIL: ring %d without a table is answered %u\n", i, status); exit(1); }
        measure(call_store, store);
        if (status != 0) { printf("FAIL: table %d is answered %u\n", i, status); exit(1); }
        measure(call_tables, fit_by);
        if (status != 0) { printf("FAIL: ring %d with its table is answered %u\n", i, status); exit(1); }
        asked += counts[0] == 2;
    }
    if (asked < TABLES / 10) { printf("FAIL: only %d rings with two starts, which ask a table\n", asked); exit(1); }
    printf("%d rings with their tables, %d with two starts; stack of jb_tables_fresh at most %zu bytes\n", TABLES, asked, fresh);
}

static void measure_disks(size_t *call, size_t *whole)
{
    int found[2] = {0, 0};
    for (int i = 0; i < DISKS; i++) {
        make_disk(i);
        measure(call_disk, call);
        uint32_t number = status >> 16;
        if (number != 0 && number != 4) { printf("FAIL: disk %d is answered %u\n", i, status); exit(1); }
        found[number == 0]++;
        make_line("020140", disk, 3, disk + 3, 5 * PIXELS);
        measure(call_line, whole);
        if (status != number || line_len != DISK_LINE) { printf("FAIL: disk line %d is answered %u\n", i, status); exit(1); }
    }
    if (found[0] < DISKS / 20 || found[1] < DISKS / 2) { printf("FAIL: only %d disks answered, %d refused\n", found[1], found[0]); exit(1); }
    printf("%d disks of %d pixels answered, %d refused\n", found[1], PIXELS, found[0]);
}

int main(void)
{
    size_t bare = 0, ring = 0, record = 0, ring_line = 0, ring24 = 0, record24 = 0, ring24_line = 0, disk_fit = 0, disk_line = 0;
    size_t store = 0, fit_by = 0;
    measure(call_nothing, &bare);
    if (bare > 64) { printf("FAIL: a call of nothing uses %zu bytes: the measurement is wrong\n", bare); return 1; }
    measure_numbers();
    measure_rings(16, call_ring, call_record, "01", &ring, &record, &ring_line);
    measure_disks(&disk_fit, &disk_line);
    measure_rings(24, call_ring24, call_record24, "03", &ring24, &record24, &ring24_line); /* last: the others' draws do not hang on it */
    measure_tables(&store, &fit_by); /* nor on this */
    printf("stack of a ring fit at most %zu bytes (bar %d), with its mean %zu (bar %d), of its line %zu; of 24 samples %zu, with the mean %zu "
           "(bar %d), of its line %zu; by tables %zu, of storing one %zu (bar %d); of a disk fit %zu, of its line %zu (bar %d)\n",
           ring, RING_BAR, record, RECORD_BAR, ring_line, ring24, record24, RING24_BAR, ring24_line, fit_by, store, TABLES_BAR,
           disk_fit, disk_line, BAR);
    return hold("a ring fit", ring, RING_BAR) | hold("a ring fit with its mean", record, RECORD_BAR) | hold("a ring's line", ring_line, BAR) |
           hold("a ring fit of 24 samples", ring24, RING24_BAR) | hold("one with its mean", record24, RING24_BAR) | hold("its line", ring24_line, BAR) |
           hold("a ring fit by tables", fit_by, TABLES_BAR) | hold("storing a table", store, TABLES_BAR) |
           hold("a disk fit", disk_fit, BAR) | hold("a disk's line", disk_line, BAR);
}
