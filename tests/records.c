/* records: jb_ring_record called with the values of each ring frame of standard input, one answer a line, in words of eight
 * hexadecimal digits: of a fit its seven values and the four counts, of a refusal the one word that the call returns. A line
 * that is no frame 01 or 03 of the right length is answered `?`. So `oracle compare --lines records` holds the call to the Rust
 * for rings of 16 and of 24 points, and to its refusals.
 *
 * Both buffers are longer than the call asks, and hold a mark: behind what is written, and everywhere after a refusal, it must
 * stand as it was. Where it does not, the answer begins with words that no oracle writes. */
#include "jengubool.h"
#include <stdio.h>
#include <string.h>

#define POINTS 24
#define FIT 7
#define COUNTS 4
#define SPARE 2
#define MARK 0x5ec0de00u

static float values[2 * POINTS], fit[FIT + SPARE];
static uint32_t counts[COUNTS + SPARE];

static uint32_t bits_of(float x)
{
    uint32_t bits;
    memcpy(&bits, &x, sizeof bits);
    return bits;
}

/* The value of a digit; 16 for what is none. */
static uint32_t digit(int c)
{
    if (c >= '0' && c <= '9') return (uint32_t)(c - '0');
    if (c >= 'a' && c <= 'f') return (uint32_t)(c - 'a' + 10);
    return 16;
}

/* The number of points of a ring frame, whose values are then read; 0 for any other line. */
static size_t points_of(const char *line, size_t length)
{
    size_t points = 0;
    if (length == 2 + 16 * 16 && memcmp(line, "01", 2) == 0) points = 16;
    if (length == 2 + 16 * POINTS && memcmp(line, "03", 2) == 0) points = POINTS;
    for (size_t k = 0; k < 2 * points; k++) {
        uint32_t word = 0;
        for (size_t d = 0; d < 8; d++) {
            uint32_t next = digit((unsigned char)line[2 + 8 * k + d]);
            if (next == 16) return 0;
            word = word << 4 | next;
        }
        memcpy(&values[k], &word, sizeof word);
    }
    return points;
}

static void mark(void)
{
    uint32_t word = MARK;
    for (size_t k = 0; k < FIT + SPARE; k++) memcpy(&fit[k], &word, sizeof word);
    for (size_t k = 0; k < COUNTS + SPARE; k++) counts[k] = word;
}

/* Whether the marks from these places on are still there. */
static int is_marked(size_t of_fit, size_t of_counts)
{
    for (size_t k = of_fit; k < FIT + SPARE; k++)
        if (bits_of(fit[k]) != MARK) return 0;
    for (size_t k = of_counts; k < COUNTS + SPARE; k++)
        if (counts[k] != MARK) return 0;
    return 1;
}

static void answer(size_t points)
{
    mark();
    uint32_t code = jb_ring_record(values, points, values + points, points, fit, FIT + SPARE, counts, COUNTS + SPARE);
    int is_fit = code == 0;
    if (!is_marked(is_fit ? FIT : 0, is_fit ? COUNTS : 0)) printf("a mark is gone: ");
    if (!is_fit) {
        printf("%08x\n", (unsigned)code);
        return;
    }
    /* Every NaN written is the one NaN. */
    for (size_t k = 0; k < FIT; k++) printf("%08x", fit[k] != fit[k] ? 0x7fc00000u : (unsigned)bits_of(fit[k]));
    for (size_t k = 0; k < COUNTS; k++) printf("%08x", (unsigned)counts[k]);
    putchar('\n');
}

int main(void)
{
    static char line[2 + 16 * POINTS + 2];
    size_t length = 0;
    int c;
    /* What is longer than any ring frame is only counted. */
    while ((c = getchar()) != EOF) {
        if (c != '\n') {
            if (length < sizeof line) line[length] = (char)c;
            length++;
            continue;
        }
        size_t points = points_of(line, length);
        if (points == 0) puts("?");
        else answer(points);
        length = 0;
    }
    return fflush(stdout) == 0 ? 0 : 1;
}
