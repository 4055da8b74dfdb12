/* Shared by the measuring programs: bits of floats, a random source, the mode, and the one way to fail. */
#ifndef MEASURE_H
#define MEASURE_H

#include <math.h>
#include <stdint.h>
#include <stdio.h>
#include <stdlib.h>
#include <string.h>

#define SIGN 0x80000000u
#define INF_BITS 0x7f800000u
#define COUNT(list) (sizeof(list) / sizeof *(list))

static inline float float_of(uint32_t b) { float f; memcpy(&f, &b, 4); return f; }
static inline uint32_t bits_of(float f) { uint32_t b; memcpy(&b, &f, 4); return b; }
static inline double double_of(uint64_t b) { double f; memcpy(&f, &b, 8); return f; }

static inline int is_nan_bits(uint32_t b) { return (b & ~SIGN) > INF_BITS; }

/* xorshift64: fixed start, so that a failure can be run again. */
static uint64_t random_state = 0x9e3779b97f4a7c15u;
static inline uint64_t random_bits(void)
{
    uint64_t s = random_state;
    s ^= s << 13;
    s ^= s >> 7;
    s ^= s << 17;
    return random_state = s;
}

/* `all` or `sample`, from the command line; anything else is refused, so that a slip does not pass as a run. */
static inline int mode_is_all(int argc, char **argv)
{
    if (argc == 2 && strcmp(argv[1], "all") == 0) return 1;
    if (argc == 2 && strcmp(argv[1], "sample") == 0) return 0;
    fprintf(stderr, "usage: %s all|sample\n", argv[0]);
    exit(2);
}

#endif
