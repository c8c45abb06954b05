/* What the harnesses share: the clock, one line for each time taken, and the code by OpenSSL beside which all else is timed.
   A line has the figure, the way in which it was done, and the nanoseconds that each took, with tabs between. */
#define OPENSSL_SUPPRESS_DEPRECATED
#include <openssl/des.h>
#include <stddef.h>
#include <stdint.h>
#include <stdio.h>
#include <stdlib.h>
#include <string.h>
#include <time.h>

enum { TEXT = 100 };

static uint8_t text[TEXT + 4];
static volatile uint64_t sink;

static inline double now(void)
{
    struct timespec t;
    clock_gettime(CLOCK_MONOTONIC, &t);
    return (double)t.tv_sec * 1e9 + (double)t.tv_nsec;
}

/* A call so many times, each of so many steps. */
#define TIMED(figure, way, calls, steps, call)                                               \
    do {                                                                                     \
        double begin = now();                                                                \
        for (uint64_t i = 0; i < (uint64_t)(calls); i++)                                     \
            sink = (uint64_t)(call);                                                         \
        printf("%s\t%s\t%.2f\n", figure, way, (now() - begin) / (double)(calls) / (double)(steps)); \
    } while (0)

static inline void block_of(uint64_t word, DES_cblock *block)
{
    uint64_t bytes = __builtin_bswap64(word);
    memcpy(block, &bytes, 8);
}

static inline uint64_t word_of(const DES_cblock *block)
{
    uint64_t bytes;
    memcpy(&bytes, block, 8);
    return __builtin_bswap64(bytes);
}

/* The code of a text under a fresh key; a text of up to 2 * TEXT bytes. */
static inline uint64_t openssl_code(uint64_t key, const uint8_t *bytes, size_t length)
{
    DES_cblock k, start = {0};
    DES_key_schedule schedule;
    uint8_t out[2 * TEXT];
    block_of(key, &k);
    DES_set_key_unchecked(&k, &schedule);
    DES_ncbc_encrypt(bytes, out, (long)length, &schedule, &start, DES_ENCRYPT);
    return word_of(&start);
}

/* What is timed in the same round where nothing else does the same. */
#define BESIDE(figure) TIMED(figure, "OpenSSL, code of 100 bytes", 2000, 1, openssl_code(i, text, TEXT))

/* How many rounds the command line wants. */
static inline int rounds_of(int count, char **words)
{
    int rounds = count > 1 ? atoi(words[1]) : 1;
    for (size_t i = 0; i < TEXT; i++)
        text[i] = (uint8_t)(7 * i + 1);
    return rounds < 1 ? 1 : rounds;
}
