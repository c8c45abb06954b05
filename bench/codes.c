/* Times error detection codes of many texts of 16 blocks, made in several ways: one chain after the other, two and four chains side
   by side, and 64 to 512 in the bits of words and vectors, by the circuits of boxes.h. A code is that of FIPS 113 under one key:
   blocks of DES, each after the one before. Of each way and round a line: the way, a tab, the nanoseconds a block. The vectors of 256
   and 512 bits are of later processors than x86-64 begins with, and left out where there are none. codes ROUNDS */
#include <stdint.h>
#include <stdio.h>
#include <stdlib.h>
#include <string.h>
#include <time.h>
#include "boxes.h"
#include "rounds.h"

enum { TEXTS = 512, BLOCKS = 16 };

static const uint64_t KEY = 0x0123456789ABCDEFu;

static const uint8_t IP[64] = {
    58,50,42,34,26,18,10,2,60,52,44,36,28,20,12,4,62,54,46,38,30,22,14,6,64,56,48,40,32,24,16,8,
    57,49,41,33,25,17,9,1,59,51,43,35,27,19,11,3,61,53,45,37,29,21,13,5,63,55,47,39,31,23,15,7};

/* The bits of each round key, the first at place 0; the same as the groups of six that end the bytes of a half. */
static uint8_t round_bits[16][48], sliced_key[16][48];
static uint64_t groups[16];
static uint64_t words[TEXTS][BLOCKS];
static uint64_t permuted[TEXTS][BLOCKS][2];
static uint64_t codes[TEXTS], wanted[TEXTS];

static uint64_t unpicked(uint64_t word, const uint8_t *places)
{
    uint64_t result = 0;
    for (unsigned i = 0; i < 64; i++)
        result |= (word >> (63 - i) & 1) << (64 - places[i]);
    return result;
}

static void make_tables(void)
{
    uint64_t keys[16];
    make_boxes();
    make_round_keys(KEY, keys);
    for (int round = 0; round < 16; round++) {
        for (unsigned i = 0; i < 48; i++)
            round_bits[round][i] = (uint8_t)bit(keys[round], 48, i + 1);
        groups[round] = grouped(keys[round]);
    }
}

/* ---- one, two or four chains: the bits of a block stand permuted by IP all the way, as a chain allows, and each half twice */

#define EACH(COUNT, DONE)             \
    for (int i = 0; i < COUNT; i++) { \
        DONE                          \
    }

#define CHAINS(COUNT)                                                                              \
    static __attribute__((optimize("O3"))) void chains_##COUNT(int blocks, uint64_t *out)           \
    {                                                                                              \
        for (int text = 0; text < TEXTS; text += COUNT) {                                          \
            uint64_t left[COUNT] = {0}, right[COUNT] = {0};                                        \
            for (int block = 0; block < blocks; block++) {                                         \
                EACH(COUNT, left[i] ^= permuted[text + i][block][0]; right[i] ^= permuted[text + i][block][1];) \
                for (int round = 0; round < 16; round += 2) {                                      \
                    EACH(COUNT, left[i] ^= mixed(right[i], groups[round]);)                        \
                    EACH(COUNT, right[i] ^= mixed(left[i], groups[round + 1]);)                    \
                }                                                                                  \
                EACH(COUNT, uint64_t held = left[i]; left[i] = right[i]; right[i] = held;)         \
            }                                                                                      \
            EACH(COUNT, out[text + i] = (uint64_t)single(left[i]) << 32 | single(right[i]);)       \
        }                                                                                          \
    }

CHAINS(1)
CHAINS(2)
CHAINS(4)

/* One chain with all sixteen rounds written out. */
static void chains_written_out(int blocks, uint64_t *out)
{
    for (int text = 0; text < TEXTS; text++) {
        uint64_t left = 0, right = 0;
        for (int block = 0; block < blocks; block++) {
            left ^= permuted[text][block][0];
            right ^= permuted[text][block][1];
#pragma GCC unroll 16
            for (int round = 0; round < 16; round += 2) {
                left ^= mixed(right, groups[round]);
                right ^= mixed(left, groups[round + 1]);
            }
            uint64_t held = left;
            left = right;
            right = held;
        }
        out[text] = (uint64_t)single(left) << 32 | single(right);
    }
}

/* One chain in which the other half has the next round's key on it before the boxes' output comes: a round waits for one exclusive
   or less. */
static void chains_early(int blocks, uint64_t *out)
{
    for (int text = 0; text < TEXTS; text++) {
        uint64_t left = 0, right = 0;
        for (int block = 0; block < blocks; block++) {
            left ^= permuted[text][block][0];
            uint64_t given = right ^ permuted[text][block][1] ^ groups[0];
            for (int round = 0; round < 16; round++) {
                uint64_t next = round < 15 ? groups[round + 1] : 0;
                uint64_t waiting = left ^ next;
                left = given ^ groups[round];
                given = boxes(given) ^ waiting;
            }
            right = left;
            left = given;
        }
        out[text] = (uint64_t)single(left) << 32 | single(right);
    }
}

/* ---- chains in the bits of words or vectors: word i holds bit i of each block. What a box gives complemented is undone by the
   next round keys: each bit of a half is complemented once in each two rounds. */

#define P_OF_1(H) (H)[8], (H)[16], (H)[22], (H)[30]
#define P_OF_2(H) (H)[12], (H)[27], (H)[1], (H)[17]
#define P_OF_3(H) (H)[23], (H)[15], (H)[29], (H)[5]
#define P_OF_4(H) (H)[25], (H)[19], (H)[9], (H)[0]
#define P_OF_5(H) (H)[7], (H)[13], (H)[24], (H)[2]
#define P_OF_6(H) (H)[3], (H)[28], (H)[10], (H)[18]
#define P_OF_7(H) (H)[31], (H)[11], (H)[21], (H)[6]
#define P_OF_8(H) (H)[4], (H)[26], (H)[14], (H)[20]

static const uint8_t COMPLEMENTED[8] = {COMPLEMENTED_1, COMPLEMENTED_2, COMPLEMENTED_3, COMPLEMENTED_4,
                                        COMPLEMENTED_5, COMPLEMENTED_6, COMPLEMENTED_7, COMPLEMENTED_8};

/* Bit i of a half, the first at 0, after P, where a box gives it complemented. */
static unsigned is_complemented(unsigned i)
{
    unsigned output = P[i] - 1u;
    return COMPLEMENTED[output / 4] >> (3 - output % 4) & 1;
}

static void make_sliced_keys(void)
{
    for (unsigned round = 0; round < 16; round++)
        for (unsigned i = 0; i < 48; i++) {
            unsigned place = (i / 6 * 4 + i % 6 + 31) % 32;
            sliced_key[round][i] = (uint8_t)(round_bits[round][i] ^ ((round + 1) / 2 % 2 & is_complemented(place)));
        }
}

#define CALL(BOX, ...) BOX(__VA_ARGS__)
#define APPLY(N, V, H, K, A, B, C, D, E, F, O)                                                            \
    CALL(BOX_##N, V, (H)[A] ^ (K)[6 * N - 6], (H)[B] ^ (K)[6 * N - 5], (H)[C] ^ (K)[6 * N - 4],            \
         (H)[D] ^ (K)[6 * N - 3], (H)[E] ^ (K)[6 * N - 2], (H)[F] ^ (K)[6 * N - 1], P_OF_##N(O))

#define SLICED(NAME, V, ATTRIBUTE)                                                                        \
    ATTRIBUTE static __attribute__((noinline)) void NAME##_round(const V *half, V *other, const V *key)   \
    {                                                                                                     \
        APPLY(1, V, half, key, 31, 0, 1, 2, 3, 4, other);                                                 \
        APPLY(2, V, half, key, 3, 4, 5, 6, 7, 8, other);                                                  \
        APPLY(3, V, half, key, 7, 8, 9, 10, 11, 12, other);                                               \
        APPLY(4, V, half, key, 11, 12, 13, 14, 15, 16, other);                                            \
        APPLY(5, V, half, key, 15, 16, 17, 18, 19, 20, other);                                            \
        APPLY(6, V, half, key, 19, 20, 21, 22, 23, 24, other);                                            \
        APPLY(7, V, half, key, 23, 24, 25, 26, 27, 28, other);                                            \
        APPLY(8, V, half, key, 27, 28, 29, 30, 31, 0, other);                                             \
    }                                                                                                     \
    ATTRIBUTE static __attribute__((noinline)) void NAME##_transposed(V *square)                          \
    {                                                                                                     \
        uint64_t mask = 0x00000000FFFFFFFFu;                                                              \
        for (int width = 32; width != 0; width >>= 1, mask ^= mask << width)                              \
            for (int row = 0; row < 64; row = (row + width + 1) & ~width) {                               \
                V changed = (square[row] ^ square[row + width] >> width) & (mask ^ (V){0});               \
                square[row] ^= changed;                                                                   \
                square[row + width] ^= changed << width;                                                  \
            }                                                                                             \
    }                                                                                                     \
    ATTRIBUTE static void NAME(int blocks, uint64_t *out)                                                 \
    {                                                                                                     \
        enum { LANES = sizeof(V) / 8 };                                                                   \
        V keys[16][48], square[64];                                                                       \
        for (int round = 0; round < 16; round++)                                                          \
            for (int i = 0; i < 48; i++)                                                                  \
                keys[round][i] = (V){0} ^ ((uint64_t)0 - (uint64_t)sliced_key[round][i]);                 \
        for (int text = 0; text < TEXTS; text += 64 * LANES) {                                            \
            V state[64];                                                                                  \
            memset(state, 0, sizeof state);                                                               \
            V *left = state, *right = state + 32;                                                         \
            for (int block = 0; block < blocks; block++) {                                                \
                for (int i = 0; i < 64; i++) {                                                            \
                    uint64_t lanes[LANES];                                                                \
                    for (int lane = 0; lane < LANES; lane++)                                              \
                        lanes[lane] = words[text + 64 * lane + i][block];                                 \
                    memcpy(&square[i], lanes, sizeof lanes);                                              \
                }                                                                                         \
                NAME##_transposed(square);                                                                \
                for (int i = 0; i < 32; i++) {                                                            \
                    left[i] ^= square[IP[i] - 1];                                                         \
                    right[i] ^= square[IP[i + 32] - 1];                                                   \
                }                                                                                         \
                for (int round = 0; round < 16; round += 2) {                                             \
                    NAME##_round(right, left, keys[round]);                                               \
                    NAME##_round(left, right, keys[round + 1]);                                           \
                }                                                                                         \
                V *held = left;                                                                           \
                left = right;                                                                             \
                right = held;                                                                             \
            }                                                                                             \
            for (int i = 0; i < 32; i++) {                                                                \
                square[i] = left[i];                                                                      \
                square[i + 32] = right[i];                                                                \
            }                                                                                             \
            NAME##_transposed(square);                                                                    \
            for (int i = 0; i < 64; i++) {                                                                \
                uint64_t lanes[LANES];                                                                    \
                memcpy(lanes, &square[i], sizeof lanes);                                                  \
                for (int lane = 0; lane < LANES; lane++)                                                  \
                    out[text + 64 * lane + i] = lanes[lane];                                              \
            }                                                                                             \
        }                                                                                                 \
    }

typedef uint64_t bits_128 __attribute__((vector_size(16)));
typedef uint64_t bits_256 __attribute__((vector_size(32)));
typedef uint64_t bits_512 __attribute__((vector_size(64)));

SLICED(sliced_64, uint64_t, )
SLICED(sliced_128, bits_128, )
SLICED(sliced_256, bits_256, __attribute__((target("avx2"))))
SLICED(sliced_512, bits_512, __attribute__((target("avx512f"))))

static void put_block(int text, int block, uint64_t word)
{
    uint64_t turned = picked(word, 64, IP, 64);
    words[text][block] = word;
    permuted[text][block][0] = doubled((uint32_t)(turned >> 32));
    permuted[text][block][1] = doubled((uint32_t)turned);
}

static double now(void)
{
    struct timespec t;
    clock_gettime(CLOCK_MONOTONIC, &t);
    return (double)t.tv_sec * 1e9 + (double)t.tv_nsec;
}

static const struct {
    const char *name;
    void (*made)(int, uint64_t *);
} WAYS[] = {
    {"one chain after the other", chains_1},   {"the same, rounds written out", chains_written_out},
    {"the same, keys put on early", chains_early}, {"two side by side", chains_2},
    {"four side by side", chains_4},           {"64 in words", sliced_64},
    {"128 in vectors of 128 bits", sliced_128}, {"256 in vectors of 256 bits", sliced_256},
    {"512 in vectors of 512 bits", sliced_512},
};

static int many_ways(void)
{
    if (__builtin_cpu_supports("avx512f"))
        return 9;
    return __builtin_cpu_supports("avx2") ? 8 : 7;
}

int main(int count, char **arguments)
{
    int rounds = count > 1 ? atoi(arguments[1]) : 1;
    make_tables();
    make_sliced_keys();
    /* The plain text of FIPS 81's example, whose first block under this key is 3FA40E8A984D4815. */
    put_block(0, 0, 0x4E6F772069732074u);
    chains_1(1, codes);
    if (unpicked(codes[0], IP) != 0x3FA40E8A984D4815u) {
        fprintf(stderr, "this isn't DES\n");
        return 1;
    }
    uint64_t word = 1;
    for (int text = 0; text < TEXTS; text++)
        for (int block = 0; block < BLOCKS; block++) {
            word = word * 6364136223846793005u + 1442695040888963407u;
            put_block(text, block, word);
        }
    chains_1(BLOCKS, wanted);
    for (int round = 0; round < rounds; round++)
        for (int way = 0; way < many_ways(); way++) {
            double begin = now();
            WAYS[way].made(BLOCKS, codes);
            double took = now() - begin;
            if (memcmp(codes, wanted, sizeof codes) != 0) {
                fprintf(stderr, "%s: other codes\n", WAYS[way].name);
                return 1;
            }
            printf("%s\t%.3f\n", WAYS[way].name, took / TEXTS / BLOCKS);
        }
    return 0;
}
