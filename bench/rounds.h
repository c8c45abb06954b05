/* DES by tables, as codes.c and plain_events.c make it: a half of a block stands twice, so that each byte of it ends with the six bits
   of a box, and a box and P are one table. */
#include "tables.h"

static const uint8_t P[32] = {16,7,20,21,29,12,28,17,1,15,23,26,5,18,31,10,2,8,24,14,32,27,3,9,19,13,30,6,22,11,4,25};

static const uint8_t PC1[56] = {
    57,49,41,33,25,17,9,1,58,50,42,34,26,18,10,2,59,51,43,35,27,19,11,3,60,52,44,36,
    63,55,47,39,31,23,15,7,62,54,46,38,30,22,14,6,61,53,45,37,29,21,13,5,28,20,12,4};

static const uint8_t PC2[48] = {
    14,17,11,24,1,5,3,28,15,6,21,10,23,19,12,4,26,8,16,7,27,20,13,2,
    41,52,31,37,47,55,30,40,51,45,33,48,44,49,39,56,34,53,46,42,50,36,29,32};

/* Where in such a half the six bits of each box end. */
static const uint8_t ORDER[8] = {56, 24, 48, 16, 40, 8, 32, 0};

static const uint8_t SHIFTS[16] = {1,1,2,2,2,2,2,2,1,2,2,2,2,2,2,1};

/* What P makes of each box's output, twice. */
static uint64_t tables[8][64];

static inline unsigned bit(uint64_t word, unsigned width, unsigned place)
{
    return (unsigned)(word >> (width - place)) & 1;
}

static inline uint64_t picked(uint64_t word, unsigned width, const uint8_t *places, unsigned count)
{
    uint64_t result = 0;
    for (unsigned i = 0; i < count; i++)
        result = result << 1 | bit(word, width, places[i]);
    return result;
}

static inline unsigned box_output(unsigned box, unsigned six)
{
    return BOXES[box][(six >> 5 << 1 | (six & 1)) * 16 + (six >> 1 & 15)];
}

static inline uint64_t doubled(uint32_t half)
{
    return (uint64_t)(half << 29 | half >> 3) << 32 | (half << 1 | half >> 31);
}

static inline uint32_t single(uint64_t wide)
{
    uint32_t low = (uint32_t)wide;
    return low >> 1 | low << 31;
}

static void make_boxes(void)
{
    for (unsigned box = 0; box < 8; box++)
        for (unsigned six = 0; six < 64; six++)
            tables[box][six] = doubled((uint32_t)picked((uint64_t)box_output(box, six) << (28 - 4 * box), 32, P, 32));
}

/* The round keys, each in the last 48 bits of a word. */
static void make_round_keys(uint64_t key, uint64_t *keys)
{
    uint64_t chosen = picked(key, 64, PC1, 56);
    uint32_t c = (uint32_t)(chosen >> 28), d = (uint32_t)(chosen & 0xFFFFFFF);
    for (int round = 0; round < 16; round++) {
        for (int i = 0; i < SHIFTS[round]; i++) {
            c = (c << 1 | c >> 27) & 0xFFFFFFF;
            d = (d << 1 | d >> 27) & 0xFFFFFFF;
        }
        keys[round] = picked((uint64_t)c << 28 | d, 56, PC2, 48);
    }
}

/* A round key as the groups of six that end the bytes of a half. */
static inline uint64_t grouped(uint64_t key)
{
    uint64_t groups = 0;
    for (unsigned i = 0; i < 8; i++)
        groups |= (key >> (42 - 6 * i) & 63) << ORDER[i];
    return groups;
}

static inline uint64_t boxes(uint64_t given)
{
    return (tables[7][given & 63] | tables[5][given >> 8 & 63]) ^ (tables[3][given >> 16 & 63] | tables[1][given >> 24 & 63])
        ^ (tables[6][given >> 32 & 63] | tables[4][given >> 40 & 63]) ^ (tables[2][given >> 48 & 63] | tables[0][given >> 56 & 63]);
}

static inline uint64_t mixed(uint64_t wide, uint64_t key)
{
    return boxes(wide ^ key);
}
