/* DES, the code of FIPS 113 and keys under pairs, for plain_events.c: one text after the other. The round keys are the exclusive or of
   rows, of the half C by the first four bits of each byte of a key, of the half D by the last four of those that count. */
#include <string.h>
#include "rounds.h"

/* The weak and semi-weak keys. */
static const uint64_t WEAK[16] = {
    0x0101010101010101u, 0xFEFEFEFEFEFEFEFEu, 0xE0E0E0E0F1F1F1F1u, 0x1F1F1F1F0E0E0E0Eu, 0x01FE01FE01FE01FEu, 0xFE01FE01FE01FE01u,
    0x1FE01FE00EF10EF1u, 0xE01FE01FF10EF10Eu, 0x01E001E001F101F1u, 0xE001E001F101F101u, 0x1FFE1FFE0EFE0EFEu, 0xFE1FFE1FFE0EFE0Eu,
    0x011F011F010E010Eu, 0x1F011F010E010E01u, 0xE0FEE0FEF1FEF1FEu, 0xFEE0FEE0FEF1FEF1u};

typedef uint16_t parts __attribute__((vector_size(16)));

static parts rows_c[8][16][4], rows_d[8][16][4];

struct schedule {
    uint64_t keys[16];
};

struct block {
    uint64_t left, right;
};

/* A row has the high and the low half of what it adds to each round key. */
static void make_rows(void)
{
    make_boxes();
    for (unsigned byte = 0; byte < 8; byte++)
        for (uint64_t bits = 0; bits < 16; bits++) {
            uint64_t first[16], last[16];
            uint32_t c[16], d[16];
            make_round_keys(bits << (60 - 8 * byte), first);
            make_round_keys(bits << (57 - 8 * byte), last);
            for (int round = 0; round < 16; round++) {
                uint64_t half = grouped(first[round] & 0xFFFFFF000000u), other = grouped(last[round] & 0xFFFFFFu);
                c[round] = (uint32_t)(half >> 48 << 16 | (half >> 16 & 0xFFFF));
                d[round] = (uint32_t)(other >> 32 << 16 | (other & 0xFFFF));
            }
            memcpy(rows_c[byte][bits], c, sizeof c);
            memcpy(rows_d[byte][bits], d, sizeof d);
        }
}

static inline void make_schedule(uint64_t key, struct schedule *schedule)
{
    parts c[4] = {{0}}, d[4] = {{0}};
#pragma GCC unroll 8
    for (int byte = 0; byte < 8; byte++) {
        const parts *row_c = rows_c[byte][key >> (60 - 8 * byte) & 15], *row_d = rows_d[byte][key >> (57 - 8 * byte) & 15];
#pragma GCC unroll 4
        for (int i = 0; i < 4; i++) {
            c[i] ^= row_c[i];
            d[i] ^= row_d[i];
        }
    }
    for (int i = 0; i < 4; i++) {
        parts front = __builtin_shuffle(d[i], c[i], (parts){0, 8, 1, 9, 2, 10, 3, 11});
        parts back = __builtin_shuffle(d[i], c[i], (parts){4, 12, 5, 13, 6, 14, 7, 15});
        memcpy(schedule->keys + 4 * i, &front, sizeof front);
        memcpy(schedule->keys + 4 * i + 2, &back, sizeof back);
    }
}

#define EXCHANGED(HIGH, LOW, BY, MASK)                  \
    do {                                                \
        uint32_t changed = ((HIGH >> BY) ^ LOW) & MASK; \
        LOW ^= changed;                                 \
        HIGH ^= changed << BY;                          \
    } while (0)

static inline struct block block_of(uint64_t word)
{
    uint32_t left = (uint32_t)(word >> 32), right = (uint32_t)word;
    EXCHANGED(left, right, 4, 0x0F0F0F0Fu);
    EXCHANGED(left, right, 16, 0x0000FFFFu);
    EXCHANGED(right, left, 2, 0x33333333u);
    EXCHANGED(right, left, 8, 0x00FF00FFu);
    EXCHANGED(left, right, 1, 0x55555555u);
    return (struct block){doubled(left), doubled(right)};
}

static inline uint64_t word_of(struct block block)
{
    uint32_t left = single(block.left), right = single(block.right);
    EXCHANGED(left, right, 1, 0x55555555u);
    EXCHANGED(right, left, 8, 0x00FF00FFu);
    EXCHANGED(right, left, 2, 0x33333333u);
    EXCHANGED(left, right, 16, 0x0000FFFFu);
    EXCHANGED(left, right, 4, 0x0F0F0F0Fu);
    return (uint64_t)left << 32 | right;
}

static inline struct block added(struct block one, struct block other)
{
    return (struct block){one.left ^ other.left, one.right ^ other.right};
}

static inline struct block enciphered(const struct schedule *schedule, struct block block)
{
    for (int round = 0; round < 16; round += 2) {
        block.left ^= mixed(block.right, schedule->keys[round]);
        block.right ^= mixed(block.left, schedule->keys[round + 1]);
    }
    return (struct block){block.right, block.left};
}

static inline struct block deciphered(const struct schedule *schedule, struct block block)
{
    for (int round = 15; round > 0; round -= 2) {
        block.left ^= mixed(block.right, schedule->keys[round]);
        block.right ^= mixed(block.left, schedule->keys[round - 1]);
    }
    return (struct block){block.right, block.left};
}

static struct block ede(const struct schedule *pair, struct block block)
{
    return enciphered(&pair[0], deciphered(&pair[1], enciphered(&pair[0], block)));
}

static inline uint64_t read_word(const uint8_t *at)
{
    uint64_t word;
    memcpy(&word, at, 8);
    return __builtin_bswap64(word);
}

/* The code of FIPS 113. */
static uint32_t code_of(const struct schedule *schedule, const uint8_t *text, size_t length)
{
    struct block state = {0, 0};
    for (; length >= 8; text += 8, length -= 8)
        state = enciphered(schedule, added(state, block_of(read_word(text))));
    if (length > 0)
        state = enciphered(schedule, added(state, block_of(read_word(text) & ~(uint64_t)0 << (64 - 8 * length))));
    return (uint32_t)(word_of(state) >> 32);
}

static uint64_t with_odd_parity(uint64_t key)
{
    uint64_t bits = key & 0xFEFEFEFEFEFEFEFEu, sums = bits ^ bits >> 4;
    sums ^= sums >> 2;
    sums ^= sums >> 1;
    return bits | (~sums & 0x0101010101010101u);
}

/* A pair's schedules under key offset at a count. */
static void offset(uint64_t left, uint64_t right, uint64_t count, struct schedule *pair)
{
    uint64_t spread = 0;
    for (int i = 0; i < 8; i++)
        spread |= (count >> 7 * i & 127) << (8 * i + 1);
    make_schedule(left ^ spread, &pair[0]);
    make_schedule(right ^ spread, &pair[1]);
}

static uint64_t wrapped(uint64_t left, uint64_t right, uint64_t count, uint64_t key)
{
    struct schedule pair[2];
    offset(left, right, count, pair);
    return word_of(ede(pair, block_of(key)));
}

static uint64_t unwrapped(uint64_t left, uint64_t right, uint64_t count, uint64_t key)
{
    struct schedule pair[2];
    offset(left, right, count, pair);
    return word_of(deciphered(&pair[0], enciphered(&pair[1], deciphered(&pair[0], block_of(key)))));
}

/* A key by a generator, which goes on; zero, if all sixteen draws are weak. */
static uint64_t drawn(uint64_t left, uint64_t right, uint64_t moment, uint64_t *v)
{
    struct schedule pair[2];
    make_schedule(left, &pair[0]);
    make_schedule(right, &pair[1]);
    for (int i = 0; i < 16; i++) {
        struct block stamp = ede(pair, block_of(moment)), result = ede(pair, added(stamp, block_of(*v)));
        *v = word_of(ede(pair, added(result, stamp)));
        uint64_t key = with_odd_parity(word_of(result));
        int is_weak = 0;
        for (int weak = 0; weak < 16; weak++)
            is_weak |= key == WEAK[weak];
        if (!is_weak)
            return key;
    }
    return 0;
}
