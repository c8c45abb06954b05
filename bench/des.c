/* Times the DES calls of the crates beside OpenSSL's own DES calls. des ROUNDS */
#include "timing.h"

enum { CALLS = 2000, CHAIN = 100 };

extern uint64_t bench_encrypt(uint64_t key, uint64_t block);
extern uint64_t bench_chain(uint64_t key, uint64_t block, uint64_t times);
extern uint64_t bench_code(uint64_t key, const uint8_t *text, size_t length);
extern uint32_t bench_mac(uint64_t key, const uint8_t *text, size_t length);
extern uint64_t bench_unwrap(uint64_t left, uint64_t right, uint64_t count, uint64_t sealed);

static uint64_t openssl_encrypt(uint64_t key, uint64_t block)
{
    DES_cblock k, in, out;
    DES_key_schedule schedule;
    block_of(key, &k);
    block_of(block, &in);
    DES_set_key_unchecked(&k, &schedule);
    DES_ecb_encrypt(&in, &out, &schedule, DES_ENCRYPT);
    return word_of(&out);
}

static uint64_t openssl_chain(uint64_t key, uint64_t block, uint64_t times)
{
    DES_cblock k, last;
    DES_key_schedule schedule;
    block_of(key, &k);
    block_of(block, &last);
    DES_set_key_unchecked(&k, &schedule);
    for (uint64_t i = 0; i < times; i++)
        DES_ecb_encrypt(&last, &last, &schedule, DES_ENCRYPT);
    return word_of(&last);
}

static uint64_t spread(uint64_t count)
{
    uint64_t word = 0;
    for (int i = 0; i < 8; i++)
        word |= (count >> (7 * i) & 0x7f) << (8 * i + 1);
    return word;
}

static uint64_t openssl_unwrap(uint64_t left, uint64_t right, uint64_t count, uint64_t sealed)
{
    DES_cblock k, in, out;
    DES_key_schedule first, second;
    uint64_t added = spread(count);
    block_of(left ^ added, &k);
    DES_set_key_unchecked(&k, &first);
    block_of(right ^ added, &k);
    DES_set_key_unchecked(&k, &second);
    block_of(sealed, &in);
    DES_ecb3_encrypt(&in, &out, &first, &second, &first, DES_DECRYPT);
    return word_of(&out);
}

int main(int count, char **words)
{
    int rounds = rounds_of(count, words);
    for (uint64_t i = 0; i < 1000; i++) {
        uint64_t key = 0x0123456789ABCDEFu * (2 * i + 1);
        if (bench_encrypt(key, i) != openssl_encrypt(key, i)
            || bench_chain(key, i, 5) != openssl_chain(key, i, 5)
            || bench_unwrap(key, i, i + 1, key) != openssl_unwrap(key, i, i + 1, key)
            || bench_code(key, text, TEXT) != openssl_code(key, text, TEXT)
            || bench_mac(key, text, TEXT) != openssl_code(key, text, TEXT) >> 32) {
            fprintf(stderr, "the two disagree\n");
            return 1;
        }
    }
    for (int round = 0; round < rounds; round++) {
        TIMED("code of 100 bytes, fresh key", "x917", CALLS, 1, bench_code(i, text, TEXT));
        TIMED("code of 100 bytes, fresh key", "OpenSSL", CALLS, 1, openssl_code(i, text, TEXT));
        TIMED("block in a chain", "x917", CALLS / 10, CHAIN, bench_chain(i, i, CHAIN));
        TIMED("block in a chain", "OpenSSL", CALLS / 10, CHAIN, openssl_chain(i, i, CHAIN));
        TIMED("fresh key and one block", "x917", CALLS, 1, bench_encrypt(i, i));
        TIMED("fresh key and one block", "OpenSSL", CALLS, 1, openssl_encrypt(i, i));
        TIMED("key unwrapped under a fresh pair and a count", "x917", CALLS, 1, bench_unwrap(i, i + 1, i + 1, i));
        TIMED("key unwrapped under a fresh pair and a count", "OpenSSL", CALLS, 1, openssl_unwrap(i, i + 1, i + 1, i));
    }
    return 0;
}
