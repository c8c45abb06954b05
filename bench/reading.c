/* Times the reading of a key service message and of a journal in memory. reading ROUNDS */
#include "timing.h"

enum { CALLS = 2000, FRAMES = 100000, BODY = 20, FRAME = BODY + 5, PASSES = 5 };

/* The allocator of the library takes no bytes, so C passes nothing for it. */
extern size_t bench_read(const uint8_t *text, size_t length);
extern uint64_t bench_journal(const uint8_t *image, size_t length, uint64_t times);

static const char message[] =
    "CSM(MCL/KSM CTP/007 KD/0123456789abcdef\nORG/BANKA RCV/BANKB IDK2/K1 MAC/89ab cdef )\n";

/* The file's gate, selector 0, the magic, so many frames, and a closed gate. */
static uint8_t *journal(size_t *length)
{
    *length = 16 + (size_t)FRAMES * FRAME + 1;
    uint8_t *image = calloc(*length, 1);
    if (image == NULL)
        exit(1);
    image[0] = 1;
    memcpy(image + 2, "X917-KEYSTORE1", 14);
    for (size_t i = 0; i < FRAMES; i++) {
        uint8_t *frame = image + 16 + i * FRAME;
        frame[0] = 1;
        frame[4] = BODY;
        memset(frame + 5, (int)(i % 251), BODY);
    }
    return image;
}

int main(int count, char **words)
{
    int rounds = rounds_of(count, words);
    const uint8_t *csm = (const uint8_t *)message;
    size_t length;
    uint8_t *image = journal(&length);
    if (bench_read(csm, sizeof message - 1) != sizeof message - 2 || bench_journal(image, length, 1) != FRAMES) {
        fprintf(stderr, "the message or the journal isn't read\n");
        return 1;
    }
    for (int round = 0; round < rounds; round++) {
        TIMED("key service message of 84 bytes, read", "x917", CALLS, 1, bench_read(csm, sizeof message - 1));
        BESIDE("key service message of 84 bytes, read");
        TIMED("frame of a journal, 20 bytes, read", "x917", 1, FRAMES * PASSES, bench_journal(image, length, PASSES));
        BESIDE("frame of a journal, 20 bytes, read");
    }
    free(image);
    return 0;
}
