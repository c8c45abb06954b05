/* Times the turns of two banks in memory, and the opening of a party's image that such turns made, as it is and, where that is
   format 2, in format 1. turns ROUNDS */
#include "timing.h"

/* A key that is sent takes three turns, and one that is ended three more; each bank keeps two frames of each three. */
enum { KEYS = 1000, FRAMES = 2 + 4 * KEYS, OPENINGS = 5, MOST = 1 << 24, LINES = 1 << 17 };

/* The allocator of the library takes no bytes, so C passes nothing for it. */
extern size_t bench_turns(uint64_t sent, uint64_t ended, uint8_t *image, size_t room);
extern uint64_t bench_open(const uint8_t *image, size_t length, uint64_t times);
extern size_t bench_show(const uint8_t *image, size_t length, uint8_t *lines, size_t room);
extern uint64_t bench_journal(const uint8_t *image, size_t length, uint64_t times);

static uint8_t image[MOST], first[MOST];
static uint8_t lines[LINES];
static char wanted[LINES];

/* Whether the image shows so many keys, all with this status. */
static int shows(const uint8_t *party, size_t length, int keys, const char *status)
{
    size_t at = (size_t)sprintf(wanted, "PARTY BANKA BANK\nLINK BANKB K1 OUT %d READY\n", keys + 1);
    for (int key = 1; key <= keys; key++)
        at += (size_t)sprintf(wanted + at, "KEY BANKB BANKA.BANKA.K1.%d %s\n", key, status);
    return bench_show(party, length, lines, sizeof lines) == at && memcmp(lines, wanted, at) == 0;
}

/* The image in format 1: the first byte of each body tells the format, and in format 2 its last four are its code. */
static size_t in_format_1(size_t length)
{
    size_t at = 16, to = 16;
    memcpy(first, image, 16);
    while (at < length && image[at] == 1) {
        uint32_t body = (uint32_t)image[at + 1] << 24 | (uint32_t)image[at + 2] << 16 | (uint32_t)image[at + 3] << 8 | image[at + 4];
        uint32_t kept = body - 4;
        uint8_t head[6] = {1, (uint8_t)(kept >> 24), (uint8_t)(kept >> 16), (uint8_t)(kept >> 8), (uint8_t)kept, 1};
        memcpy(first + to, head, 6);
        memcpy(first + to + 6, image + at + 6, kept - 1);
        to += 5 + kept;
        at += 5 + body;
    }
    first[to] = 0;
    return to + 1;
}

static int is_opened(const uint8_t *party, size_t length)
{
    return shows(party, length, KEYS, "ENDED") && bench_journal(party, length, 1) == FRAMES && bench_open(party, length, 2) == 2;
}

int main(int count, char **words)
{
    int rounds = rounds_of(count, words);
    size_t length = bench_turns(KEYS, 0, image, sizeof image);
    if (length == 0 || !shows(image, length, KEYS, "LIVE")) {
        fprintf(stderr, "the keys aren't sent and taken\n");
        return 1;
    }
    for (int round = 0; round < rounds; round++) {
        TIMED("turn: read, decided, kept, answered", "x917", 1, 3 * KEYS, bench_turns(KEYS, 0, image, sizeof image));
        BESIDE("turn: read, decided, kept, answered");
    }
    length = bench_turns(KEYS, KEYS, image, sizeof image);
    int is_second = length > 21 && image[21] == 2;
    size_t shorter = is_second ? in_format_1(length) : length;
    if (!is_second)
        memcpy(first, image, length);
    if (length == 0 || !is_opened(image, length) || !is_opened(first, shorter)) {
        fprintf(stderr, "the keys aren't ended, or the image isn't opened\n");
        return 1;
    }
    for (int round = 0; round < rounds; round++) {
        TIMED("frame of a party's image in format 1, opened", "x917", 1, FRAMES * OPENINGS, bench_open(first, shorter, OPENINGS));
        BESIDE("frame of a party's image in format 1, opened");
        if (!is_second)
            continue;
        TIMED("frame in format 2, opened", "x917", 1, FRAMES * OPENINGS, bench_open(image, length, OPENINGS));
        TIMED("frame in format 2, opened", "x917, format 1", 1, FRAMES * OPENINGS, bench_open(first, shorter, OPENINGS));
    }
    return 0;
}
