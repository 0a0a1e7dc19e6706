/*
 * Ledger blocks from C: logs of many sizes are written, read back and damaged. What comes is compared with blocks made here, whose sums are taken
 * another way: each word times the count of running sums that it is in. Last line: `N passed, 0 failed`; exit status 1 on a failure.
 */
#include "reedtangle.h"
#include "tell.h"

#include <stdio.h>
#include <string.h>

enum { BLOCK = 512, ROOM = REEDTANGLE_BLOCKS_LOG_BYTES + 512 };

static uint8_t log_bytes[32776], made[ROOM], came[ROOM], back[ROOM], hurt[ROOM];

static void put(uint8_t *at, uint64_t n, int bytes)
{
    for (int i = 0; i < bytes; i++) {
        at[i] = (uint8_t)(n >> (8 * i));
    }
}

/* The blocks of a log, by another reckoning. */
static size_t make(size_t length)
{
    size_t count = 0;
    for (size_t from = 0; from < length; from += 496, count++) {
        uint8_t *b = made + BLOCK * count;
        size_t here = length - from < 496 ? length - from : 496;
        uint64_t first = 0, second = 0;
        memset(b, 0, BLOCK);
        put(b, count, 4);
        put(b + 4, here / 8, 2);
        memcpy(b + 8, log_bytes + from, here);
        for (uint64_t i = 0; i < 126; i++) {
            uint64_t word = b[4 * i] | (uint64_t)b[4 * i + 1] << 8 | (uint64_t)b[4 * i + 2] << 16 | (uint64_t)b[4 * i + 3] << 24;
            first += word;
            second += word * (126 - i);
        }
        put(b + 504, first % 4294967296u, 4);
        put(b + 508, second % 4294967296u, 4);
    }
    return BLOCK * count;
}

static int is(uint64_t both, uint64_t code, uint64_t place)
{
    return both == (code << 32) + place;
}

/* Only these bytes were written: the rest is as it was. */
static int rest_is(const uint8_t *at, size_t from, size_t to, uint8_t was)
{
    for (; from < to; from++) {
        if (at[from] != was) {
            return 0;
        }
    }
    return 1;
}

int main(void)
{
    static const size_t sizes[] = {0, 1, 2, 61, 62, 63, 124, 125, 1000, 4092, 4093, 4096};
    uint64_t seed = 7;
    for (size_t i = 0; i < sizeof log_bytes; i++) {
        seed = seed * 6364136223846793005u + 1442695040888963407u;
        log_bytes[i] = (uint8_t)(seed >> 56);
    }
    for (size_t s = 0; s < sizeof sizes / sizeof *sizes; s++) {
        size_t n = sizes[s], length = 8 * n, size = make(length);
        memset(came, 0xa7, sizeof came);
        memset(back, 0xa7, sizeof back);
        tell_of(is(reedtangle_write_blocks(log_bytes, length, came, ROOM), 0, size) && memcmp(came, made, size) == 0 && rest_is(came, size, ROOM, 0xa7), "the blocks are those made here", n);
        tell_of(is(reedtangle_read_blocks(came, size, back, ROOM), 0, length) && memcmp(back, log_bytes, length) == 0 && rest_is(back, length, ROOM, 0xa7), "and are read back", n);
        memset(back, 0xa7, sizeof back);
        if (length > 0) {
            tell_of(is(reedtangle_write_blocks(log_bytes, length, back, size - 1), 24, 0) && is(reedtangle_read_blocks(came, size, back, length - 1), 24, 0) && rest_is(back, 0, ROOM, 0xa7), "with a byte too little room nothing is written", n);
            int found = 1;
            for (size_t at = 0; at < size; at += 1 + size / 700) {
                memcpy(hurt, came, size);
                hurt[at] ^= 16;
                found = found && is(reedtangle_read_blocks(hurt, size, back, ROOM), 22, at / BLOCK) && rest_is(back, 0, ROOM, 0xa7);
            }
            tell_of(found, "a changed byte is found in its block", n);
        }
        tell_of(is(reedtangle_write_blocks(log_bytes, length + 4, back, ROOM), 11, 0) && is(reedtangle_read_blocks(came, size + 8, back, ROOM), 21, 0), "lengths that are no log and no run", n);
    }
    tell_of(is(reedtangle_write_blocks(log_bytes, 32776, back, ROOM), 11, 0) && rest_is(back, 0, ROOM, 0xa7), "a log too long", 4097);
    memset(hurt, 0, BLOCK);
    tell_of(is(reedtangle_read_blocks(hurt, BLOCK, back, ROOM), 23, 0), "a block of zeros: its sums are right and it has no record", 0);
    printf("%d passed, %d failed\n", passed, failed);
    return failed != 0;
}
