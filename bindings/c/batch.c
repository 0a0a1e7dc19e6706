/*
 * Batches from C: each is handed over as one call on one state, and item by item to reedtangle_step on a copy of it, which is kept only if every
 * item is granted. Codes, places and whole states are compared. Last line: `N passed, 0 failed`; exit status 1 on a failure.
 */
#include "reedtangle.h"

#include <stdio.h>
#include <string.h>

static uint64_t seed = 11;

static uint32_t drawn(uint32_t below)
{
    seed = seed * 6364136223846793005u + 1442695040888963407u;
    return (uint32_t)(seed >> 33) % below;
}

static uint64_t step(reedtangle_state *s, const uint8_t *request)
{
    return reedtangle_step(&s->next, &s->free, s->numbers, s->leads, s->sets, s->ports, request);
}

static void put(uint8_t *r, uint32_t kind, uint32_t cell, uint32_t job)
{
    const uint8_t bytes[8] = {(uint8_t)kind, 0, (uint8_t)cell, (uint8_t)(cell >> 8), (uint8_t)job, (uint8_t)(job >> 8), (uint8_t)(job >> 16), (uint8_t)(job >> 24)};
    memcpy(r, bytes, sizeof bytes);
}

/* What the batch should get, by single steps; `s` is then what it should leave. */
static uint64_t one_by_one(reedtangle_state *s, const uint8_t *requests, size_t length)
{
    reedtangle_state now = *s;
    if (length % 8 != 0 || length > 512) {
        return (uint64_t)REEDTANGLE_BATCH_LENGTH << 32;
    }
    for (size_t i = 0; i < length / 8; i++) {
        const uint8_t *r = requests + 8 * i;
        uint64_t code = r[0] == REEDTANGLE_READ || r[0] == REEDTANGLE_WRITE || r[0] == REEDTANGLE_ADD ? step(&now, r) >> 32 : REEDTANGLE_MALFORMED;
        if (code != 0) {
            return (code << 32) + i;
        }
    }
    *s = now;
    return length / 8;
}

static int same(const reedtangle_state *a, const reedtangle_state *b)
{
    return a->next == b->next && a->free == b->free && memcmp(a->numbers, b->numbers, sizeof a->numbers) == 0
        && memcmp(a->leads, b->leads, sizeof a->leads) == 0 && memcmp(a->sets, b->sets, sizeof a->sets) == 0 && memcmp(a->ports, b->ports, sizeof a->ports) == 0;
}

int main(void)
{
    static reedtangle_state ours, theirs;
    static uint8_t requests[8 * 70];
    static const uint8_t kinds[6] = {REEDTANGLE_READ, REEDTANGLE_READ, REEDTANGLE_READ, REEDTANGLE_READ, REEDTANGLE_WRITE, REEDTANGLE_ADD};
    size_t codes[32] = {0}, wrong = 0, added = 0, batches = 20000;
    uint8_t one[8];
    reedtangle_start(&ours, 1);
    for (size_t n = 0; n < batches; n++) {
        /* some opens, ends and publishes between batches, so that 8 to 32 jobs are open */
        uint32_t kind = drawn(3) == 0 ? (drawn(2) == 0 ? REEDTANGLE_END : REEDTANGLE_PUBLISH) : REEDTANGLE_OPEN;
        uint32_t cell = drawn(40), last = (uint32_t)ours.next > 20 ? (uint32_t)ours.next - 1 - drawn(20) : 1;
        /* an open takes the lowest free slot: slots 0 to 15 are of port 0, the others of port 1 */
        put(one, kind, cell, kind == REEDTANGLE_OPEN ? (ours.free & 65535) == 0 : last);
        step(&ours, one);
        size_t items = drawn(8) == 0 ? drawn(70) : drawn(12), length = 8 * items;
        int raises = drawn(3) == 0; /* adds for the most part */
        for (size_t i = 0; i < items; i++) {
            uint32_t job = ours.numbers[drawn(32)];
            put(requests + 8 * i, drawn(200) == 0 ? drawn(9) : raises && drawn(12) != 0 ? REEDTANGLE_ADD : kinds[drawn(6)], drawn(300) == 0 ? 256 + drawn(9) : drawn(40), drawn(100) == 0 ? job + 1 : job);
        }
        if (drawn(60) == 0) {
            length += 1 + drawn(7);
            length = length > sizeof requests ? sizeof requests - 3 : length;
        }
        theirs = ours;
        uint64_t want = one_by_one(&theirs, requests, length);
        uint64_t came = reedtangle_batch(&ours.next, &ours.free, ours.numbers, ours.leads, ours.sets, requests, length);
        codes[came >> 32 & 31] += 1;
        for (size_t i = 0; came >> 32 == 0 && i < items; i++) {
            added += requests[8 * i] == REEDTANGLE_ADD;
        }
        wrong += came != want || !same(&ours, &theirs);
        if (!same(&ours, &theirs)) {
            ours = theirs;
        }
    }
    printf("%zu batches; codes 0, 1, 2, 3, 7, 25: %zu %zu %zu %zu %zu %zu; %zu adds in those granted\n", batches, codes[0], codes[1], codes[2], codes[3], codes[7], codes[25], added);
    int enough = codes[0] > 500 && codes[1] > 50 && codes[2] > 50 && codes[3] > 50 && codes[7] > 500 && codes[25] > 50 && added > 100;
    printf("%s  each answer and each state is that of single steps\n", wrong == 0 ? "ok  " : "FAIL");
    printf("%s  every code and an add came often enough to tell\n", enough ? "ok  " : "FAIL");
    printf("%d passed, %d failed\n", (wrong == 0) + enough, (wrong != 0) + !enough);
    return wrong != 0 || !enough;
}
