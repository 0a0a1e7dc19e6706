/*
 * The coarse mode from C: a worked history, row by row, and many requests against reedtangle_step with each cell's group for the cell, the states compared after each. Last line:
 * `N passed, 0 failed`; exit status 1 on a failure.
 */
#include "reedtangle.h"
#include "tell.h"

#include <string.h>

static int same(const reedtangle_state *x, const reedtangle_state *y)
{
    return x->next == y->next && x->free == y->free && memcmp(x->numbers, y->numbers, sizeof x->numbers) == 0
        && memcmp(x->leads, y->leads, sizeof x->leads) == 0 && memcmp(x->sets, y->sets, sizeof x->sets) == 0 && memcmp(x->ports, y->ports, sizeof x->ports) == 0;
}

static uint64_t ask(reedtangle_state *s, const uint8_t *request)
{
    return reedtangle_coarse_step(&s->next, &s->free, s->numbers, s->leads, s->sets, s->ports, request);
}

static int gives(reedtangle_state *s, uint8_t kind, uint16_t cell, uint32_t job, uint32_t code, uint32_t number)
{
    uint8_t request[8];
    reedtangle_state before = *s;
    reedtangle_put_request(request, kind, cell, job);
    return ask(s, request) == ((uint64_t)code << 32) + number && (code == 0 || same(&before, s));
}

static void worked(void)
{
    static reedtangle_state s;
    reedtangle_start(&s, 1);
    tell(gives(&s, 1, 0, 0, 0, 1) && gives(&s, 1, 0, 0, 0, 2) && gives(&s, 2, 4080, 1, 0, 1) && gives(&s, 3, 4095, 2, 0, 2), "two jobs on two cells of one group");
    tell(gives(&s, 2, 4090, 1, 7, 0), "the first may not read what the second wrote, by groups");
    tell(gives(&s, 2, 4079, 1, 0, 1) && gives(&s, 2, 0, 1, 0, 1), "cells of other groups it may");
    tell(gives(&s, 2, REEDTANGLE_COARSE_CELLS, 1, 2, 0) && gives(&s, 6, 65535, 1, 2, 0) && gives(&s, 7, 4096, 9, 2, 0) && gives(&s, 2, 4095, 9, 3, 0), "4,095 is the last cell, and 2 comes before 3");
    tell(gives(&s, 6, 4081, 2, 0, 2) && gives(&s, 3, 4082, 1, 7, 0) && gives(&s, 5, 65535, 1, 0, 1), "a publish and an abandon");
}

static uint64_t seed = 1;

static uint32_t drawn(uint32_t n)
{
    seed = seed * 6364136223846793005u + 1442695040888963407u;
    return (uint32_t)(seed >> 33) % n;
}

/* A request, mostly of the job in one of the lowest slots; its cell anywhere below 65,536, or within a few groups. */
static void draw(uint8_t *request, const reedtangle_state *s)
{
    static const uint8_t kinds[16] = {1, 1, 2, 2, 2, 2, 3, 3, 3, 4, 5, 6, 7, 7, 7, 8};
    uint8_t kind = kinds[drawn(16)];
    uint16_t cell = (uint16_t)(drawn(9) == 0 ? drawn(65536) : drawn(6) * 800 + drawn(16));
    uint32_t job = kind == 1 ? drawn(drawn(20) == 0 ? 9 : 3) : drawn(9) == 0 ? (uint32_t)s->next - drawn(9) : s->numbers[drawn(6)];
    reedtangle_put_request(request, kind, cell, job);
    request[1] = drawn(60) == 0;
}

int main(void)
{
    static reedtangle_state coarse, exact;
    size_t codes[10] = {0}, wrong = 0;
    worked();
    reedtangle_start(&coarse, 1);
    reedtangle_start(&exact, 1);
    for (size_t i = 0; i < 200000; i++) {
        uint8_t request[8], grouped[8];
        draw(request, &coarse);
        memcpy(grouped, request, 8);
        unsigned group = (request[2] | (unsigned)request[3] << 8) / REEDTANGLE_GROUP_CELLS;
        grouped[2] = (uint8_t)(group & 255);
        grouped[3] = (uint8_t)(group >> 8);
        reedtangle_reply want = reedtangle_ask(&exact, grouped);
        wrong += ask(&coarse, request) != ((uint64_t)want.code << 32) + want.job || !same(&coarse, &exact);
        codes[want.code] += 1;
    }
    printf("200000 requests by code: %zu %zu %zu %zu %zu %zu %zu %zu %zu %zu\n", codes[0], codes[1], codes[2], codes[3], codes[4], codes[5], codes[6], codes[7], codes[8], codes[9]);
    tell(wrong == 0, "each answer and each state is that of the exact step on the group");
    tell(codes[0] > 500 && codes[2] > 500 && codes[3] > 500 && codes[7] > 500, "grants and codes 2, 3 and 7 came often enough to tell");
    printf("%d passed, %d failed\n", passed, failed);
    return failed != 0;
}
