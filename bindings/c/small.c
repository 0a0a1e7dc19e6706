/*
 * The arbiter in a thread with 16 KiB of stack, as the small build host runs it. The thread's stack is memory of this program, with a page below
 * it that nothing may touch. It is painted first, so that the deepest byte that was used can be told afterwards. In the thread a state is asked
 * step by step, with few and with all 32 slots taken, and the same requests are replayed; outside it, on the usual stack, a second state is asked
 * the same. Answers and states must be equal. Last line: `N passed, 0 failed`; exit status 1 on a failure.
 */
#define _GNU_SOURCE
#include "reedtangle.h"
#include "tell.h"

#include <inttypes.h>
#include <pthread.h>
#include <stdio.h>
#include <string.h>
#include <sys/mman.h>
#include <unistd.h>

enum { STACK = 16384, REQUESTS = 20000 };

/* ---- requests: seeded, so that every run has the same */

static uint8_t requests[8 * REQUESTS];

static uint32_t drawn(uint64_t *seed, uint32_t below)
{
    *seed = *seed * 6364136223846793005u + 1442695040888963407u;
    return (uint32_t)(*seed >> 33) % below;
}

/* Opens while fewer than `most` are open; then reads, writes, adds, ends and publishes of open jobs. A state of its own, asked on the usual stack, tells which are. */
static void draw(uint64_t seed, uint32_t most)
{
    static reedtangle_state state;
    uint32_t jobs[REEDTANGLE_SLOTS], held = 0;
    reedtangle_start(&state, 1);
    for (size_t i = 0; i < REQUESTS; i++) {
        uint32_t what = drawn(&seed, 100), kind, job = 0, at = 0, cell = drawn(&seed, 64);
        if (held < most && (held == 0 || what < 40)) {
            kind = REEDTANGLE_OPEN;
            job = (state.free & 65535) == 0; /* slots 0 to 15 are of port 0, the others of port 1 */
        } else {
            at = drawn(&seed, held);
            job = jobs[at];
            kind = what < 74 ? REEDTANGLE_READ : what < 84 ? REEDTANGLE_ADD : what < 94 ? REEDTANGLE_WRITE : what < 97 ? REEDTANGLE_END : REEDTANGLE_PUBLISH;
        }
        uint8_t *r = requests + 8 * i;
        r[0] = (uint8_t)kind;
        r[1] = 0;
        r[2] = (uint8_t)cell;
        r[3] = 0;
        r[4] = (uint8_t)job;
        r[5] = (uint8_t)(job >> 8);
        r[6] = (uint8_t)(job >> 16);
        r[7] = (uint8_t)(job >> 24);
        reedtangle_reply reply = reedtangle_ask(&state, r);
        if (reply.code == REEDTANGLE_GRANTED && kind == REEDTANGLE_OPEN) {
            jobs[held++] = reply.job;
        } else if (reply.code == REEDTANGLE_GRANTED && (kind == REEDTANGLE_END || kind == REEDTANGLE_PUBLISH)) {
            jobs[at] = jobs[--held];
        }
    }
}

/* ---- what is run, once in the small thread and once outside it */

typedef struct {
    uint64_t next;
    uint32_t free, numbers[32], leads[32];
    uint64_t sets[512], answers[REQUESTS];
    uint32_t ports[3];
} run;

static run within, outside;
static uint8_t replayed[8 * REQUESTS];
static uint64_t written;
static uint32_t replay_code;

static void ask(run *r)
{
    reedtangle_fresh(1, &r->next, &r->free, r->numbers, r->leads, r->sets, r->ports);
    for (size_t i = 0; i < REQUESTS; i++) {
        r->answers[i] = reedtangle_step(&r->next, &r->free, r->numbers, r->leads, r->sets, r->ports, requests + 8 * i);
    }
}

static void *small(void *unused)
{
    ask(&within);
    replay_code = reedtangle_replay(1, requests, sizeof requests, replayed, sizeof replayed, &written);
    return unused;
}

static int same_state(void)
{
    return within.next == outside.next && within.free == outside.free && memcmp(within.numbers, outside.numbers, sizeof within.numbers) == 0
        && memcmp(within.leads, outside.leads, sizeof within.leads) == 0 && memcmp(within.sets, outside.sets, sizeof within.sets) == 0
        && memcmp(within.ports, outside.ports, sizeof within.ports) == 0;
}

static void trial(uint32_t most)
{
    long page = sysconf(_SC_PAGESIZE);
    uint8_t *memory = mmap(NULL, (size_t)page + STACK, PROT_READ | PROT_WRITE, MAP_PRIVATE | MAP_ANONYMOUS, -1, 0);
    pthread_attr_t how;
    pthread_t thread;
    if (memory == MAP_FAILED || mprotect(memory, (size_t)page, PROT_NONE) != 0) {
        tell(0, "memory for the stack");
        return;
    }
    uint8_t *stack = memory + page;
    memset(stack, 0x5a, STACK);
    memset(&within, 0, sizeof within);
    memset(replayed, 0, sizeof replayed);
    draw(most, most);
    pthread_attr_init(&how);
    int made = pthread_attr_setstack(&how, stack, STACK) == 0 && pthread_create(&thread, &how, small, NULL) == 0;
    tell(made, "a thread with 16,384 bytes of stack");
    if (!made) {
        return;
    }
    pthread_join(thread, NULL);
    ask(&outside);

    size_t untouched = 0, circles = 0, grants = 0, published = 0, open = 0, most_open = 0;
    while (untouched < STACK && stack[untouched] == 0x5a) {
        untouched += 1;
    }
    int answers = memcmp(within.answers, outside.answers, sizeof within.answers) == 0;
    int replays = replay_code == 0 && written == sizeof replayed;
    for (size_t i = 0; i < REQUESTS; i++) {
        uint64_t code = within.answers[i] >> 32;
        uint64_t told = 0, again = 0;
        for (int b = 7; b >= 4; b--) {
            told = told << 8 | replayed[8 * i + (size_t)b - 4];
            again = again << 8 | replayed[8 * i + (size_t)b];
        }
        replays = replays && (told << 32 | again) == within.answers[i];
        circles += code == REEDTANGLE_CIRCLE;
        grants += code == REEDTANGLE_GRANTED;
        if (code == REEDTANGLE_GRANTED && requests[8 * i] == REEDTANGLE_OPEN) {
            open += 1;
        }
        if (code == REEDTANGLE_GRANTED && (requests[8 * i] == REEDTANGLE_END || requests[8 * i] == REEDTANGLE_PUBLISH)) {
            open -= 1;
            published += requests[8 * i] == REEDTANGLE_PUBLISH;
        }
        most_open = open > most_open ? open : most_open;
    }
    printf("      %d requests, %zu granted, %zu of them publishes, %zu with code 7, %zu open at most, %zu bytes of the stack used, the thread's own among them\n", REQUESTS, grants, published, circles, most_open, STACK - untouched);
    tell(answers, "each answer is the one given on the usual stack");
    tell(same_state(), "and so is the state in the end");
    tell(replays, "and replay gives the same answers");
    tell(circles > 100 && grants > 1000 && published > 100 && most_open == most, "circles, grants, publishes and slots enough to tell");
    tell(untouched >= 4096, "a quarter of the stack was never used");
    munmap(memory, (size_t)page + STACK);
}

int main(void)
{
    trial(8);
    trial(REEDTANGLE_SLOTS);
    printf("%d passed, %d failed\n", passed, failed);
    return failed != 0;
}
