/*
 * The second profile from C: a worked history, row by row, and many asks in several shapes. Of these each 7 and each grant of a publish is judged by the lister: the records of the jobs
 * that have ended and of this one, with the publish's own at the end, are to have no order for a 7, and one for a grant. What else is asked is held to what the
 * host knows of its jobs; a refusal is to leave the state as it was. Last line: `N passed, 0 failed`; exit status 1 on a failure.
 */
#include "reedtangle.h"
#include "tell.h"

#include <string.h>

/* ---- worked: two jobs read a cell, and both want to write it */

static int same(const reedtangle_late *a, const reedtangle_late *b)
{
    const reedtangle_state *x = &a->state, *y = &b->state;
    return x->next == y->next && x->free == y->free && memcmp(x->numbers, y->numbers, sizeof x->numbers) == 0
        && memcmp(x->leads, y->leads, sizeof x->leads) == 0 && memcmp(x->sets, y->sets, sizeof x->sets) == 0 && memcmp(x->ports, y->ports, sizeof x->ports) == 0;
}

static int gives(reedtangle_late *late, uint8_t kind, uint16_t cell, uint32_t job, uint32_t code, uint32_t number)
{
    uint8_t request[8];
    reedtangle_late before = *late;
    reedtangle_put_request(request, kind, cell, job);
    reedtangle_reply reply = reedtangle_late_ask(late, request);
    return reply.code == code && reply.job == number && (code == 0 || same(&before, late));
}

static int publishes(reedtangle_late *late, uint32_t job, int cell, int other, uint32_t code, uint32_t number)
{
    uint64_t cells[REEDTANGLE_CELL_WORDS] = {0};
    reedtangle_late before = *late;
    if (cell >= 0) {
        reedtangle_mark_cell(cells, (uint8_t)cell);
        reedtangle_mark_cell(cells, (uint8_t)other);
    }
    reedtangle_reply reply = reedtangle_late_publish(late, job, cells);
    return reply.code == code && reply.job == number && (code == 0 || same(&before, late));
}

static void worked(void)
{
    static reedtangle_late late;
    static const uint8_t want[32] = {3, 0, 4, 0, 7, 0, 0, 0, 3, 0, 9, 0, 7, 0, 0, 0, 3, 0, 200, 0, 7, 0, 0, 0, 4, 0, 0, 0, 7, 0, 0, 0};
    uint8_t bytes[REEDTANGLE_PUBLISHED_BYTES];
    uint64_t cells[REEDTANGLE_CELL_WORDS] = {0};
    reedtangle_late_start(&late, 1);
    tell(gives(&late, 1, 0, 0, 0, 1) && gives(&late, 1, 0, 0, 0, 2) && gives(&late, 2, 5, 1, 0, 1) && gives(&late, 2, 5, 2, 0, 2), "two jobs read a cell");
    tell(publishes(&late, 2, 5, 5, 0, 2), "one publishes it");
    tell(publishes(&late, 1, 5, 5, 7, 0), "the other may not");
    tell(gives(&late, 3, 6, 1, 1, 0) && gives(&late, 4, 0, 1, 1, 0) && gives(&late, 6, 6, 1, 1, 0), "kinds 3, 4 and 6 get 1");
    tell(gives(&late, 2, 256, 9, 2, 0) && gives(&late, 2, 5, 2, 3, 0) && gives(&late, 5, 0, 2, 3, 0) && publishes(&late, 2, -1, 0, 3, 0), "2 before 3, and 3 of a job that has ended");
    tell(publishes(&late, 1, 6, 255, 0, 1), "with other cells it may");
    tell(gives(&late, 1, 0, 0, 0, 3) && publishes(&late, 3, -1, 0, 0, 3), "a publish of no cell");
    int room = 1;
    for (uint32_t i = 4; i < 20; i++) {
        room &= gives(&late, 1, 0, 2, 0, i);
    }
    tell(room && gives(&late, 1, 0, 2, 9, 0) && gives(&late, 1, 0, 3, 8, 0) && gives(&late, 1, 0, 1, 0, 20), "of port 2 the 17th gets 9, of port 3 any gets 8, and port 1 has room");
    tell(publishes(&late, 4, -1, 0, 0, 4) && gives(&late, 1, 0, 2, 0, 21) && gives(&late, 1, 0, 2, 9, 0) && gives(&late, 5, 0, 5, 0, 5) && gives(&late, 1, 0, 2, 0, 22) && gives(&late, 1, 0, 2, 9, 0), "a publish makes room for one, and an abandon");
    reedtangle_mark_cell(cells, 9);
    reedtangle_mark_cell(cells, 200);
    reedtangle_mark_cell(cells, 4);
    tell(reedtangle_put_published(bytes, 7, cells) == 32 && memcmp(bytes, want, 32) == 0, "the records of a publish of 9, 200 and 4");
    memset(cells, 255, sizeof cells);
    tell(reedtangle_put_published(bytes, 7, cells) == sizeof bytes, "and of one of all cells");
}

/* ---- many asks */

static uint64_t seed = 19;

static uint32_t drawn(uint32_t below)
{
    seed = seed * 6364136223846793005u + 1442695040888963407u;
    return (uint32_t)(seed >> 33) % below;
}

enum { OPENED = 1, ENDED = 2, ABANDONED = 3, JOBS = 400, ROOM = REEDTANGLE_LOG_BYTES };

/* What the host keeps of one history: how each job stands, and the records of all that was granted. */
typedef struct {
    reedtangle_late late;
    uint32_t first, opened, open;
    uint8_t stand[JOBS], port[JOBS];
    uint8_t log[ROOM];
    size_t length;
} host;

static host h;

static void restart(void)
{
    h.first = drawn(2) ? drawn(5) : 4294967295u - 60 + drawn(9);
    h.opened = h.open = 0;
    h.length = 0;
    reedtangle_late_start(&h.late, h.first);
}

static uint32_t stand(uint32_t job)
{
    return job - h.first < h.opened ? h.stand[job - h.first] : 0;
}

/* The records of the jobs that have ended, of the abandoned ones if wanted, and of one job more; then some more bytes. Has it an order of so many jobs? */
static int has_order(uint32_t job, int abandoned, const uint8_t *more, size_t count)
{
    static uint8_t log[ROOM];
    static uint32_t order[REEDTANGLE_LOG_JOBS];
    size_t length = 0, jobs = 0;
    for (size_t i = 0; i < h.length; i += 8) {
        const uint8_t *r = h.log + i;
        uint32_t by = r[4] | (uint32_t)r[5] << 8 | (uint32_t)r[6] << 16 | (uint32_t)r[7] << 24;
        if (stand(by) == ENDED || by == job || (abandoned && stand(by) == ABANDONED)) {
            memcpy(log + length, r, 8);
            length += 8;
            jobs += r[0] == REEDTANGLE_OPEN && stand(by) != ABANDONED;
        }
    }
    memcpy(log + length, more, count);
    length += count;
    reedtangle_verdict listed = reedtangle_list(log, length, order, REEDTANGLE_LOG_JOBS);
    if (listed.code != 0) {
        return listed.code == REEDTANGLE_NO_ORDER ? 0 : -1;
    }
    reedtangle_verdict checked = reedtangle_check(log, length, order, jobs);
    return listed.place == jobs && checked.code == 0 && checked.place == jobs ? 1 : -1;
}

/* How many jobs of a port are open? */
static uint32_t crowd(uint32_t port)
{
    uint32_t count = 0;
    for (uint32_t i = 0; i < h.opened; i++) {
        count += h.stand[i] == OPENED && h.port[i] == port;
    }
    return count;
}

/* The code that a request should get, by what the host knows. */
static uint32_t right_code(const uint8_t *r, uint32_t cell, uint32_t job)
{
    if (r[1] != 0 || (r[0] != REEDTANGLE_OPEN && r[0] != REEDTANGLE_READ && r[0] != REEDTANGLE_ABANDON)) {
        return REEDTANGLE_MALFORMED;
    }
    if (r[0] == REEDTANGLE_OPEN) {
        return (uint64_t)h.first + h.opened > 4294967295u ? REEDTANGLE_SPENT
            : job >= REEDTANGLE_PORTS                     ? REEDTANGLE_NO_PORT
            : h.open == REEDTANGLE_SLOTS                  ? REEDTANGLE_FULL
            : crowd(job) == REEDTANGLE_PORT_SLOTS         ? REEDTANGLE_PORT_FULL
                                                          : REEDTANGLE_GRANTED;
    }
    return r[0] == REEDTANGLE_READ && cell > 255 ? REEDTANGLE_NO_CELL : stand(job) != OPENED ? REEDTANGLE_NOT_OPEN : REEDTANGLE_GRANTED;
}

static int request(uint32_t kind, uint32_t cell, uint32_t job, uint32_t byte1, size_t *codes)
{
    uint8_t r[8];
    reedtangle_late before = h.late;
    reedtangle_put_request(r, (uint8_t)kind, (uint16_t)cell, job);
    r[1] = (uint8_t)byte1;
    uint32_t code = right_code(r, cell, job);
    uint32_t number = code != 0 ? 0 : kind == REEDTANGLE_OPEN ? h.first + h.opened : job;
    reedtangle_reply reply = reedtangle_late_ask(&h.late, r);
    codes[reply.code % 10] += 1;
    if (reply.code != code || reply.job != number || (code != 0 && !same(&before, &h.late))) {
        return 0;
    }
    if (code == 0) {
        reedtangle_put_record(h.log + h.length, r, number);
        h.length += 8;
        h.open += kind == REEDTANGLE_OPEN;
        h.open -= kind == REEDTANGLE_ABANDON;
        h.opened += kind == REEDTANGLE_OPEN;
        if (kind != REEDTANGLE_READ) {
            h.stand[number - h.first] = kind == REEDTANGLE_OPEN ? OPENED : ABANDONED;
        }
        if (kind == REEDTANGLE_OPEN) {
            h.port[number - h.first] = (uint8_t)job;
        }
    }
    return 1;
}

static int publish(uint32_t job, const uint64_t *cells, size_t *codes)
{
    uint8_t bytes[REEDTANGLE_PUBLISHED_BYTES];
    reedtangle_late before = h.late;
    size_t count = reedtangle_put_published(bytes, job, cells);
    int order = stand(job) == OPENED ? has_order(job, 0, bytes, count) : 1;
    uint32_t code = stand(job) != OPENED ? REEDTANGLE_NOT_OPEN : order == 1 ? REEDTANGLE_GRANTED : REEDTANGLE_CIRCLE;
    reedtangle_reply reply = reedtangle_late_publish(&h.late, job, cells);
    codes[reply.code % 10] += 1;
    if (order < 0 || reply.code != code || reply.job != (code == 0 ? job : 0) || (code != 0 && !same(&before, &h.late))) {
        return 0;
    }
    if (code == 0) {
        memcpy(h.log + h.length, bytes, count);
        h.length += count;
        h.stand[job - h.first] = ENDED;
        h.open -= 1;
    }
    return 1;
}

int main(void)
{
    size_t codes[10] = {0}, published[10] = {0}, wrong = 0, logs = 0, none = 0, asks = 60000;
    worked();
    restart();
    for (size_t n = 0; n < asks; n++) {
        if (h.opened > JOBS - 9 || h.length + REEDTANGLE_PUBLISHED_BYTES + 8 > ROOM || drawn(400) == 0) {
            none += has_order(h.first + h.opened, 1, h.log, 0) != 1; /* the job more is one that is not there */
            logs += 1;
            restart();
        }
        /* mostly one of the last jobs, on few cells or on all */
        uint32_t what = drawn(100), back = drawn(100) == 0 ? drawn(100) : drawn(h.open < 6 ? 8 : 40), job = h.first + h.opened - 1 - back;
        uint32_t cell = drawn(60) == 0 ? 250 + drawn(20) : drawn(12) * 23 % 256;
        if (what < 22) {
            uint32_t port = drawn(15) == 0 ? drawn(400) : drawn(4) % 3; /* port 0 more than the others, and now and then none */
            wrong += !request(REEDTANGLE_OPEN, drawn(9), port, 0, codes);
        } else if (what < 70) {
            wrong += !request(REEDTANGLE_READ, cell, job, 0, codes);
        } else if (what < 74) {
            wrong += !request(REEDTANGLE_ABANDON, cell, job, 0, codes);
        } else if (what < 77) {
            wrong += !request(drawn(9), cell, job, drawn(3), codes);
        } else {
            uint64_t cells[REEDTANGLE_CELL_WORDS] = {0};
            for (uint32_t left = drawn(40) == 0 ? 300 : drawn(4); left > 0; left--) {
                reedtangle_mark_cell(cells, (uint8_t)(left > 9 ? drawn(256) : drawn(12) * 23 % 256));
            }
            wrong += !publish(job, cells, published);
        }
    }
    printf("%zu asks; requests by code: %zu %zu %zu %zu %zu %zu %zu %zu %zu %zu; publishes with 0, 3 and 7: %zu %zu %zu; %zu logs\n", asks, codes[0], codes[1], codes[2], codes[3], codes[4], codes[5], codes[6], codes[7], codes[8], codes[9],
        published[0], published[3], published[7], logs);
    tell(wrong == 0, "each answer is the one that the lister and the host's own count give, and a refusal leaves the state");
    tell(none == 0 && logs > 50, "each log without the jobs still open has an order that the checker accepts");
    tell(codes[0] > 500 && codes[1] > 500 && codes[2] > 50 && codes[3] > 500 && codes[4] == 0 && codes[5] > 20 && codes[6] > 20 && codes[7] == 0 && codes[8] > 50 && codes[9] > 20, "every code of a request came often enough to tell, 4 and 7 never");
    tell(published[0] > 500 && published[3] > 500 && published[7] > 500, "and of a publish");
    printf("%d passed, %d failed\n", passed, failed);
    return failed != 0;
}
