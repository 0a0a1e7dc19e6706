/*
 * A host in C: it keeps states in its own memory, asks, collects the log of what was granted, and has an order listed and checked.
 * What comes back is compared with replies worked out by hand, with reedtangle_replay over the same requests, and with a slow judge of
 * orders written here. Each line of output is one thing that was compared. Last line: `N passed, 0 failed`; exit status 1 on a failure.
 */
#include "reedtangle.h"
#include "tell.h"

#include <inttypes.h>
#include <stdio.h>
#include <string.h>

/* ---- what was compared */

/* A code with a job or a place: the one expected. */
static int both_are(uint32_t code, uint32_t number, uint32_t want_code, uint32_t want_number)
{
    if (code == want_code && number == want_number) {
        return 1;
    }
    printf("      came %" PRIu32 " %" PRIu32 ", expected %" PRIu32 " %" PRIu32 "\n", code, number, want_code, want_number);
    return 0;
}

static int reply_is(reedtangle_reply r, uint32_t code, uint32_t job)
{
    return both_are(r.code, r.job, code, job);
}

static int verdict_is(reedtangle_verdict v, uint32_t code, uint32_t place)
{
    return both_are(v.code, v.place, code, place);
}

/* All that two states hold; the padding is left out. */
static int same(const reedtangle_state *a, const reedtangle_state *b)
{
    return a->next == b->next && a->free == b->free && memcmp(a->numbers, b->numbers, sizeof a->numbers) == 0
        && memcmp(a->leads, b->leads, sizeof a->leads) == 0 && memcmp(a->sets, b->sets, sizeof a->sets) == 0 && memcmp(a->ports, b->ports, sizeof a->ports) == 0;
}

static uint32_t number_at(const uint8_t *bytes)
{
    return (uint32_t)bytes[0] | (uint32_t)bytes[1] << 8 | (uint32_t)bytes[2] << 16 | (uint32_t)bytes[3] << 24;
}

/* ---- a log, as a host collects it */

typedef struct {
    uint8_t bytes[REEDTANGLE_LOG_BYTES];
    size_t length;
} host_log;

/* Adds the records of a request granted with this job: one, or two for a publish. 0 where the log may be too full. */
static int log_add(host_log *log, const uint8_t *request, uint32_t job)
{
    if (log->length + 16 > sizeof log->bytes) {
        return 0;
    }
    log->length += reedtangle_put_records(log->bytes + log->length, request, job);
    return 1;
}

/* One request on the state; a grant goes to the log. A refusal must leave the state as it was: if not, `*touched` is set. */
static reedtangle_reply ask(reedtangle_state *state, host_log *log, const uint8_t *request, int *touched)
{
    reedtangle_state before = *state;
    reedtangle_reply r = reedtangle_ask(state, request);
    if (r.code != REEDTANGLE_GRANTED) {
        if (!same(state, &before)) {
            *touched = 1;
        }
    } else if (!log_add(log, request, r.job)) {
        *touched = 1;
    }
    return r;
}

/* ---- requests with the replies worked out by hand */

typedef struct {
    uint8_t kind, byte1;
    uint16_t cell;
    uint32_t job;
    uint32_t want_code, want_job;
} row;

static void put_row(uint8_t *bytes, const row *r)
{
    reedtangle_put_request(bytes, r->kind, r->cell, r->job);
    bytes[1] = r->byte1;
}

/*
 * The night of examples/night.sh. Job 2 read cell 5 before job 1 wrote it, so its own write of cell 5 would close a circle. So would its write of
 * cell 6: job 3, which has read it, was opened after the end of job 1.
 */
static const row night[] = {
    {1, 0, 0, 0, 0, 1}, {1, 0, 0, 0, 0, 2}, {2, 0, 5, 2, 0, 2}, {3, 0, 5, 1, 0, 1}, {4, 0, 0, 1, 0, 1}, {1, 0, 0, 0, 0, 3},
    {2, 0, 6, 3, 0, 3}, {4, 0, 0, 3, 0, 3}, {3, 0, 6, 2, 7, 0}, {3, 0, 5, 2, 7, 0}, {4, 0, 0, 2, 0, 2},
};

/* Another one, from job 70,000: the refusals 1 to 4 and 7, and cells that are ignored. */
static const row other[] = {
    {1, 0, 0, 0, 0, 70000},      {1, 0, 0, 0, 0, 70001},      {3, 0, 7, 70000, 0, 70000}, {2, 0, 7, 70001, 0, 70001},
    {3, 0, 9, 70001, 0, 70001},  {4, 0, 0, 70001, 0, 70001},  {2, 0, 9, 70000, 7, 0},     {5, 0, 0, 70000, 4, 0},
    {4, 0, 65535, 70000, 0, 70000}, {2, 0, 300, 70002, 2, 0}, {1, 0, 9, 0, 0, 70002},     {2, 0, 0, 70000, 3, 0},
    {2, 1, 0, 70002, 1, 0},      {8, 0, 0, 70002, 1, 0},      {2, 0, 255, 70002, 0, 70002}, {5, 0, 0, 70002, 0, 70002},
};

enum { NIGHT = sizeof night / sizeof night[0], OTHER = sizeof other / sizeof other[0] };

/* ---- by hand */

static reedtangle_state one, two;
static host_log log_one, log_two;

/* The two nights, turn by turn, each on its own state. */
static void two_nights(void)
{
    int replies_one = 1, replies_two = 1, touched = 0;
    size_t i;
    memset(&one, 9, sizeof one);
    memset(&two, 255, sizeof two);
    reedtangle_start(&one, 1);
    reedtangle_start(&two, 70000);
    log_one.length = log_two.length = 0;
    for (i = 0; i < NIGHT || i < OTHER; i++) {
        uint8_t bytes[8];
        if (i < NIGHT) {
            put_row(bytes, &night[i]);
            replies_one &= reply_is(ask(&one, &log_one, bytes, &touched), night[i].want_code, night[i].want_job);
        }
        if (i < OTHER) {
            put_row(bytes, &other[i]);
            replies_two &= reply_is(ask(&two, &log_two, bytes, &touched), other[i].want_code, other[i].want_job);
        }
    }
    tell(replies_one, "the night: 11 replies as worked out by hand");
    tell(replies_two, "the other night, turn by turn with it on a state of its own: 16 replies as worked out by hand");
    tell(!touched, "no refusal of the two nights changed its state");
    tell(log_one.length == 72 && log_two.length == 80, "the logs have 9 records and 10");

    /* every job has ended or was abandoned: nothing is held but the next number, and that slots 0 and 1 were of port 0 */
    reedtangle_state fresh;
    reedtangle_start(&fresh, 4);
    fresh.ports[0] = 3;
    tell(same(&one, &fresh), "with no job open the state is a fresh one with the next number, and slots that keep their port");
}

/* An order of the first night, and orders that would not do. */
static void orders_by_hand(void)
{
    static const uint32_t listed[3] = {2, 1, 3}, forward[3] = {1, 2, 3}, reverse[3] = {3, 2, 1}, twice[4] = {2, 1, 3, 2}, lacking[2] = {2, 1}, strange[2] = {2, 9};
    uint32_t list[5] = {90, 91, 92, 93, 94};
    const uint8_t *log = log_one.bytes;
    size_t length = log_one.length;
    int good;

    good = verdict_is(reedtangle_list(log, length, list, 5), REEDTANGLE_GRANTED, 3);
    tell(good && memcmp(list, listed, sizeof listed) == 0 && list[3] == 93 && list[4] == 94, "the lister names 2, 1, 3 and leaves the entries past them");
    tell(verdict_is(reedtangle_check(log, length, list, 3), REEDTANGLE_GRANTED, 3), "the checker accepts that order");
    tell(verdict_is(reedtangle_check(log, length, forward, 3), REEDTANGLE_BACKWARD, 3), "1, 2, 3 gets 16 at record 3");
    tell(verdict_is(reedtangle_check(log, length, reverse, 3), REEDTANGLE_BACKWARD, 5), "3, 2, 1 gets 16 at record 5, the open of job 3");
    tell(verdict_is(reedtangle_check(log, length, twice, 4), REEDTANGLE_ENTRY, 3), "2, 1, 3, 2 gets 15 at entry 3");
    tell(verdict_is(reedtangle_check(log, length, lacking, 2), REEDTANGLE_ENTRY, 2), "2, 1 gets 15 at the length");
    tell(verdict_is(reedtangle_check(log, length, strange, 2), REEDTANGLE_ENTRY, 1), "2, 9 gets 15 at entry 1");

    /* the abandoned job of the other night is no kept job; 70,000 wrote cell 7 before 70,001 read it */
    good = verdict_is(reedtangle_list(log_two.bytes, log_two.length, list, 2), REEDTANGLE_GRANTED, 2);
    tell(good && list[0] == 70000 && list[1] == 70001, "of the other night the lister names 70000, 70001");

    tell(verdict_is(reedtangle_check(log, 0, listed, 0), REEDTANGLE_GRANTED, 0), "the empty list is the order of the empty log");
}

/* Sheets of the first night, and of a log of three records. */
static void sheets_by_hand(void)
{
    static const uint32_t whole[3] = {2, 1, 3};
    uint32_t list[4] = {90, 91, 92, 93};
    uint8_t log[24];
    int good;

    good = verdict_is(reedtangle_sheet(log_one.bytes, log_one.length, list, 4), REEDTANGLE_GRANTED, 3);
    tell(good && memcmp(list, whole, sizeof whole) == 0 && list[3] == 93, "with no job open the sheet is the whole order, 2, 1, 3");

    /* before its last record job 2 is open: it read cell 5 before job 1 wrote it, and job 1 had ended when job 3 was opened */
    good = verdict_is(reedtangle_sheet(log_one.bytes, 64, list, 0), REEDTANGLE_GRANTED, 0);
    tell(good && memcmp(list, whole, sizeof whole) == 0, "with job 2 open nothing is at rest");

    reedtangle_put_request(log, REEDTANGLE_OPEN, 0, 1);
    reedtangle_put_request(log + 8, REEDTANGLE_OPEN, 0, 2);
    reedtangle_put_request(log + 16, REEDTANGLE_END, 0, 2);
    tell(verdict_is(reedtangle_sheet(log, 24, list, 0), REEDTANGLE_SHORT, 1), "no room for a job at rest gets 18, 1");
    list[0] = 90;
    good = verdict_is(reedtangle_sheet(log, 24, list, 1), REEDTANGLE_GRANTED, 1);
    tell(good && list[0] == 2 && list[1] == 1, "job 2 is at rest, with job 1 open");
    tell(verdict_is(reedtangle_sheet(log, 23, list, 1), REEDTANGLE_LENGTH, 0), "23 bytes get 11");
}

/* Logs and lists that are refused, each code, and the lent list as it was. */
static void logs_by_hand(void)
{
    static host_log log;
    static uint8_t large[REEDTANGLE_LOG_BYTES + 8];
    uint32_t list[3] = {90, 91, 92};
    uint8_t bytes[8];
    int good;
    uint32_t i;

    tell(verdict_is(reedtangle_list(log_one.bytes, log_one.length, list, 2), REEDTANGLE_SHORT, 3), "room for 2 of 3 jobs gets 18, 3");
    tell(verdict_is(reedtangle_list(log_one.bytes, 71, list, 3), REEDTANGLE_LENGTH, 0), "71 bytes get 11");
    tell(verdict_is(reedtangle_check(large, sizeof large, list, 3), REEDTANGLE_LENGTH, 0), "32,776 bytes get 11");

    memcpy(log.bytes, log_one.bytes, log_one.length);
    log.bytes[2 * 8 + 3] = 1;
    good = verdict_is(reedtangle_list(log.bytes, 72, list, 3), REEDTANGLE_FORM, 2);
    tell(good && verdict_is(reedtangle_check(log.bytes, 72, list, 3), REEDTANGLE_FORM, 2), "cell 261 in record 2 gets 12, 2 of both");

    memcpy(log.bytes, log_one.bytes, log_one.length);
    log.bytes[5 * 8 + 4] = 2;
    good = verdict_is(reedtangle_list(log.bytes, 72, list, 3), REEDTANGLE_TURN, 5);
    tell(good && verdict_is(reedtangle_check(log.bytes, 72, list, 3), REEDTANGLE_TURN, 5), "a second open of job 2 in record 5 gets 13, 5 of both");

    for (i = 0; i < 513; i++) {
        reedtangle_put_request(large + 8 * i, REEDTANGLE_OPEN, 0, i);
    }
    good = verdict_is(reedtangle_list(large, 8 * 513, list, 3), REEDTANGLE_TOO_MANY, 512);
    tell(good && verdict_is(reedtangle_check(large, 8 * 513, list, 3), REEDTANGLE_TOO_MANY, 512), "the 513th open gets 14, 512 of both");

    /* each write that the arbiter refused, put into the log all the same, before job 2 ends */
    for (i = 5; i <= 6; i++) {
        memcpy(log.bytes, log_one.bytes, 8 * 8);
        log.length = 8 * 8;
        reedtangle_put_request(bytes, REEDTANGLE_WRITE, (uint16_t)i, 2);
        log_add(&log, bytes, 2);
        tell(verdict_is(reedtangle_list(log.bytes, log.length, list, 3), REEDTANGLE_NO_ORDER, 0), i == 5 ? "the log with the refused write of cell 5 gets 17" : "and so does that with the one of cell 6");
    }
    tell(list[0] == 90 && list[1] == 91 && list[2] == 92, "the lent list is as it was after all these refusals");
}

/* Full slots and spent numbers. */
static void ends_of_ranges(void)
{
    uint8_t bytes[8];
    int good = 1;
    uint32_t i;
    reedtangle_state before;

    reedtangle_start(&one, 0);
    for (i = 0; i < REEDTANGLE_SLOTS; i++) {
        reedtangle_put_request(bytes, REEDTANGLE_OPEN, 0, i / REEDTANGLE_PORT_SLOTS);
        good &= reply_is(reedtangle_ask(&one, bytes), REEDTANGLE_GRANTED, i);
    }
    tell(good, "32 opens from number 0, 16 of port 0 and 16 of port 1");
    before = one;
    reedtangle_put_request(bytes, REEDTANGLE_OPEN, 0, 2);
    good = reply_is(reedtangle_ask(&one, bytes), REEDTANGLE_FULL, 0);
    tell(good && same(&one, &before), "the 33rd open gets 5 and changes nothing");

    reedtangle_start(&two, UINT32_MAX);
    good = reply_is(reedtangle_ask(&two, bytes), REEDTANGLE_GRANTED, UINT32_MAX);
    before = two;
    good &= reply_is(reedtangle_ask(&two, bytes), REEDTANGLE_SPENT, 0);
    tell(good && same(&two, &before), "after the last number an open gets 6 and changes nothing");
}

/*
 * Ports. Of port 1 the 17th open gets 9 while the others have room; 8 before 5, 5 before 9, 6 before 8. An end, an abandon and a publish make room for one each, and leave the slots
 * with their ports: slot 1 goes on to port 0 with job 18.
 */
static void ports(void)
{
    static const row rows[] = {
        {1, 0, 0, 1, 9, 0}, {1, 0, 7, 3, 8, 0}, {1, 0, 0, 257, 8, 0}, {1, 1, 0, 3, 1, 0}, {1, 0, 0, 2, 0, 17}, {4, 0, 0, 17, 0, 17}, {1, 0, 0, 1, 9, 0}, {4, 0, 0, 2, 0, 2},
        {1, 0, 0, 0, 0, 18}, {1, 0, 0, 1, 0, 19}, {1, 0, 0, 1, 9, 0}, {5, 0, 0, 3, 0, 3}, {1, 0, 0, 1, 0, 20}, {6, 0, 5, 4, 0, 4}, {1, 0, 0, 1, 0, 21}, {1, 0, 0, 1, 9, 0},
    };
    uint8_t bytes[8];
    int good = 1, touched = 0;
    size_t i;
    static host_log log;

    reedtangle_start(&one, 1);
    log.length = 0;
    reedtangle_put_request(bytes, REEDTANGLE_OPEN, 0, 1);
    for (i = 0; i < REEDTANGLE_PORT_SLOTS; i++) {
        good &= reply_is(ask(&one, &log, bytes, &touched), REEDTANGLE_GRANTED, (uint32_t)i + 1);
    }
    for (i = 0; i < sizeof rows / sizeof rows[0]; i++) {
        put_row(bytes, &rows[i]);
        good &= reply_is(ask(&one, &log, bytes, &touched), rows[i].want_code, rows[i].want_job);
    }
    tell(good && !touched, "ports: 16 opens and 16 replies more as worked out by hand, and no refusal changed the state");
    /* jobs 19, 20 and 21 have the slots 16, 2 and 3, job 18 has slot 1 */
    good = one.ports[0] == 2 && one.ports[1] == 0x1fffd && one.ports[2] == 0 && one.free == 0xfffe0000;
    tell(good, "the slots of each port as worked out by hand");

    for (i = 22; i <= 36; i++) {
        reedtangle_put_request(bytes, REEDTANGLE_OPEN, 0, 2);
        good &= reply_is(ask(&one, &log, bytes, &touched), REEDTANGLE_GRANTED, (uint32_t)i);
    }
    static const row full[] = {{1, 0, 0, 3, 8, 0}, {1, 0, 0, 1, 5, 0}, {1, 0, 0, 2, 5, 0}, {5, 0, 0, 18, 0, 18}, {1, 0, 0, 1, 9, 0}, {1, 0, 0, 2, 0, 37}, {1, 0, 0, 0, 5, 0}};
    for (i = 0; i < sizeof full / sizeof full[0]; i++) {
        put_row(bytes, &full[i]);
        good &= reply_is(ask(&one, &log, bytes, &touched), full[i].want_code, full[i].want_job);
    }
    tell(good && !touched && one.free == 0, "with 32 jobs open: 8 before 5, and 5 before 9");
    good = log.length == 8 * 43 && number_at(log.bytes + 4) == 1 && log.bytes[8 * 42] == REEDTANGLE_OPEN && number_at(log.bytes + 8 * 42 + 4) == 37;
    tell(good, "the log has 43 records, and an open has its number there and not its port");

    reedtangle_start(&two, UINT32_MAX);
    reedtangle_put_request(bytes, REEDTANGLE_OPEN, 0, 3);
    good = reply_is(reedtangle_ask(&two, bytes), REEDTANGLE_NO_PORT, 0);
    reedtangle_put_request(bytes, REEDTANGLE_OPEN, 0, 2);
    good &= reply_is(reedtangle_ask(&two, bytes), REEDTANGLE_GRANTED, UINT32_MAX);
    reedtangle_put_request(bytes, REEDTANGLE_OPEN, 0, 3);
    good &= reply_is(reedtangle_ask(&two, bytes), REEDTANGLE_SPENT, 0);
    tell(good, "6 before 8");
}

/* What the fields of a state hold, number by number. */
static void fields_by_hand(void)
{
    static const row rows[] = {{1, 0, 0, 0, 0, 100}, {1, 0, 0, 2, 0, 101}, {2, 0, 5, 101, 0, 101}, {3, 0, 69, 101, 0, 101}, {3, 0, 5, 100, 0, 100}};
    reedtangle_state want;
    uint8_t bytes[8];
    int good = 1;
    size_t i;

    reedtangle_start(&one, 100);
    for (i = 0; i < sizeof rows / sizeof rows[0]; i++) {
        put_row(bytes, &rows[i]);
        good &= reply_is(reedtangle_ask(&one, bytes), rows[i].want_code, rows[i].want_job);
    }
    memset(&want, 0, sizeof want);
    want.next = 102;
    want.free = 0xfffffffc;
    want.numbers[0] = 100;
    want.numbers[1] = 101;
    want.leads[1] = 1;                      /* job 101, in slot 1, leads to job 100, in slot 0 */
    want.sets[0 * 16 + 0] = 1u << 5;        /* own used of slot 0: cell 5, written */
    want.sets[0 * 16 + 4] = 1u << 5;        /* own altered of slot 0: cell 5 */
    want.sets[1 * 16 + 0] = 1u << 5;        /* own used of slot 1: cell 5, read */
    want.sets[1 * 16 + 1] = 1u << 5;        /* and, in the second word, cell 64 + 5, written */
    want.sets[1 * 16 + 5] = 1u << 5;        /* own altered of slot 1, second word: cell 64 + 5 */
    want.ports[0] = 1;                      /* slot 0 is of port 0 */
    want.ports[2] = 2;                      /* slot 1 is of port 2 */
    tell(good && same(&one, &want), "two open jobs: next, free, numbers, leads, own sets and ports as worked out by hand");

    reedtangle_put_request(bytes, REEDTANGLE_END, 0, 100);
    good = reply_is(reedtangle_ask(&one, bytes), REEDTANGLE_GRANTED, 100);
    want.free = 0xfffffffd;
    want.numbers[0] = 0;
    want.leads[1] = 0;
    want.sets[0 * 16 + 0] = 0;
    want.sets[0 * 16 + 4] = 0;
    want.sets[1 * 16 + 8] = 1u << 5;        /* past used of slot 1: cell 5 */
    want.sets[1 * 16 + 12] = 1u << 5;       /* past altered of slot 1: cell 5 */
    tell(good && same(&one, &want), "one of them ended: its slot is blank, and the past of the other has its write");

    reedtangle_put_request(bytes, REEDTANGLE_OPEN, 0, 1);
    good = reply_is(reedtangle_ask(&one, bytes), REEDTANGLE_GRANTED, 102);
    want.ports[0] = 0;                      /* slot 0 goes from port 0 to port 1 */
    want.ports[1] = 1;
    want.next = 103;
    want.free = 0xfffffffc;
    want.numbers[0] = 102;
    want.leads[1] = 1;                      /* job 101 comes before job 100, which ended before job 102, in slot 0, was opened */
    tell(good && same(&one, &want), "a third opened: the one with a past leads to it");
}

/*
 * Publishes. 1 has read cell 5 when 2 publishes it, so 1 comes before 2 and may not come to that cell any more; a refused publish leaves it open. A
 * second state is asked for a write and, where that is granted, an end in the place of each publish.
 */
static void publishes(void)
{
    static const row rows[] = {
        {1, 0, 0, 0, 0, 1}, {1, 0, 0, 0, 0, 2}, {1, 0, 0, 0, 0, 3}, {2, 0, 5, 1, 0, 1}, {6, 0, 5, 2, 0, 2}, {6, 0, 6, 2, 3, 0}, {6, 0, 256, 2, 2, 0},
        {6, 0, 5, 1, 7, 0}, {6, 1, 8, 1, 1, 0}, {8, 0, 8, 1, 1, 0}, {2, 0, 8, 1, 0, 1}, {6, 0, 9, 1, 0, 1}, {4, 0, 0, 1, 3, 0}, {6, 0, 5, 3, 0, 3},
    };
    static const uint8_t records[10][8] = {
        {1, 0, 0, 0, 1}, {1, 0, 0, 0, 2}, {1, 0, 0, 0, 3}, {2, 0, 5, 0, 1}, {3, 0, 5, 0, 2}, {4, 0, 0, 0, 2}, {2, 0, 8, 0, 1}, {3, 0, 9, 0, 1}, {4, 0, 0, 0, 1}, {3, 0, 5, 0, 3},
    };
    static host_log log;
    uint32_t list[3];
    uint8_t bytes[8], half[8];
    int good = 1, equal = 1, touched = 0;
    size_t i;

    reedtangle_start(&one, 1);
    reedtangle_start(&two, 1);
    log.length = 0;
    for (i = 0; i < sizeof rows / sizeof rows[0]; i++) {
        put_row(bytes, &rows[i]);
        good &= reply_is(ask(&one, &log, bytes, &touched), rows[i].want_code, rows[i].want_job);
        memcpy(half, bytes, 8);
        if (bytes[0] == REEDTANGLE_PUBLISH) {
            half[0] = REEDTANGLE_WRITE;
        }
        reedtangle_reply r = reedtangle_ask(&two, half);
        if (bytes[0] == REEDTANGLE_PUBLISH && r.code == REEDTANGLE_GRANTED) {
            half[0] = REEDTANGLE_END;
            r = reedtangle_ask(&two, half);
        }
        equal &= reply_is(r, rows[i].want_code, rows[i].want_job) && same(&one, &two);
    }
    tell(good && !touched, "publishes: 14 replies as worked out by hand, and no refusal changed the state");
    tell(equal, "each publish answers and leaves what a write and an end do");
    good = log.length == 88 && memcmp(log.bytes, records, sizeof records) == 0 && log.bytes[80] == REEDTANGLE_END;
    tell(good, "in the log each granted publish is a write and an end: 11 records as worked out by hand");
    good = verdict_is(reedtangle_list(log.bytes, log.length, list, 3), REEDTANGLE_GRANTED, 3);
    tell(good && list[0] == 1 && list[1] == 2 && list[2] == 3, "the lister names 1, 2, 3");
    log.bytes[4 * 8] = REEDTANGLE_PUBLISH;
    good = verdict_is(reedtangle_list(log.bytes, log.length, list, 3), REEDTANGLE_FORM, 4);
    tell(good && verdict_is(reedtangle_check(log.bytes, log.length, list, 3), REEDTANGLE_FORM, 4), "a record of kind 6 gets 12 of both");
}

/*
 * Adds. 1 and 2 raise cell 9 by turns; 3 reads it, so both come before 3 and may not come to that cell any more. 3 and 1 add to cell 10: 1 may not read
 * it, but add to it. An add bars abandoning.
 */
static void adds(void)
{
    static const row rows[] = {
        {1, 0, 0, 0, 0, 1},  {1, 0, 0, 0, 0, 2},  {1, 0, 0, 0, 0, 3}, {7, 0, 9, 1, 0, 1}, {7, 0, 9, 2, 0, 2},   {7, 0, 9, 1, 0, 1}, {2, 0, 9, 3, 0, 3}, {7, 0, 9, 1, 7, 0}, {3, 0, 9, 2, 7, 0}, {7, 0, 10, 3, 0, 3},
        {7, 0, 10, 1, 0, 1}, {2, 0, 10, 1, 7, 0}, {5, 0, 0, 1, 4, 0}, {7, 1, 9, 9, 1, 0}, {7, 0, 256, 9, 2, 0}, {7, 0, 9, 9, 3, 0}, {8, 0, 9, 1, 1, 0}, {4, 0, 0, 3, 0, 3}, {7, 0, 9, 1, 7, 0}, {7, 0, 10, 2, 0, 2},
    };
    static const uint8_t records[11][8] = {
        {1, 0, 0, 0, 1}, {1, 0, 0, 0, 2}, {1, 0, 0, 0, 3}, {7, 0, 9, 0, 1}, {7, 0, 9, 0, 2}, {7, 0, 9, 0, 1}, {2, 0, 9, 0, 3}, {7, 0, 10, 0, 3}, {7, 0, 10, 0, 1}, {4, 0, 0, 0, 3}, {7, 0, 10, 0, 2},
    };
    static const uint32_t other_way[3] = {2, 1, 3}, backward[3] = {1, 3, 2};
    static host_log log;
    reedtangle_state want;
    uint32_t list[3];
    uint8_t bytes[8];
    int good = 1, touched = 0;
    size_t i;

    reedtangle_start(&one, 1);
    log.length = 0;
    for (i = 0; i < sizeof rows / sizeof rows[0]; i++) {
        put_row(bytes, &rows[i]);
        good &= reply_is(ask(&one, &log, bytes, &touched), rows[i].want_code, rows[i].want_job);
    }
    tell(good && !touched, "adds: 20 replies as worked out by hand, and no refusal changed the state");
    memset(&want, 0, sizeof want);
    want.next = 4;
    want.free = 0xfffffffc;
    want.ports[0] = 7;                      /* slots 0 to 2 are of port 0, that of job 3 too, which has ended */
    for (i = 0; i < 2; i++) {
        want.numbers[i] = (uint32_t)i + 1;
        want.sets[i * 16 + 4] = 3u << 9;    /* own altered: cells 9 and 10 */
        want.sets[i * 16 + 8] = 1u << 9;    /* past used: cell 9, which 3 read */
        want.sets[i * 16 + 12] = 1u << 10;  /* past altered: cell 10, which 3 added to */
    }
    tell(same(&one, &want), "what they leave: altered cells, none of them used, and no lead between those that add");
    good = log.length == sizeof records && memcmp(log.bytes, records, sizeof records) == 0;
    tell(good, "in the log an add is a record of its own kind: 11 records as worked out by hand");
    good = verdict_is(reedtangle_list(log.bytes, log.length, list, 3), REEDTANGLE_GRANTED, 3);
    tell(good && list[0] == 1 && list[1] == 2 && list[2] == 3, "the lister names 1, 2, 3");
    good = verdict_is(reedtangle_check(log.bytes, log.length, other_way, 3), REEDTANGLE_GRANTED, 3);
    tell(good && verdict_is(reedtangle_check(log.bytes, log.length, backward, 3), REEDTANGLE_BACKWARD, 6), "2, 1, 3 will do as well, and 1, 3, 2 turns the read round");
    reedtangle_put_request(log.bytes + 8 * 10, REEDTANGLE_ABANDON, 0, 2);
    good = verdict_is(reedtangle_list(log.bytes, log.length, list, 3), REEDTANGLE_TURN, 10);
    tell(good, "an abandon after an add gets 13");
}

/* A state that no requests give: job 7 in all 32 slots, each row leading everywhere. It gets answers all the same. */
static void any_content(void)
{
    static const row rows[] = {{1, 0, 0, 0, 6, 0}, {2, 0, 0, 7, 7, 0}, {5, 0, 0, 7, 4, 0}, {2, 0, 0, 8, 3, 0}, {4, 0, 0, 7, 0, 7}};
    uint8_t bytes[8];
    int good = 1;
    size_t i;

    memset(&two, 255, sizeof two);
    two.free = 0;
    for (i = 0; i < REEDTANGLE_SLOTS; i++) {
        two.numbers[i] = 7;
    }
    for (i = 0; i < sizeof rows / sizeof rows[0]; i++) {
        put_row(bytes, &rows[i]);
        good &= reply_is(reedtangle_ask(&two, bytes), rows[i].want_code, rows[i].want_job);
    }
    tell(good && two.free == 1 && two.numbers[0] == 0 && two.numbers[1] == 7, "a made-up state: 5 replies as worked out by hand, and slot 0 freed");
}

/* Replay: its bytes by hand, its room, its tail. */
static void replay_by_hand(void)
{
    static const uint8_t want[16] = {0, 0, 0, 0, 1, 0, 0, 0, 3, 0, 0, 0, 0, 0, 0, 0};
    uint8_t requests[19] = {1, 0, 0, 0, 0, 0, 0, 0, 2, 0, 5, 0, 2, 0, 0, 0, 1, 1, 1};
    uint8_t answers[20];
    uint64_t written = 77;
    int good;

    memset(answers, 200, sizeof answers);
    good = reedtangle_replay(1, requests, sizeof requests, answers, 15, &written) == REEDTANGLE_NO_ROOM && written == 0;
    tell(good && answers[0] == 200 && answers[15] == 200, "replay with 15 bytes of room for two answers gets 24 and writes nothing");
    good = reedtangle_replay(1, requests, sizeof requests, answers, sizeof answers, &written) == REEDTANGLE_GRANTED && written == 16;
    tell(good && memcmp(answers, want, 16) == 0 && answers[16] == 200 && answers[19] == 200, "replay writes 16 bytes as worked out by hand, passes over a tail and leaves the rest");
}

/* ---- many requests by a simple rule */

enum { MANY = 2000, ROUNDS = 5, CODES = 10 };

typedef struct {
    reedtangle_state state;
    host_log log;
    uint32_t first, opened;                 /* jobs first, first + 1, .. were issued, so many */
    uint32_t open[REEDTANGLE_SLOTS], count; /* those that are open, as the host has seen them granted */
    uint8_t requests[8 * MANY];
    reedtangle_reply replies[MANY];
} host;

static uint32_t seed;

/* A number below n, the next of a fixed sequence. */
static uint32_t below(uint32_t n)
{
    seed = seed * 1664525u + 1013904223u;
    return (seed >> 8) % n;
}

/* The rule: few cells, jobs that are open, port 0 more than the others, and now and then any job, a wrong cell, no port or a wrong byte. */
static void make_request(uint8_t *bytes, const host *h)
{
    static const uint8_t kinds[16] = {1, 1, 1, 2, 2, 2, 2, 2, 3, 3, 7, 7, 4, 5, 6, 6};
    uint32_t any = below(20), cell = below(40) == 0 ? 250 + below(20) : below(24);
    uint32_t job = any == 0 || h->count == 0 ? h->first + below(h->opened + 2) : h->open[below(h->count)];
    uint8_t kind = kinds[below(16)];
    if (kind == REEDTANGLE_OPEN) {
        job = below(30) == 0 ? 3 + below(400) : below(4) % 3;
    }
    reedtangle_put_request(bytes, kind, (uint16_t)cell, job);
    if (below(100) == 0) {
        uint32_t at = below(2);
        bytes[at] = (uint8_t)below(256);
    }
}

/* What a grant means to the host. 0 where it does not fit what the host has seen. */
static int follow(host *h, uint8_t kind, uint32_t job)
{
    uint32_t i;
    if (kind == REEDTANGLE_OPEN) {
        if (h->count == REEDTANGLE_SLOTS || job != h->first + h->opened) {
            return 0;
        }
        h->open[h->count++] = job;
        h->opened += 1;
        return 1;
    }
    for (i = 0; i < h->count && h->open[i] != job; i++) {
    }
    if (i == h->count) {
        return 0;
    }
    if (kind == REEDTANGLE_END || kind == REEDTANGLE_ABANDON || kind == REEDTANGLE_PUBLISH) {
        h->open[i] = h->open[--h->count];
    }
    return 1;
}

/* Two states in turn, step by step; then replay over the same requests, in one call each. */
static host hosts[2];
static uint8_t answers[8 * MANY];
static uint32_t order[REEDTANGLE_LOG_JOBS];
static unsigned long codes[CODES];

static int is_step(const uint8_t *record)
{
    return record[0] == REEDTANGLE_READ || record[0] == REEDTANGLE_WRITE || record[0] == REEDTANGLE_ADD;
}

/*
 * The slow judge: the place of the first record that must come after an earlier one whose job the order puts later, or the count of records. It
 * must where the two are conflicting steps, and where they are an end and an open. Every pair is looked at. The order has each kept job once.
 */
static uint32_t turned(const host_log *log, const uint32_t *jobs, uint32_t count)
{
    static uint32_t place[REEDTANGLE_LOG_RECORDS];
    uint32_t records = (uint32_t)(log->length / 8), i, j;
    for (i = 0; i < records; i++) {
        place[i] = UINT32_MAX;              /* the record of no kept job */
        for (j = 0; j < count; j++) {
            if (jobs[j] == number_at(log->bytes + 8 * i + 4)) {
                place[i] = j;
            }
        }
    }
    for (i = 0; i < records; i++) {
        for (j = 0; place[i] != UINT32_MAX && j < i; j++) {
            const uint8_t *later = log->bytes + 8 * i, *earlier = log->bytes + 8 * j;
            int conflict = is_step(later) && is_step(earlier) && later[2] == earlier[2] && (later[0] != earlier[0] || later[0] == REEDTANGLE_WRITE);
            int in_time = earlier[0] == REEDTANGLE_END && later[0] == REEDTANGLE_OPEN;
            if (place[j] != UINT32_MAX && (conflict || in_time) && place[j] > place[i]) {
                return i;
            }
        }
    }
    return records;
}

/* Every 7 is right: the log so far with that step, of a publish its write, has no order. And the log so far has one. */
static int seven_is_right(host_log *log, const uint8_t *request)
{
    size_t before = log->length;
    int good = reedtangle_list(log->bytes, log->length, order, REEDTANGLE_LOG_JOBS).code == REEDTANGLE_GRANTED;
    good &= log_add(log, request, number_at(request + 4));
    log->length = before + 8;
    good &= reedtangle_list(log->bytes, log->length, order, REEDTANGLE_LOG_JOBS).code == REEDTANGLE_NO_ORDER;
    log->length = before;
    return good;
}

static void many(int round)
{
    char line[160];
    int touched = 0, followed = 1, sevens = 1, replayed = 1, listed = 1, judged = 1, backward = 0;
    size_t i, side, grants[2] = {0, 0}, published[2] = {0, 0}, circles = 0;
    seed = (uint32_t)round;
    for (side = 0; side < 2; side++) {
        hosts[side].first = side == 0 ? 1 : 4000000000u + (uint32_t)round;
        hosts[side].opened = hosts[side].count = 0;
        hosts[side].log.length = 0;
        reedtangle_start(&hosts[side].state, hosts[side].first);
    }
    for (i = 0; i < MANY; i++) {
        for (side = 0; side < 2; side++) {
            host *h = &hosts[side];
            uint8_t *request = h->requests + 8 * i;
            make_request(request, h);
            reedtangle_reply r = ask(&h->state, &h->log, request, &touched);
            h->replies[i] = r;
            if (r.code < CODES) {
                codes[r.code] += 1;
            }
            if (r.code == REEDTANGLE_GRANTED) {
                grants[side] += 1;
                published[side] += request[0] == REEDTANGLE_PUBLISH;
                followed &= follow(h, request[0], r.job);
            }
            if (r.code == REEDTANGLE_CIRCLE) {
                circles += 1;
                sevens &= seven_is_right(&h->log, request);
            }
        }
    }
    for (side = 0; side < 2; side++) {
        host *h = &hosts[side];
        uint64_t written = 0;
        replayed &= reedtangle_replay(h->first, h->requests, sizeof h->requests, answers, sizeof answers, &written) == REEDTANGLE_GRANTED;
        replayed &= written == sizeof answers;
        for (i = 0; i < MANY; i++) {
            replayed &= reply_is(h->replies[i], number_at(answers + 8 * i), number_at(answers + 8 * i + 4));
        }

        reedtangle_verdict v = reedtangle_list(h->log.bytes, h->log.length, order, REEDTANGLE_LOG_JOBS);
        uint32_t kept = v.place;
        listed &= v.code == REEDTANGLE_GRANTED && kept > 1 && published[side] > 10 && h->log.length == 8 * (grants[side] + published[side]);
        listed &= verdict_is(reedtangle_check(h->log.bytes, h->log.length, order, kept), REEDTANGLE_GRANTED, kept);
        listed &= turned(&h->log, order, kept) == h->log.length / 8;

        /* orders with two entries changed round, judged twice */
        for (i = 0; i < 20 && kept > 1; i++) {
            uint32_t a = below(kept), b = below(kept), was = order[a];
            order[a] = order[b];
            order[b] = was;
            uint32_t at = turned(&h->log, order, kept);
            v = reedtangle_check(h->log.bytes, h->log.length, order, kept);
            if (at == h->log.length / 8) {
                judged &= verdict_is(v, REEDTANGLE_GRANTED, kept);
            } else {
                judged &= verdict_is(v, REEDTANGLE_BACKWARD, at);
                backward += 1;
            }
            was = order[a];
            order[a] = order[b];
            order[b] = was;
        }
    }
    snprintf(line, sizeof line, "round %d: 2 times %d replies, step by step, are those of replay (%zu and %zu granted, %zu and %zu of them publishes)", round, MANY, grants[0], grants[1], published[0], published[1]);
    tell(replayed, line);
    tell(!touched, "         no refusal changed its state, and every grant went to the log");
    tell(followed, "         opens got the next number, and no other grant went to a job that is not open");
    snprintf(line, sizeof line, "         each of the %zu refusals with 7 is right: there is an order without that step and none with it", circles);
    tell(sevens && circles > 0, line);
    tell(listed, "         both logs have an order, which the checker and the slow judge accept");
    snprintf(line, sizeof line, "         40 orders with two entries changed round: checker and slow judge agree (%d refused)", backward);
    tell(judged && backward > 0, line);
}

int main(void)
{
    /* the Rust tests make the same requests and expect the same; 6 is tried by hand */
    static const unsigned long want[CODES] = {13483, 160, 240, 1316, 640, 334, 0, 3662, 124, 41};
    int round, all = 1;
    size_t i;
    printf("a state is %zu bytes\n", sizeof(reedtangle_state));
    two_nights();
    orders_by_hand();
    sheets_by_hand();
    logs_by_hand();
    ends_of_ranges();
    ports();
    fields_by_hand();
    publishes();
    adds();
    any_content();
    replay_by_hand();
    for (round = 1; round <= ROUNDS; round++) {
        many(round);
    }
    printf("replies by code:");
    for (i = 0; i < CODES; i++) {
        printf(" %zu: %lu%s", i, codes[i], i + 1 < CODES ? "," : "\n");
        all &= codes[i] == want[i];
    }
    tell(all, "the rounds gave each code as often as they do in the Rust tests");
    printf("%d passed, %d failed\n", passed, failed);
    return failed != 0;
}
