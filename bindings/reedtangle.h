/*
 * Reedtangle for C and C++: an arbiter for overlapping jobs over 256 shared cells, a checker of orders, a lister of orders and one of the morning sheet.
 *
 * The seven functions are in two archives, made by `tools/build.sh arbiter orders` (x86-64 Linux):
 *
 *     cc -std=c11 -I bindings host.c target/staticlib/libarbiter.a target/staticlib/liborders.a -o host
 *
 * Two steps (reads, writes and adds) conflict when their jobs differ, their cell is the same, and they are neither both reads nor both adds. A job is
 * kept unless it was abandoned. An order of the kept jobs would do when any two conflicting steps come in it as they came in the log, and each job comes in it
 * before all that were opened after its end. So the words are used below; there may be an order with the same reads and cells in the end that
 * turns such a pair round, and it is not looked for.
 *
 * What holds for all seven:
 *
 * - They are total. Whatever the lent memory holds, the call comes to its end, with exactly one answer. They never stop the program.
 * - They keep nothing between calls: no globals, no allocation, no files. All that lasts is in memory that the caller lends.
 * - A refusal (any code but 0) changes nothing: the state, the list and the bytes that were lent stay as they were. One number is set all
 *   the same, `*written` of reedtangle_replay and its sister: to 0.
 *
 * What is asked of the caller, as of any C function; a call that breaks this has no promise:
 *
 * - No pointer is NULL, not even with a length of 0. Each is aligned for its type, and all the memory that its length says is there to use.
 * - What is lent to one call does not overlap. Only memory that is read alone (const) may overlap other such memory.
 * - Nobody else writes lent memory during the call. Two threads may each use a state of their own, or take turns at one.
 * - Room on the stack: reedtangle_list_sheet takes about 110,000 bytes of it, reedtangle_list_order 108,000, reedtangle_check_order 28,000, reedtangle_replay_by_value 14,000, the others less than
 *   6,000.
 *
 * Not promised: that a job gets through. One that is refused may be refused for ever.
 *
 * The seven functions are proved (docs/PROMISES.md says what and where). The wrappers further down are plain C and are not; bindings/c/night.c
 * tries them.
 */
#ifndef REEDTANGLE_H
#define REEDTANGLE_H

#include <stddef.h>
#include <stdint.h>

#ifdef __cplusplus
extern "C" {
#endif

/* ---- sizes */

enum {
    REEDTANGLE_SLOTS = 32,          /* at most so many jobs are open at once */
    REEDTANGLE_PORTS = 3,           /* ports are numbered 0 to 2 */
    REEDTANGLE_PORT_SLOTS = 16,     /* at most so many jobs of one port are open at once */
    REEDTANGLE_CELLS = 256,         /* cells are numbered 0 to 255 */
    REEDTANGLE_SET_WORDS = 512,     /* words of the cell sets in a state */
    REEDTANGLE_LOG_RECORDS = 4096,  /* a log has at most so many records */
    REEDTANGLE_LOG_BYTES = 32768,   /* which is so many bytes */
    REEDTANGLE_LOG_JOBS = 512       /* a log opens at most so many jobs */
};

/* ---- a request, and a record of a log
 *
 * Both are eight bytes:
 *
 *     byte   0      the kind, 1 to 7 in a request, 1 to 5 or 7 in a record
 *     byte   1      0
 *     bytes  2, 3   the cell, low byte first
 *     bytes  4..7   the job, in the request of an open its port, low byte first
 *
 *     kind            cell in a request   job in a request   cell in a record   job in a record
 *     1  open         ignored             the port           0                  the number issued
 *     2  read         the cell            the asking job     the cell           the asking job
 *     3  write        the cell            the asking job     the cell           the asking job
 *     4  end          ignored             the asking job     0                  the asking job
 *     5  abandon      ignored             the asking job     0                  the asking job
 *     6  publish      the cell            the asking job     none: two records, a write and an end
 *     7  add          the cell            the asking job     the cell           the asking job
 *
 * A read of cell 5 by job 1 is 02 00 05 00 01 00 00 00. A publish is a write of its cell and the end of its job in one request. An add raises its cell as a
 * counter: adds of several jobs may change places. A log is the records of what was granted, in the sequence of the grants, and nothing else: reedtangle_put_records below makes those of a granted request.
 */

enum {
    REEDTANGLE_OPEN = 1,
    REEDTANGLE_READ = 2,
    REEDTANGLE_WRITE = 3,
    REEDTANGLE_END = 4,
    REEDTANGLE_ABANDON = 5,
    REEDTANGLE_PUBLISH = 6,
    REEDTANGLE_ADD = 7
};

/* ---- codes */

enum {
    /* all: granted, accepted, listed, done */
    REEDTANGLE_GRANTED = 0,

    /* reedtangle_step, and each answer of reedtangle_replay. Tested in this sequence: open 1, 6, 8, 5, 9; read, write, add and publish
       1, 2, 3, 7; end 1, 3; abandon 1, 3, 4. The first that holds is given. */
    REEDTANGLE_MALFORMED = 1,       /* the kind is none of 1 to 7, or byte 1 is not 0 */
    REEDTANGLE_NO_CELL = 2,         /* the cell of a read, write, add or publish is 256 or more */
    REEDTANGLE_NOT_OPEN = 3,        /* the asking job is not open */
    REEDTANGLE_HAS_WRITTEN = 4,     /* an abandon of a job that has written or added */
    REEDTANGLE_FULL = 5,            /* an open while 32 jobs are open */
    REEDTANGLE_SPENT = 6,           /* an open after job number 4,294,967,295 was issued */
    REEDTANGLE_CIRCLE = 7,          /* with this read, add, or write, a publish's too, no order of the jobs would do */
    REEDTANGLE_NO_PORT = 8,         /* an open whose port is 3 or more */
    REEDTANGLE_PORT_FULL = 9,       /* an open while 16 jobs of its port are open */

    /* checker and lister: the log is at fault. The place is that of the first faulty record, counted from 0; for 11 it is 0. */
    REEDTANGLE_LENGTH = 11,         /* the length is no multiple of 8, or over 32,768 bytes */
    REEDTANGLE_FORM = 12,           /* a record with a wrong kind, byte 1 or cell */
    REEDTANGLE_TURN = 13,           /* an open whose number is not above those before it; a job that is not open there; an abandon of a
                                       job that has written or added */
    REEDTANGLE_TOO_MANY = 14,       /* an open with 512 opens before it */

    /* checker */
    REEDTANGLE_ENTRY = 15,          /* place: the first entry that is no kept job, or a repeated one; or else, where the list lacks a
                                       kept job, its length */
    REEDTANGLE_BACKWARD = 16,       /* place: the first record that must come after an earlier one whose job the order puts later: a step that
                                       conflicts with it, or an open after its end */

    /* lister */
    REEDTANGLE_NO_ORDER = 17,       /* place 0: no order would do */
    REEDTANGLE_SHORT = 18,          /* place: the count of kept jobs (of a sheet, of the jobs at rest), more than the list has entries */

    /* reedtangle_replay */
    REEDTANGLE_NO_ROOM = 24         /* the answers do not fit */
};

/* ---- the six functions */

/*
 * A fresh state, with no job open, in memory that the host keeps: `next` and `free` are one number each, `numbers` and `leads` 32 each,
 * `sets` 512, `ports` 3. The first job opened gets the number `first`, which may be any. What the memory held before does not matter.
 */
void reedtangle_fresh(uint32_t first, uint64_t *next, uint32_t *free, uint32_t *numbers, uint32_t *leads, uint64_t *sets, uint32_t *ports);

/*
 * One request, eight bytes, on a state that the host keeps. Comes back: code times 2^32 plus job. The code is 0 to 9. The job is the number
 * issued for a granted open, the asking job for any other grant, and 0 for a refusal; since 0 is a job number too, go by the code.
 *
 * From a fresh state through any requests, each answer is the one that the whole history gives: a read, write or add of an open job on a real
 * cell gets 7 exactly when no order of the jobs would do with it. A publish is granted exactly when its write is, and leaves the state that the write
 * and the end of the job leave; where it is refused the job is open as before. On a refusal no bit of the state changes. For a state with any other
 * content the call still ends, with one answer and one next state; then nothing is said of a history.
 */
uint64_t reedtangle_step(uint64_t *next, uint32_t *free, uint32_t *numbers, uint32_t *leads, uint64_t *sets, uint32_t *ports, const uint8_t *request);

/*
 * Many requests from a fresh state of its own, which is gone afterwards. In: the first number, `length` bytes of requests, any bytes, and
 * `room` bytes for the answers. A tail of 1 to 7 bytes is no request and is not read. Comes back:
 *
 *     0    each request has eight bytes of answer, code and job, four each, low byte first; `*written` is the count of those bytes, and
 *          bytes past them stay.
 *     24   the room is less than eight bytes a request; nothing is written to `answers`, and `*written` is 0.
 *
 * The answers are those of the whole history, and so those of reedtangle_step one by one.
 */
uint32_t reedtangle_replay(uint32_t first, const uint8_t *requests, size_t length, uint8_t *answers, size_t room, uint64_t *written);

/* The same with the state handed on by value from step to step: for measuring what that costs. */
uint32_t reedtangle_replay_by_value(uint32_t first, const uint8_t *requests, size_t length, uint8_t *answers, size_t room, uint64_t *written);

/*
 * Would this order do for the log? In: `length` bytes of log, and `entries` job numbers, any of both. Comes back: code times 2^32 plus place.
 *
 *     0          accepted; the place is the count of kept jobs
 *     11 to 16   refused; the place is as the codes above say
 *
 * 0 comes exactly when the log has no fault, the order has each kept job once and nothing else, and it would do. Running the kept jobs one at
 * a time in that order then shows each of their reads the same last write and the same adds since, in any order, and leaves each cell so, as the log did. Nothing is written.
 */
uint64_t reedtangle_check_order(const uint8_t *log, size_t length, const uint32_t *order, size_t entries);

/*
 * An order for the log. In: `length` bytes of log, any bytes, and room for `room` job numbers. Comes back: code times 2^32 plus place.
 *
 *     0                    the order is in `out`, the lowest ready job first; the place is the count of kept jobs, and entries past them stay
 *     11 to 14, 17, 18     refused; the place is as the codes above say, and all of `out` stays
 *
 * With room, an order comes exactly when there is one, and 17 exactly when there is none. 512 entries are always room enough. The log of
 * what a fresh state granted, within the sizes above, is never at fault and never gets 17.
 */
uint64_t reedtangle_list_order(const uint8_t *log, size_t length, uint32_t *out, size_t room);

/*
 * The morning sheet of the log: the part of an order that will not move. A job is at rest when it has ended and no open job leads to it: precedes it, or
 * precedes a job that leads to it. In and back as of reedtangle_list_order, but the list is of the jobs at rest, in the lister's order, and 18
 * asks for room for them alone: the place of 0 and of 18 is their count.
 *
 * With room, a sheet comes exactly when the whole log has an order, and 17 exactly when it has none. Of the log of what a fresh state granted, and of
 * whatever it grants after that within the sizes above, the longer log has an order that starts with exactly this sheet.
 */
uint64_t reedtangle_list_sheet(const uint8_t *log, size_t length, uint32_t *out, size_t room);

/* ---- the second profile: two functions more, in libarbiter.a
 *
 * In this profile reads are granted as they come, and a job writes and ends by one publish, which is tested then. The state has the same form and is made by
 * reedtangle_fresh, and it belongs to the profile that it was started in: it holds other facts, so a state that was asked by reedtangle_step is not for these two, nor the other
 * way round. A call on such a state still ends, with one answer, which is that of no history. What is said above of all functions holds of these; they
 * take less than 6,000 bytes of stack.
 *
 * A cell set is four words of 64 marks: cell c is bit c % 64 of word c / 64.
 */

/*
 * One request, eight bytes: an open, a read or an abandon. Comes back: code times 2^32 plus job, as from reedtangle_step. Tested in this sequence: open 1, 6, 8, 5, 9; read 1, 2,
 * 3; abandon 1, 3, 4. Any other kind gets 1. A read never gets 7; and as a job writes at its end alone, an abandon never gets 4 from a fresh state on.
 */
uint64_t reedtangle_late_step(uint64_t *next, uint32_t *free, uint32_t *numbers, uint32_t *leads, uint64_t *sets, uint32_t *ports, const uint8_t *request);

/*
 * A job writes the cells of a set, any or none, and ends. The slots of the ports stay as they are, so they are not lent. Comes back: code times 2^32 plus job, the job for a grant and 0 for a refusal.
 *
 *     0    granted; in a log it is a write for each cell, the lowest first, and the end: reedtangle_put_published below makes these
 *     3    the job is not open
 *     7    the jobs that have ended and this one, with these writes at its end, would have no order that will do. Other open jobs do not count. The job is open as before
 *
 * From a fresh state on this is exact, and the log of what was granted, without the records of the jobs still open, is never at fault and always has an order, within the sizes of
 * a log.
 */
uint64_t reedtangle_publish(uint64_t *next, uint32_t *free, uint32_t *numbers, uint32_t *leads, uint64_t *sets, uint32_t job, const uint64_t *cells);

/* ---- the coarse mode: one function more, in an archive of its own, target/staticlib/libarchive.a (`tools/build.sh archive`)
 *
 * Cells 0 to 4,095 in 256 groups: a cell's group is its number divided by 16, rounded down. One request on a state that the host keeps, answered as reedtangle_step answers the same request with the
 * cell's group for its cell; 2 means a cell of 4,096 or more. From a fresh state through any requests of this mode each answer is that of the whole history by groups, and the log of
 * what was granted, with its true cells, always has an order that will do. Some steps get 7 that would not by their true cells. The state has the same form and is made by reedtangle_fresh;
 * it belongs to the mode that it was started in. A log with cells above 255 is none for the checker and the lister. What is said above of all functions holds of it; it takes less than
 * 6,000 bytes of stack.
 */

enum {
    REEDTANGLE_COARSE_CELLS = 4096, /* cells are numbered 0 to 4,095 in this mode */
    REEDTANGLE_GROUP_CELLS = 16     /* so many of them are of one group */
};

uint64_t reedtangle_coarse_step(uint64_t *next, uint32_t *free, uint32_t *numbers, uint32_t *leads, uint64_t *sets, uint32_t *ports, const uint8_t *request);

/* ---- ledger blocks: two functions more, in an archive of their own, target/staticlib/libledger.a (`tools/build.sh ledger`)
 *
 * A log in blocks of 512 bytes: the block's number from 0 in four bytes, the count of its records in two, two zero bytes, 62 places of eight bytes,
 * and two sums of four bytes each over the 126 words before them. All blocks but the last are full. What the records say is not looked at.
 * What is said above of all functions holds of these: total, nothing kept, a refusal writes nothing. Both come back with code times 2^32 plus place.
 */

enum {
    REEDTANGLE_BLOCKS_LENGTH = 21,  /* place 0: the length is no multiple of 512, or over 34,304 */
    REEDTANGLE_BLOCK_SUMS = 22,     /* place: the first faulty block; a sum is wrong */
    REEDTANGLE_BLOCK_FORM = 23,     /* place: the first faulty block; its number, its count, the zero bytes or an unused place is wrong */
    REEDTANGLE_BLOCKS_LOG_BYTES = 34304 /* room for the blocks of any log */
};

/* The log in blocks, in `out`. 0: the place is the count of bytes, and bytes past them stay. 11: the length is no multiple of 8, or over 32,768. 24: no room. */
uint64_t reedtangle_write_blocks(const uint8_t *log, size_t length, uint8_t *out, size_t room);

/* The log in a run of blocks, in `out`. 0: as above; the run is then the one that reedtangle_write_blocks makes of that log. 21 to 24: refused. */
uint64_t reedtangle_read_blocks(const uint8_t *blocks, size_t length, uint8_t *out, size_t room);

/* ---- batches: one function more, in an archive of its own, target/staticlib/libbatch.a (`tools/build.sh batch`)
 *
 * Up to 64 reads, writes and adds in one call, on a state that the host keeps, all but `ports`, which no step looks at; `length` bytes of requests. Comes back: code times 2^32 plus place.
 *
 *     0               all are granted; the place is their count, and the state is the one that they leave one by one
 *     1, 2, 3, 7      the first that would be refused, with its place from 0; no bit of the state changes. 1 also for a kind other than 2, 3 and 7
 *     25              place 0: the length is no multiple of 8, or over 512; tested first
 *
 * What is said above of all functions holds of it. It takes less than 6,000 bytes of stack.
 */

enum { REEDTANGLE_BATCH_LENGTH = 25 };

uint64_t reedtangle_batch(uint64_t *next, uint32_t *free, uint32_t *numbers, uint32_t *leads, uint64_t *sets, const uint8_t *requests, size_t length);

/* ---- the report's notation: two functions more, in two archives of their own, target/staticlib/libimporter.a and libexporter.a
 * (`tools/build.sh importer exporter`)
 *
 * A log as a text, as Casanova and Bernstein 1981 write it: B for an open, R for a read, W for a write, E for an end, the job in decimal, and of a read or
 * a write the cell in square brackets, as in `B1 R1[5] W1[6] E1`. One blank between two symbols, no leading zeros, nothing before or after, no zero byte at the end. The empty
 * text is the empty log. A job is at most 4,294,967,295, a cell in the text at most 65,535; the log rules then refuse one above 255. An abandon has no symbol, and an
 * add has none: no text says one, and a log that has one has no text.
 * What is said above of all functions holds of these: total, nothing kept, a refusal writes nothing but `*place`. reedtangle_import takes about 43,000 bytes of stack,
 * reedtangle_export 93,000.
 */

enum {
    REEDTANGLE_TEXT_FORM = 26,      /* place: the first byte that no text of the form could have there, or the length where the text only stops short */
    REEDTANGLE_TEXT_NO_ADD = 27,    /* place: the first record that is an add */
    REEDTANGLE_TEXT_BYTES = 69632   /* room for the text of any log */
};

/*
 * The log that a text says. In: `length` bytes of text, any bytes, and `room` bytes for the log. Comes back, with the place in `*place`:
 *
 *     0          the log is in `out`; the place is the count of its bytes, eight a symbol, and bytes past them stay
 *     26         the text is not of the form; tested first
 *     11         place 0: it has more than 4,096 symbols
 *     12 to 14   the log is at fault; the place is the symbol, counted from 0
 *     24         place 0: no room
 *
 * The export of that log is the text again.
 */
uint32_t reedtangle_import(const uint8_t *text, size_t length, uint8_t *out, size_t room, uint64_t *place);

/*
 * The text of a log. In: `length` bytes of log, any bytes, and `room` bytes for the text. Comes back, with the place in `*place`:
 *
 *     0          the text is in `out`, with no symbol of a job that was abandoned; the place is the count of its bytes, and bytes past them stay
 *     11 to 14   the log is at fault; the place is as the codes above say
 *     27         the log has an add; the place is the first such record
 *     24         place 0: no room; tested last
 *
 * The import of that text is the log without the records of the jobs that were abandoned.
 */
uint32_t reedtangle_export(const uint8_t *log, size_t length, uint8_t *out, size_t room, uint64_t *place);

/* ---- the state as one piece, and wrappers that take it */

/*
 * What a host keeps, 4,384 bytes, of which eight are padding. Plain numbers: it may be copied, saved and read back. To be made by reedtangle_start
 * and changed by reedtangle_ask alone, if the answers are to be those of a history.
 */
typedef struct reedtangle_state {
    uint64_t next;                          /* the number that the next open gets; 2^32 once there is none left */
    uint32_t free;                          /* bit i: slot i is free */
    uint32_t numbers[REEDTANGLE_SLOTS];     /* the job in each slot */
    uint32_t leads[REEDTANGLE_SLOTS];       /* bit j of the i-th: the job in slot i leads to the one in slot j */
    uint64_t sets[REEDTANGLE_SET_WORDS];    /* sixteen words a slot, four a cell set: own used, own altered, past used, past altered;
                                               used is read or written, altered is written or added to */
    uint32_t ports[REEDTANGLE_PORTS];       /* bit i of the p-th: slot i is of port p; a slot keeps its port when its job is gone, and counts
                                               while it is open */
} reedtangle_state;

#ifdef __cplusplus
static_assert(sizeof(reedtangle_state) == 4384, "the state is 4,384 bytes");
#else
_Static_assert(sizeof(reedtangle_state) == 4384, "the state is 4,384 bytes");
#endif

/* A code with a job. */
typedef struct reedtangle_reply {
    uint32_t code;
    uint32_t job;
} reedtangle_reply;

/* A code with a place. */
typedef struct reedtangle_verdict {
    uint32_t code;
    uint32_t place;
} reedtangle_verdict;

/* reedtangle_fresh on a state. */
static inline void reedtangle_start(reedtangle_state *state, uint32_t first)
{
    reedtangle_fresh(first, &state->next, &state->free, state->numbers, state->leads, state->sets, state->ports);
}

/* reedtangle_step on a state. The eight bytes of the request are not within the state. */
static inline reedtangle_reply reedtangle_ask(reedtangle_state *state, const uint8_t *request)
{
    uint64_t both = reedtangle_step(&state->next, &state->free, state->numbers, state->leads, state->sets, state->ports, request);
    reedtangle_reply reply;
    reply.code = (uint32_t)(both >> 32);
    reply.job = (uint32_t)both;
    return reply;
}

/* reedtangle_check_order, its answer taken apart. */
static inline reedtangle_verdict reedtangle_check(const uint8_t *log, size_t length, const uint32_t *order, size_t entries)
{
    uint64_t both = reedtangle_check_order(log, length, order, entries);
    reedtangle_verdict verdict;
    verdict.code = (uint32_t)(both >> 32);
    verdict.place = (uint32_t)both;
    return verdict;
}

/* reedtangle_list_order, its answer taken apart. */
static inline reedtangle_verdict reedtangle_list(const uint8_t *log, size_t length, uint32_t *out, size_t room)
{
    uint64_t both = reedtangle_list_order(log, length, out, room);
    reedtangle_verdict verdict;
    verdict.code = (uint32_t)(both >> 32);
    verdict.place = (uint32_t)both;
    return verdict;
}

/* reedtangle_list_sheet, its answer taken apart. */
static inline reedtangle_verdict reedtangle_sheet(const uint8_t *log, size_t length, uint32_t *out, size_t room)
{
    uint64_t both = reedtangle_list_sheet(log, length, out, room);
    reedtangle_verdict verdict;
    verdict.code = (uint32_t)(both >> 32);
    verdict.place = (uint32_t)both;
    return verdict;
}

/* Puts a request into eight bytes. Only its layout: what is wrong with it, the step will say. */
static inline void reedtangle_put_request(uint8_t *bytes, uint8_t kind, uint16_t cell, uint32_t job)
{
    bytes[0] = kind;
    bytes[1] = 0;
    bytes[2] = (uint8_t)(cell & 255);
    bytes[3] = (uint8_t)(cell >> 8);
    bytes[4] = (uint8_t)(job & 255);
    bytes[5] = (uint8_t)((job >> 8) & 255);
    bytes[6] = (uint8_t)((job >> 16) & 255);
    bytes[7] = (uint8_t)(job >> 24);
}

/* Puts into eight bytes the record of a request that was granted with this job. Not for a publish, which has two. */
static inline void reedtangle_put_record(uint8_t *bytes, const uint8_t *request, uint32_t job)
{
    int step = request[0] == REEDTANGLE_READ || request[0] == REEDTANGLE_WRITE || request[0] == REEDTANGLE_ADD;
    uint16_t cell = step ? (uint16_t)(request[2] | (request[3] << 8)) : (uint16_t)0;
    reedtangle_put_request(bytes, request[0], cell, job);
}

/* Puts the records of a request that was granted with this job: eight bytes, or sixteen for a publish, its write and its end. How many bytes they are. */
static inline size_t reedtangle_put_records(uint8_t *bytes, const uint8_t *request, uint32_t job)
{
    if (request[0] != REEDTANGLE_PUBLISH) {
        reedtangle_put_record(bytes, request, job);
        return 8;
    }
    reedtangle_put_request(bytes, REEDTANGLE_WRITE, (uint16_t)(request[2] | (request[3] << 8)), job);
    reedtangle_put_request(bytes + 8, REEDTANGLE_END, 0, job);
    return 16;
}

/* ---- the second profile: its state, of a type of its own so that it is not asked by the first profile's rule, and wrappers that take it */

enum {
    REEDTANGLE_CELL_WORDS = 4,          /* words of a cell set */
    REEDTANGLE_PUBLISHED_BYTES = 2056   /* room for the records of any publish: 256 writes and the end */
};

typedef struct reedtangle_late {
    reedtangle_state state;
} reedtangle_late;

/* reedtangle_fresh on a state of the second profile. */
static inline void reedtangle_late_start(reedtangle_late *late, uint32_t first)
{
    reedtangle_start(&late->state, first);
}

/* reedtangle_late_step on it. The eight bytes of the request are not within the state. */
static inline reedtangle_reply reedtangle_late_ask(reedtangle_late *late, const uint8_t *request)
{
    reedtangle_state *s = &late->state;
    uint64_t both = reedtangle_late_step(&s->next, &s->free, s->numbers, s->leads, s->sets, s->ports, request);
    reedtangle_reply reply;
    reply.code = (uint32_t)(both >> 32);
    reply.job = (uint32_t)both;
    return reply;
}

/* reedtangle_publish on it. The four words of the set are not within the state. */
static inline reedtangle_reply reedtangle_late_publish(reedtangle_late *late, uint32_t job, const uint64_t *cells)
{
    reedtangle_state *s = &late->state;
    uint64_t both = reedtangle_publish(&s->next, &s->free, s->numbers, s->leads, s->sets, job, cells);
    reedtangle_reply reply;
    reply.code = (uint32_t)(both >> 32);
    reply.job = (uint32_t)both;
    return reply;
}

/* Puts a cell, 0 to 255, into a set. */
static inline void reedtangle_mark_cell(uint64_t *cells, uint8_t cell)
{
    cells[cell / 64] |= (uint64_t)1 << (cell % 64);
}

/* Puts the records of a publish that was granted: a write for each cell, the lowest first, and the end, at most 2,056 bytes. How many bytes they are. */
static inline size_t reedtangle_put_published(uint8_t *bytes, uint32_t job, const uint64_t *cells)
{
    size_t count = 0;
    unsigned cell;
    for (cell = 0; cell < REEDTANGLE_CELLS; cell++) {
        if (cells[cell / 64] >> (cell % 64) & 1) {
            reedtangle_put_request(bytes + count, REEDTANGLE_WRITE, (uint16_t)cell, job);
            count += 8;
        }
    }
    reedtangle_put_request(bytes + count, REEDTANGLE_END, 0, job);
    return count + 8;
}

#ifdef __cplusplus
}
#endif

#endif
