/*
 * The report's notation from C: random logs, some of whose jobs are abandoned, are exported and imported again, with just enough room and one byte too
 * little, and the texts are damaged at each byte and cut at each length. What comes is compared with texts and logs written here by printf and memcpy. Last
 * line: `N passed, 0 failed`; exit status 1 on a failure.
 */
#include "reedtangle.h"
#include "tell.h"

#include <stdio.h>
#include <string.h>

enum { ROOM = REEDTANGLE_TEXT_BYTES + 64 };

static uint8_t log_bytes[REEDTANGLE_LOG_BYTES + 8], kept[REEDTANGLE_LOG_BYTES], came[ROOM], back[ROOM], hurt[ROOM];
static char text[ROOM];
static size_t length, kept_length, text_length;

static uint64_t seed = 1981;

static uint32_t below(uint32_t n)
{
    seed = seed * 6364136223846793005u + 1442695040888963407u;
    return (uint32_t)((seed >> 33) % n);
}

/* Only these bytes were written: the rest is as it was. */
static int rest_is(const uint8_t *at, size_t from, uint8_t was)
{
    for (; from < ROOM; from++) {
        if (at[from] != was) {
            return 0;
        }
    }
    return 1;
}

/* The answer, with nothing written where it is a refusal. */
static int import_is(const void *bytes, size_t size, size_t room, uint32_t code, uint64_t place)
{
    uint64_t at = 77;
    memset(back, 0xa7, sizeof back);
    return reedtangle_import(bytes, size, back, room, &at) == code && at == place && (code == 0 || rest_is(back, 0, 0xa7));
}

static int export_is(size_t size, size_t room, uint32_t code, uint64_t place)
{
    uint64_t at = 77;
    memset(came, 0xa7, sizeof came);
    return reedtangle_export(log_bytes, size, came, room, &at) == code && at == place && (code == 0 || rest_is(came, 0, 0xa7));
}

/* A log of so many records with its text, and the log without the jobs that it abandons. Its first job stays open, so that there always is one to go on. */
static void make(size_t records)
{
    static uint32_t jobs[4096];
    static int state[4096]; /* 0 open, 1 has written, 2 ended, 3 abandoned */
    static size_t owner[4096];
    size_t opened = 0;
    uint32_t number = below(10);
    for (size_t i = 0; i < records; i++) {
        size_t j = opened == 0 ? 0 : below((uint32_t)opened);
        uint8_t kind = (uint8_t)(2 + below(2));
        uint16_t cell = (uint16_t)below(256);
        if (opened == 0 || state[j] >= 2 || below(8) == 0) {
            if (opened < REEDTANGLE_LOG_JOBS) {
                kind = REEDTANGLE_OPEN;
                j = opened++;
                jobs[j] = number;
                state[j] = 0;
                number += 1 + below(i % 7 == 0 ? 8000000 : 20);
            } else {
                j = 0;
            }
        } else if (j > 0 && below(6) == 0) {
            kind = state[j] == 0 ? REEDTANGLE_ABANDON : REEDTANGLE_END;
            state[j] = state[j] == 0 ? 3 : 2;
        }
        if (kind == REEDTANGLE_WRITE) {
            state[j] = 1;
        }
        owner[i] = j;
        reedtangle_put_request(log_bytes + 8 * i, kind, kind == REEDTANGLE_READ || kind == REEDTANGLE_WRITE ? cell : 0, jobs[j]);
    }
    length = 8 * records;
    kept_length = text_length = 0;
    for (size_t i = 0; i < records; i++) {
        const uint8_t *r = log_bytes + 8 * i;
        if (state[owner[i]] == 3) {
            continue;
        }
        memcpy(kept + kept_length, r, 8);
        kept_length += 8;
        text_length += (size_t)sprintf(text + text_length, "%s%c%lu", text_length == 0 ? "" : " ", " BRWE"[r[0]], (unsigned long)jobs[owner[i]]);
        if (r[0] == REEDTANGLE_READ || r[0] == REEDTANGLE_WRITE) {
            text_length += (size_t)sprintf(text + text_length, "[%d]", r[2]);
        }
    }
}

/* Does the text stop short where it is cut there? It does past a blank, past a letter and within a read or a write. */
static int stops_short(size_t cut)
{
    size_t from = cut;
    if (cut == 0) {
        return 0;
    }
    while (from > 0 && text[from - 1] != ' ') {
        from--;
    }
    return cut - from < 2 || ((text[from] == 'R' || text[from] == 'W') && text[cut - 1] != ']');
}

int main(void)
{
    static const size_t sizes[] = {0, 1, 2, 3, 5, 8, 13, 40, 100, 300, 1000, 4095, 4096};
    for (size_t s = 0; s < 3 * sizeof sizes / sizeof *sizes; s++) {
        size_t n = sizes[s / 3], step;
        int good = 1, cut = 1;
        make(n);
        step = 1 + text_length / 2000;
        tell_of(export_is(length, ROOM, 0, text_length) && memcmp(came, text, text_length) == 0 && rest_is(came, text_length, 0xa7), "the text is the one written here", n);
        tell_of(export_is(length, text_length, 0, text_length) && memcmp(came, text, text_length) == 0 && rest_is(came, text_length, 0xa7), "and fits into just its room", n);
        tell_of(import_is(text, text_length, ROOM, 0, kept_length) && memcmp(back, kept, kept_length) == 0 && rest_is(back, kept_length, 0xa7), "its log is the one without the abandoned jobs", n);
        tell_of(import_is(text, text_length, kept_length, 0, kept_length) && memcmp(back, kept, kept_length) == 0 && rest_is(back, kept_length, 0xa7), "and fits into just its room", n);
        memcpy(log_bytes, kept, kept_length);
        tell_of(export_is(kept_length, ROOM, 0, text_length) && memcmp(came, text, text_length) == 0, "and has the same text", n);
        if (text_length > 0) {
            tell_of(export_is(kept_length, text_length - 1, 24, 0) && import_is(text, text_length, kept_length - 1, 24, 0) && export_is(kept_length, 0, 24, 0) && import_is(text, text_length, 0, 24, 0), "with a byte too little room nothing is written", n);
        }
        for (size_t at = 0; at < text_length; at += step) {
            static const uint8_t never[] = {0, '\n', '/', ':', 'A', 'x', 0x80, 0xff};
            memcpy(hurt, text, text_length);
            hurt[at] = never[at % sizeof never];
            good = good && import_is(hurt, text_length, ROOM, 26, at);
            if (stops_short(at)) {
                cut = cut && import_is(text, at, ROOM, 26, at);
            } else {
                uint64_t place;
                cut = cut && reedtangle_import((const uint8_t *)text, at, back, ROOM, &place) != 26;
            }
        }
        tell_of(good, "a byte that stands nowhere is found, at each place", n);
        tell_of(cut, "the text is cut at each length", n);
        if (n > 0) {
            tell_of(export_is(kept_length + 4, ROOM, 11, 0) && export_is(REEDTANGLE_LOG_BYTES + 8, ROOM, 11, 0), "lengths that are no log", n);
            log_bytes[1] = 1;
            tell_of(export_is(kept_length, 0, 12, 0), "a record with a wrong byte 1, before the room is looked at", n);
        }
    }

    /* every byte there is, in the place of each byte of a text with every phase */
    int good = 1;
    for (size_t at = 0; at < 10; at++) {
        for (int byte = 0; byte < 256; byte++) {
            static const char *const allowed[] = {"BREW", "0123456789", " 0123456789", "BREW", "0123456789", "[0123456789", "0123456789", "]0123456789", "]0123456789", " "};
            uint64_t place = 77;
            uint32_t code;
            int may = byte != 0 && strchr(allowed[at], byte) != NULL;
            memcpy(hurt, "B1 R1[25] ", 10);
            hurt[at] = (uint8_t)byte;
            code = reedtangle_import(hurt, at + 1, back, ROOM, &place);
            good = good && (may ? code != 26 || place == at + 1 : code == 26 && place == at);
        }
    }
    tell_of(good, "each byte at each place of a text, up to there", 2);

    /* an add has no symbol: of the log B1 A1[5] B2 A2[5] the first is named, after what is wrong with the log and before the room */
    static const uint8_t adds[4][8] = {{1, 0, 0, 0, 1}, {7, 0, 5, 0, 1}, {1, 0, 0, 0, 2}, {7, 0, 5, 0, 2}};
    memcpy(log_bytes, adds, sizeof adds);
    tell_of(export_is(32, ROOM, REEDTANGLE_TEXT_NO_ADD, 1) && export_is(32, 0, REEDTANGLE_TEXT_NO_ADD, 1), "a log with adds has no text, whatever the room", 4);
    tell_of(export_is(8, ROOM, 0, 2) && export_is(31, ROOM, 11, 0), "the log before them has, and 11 goes first", 1);
    log_bytes[8 * 3 + 1] = 1;
    tell_of(export_is(32, 0, 12, 3), "12 past an add goes before it", 4);
    reedtangle_put_request(log_bytes + 8 * 3, REEDTANGLE_ABANDON, 0, 1);
    tell_of(export_is(32, ROOM, 13, 3), "an abandon after an add is out of turn", 4);
    tell_of(import_is("B1 A1[5]", 8, ROOM, 26, 3) && import_is("B1 C1[5]", 8, ROOM, 26, 3), "and no letter says one", 2);

    tell_of(import_is("B1 B3 R3[0] W1[0] E1 B2 R2[1] E2 W3[1] E3", 41, ROOM, 13, 5), "h2 of the report, whose job 2 opens after job 3", 10);
    tell_of(import_is("B1 R1[256]", 10, ROOM, 12, 1) && import_is("B1 R1[65535]", 12, 0, 12, 1) && import_is("B1 R1[65536]", 12, ROOM, 26, 10), "cells 256, 65,535 and 65,536", 2);
    tell_of(import_is("B4294967295", 11, 8, 0, 8) && import_is("B4294967296", 11, 8, 26, 10), "jobs 4,294,967,295 and 4,294,967,296", 1);
    for (int i = 0; i < 4097; i++) {
        memcpy(hurt + 3 * i, "E9 ", 3);
    }
    tell_of(import_is(hurt, 3 * 4097 - 1, 0, 11, 0) && import_is(hurt, 3 * 4096 - 1, 0, 13, 0) && import_is(hurt, 3 * 4097, 0, 26, 3 * 4097), "4,097 symbols, 4,096, and stopping short", 4097);
    printf("%d passed, %d failed\n", passed, failed);
    return failed != 0;
}
