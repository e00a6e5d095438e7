/* lazbendix_log writes the bytes that docs/CALL-LOG.md has, refuses numbers that are those of no call, and a day logged by it is
   made again from its first calls, however many. */
#include "../lazbendix.h"
#include "home.h"
#include <stdio.h>
#include <stdlib.h>
#include <string.h>

#define SIZE LAZBENDIX_CALL_SIZE
#define DONE LAZBENDIX_DONE
#define WANT(it) ((it) ? (void)0 : wrong(__LINE__, #it))

static lazbendix_hub hub = LAZBENDIX_HUB_CLOSED, again = LAZBENDIX_HUB_CLOSED;
static uint8_t kept[SIZE * 1000];
static size_t calls;

static void wrong(int line, const char *what) {
    printf("line %d: %s, after %zu calls\n", line, what, calls);
    exit(1);
}

/* What the page has: two records, and of each row of its table the numbers of one call. */
static void bytes_of_the_page(void) {
    static const uint8_t took[SIZE] = { 4, 0, 0, 0, 1, 0, 0, 0, 0, 0, 0, 0, 0, 0, 0, 0, 0xdc, 5 };
    static const uint8_t gave[SIZE] = { 5, 1, 3, 0, 0, 0, 0, 0, 7, 0, 0, 0, 0, 0, 0, 0, 0xd6, 6 };
    static const struct { lazbendix_call call; uint8_t bytes[SIZE]; } rows[] = {
        { { .kind = 1, .value = 2, .first = 20261201090500 }, { 1, 0, 0, 0, 2, 0, 0, 0, 0xc4, 0x97, 0xb1, 0x6d, 0x6d, 0x12 } },
        { { .kind = 2, .value = 258 }, { 2, 0, 0, 0, 2, 1 } },
        { { .kind = 2, .sort = 1, .value = 3, .first = 4294967295 }, { 2, 1, 0, 0, 3, 0, 0, 0, 255, 255, 255, 255 } },
        { { .kind = 3, .value = 4294967295 }, { 3, 0, 0, 0, 255, 255, 255, 255 } },
        { { .kind = 4, .value = 64, .second = UINT64_MAX },
          { 4, 0, 0, 0, 64, 0, 0, 0, 0, 0, 0, 0, 0, 0, 0, 0, 255, 255, 255, 255, 255, 255, 255, 255 } },
        { { .kind = 5, .sort = 2, .device = 65535, .value = 9, .first = UINT64_MAX, .second = 256 },
          { 5, 2, 255, 255, 9, 0, 0, 0, 255, 255, 255, 255, 255, 255, 255, 255, 0, 1 } },
        { { .kind = 5, .sort = 3, .device = 1, .first = 8, .second = 1 }, { 5, 3, 1, 0, 0, 0, 0, 0, 8, 0, 0, 0, 0, 0, 0, 0, 1 } },
        { { .kind = 6, .device = 256 }, { 6, 0, 0, 1 } },
        { { .kind = 7 }, { 7 } },
        { { .kind = 8, .device = 2, .value = 1 }, { 8, 0, 2, 0, 1 } },
        { { .kind = 9, .device = 513 }, { 9, 0, 1, 2 } },
    };
    lazbendix_call call = { .kind = LAZBENDIX_CALL_TAKE, .value = 1, .second = 1500 };
    uint8_t room[SIZE + 2];
    memset(room, 0x55, sizeof room);
    WANT(lazbendix_log(&call, room, sizeof room) == DONE && memcmp(room, took, SIZE) == 0);
    WANT(room[SIZE] == 0x55 && room[SIZE + 1] == 0x55);
    call = (lazbendix_call){ .kind = LAZBENDIX_CALL_GIVE, .sort = LAZBENDIX_WORKED, .device = 3, .first = 7, .second = 1750 };
    WANT(lazbendix_log(&call, room, SIZE) == DONE && memcmp(room, gave, SIZE) == 0);
    for (size_t i = 0; i < sizeof rows / sizeof *rows; i++)
        WANT(lazbendix_log(&rows[i].call, room, SIZE) == DONE && memcmp(room, rows[i].bytes, SIZE) == 0);
    memset(room, 0x55, sizeof room);
    call = (lazbendix_call){ .kind = LAZBENDIX_CALL_CLOSE_WINDOW };
    WANT(lazbendix_log(&call, room, SIZE - 1) == LAZBENDIX_TOO_MANY && room[0] == 0x55);
}

/* Numbers of no call: kinds and sorts that are none, a number in an empty cell, one that is too large, a time that is none. */
static void numbers_of_no_call(void) {
    static const lazbendix_call none[] = {
        { .kind = 0 }, { .kind = 10 }, { .kind = 128 }, { .kind = 263 }, { .kind = UINT32_MAX },
        { .kind = 1, .first = 20261201090500, .sort = 1 }, { .kind = 1, .first = 20261201090500, .device = 1 },
        { .kind = 1, .first = 20261201090500, .second = 1 }, { .kind = 1 }, { .kind = 1, .first = 20261301090500 },
        { .kind = 1, .first = 20260001090500 }, { .kind = 1, .first = 20261200090500 }, { .kind = 1, .first = 20261232090500 },
        { .kind = 1, .first = 20261201240500 }, { .kind = 1, .first = 20261201096000 }, { .kind = 1, .first = 20261201090560 },
        { .kind = 1, .first = 100001201090500 }, { .kind = 2, .first = 1 }, { .kind = 2, .sort = 2, .first = 1 },
        { .kind = 2, .sort = 257, .first = 1 }, { .kind = 2, .sort = 1, .first = 4294967296 }, { .kind = 2, .device = 1 },
        { .kind = 2, .second = 1 }, { .kind = 3, .sort = 1 }, { .kind = 3, .device = 1 }, { .kind = 3, .first = 1 },
        { .kind = 3, .second = 1 }, { .kind = 4, .sort = 1 }, { .kind = 4, .device = 1 }, { .kind = 4, .first = 1 },
        { .kind = 5, .sort = 0 }, { .kind = 5, .sort = 4 }, { .kind = 5, .sort = 258 }, { .kind = 5, .sort = 1, .value = 1 },
        { .kind = 5, .sort = 3, .value = 1 }, { .kind = 5, .sort = 1, .device = 65536 }, { .kind = 6, .sort = 1 },
        { .kind = 6, .value = 1 }, { .kind = 6, .first = 1 }, { .kind = 6, .second = 1 }, { .kind = 6, .device = 65536 },
        { .kind = 7, .sort = 1 }, { .kind = 7, .device = 1 }, { .kind = 7, .value = 1 }, { .kind = 7, .first = 1 },
        { .kind = 7, .second = 1 }, { .kind = 8, .sort = 1 }, { .kind = 8, .first = 1 }, { .kind = 8, .second = 1 },
        { .kind = 9, .sort = 1 }, { .kind = 9, .value = 1 }, { .kind = 9, .first = 1 }, { .kind = 9, .second = 1 },
    };
    uint8_t room[SIZE], before[SIZE];
    memset(room, 0x55, SIZE);
    memset(before, 0x55, SIZE);
    for (size_t i = 0; i < sizeof none / sizeof *none; i++) {
        calls = i;
        WANT(lazbendix_log(&none[i], room, SIZE) == LAZBENDIX_NO_CALL && memcmp(room, before, SIZE) == 0);
    }
    calls = 0;
}

/* What the two homes show is the same. */
static void same_homes(void) {
    lazbendix_turn turns[2];
    lazbendix_stand_told stands[2];
    lazbendix_entry entries[2];
    lazbendix_left left[2];
    uint64_t counts[2] = { 0, 0 };
    uint32_t makers[2];
    WANT(lazbendix_entry_count(&hub, &counts[0]) == DONE && lazbendix_entry_count(&again, &counts[1]) == DONE);
    WANT(counts[0] == counts[1]);
    for (uint64_t at = 0; at < counts[0]; at++) {
        WANT(lazbendix_entry_at(&hub, at, &entries[0], &makers[0]) == DONE);
        WANT(lazbendix_entry_at(&again, at, &entries[1], &makers[1]) == DONE);
        WANT(memcmp(&entries[0], &entries[1], sizeof *entries) == 0 && makers[0] == makers[1]);
    }
    for (uint32_t device = 0; device < DEVICES; device++) {
        memset(turns, 0, sizeof turns);
        memset(stands, 0, sizeof stands);
        WANT(lazbendix_out(&hub, device, &turns[0]) == lazbendix_out(&again, device, &turns[1]));
        WANT(lazbendix_stand(&hub, device, &stands[0]) == lazbendix_stand(&again, device, &stands[1]));
        WANT(memcmp(&turns[0], &turns[1], sizeof *turns) == 0 && memcmp(&stands[0], &stands[1], sizeof *stands) == 0);
    }
    memset(left, 0, sizeof left);
    WANT(lazbendix_quiet(&hub, &left[0]) == lazbendix_quiet(&again, &left[1]));
    WANT(memcmp(&left[0], &left[1], sizeof *left) == 0);
}

/* Logs the call, and makes the home again from what is logged; one byte less, and the call does not count. */
static void log_call(lazbendix_call call) {
    lazbendix_fault fault;
    uint64_t good = 0;
    size_t len = SIZE * ++calls;
    WANT(len <= sizeof kept && lazbendix_log(&call, kept + len - SIZE, sizeof kept - len + SIZE) == DONE);
    for (size_t torn = 0; torn < 2; torn++) {
        WANT(lazbendix_reopen(&again, (const uint8_t *)HOME, strlen(HOME), kept, len - torn, LAZBENDIX_EVENTUAL, LAZBENDIX_FCFS,
                              &fault, &good) == DONE);
        WANT(good == len - torn * SIZE);
        if (!torn)
            same_homes();
        WANT(lazbendix_end(&again) == DONE);
    }
}

static void give(const lazbendix_turn *turn, uint64_t now) {
    lazbendix_made made;
    uint32_t answer = turn->ticket % 5 == 0 ? LAZBENDIX_DEAD : turn->task == LAZBENDIX_SENSE ? LAZBENDIX_FOUND_VALUE : LAZBENDIX_WORKED;
    uint32_t value = answer == LAZBENDIX_FOUND_VALUE ? turn->stood : 0;
    WANT(lazbendix_give(&hub, turn->device, turn->ticket, answer, value, now, &made) == DONE);
    log_call((lazbendix_call){ .kind = LAZBENDIX_CALL_GIVE, .sort = answer, .device = turn->device, .value = value,
                               .first = turn->ticket, .second = now });
}

/* Steps the runs to their ends, the first of them with a probe behind it where the window has one, and closes the window. */
static void play(uint32_t runs, int probes) {
    lazbendix_turn turn, probe;
    lazbendix_left left;
    uint64_t now = 0;
    do {
        for (uint32_t run = 1; run <= runs; run++) {
            WANT(lazbendix_take(&hub, run, ++now, &turn) == DONE);
            if (turn.kind != LAZBENDIX_WAITS)
                log_call((lazbendix_call){ .kind = LAZBENDIX_CALL_TAKE, .value = run, .second = now });
            if (probes && turn.kind == LAZBENDIX_GO && lazbendix_probe(&hub, 2, &probe) == DONE) {
                log_call((lazbendix_call){ .kind = LAZBENDIX_CALL_PROBE, .device = 2 });
                give(&probe, ++now);
                probes = 0;
            }
            if (turn.kind == LAZBENDIX_GO)
                give(&turn, ++now);
        }
        WANT(lazbendix_quiet(&hub, &left) == DONE);
    } while (left.kind);
    WANT(lazbendix_close_window(&hub) == DONE);
    log_call((lazbendix_call){ .kind = LAZBENDIX_CALL_CLOSE_WINDOW });
}

static void add_run(uint32_t routine, uint32_t follows) {
    uint32_t run;
    WANT(lazbendix_add_run(&hub, routine, follows, &run) == DONE);
    log_call((lazbendix_call){ .kind = LAZBENDIX_CALL_ADD_RUN, .sort = follows ? 1 : 0, .value = routine, .first = follows });
}

static void open_window(uint32_t number) {
    WANT(lazbendix_window(&hub, number) == DONE);
    log_call((lazbendix_call){ .kind = LAZBENDIX_CALL_WINDOW, .value = number });
}

static void a_logged_day(void) {
    lazbendix_fault fault;
    uint32_t number;
    WANT(lazbendix_open(&hub, (const uint8_t *)HOME, strlen(HOME), LAZBENDIX_EVENTUAL, LAZBENDIX_FCFS, &fault) == DONE);
    open_window(0);
    play(3, 1);
    WANT(lazbendix_restand(&hub, 1, 14) == DONE);
    log_call((lazbendix_call){ .kind = LAZBENDIX_CALL_RESTAND, .device = 1, .value = 14 });
    WANT(lazbendix_lose(&hub, 0) == DONE);
    log_call((lazbendix_call){ .kind = LAZBENDIX_CALL_LOSE, .device = 0 });
    open_window(1);
    play(1, 0);
    WANT(lazbendix_begin_window(&hub, (const uint8_t *)"2022-04-26T09:00:00", 19, 3, &number) == DONE);
    log_call((lazbendix_call){ .kind = LAZBENDIX_CALL_BEGIN_WINDOW, .value = 3, .first = 20220426090000 });
    add_run(0, 0);
    add_run(2, 1);
    open_window(number);
    add_run(1, 0);
    play(3, 1);
    WANT(lazbendix_end(&hub) == DONE);
}

int main(void) {
    bytes_of_the_page();
    numbers_of_no_call();
    a_logged_day();
    printf("%zu calls are logged, and the home is made again after each\n", calls);
    return 0;
}
