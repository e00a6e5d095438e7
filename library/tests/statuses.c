/* Each export answers each of its statuses, and where it is not DONE it has written nothing. */
#include "../lazbendix.h"
#include "home.h"
#include <stdio.h>
#include <stdlib.h>
#include <string.h>

#define IS(status, call) is(LAZBENDIX_##status, (call), __LINE__, #call)
#define WANT(it) ((it) ? (void)0 : wrong(__LINE__, #it))
#define SCRIPT (const uint8_t *)HOME, strlen(HOME)
#define ZEROS(it) all_are((const uint8_t *)&(it), sizeof(it), 0)

/* As the other languages declare them. */
_Static_assert(sizeof(lazbendix_hub) == 16 && sizeof(lazbendix_fault) == 40 && sizeof(lazbendix_entry) == 56, "sizes");
_Static_assert(sizeof(lazbendix_made) == 176 && sizeof(lazbendix_turn) == 272 && sizeof(lazbendix_left) == 8, "sizes");
_Static_assert(sizeof(lazbendix_stand_told) == 8 && sizeof(lazbendix_counts_told) == 24 && sizeof(lazbendix_item) == 16, "sizes");
_Static_assert(sizeof(lazbendix_call) == 32, "sizes");

static lazbendix_hub hub = LAZBENDIX_HUB_CLOSED;

static void wrong(int line, const char *what) {
    printf("line %d: %s\n", line, what);
    exit(1);
}

static void is(int32_t wanted, int32_t found, int line, const char *call) {
    if (wanted != found) {
        printf("line %d: %s answered %d, not %d\n", line, call, (int)found, (int)wanted);
        exit(1);
    }
}

static int all_are(const uint8_t *at, size_t len, uint8_t byte) {
    for (size_t i = 0; i < len; i++)
        if (at[i] != byte)
            return 0;
    return 1;
}

static int32_t open_home(const char *script, uint32_t model, uint32_t scheduler, lazbendix_fault *fault) {
    return lazbendix_open(&hub, (const uint8_t *)script, strlen(script), model, scheduler, fault);
}

/* Every call on a closed handle, of zeros and of other bytes. */
static void closed(void) {
    lazbendix_fault fault = { 0 };
    lazbendix_turn turn = { 0 };
    lazbendix_made made = { 0 };
    lazbendix_entry entry = { 0 };
    lazbendix_left left = { 0 };
    lazbendix_item item = { 0 };
    lazbendix_stand_told stand = { 0 };
    lazbendix_counts_told counts = { 0 };
    uint8_t room[8] = { 0 };
    uint32_t number = 0;
    uint64_t count = 0;
    size_t len = 0;
    IS(CLOSED, lazbendix_end(&hub));
    IS(CLOSED, lazbendix_window(&hub, 0));
    IS(CLOSED, lazbendix_take(&hub, 1, 0, &turn));
    IS(CLOSED, lazbendix_give(&hub, 0, 1, LAZBENDIX_DEAD, 0, 0, &made));
    IS(CLOSED, lazbendix_probe(&hub, 0, &turn));
    IS(CLOSED, lazbendix_blocked(&hub, 1, &number));
    IS(CLOSED, lazbendix_blocked_runs(&hub, &count));
    IS(CLOSED, lazbendix_out(&hub, 0, &turn));
    IS(CLOSED, lazbendix_sealed(&hub, &number));
    IS(CLOSED, lazbendix_final_item(&hub, 0, &item));
    IS(CLOSED, lazbendix_quiet(&hub, &left));
    IS(CLOSED, lazbendix_close_window(&hub));
    IS(CLOSED, lazbendix_record(&hub, 1, &len));
    IS(CLOSED, lazbendix_head(&hub, &len));
    IS(CLOSED, lazbendix_entry_text(&hub, 0, &len));
    IS(CLOSED, lazbendix_read(&hub, 0, room, sizeof room, &len));
    IS(CLOSED, lazbendix_entry_count(&hub, &count));
    IS(CLOSED, lazbendix_entry_at(&hub, 0, &entry, &number));
    IS(CLOSED, lazbendix_begin_window(&hub, room, 0, 0, &number));
    IS(CLOSED, lazbendix_add_run(&hub, 0, 0, &number));
    IS(CLOSED, lazbendix_restand(&hub, 0, 0));
    IS(CLOSED, lazbendix_lose(&hub, 0));
    IS(CLOSED, lazbendix_stand(&hub, 0, &stand));
    IS(CLOSED, lazbendix_counts(&hub, &counts));
    IS(CLOSED, lazbendix_run_count(&hub, 0, &count));
    IS(CLOSED, lazbendix_device_name(&hub, 0, room, sizeof room, &len));
    IS(CLOSED, lazbendix_routine_name(&hub, 0, room, sizeof room, &len));
    IS(CLOSED, lazbendix_value_name(&hub, 0, 0, room, sizeof room, &len));
    WANT(ZEROS(fault) && ZEROS(turn) && ZEROS(made) && ZEROS(entry) && ZEROS(left) && ZEROS(stand) && ZEROS(counts));
    WANT(ZEROS(room) && ZEROS(item) && number == 0 && count == 0 && len == 0);
}

static void openings(void) {
    lazbendix_fault fault, before;
    memset(&fault, 0x55, sizeof fault);
    before = fault;
    IS(MODE, open_home(HOME, 4, 0, &fault));
    IS(MODE, open_home(HOME, LAZBENDIX_GLOBAL, LAZBENDIX_JIT, &fault));
    IS(MODE, open_home(HOME, LAZBENDIX_EVENTUAL, 3, &fault));
    WANT(memcmp(&fault, &before, sizeof fault) == 0);
    IS(REFUSED, open_home("", 0, 0, &fault));
    WANT(fault.kind == LAZBENDIX_FAULT_NOT_JSON);
    IS(REFUSED, open_home("{\"safehome\": 3, \"devices\": [], \"routines\": [], \"windows\": []}", 0, 0, &fault));
    WANT(fault.kind == LAZBENDIX_FAULT_BAD_VERSION && fault.count == 3);
    IS(REFUSED, open_home("{\"safehome\": 1, \"devices\": [], \"routines\": [{\"name\": \"r\", \"commands\":"
                          " [{\"on\": \"lamp\", \"do\": \"load\"}]}], \"windows\": []}", 0, 0, &fault));
    WANT(fault.kind == LAZBENDIX_FAULT_UNKNOWN_NAME && fault.part == LAZBENDIX_PART_COMMAND);
    WANT(fault.outer == 1 && fault.inner == 1 && fault.zero == 0);
    IS(DONE, lazbendix_open(&hub, SCRIPT, LAZBENDIX_EVENTUAL, LAZBENDIX_FCFS, &fault));
    before = fault;
    IS(OPEN, lazbendix_open(&hub, SCRIPT, 9, 9, &fault));
    WANT(memcmp(&fault, &before, sizeof fault) == 0);
}

static void names(void) {
    lazbendix_counts_told counts;
    uint8_t room[8];
    uint64_t runs;
    size_t len;
    IS(DONE, lazbendix_counts(&hub, &counts));
    WANT(counts.devices == DEVICES && counts.routines == ROUTINES && counts.windows == WINDOWS);
    IS(DONE, lazbendix_run_count(&hub, 0, &runs));
    WANT(runs == 3);
    IS(DONE, lazbendix_run_count(&hub, WINDOWS, &runs));
    WANT(runs == 0);
    memset(room, 0x55, sizeof room);
    IS(DONE, lazbendix_device_name(&hub, 1, room, sizeof room, &len));
    WANT(len == 4 && memcmp(room, "heat", 4) == 0 && all_are(room + 4, 4, 0x55));
    IS(DONE, lazbendix_device_name(&hub, DEVICES, room, sizeof room, &len));
    WANT(len == 0);
    IS(DONE, lazbendix_routine_name(&hub, 2, room, 3, &len));
    WANT(len == 6 && memcmp(room, "wart", 4) == 0);
    IS(DONE, lazbendix_value_name(&hub, 2, 1, room, sizeof room, &len));
    WANT(len == 4 && memcmp(room, "open", 4) == 0);
    IS(DONE, lazbendix_value_name(&hub, 1, 16, room, sizeof room, &len));
    WANT(len == 0);
}

/* What a home answers between two windows. */
static void between(void) {
    lazbendix_turn turn;
    lazbendix_made made;
    lazbendix_left left;
    lazbendix_item item;
    lazbendix_stand_told stand;
    uint32_t number;
    uint64_t count;
    size_t len;
    IS(NO_WINDOW, lazbendix_take(&hub, 1, 0, &turn));
    IS(NO_WINDOW, lazbendix_give(&hub, 0, 1, LAZBENDIX_DEAD, 0, 0, &made));
    IS(NO_WINDOW, lazbendix_probe(&hub, 0, &turn));
    IS(NO_WINDOW, lazbendix_blocked(&hub, 1, &number));
    IS(NO_WINDOW, lazbendix_blocked_runs(&hub, &count));
    IS(NO_WINDOW, lazbendix_out(&hub, 0, &turn));
    IS(NO_WINDOW, lazbendix_out(&hub, DEVICES, &turn));
    IS(NO_WINDOW, lazbendix_sealed(&hub, &number));
    IS(NO_WINDOW, lazbendix_final_item(&hub, 0, &item));
    IS(NO_WINDOW, lazbendix_quiet(&hub, &left));
    IS(NO_WINDOW, lazbendix_close_window(&hub));
    IS(NO_RECORD, lazbendix_record(&hub, 0, &len));
    IS(NO_WINDOW, lazbendix_add_run(&hub, 0, 0, &number));
    IS(ABSENT, lazbendix_window(&hub, WINDOWS));
    IS(ABSENT, lazbendix_stand(&hub, DEVICES, &stand));
    IS(ABSENT, lazbendix_stand(&hub, 1u << 16, &stand));
    IS(ABSENT, lazbendix_restand(&hub, DEVICES, 0));
    IS(NO_VALUE, lazbendix_restand(&hub, 0, 2));
    IS(NO_VALUE, lazbendix_restand(&hub, 1, 9));
    IS(DONE, lazbendix_restand(&hub, 1, 19));
    IS(DONE, lazbendix_stand(&hub, 1, &stand));
    WANT(stand.value == 19 && stand.up == 1);
    IS(ABSENT, lazbendix_lose(&hub, DEVICES));
    IS(ABSENT, lazbendix_lose(&hub, 1u << 16));
    IS(DONE, lazbendix_entry_count(&hub, &count));
    WANT(count == 0);
}

static void windows_of_the_moment(void) {
    static const char *const bad[] = { "", "noon", "2021-04-26", "2021-04-26T08:00:00", "2021-04-25T09:00:00", "\xff" };
    uint32_t number, run;
    for (size_t i = 0; i < sizeof bad / sizeof *bad; i++)
        IS(BAD_TIME, lazbendix_begin_window(&hub, (const uint8_t *)bad[i], strlen(bad[i]), 0, &number));
    IS(TOO_MANY, lazbendix_begin_window(&hub, (const uint8_t *)"2021-04-26T09:00:00", 19, 101, &number));
    IS(DONE, lazbendix_begin_window(&hub, (const uint8_t *)"2021-04-26T09:00:00", 19, 0, &number));
    WANT(number == WINDOWS);
    IS(ABSENT, lazbendix_add_run(&hub, ROUTINES, 0, &run));
    IS(BAD_FOLLOW, lazbendix_add_run(&hub, 0, 1, &run));
    IS(DONE, lazbendix_add_run(&hub, 0, 0, &run));
    WANT(run == 1);
    for (uint32_t r = 2; r <= 64; r++) {
        IS(DONE, lazbendix_add_run(&hub, r % ROUTINES, r / 2, &run));
        WANT(run == r);
    }
    IS(TOO_MANY, lazbendix_add_run(&hub, 0, 0, &run));
}

/* Makes what the turn asks for, every device as it stood. */
static void give(const lazbendix_turn *turn) {
    lazbendix_made made;
    uint32_t answer = turn->task == LAZBENDIX_SENSE ? LAZBENDIX_FOUND_VALUE : LAZBENDIX_WORKED;
    IS(NOT_OUT, lazbendix_give(&hub, turn->device, turn->ticket + 1, answer, turn->stood, 0, &made));
    IS(WRONG, lazbendix_give(&hub, turn->device, turn->ticket, 0, 0, 0, &made));
    if (turn->task == LAZBENDIX_SENSE)
        IS(DIFFERS, lazbendix_give(&hub, turn->device, turn->ticket, answer, turn->stood + 1, 0, &made));
    IS(DONE, lazbendix_give(&hub, turn->device, turn->ticket, answer, turn->stood, 0, &made));
    IS(NOT_OUT, lazbendix_give(&hub, turn->device, turn->ticket, answer, turn->stood, 0, &made));
}

/* Steps the runs of the window that is open to their ends. */
static void play_on(uint32_t runs) {
    lazbendix_turn turn;
    lazbendix_left left;
    do {
        for (uint32_t run = 1; run <= runs; run++) {
            IS(DONE, lazbendix_take(&hub, run, 0, &turn));
            if (turn.kind == LAZBENDIX_GO)
                give(&turn);
        }
        IS(DONE, lazbendix_quiet(&hub, &left));
        if (left.kind)
            IS(NOT_QUIET, lazbendix_close_window(&hub));
    } while (left.kind);
}

static void play(uint32_t window, uint32_t runs) {
    IS(DONE, lazbendix_window(&hub, window));
    play_on(runs);
    IS(DONE, lazbendix_close_window(&hub));
}

static void in_a_window(void) {
    lazbendix_turn turn;
    lazbendix_stand_told stand;
    lazbendix_entry entry;
    lazbendix_left left;
    uint32_t number;
    size_t len;
    IS(DONE, lazbendix_window(&hub, 0));
    IS(IN_WINDOW, lazbendix_window(&hub, 1));
    IS(IN_WINDOW, lazbendix_begin_window(&hub, (const uint8_t *)"2022-04-26T09:00:00", 19, 0, &number));
    IS(NO_WINDOW, lazbendix_add_run(&hub, 0, 0, &number)); /* it is not the script's last one */
    IS(IN_WINDOW, lazbendix_restand(&hub, 0, 0));
    IS(IN_WINDOW, lazbendix_lose(&hub, 0));
    IS(IN_WINDOW, lazbendix_lose(&hub, DEVICES));
    IS(IN_WINDOW, lazbendix_stand(&hub, 0, &stand));
    IS(NO_RECORD, lazbendix_record(&hub, 0, &len));
    IS(ABSENT, lazbendix_entry_at(&hub, 0, &entry, &number));
    IS(ABSENT, lazbendix_entry_text(&hub, 0, &len));
    IS(DONE, lazbendix_take(&hub, 4, 0, &turn));
    WANT(turn.kind == LAZBENDIX_NO_RUN);
    IS(DONE, lazbendix_probe(&hub, 2, &turn));
    WANT(turn.kind == LAZBENDIX_GO && turn.task == LAZBENDIX_PROBE && turn.device == 2 && turn.run == 0 && turn.ticket == 1);
    IS(NO_PROBE, lazbendix_probe(&hub, 2, &turn));
    IS(NO_PROBE, lazbendix_probe(&hub, DEVICES, &turn));
    IS(DONE, lazbendix_quiet(&hub, &left));
    WANT(left.kind == 1 && left.number == 1);
    IS(NOT_QUIET, lazbendix_close_window(&hub));
    IS(DONE, lazbendix_end(&hub)); /* with a device out */
    IS(CLOSED, lazbendix_end(&hub));
}

/* A probe that may not go out leaves what is known of the runs. */
static void a_probe_of_a_device_that_is_out(void) {
    lazbendix_turn turn;
    uint32_t blocked;
    IS(DONE, lazbendix_window(&hub, 0));
    do
        IS(DONE, lazbendix_take(&hub, 1, 0, &turn));
    while (turn.kind != LAZBENDIX_GO);
    IS(DONE, lazbendix_blocked(&hub, 1, &blocked));
    WANT(blocked == 0);
    do
        IS(DONE, lazbendix_take(&hub, 2, 0, &turn));
    while (turn.kind != LAZBENDIX_WAITS);
    WANT(turn.device == 0);
    IS(NO_PROBE, lazbendix_probe(&hub, 0, &turn));
    IS(DONE, lazbendix_blocked(&hub, 2, &blocked));
    WANT(blocked == 1);
    IS(DONE, lazbendix_end(&hub));
}

/* A device that is lost keeps its value, and is down as the next window begins: no run calls it, and a probe finds it. */
static void a_device_that_is_lost(void) {
    lazbendix_stand_told stand;
    lazbendix_turn turn;
    lazbendix_made made;
    IS(DONE, lazbendix_restand(&hub, 0, 1));
    for (int i = 0; i < 2; i++) {
        IS(DONE, lazbendix_lose(&hub, 0));
        IS(DONE, lazbendix_stand(&hub, 0, &stand));
        WANT(stand.value == 1 && stand.up == 0);
    }
    IS(DONE, lazbendix_window(&hub, 0));
    do
        IS(DONE, lazbendix_take(&hub, 1, 0, &turn));
    while (turn.kind == LAZBENDIX_MOVED);
    WANT(turn.kind == LAZBENDIX_OVER && turn.end.kind == LAZBENDIX_ABORTED && turn.end.cause == LAZBENDIX_MUST_DOWN);
    IS(DONE, lazbendix_probe(&hub, 0, &turn));
    WANT(turn.task == LAZBENDIX_RESTORE && turn.value == 1 && turn.ticket == 1);
    IS(DONE, lazbendix_give(&hub, 0, turn.ticket, LAZBENDIX_WORKED, 0, 0, &made));
    WANT(made.count == 1 && made.entries[0].kind == LAZBENDIX_ROSE && made.entries[0].device == 0);
    IS(DONE, lazbendix_end(&hub));
    IS(CLOSED, lazbendix_lose(&hub, 0));
}

/* Steps the run until a device is out for it. */
static void go(uint32_t run, lazbendix_turn *turn) {
    do
        IS(DONE, lazbendix_take(&hub, run, 0, turn));
    while (turn->kind == LAZBENDIX_MOVED);
    WANT(turn->kind == LAZBENDIX_GO);
}

static void joins(uint32_t routine, uint32_t follows, uint32_t wanted) {
    uint32_t run;
    IS(DONE, lazbendix_add_run(&hub, routine, follows, &run));
    WANT(run == wanted);
}

static void waits(uint32_t run, uint32_t why, uint64_t blocked) {
    lazbendix_turn turn;
    uint64_t runs;
    do
        IS(DONE, lazbendix_take(&hub, run, 0, &turn));
    while (turn.kind == LAZBENDIX_MOVED);
    WANT(turn.kind == LAZBENDIX_WAITS && turn.why == why);
    IS(DONE, lazbendix_blocked_runs(&hub, &runs));
    WANT(runs == blocked);
}

/* Runs join a window that is open: one without runs, while a device is out, and when all have ended. */
static void runs_that_join(void) {
    lazbendix_turn turn;
    lazbendix_left left;
    uint64_t runs;
    uint32_t number, run = 77;
    IS(DONE, lazbendix_begin_window(&hub, (const uint8_t *)"2021-04-26T09:00:00", 19, 0, &number));
    IS(DONE, lazbendix_window(&hub, number));
    IS(DONE, lazbendix_quiet(&hub, &left));
    WANT(left.kind == 0);
    IS(ABSENT, lazbendix_add_run(&hub, ROUTINES, 1, &run));
    IS(BAD_FOLLOW, lazbendix_add_run(&hub, 0, 1, &run));
    WANT(run == 77);
    joins(1, 0, 1);
    IS(NOT_QUIET, lazbendix_close_window(&hub));
    go(1, &turn); /* the lamp */
    joins(1, 0, 2);
    waits(2, LAZBENDIX_BEHIND, 2);
    joins(2, 1, 3);
    IS(DONE, lazbendix_blocked_runs(&hub, &runs));
    WANT(runs == 0); /* a join forgets what was blocked */
    waits(3, LAZBENDIX_FOLLOWS, 0);
    waits(2, LAZBENDIX_BEHIND, 2);
    give(&turn);
    play_on(3);
    joins(2, 1, 4); /* it follows one that has ended, and waits for nothing */
    IS(DONE, lazbendix_quiet(&hub, &left));
    WANT(left.kind == 1 && left.number == 4);
    go(4, &turn);
    for (run = 5; run <= 64; run++)
        joins(run % ROUTINES, run / 2, run);
    IS(TOO_MANY, lazbendix_add_run(&hub, 0, 65, &run));
    IS(DONE, lazbendix_run_count(&hub, number, &runs));
    WANT(runs == 64);
    give(&turn);
    play_on(64);
    IS(DONE, lazbendix_close_window(&hub));
    IS(NO_WINDOW, lazbendix_add_run(&hub, 0, 0, &run));
    IS(DONE, lazbendix_end(&hub));
}

/* The script's last window takes a run while it is open, or has no room for it, since it was read with the script. */
static void a_run_that_joins_a_window_of_the_script(void) {
    uint32_t run = 77;
    uint64_t runs;
    IS(DONE, lazbendix_window(&hub, 1));
    int32_t status = lazbendix_add_run(&hub, 0, 1, &run);
    IS(DONE, lazbendix_run_count(&hub, 1, &runs));
    WANT(status == LAZBENDIX_DONE ? run == 2 && runs == 2 : status == LAZBENDIX_NO_MEMORY && run == 77 && runs == 1);
    IS(DONE, lazbendix_end(&hub));
}

/* So many items are final, the last of them this run. */
static void are_final(uint32_t count, uint32_t run) {
    lazbendix_item item;
    uint32_t found;
    IS(DONE, lazbendix_sealed(&hub, &found));
    WANT(found == count);
    IS(ABSENT, lazbendix_final_item(&hub, count, &item));
    IS(ABSENT, lazbendix_final_item(&hub, UINT32_MAX, &item));
    if (!count)
        return;
    IS(DONE, lazbendix_final_item(&hub, count - 1, &item));
    WANT(item.kind == LAZBENDIX_RAN && item.run == run && item.device == 0 && item.number == 0);
}

/* With what devices are out, which runs wait, and which items of the order are final. */
static void what_is_asked_of_a_window(void) {
    lazbendix_turn turn, out, twice;
    lazbendix_item item;
    uint64_t runs;
    IS(DONE, lazbendix_window(&hub, 0));
    are_final(0, 0);
    IS(DONE, lazbendix_blocked_runs(&hub, &runs));
    WANT(runs == 0);
    go(1, &turn); /* the lamp */
    IS(DONE, lazbendix_out(&hub, 0, &out));
    IS(DONE, lazbendix_out(&hub, 0, &twice));
    WANT(memcmp(&out, &turn, sizeof out) == 0 && memcmp(&out, &twice, sizeof out) == 0);
    WANT(out.run == 1 && out.task == LAZBENDIX_DRIVE && out.value == 1 && out.ticket == 1);
    IS(NOT_OUT, lazbendix_out(&hub, 1, &out));
    IS(ABSENT, lazbendix_out(&hub, DEVICES, &out));
    IS(ABSENT, lazbendix_out(&hub, 1u << 16, &out));
    for (uint32_t run = 2; run <= 3; run++)
        do
            IS(DONE, lazbendix_take(&hub, run, 0, &out));
        while (out.kind != LAZBENDIX_WAITS);
    IS(DONE, lazbendix_blocked_runs(&hub, &runs));
    for (uint32_t run = 1; run <= 64; run++) {
        uint32_t blocked;
        IS(DONE, lazbendix_blocked(&hub, run, &blocked));
        WANT(blocked == (runs >> (run - 1) & 1));
    }
    WANT((runs & 3) == 2); /* the second run waits for the lamp, for which the first one is out */
    IS(DONE, lazbendix_probe(&hub, 2, &turn));
    IS(DONE, lazbendix_out(&hub, 2, &out));
    WANT(memcmp(&out, &turn, sizeof out) == 0 && out.run == 0 && out.task == LAZBENDIX_PROBE && out.ticket == 2);
    give(&out);
    IS(NOT_OUT, lazbendix_out(&hub, 2, &out));
    IS(DONE, lazbendix_out(&hub, 0, &out));
    give(&out);
    for (int command = 2; command <= 3; command++) {
        go(1, &turn);
        are_final(0, 0);
        give(&turn);
    }
    do
        IS(DONE, lazbendix_take(&hub, 1, 0, &turn));
    while (turn.kind != LAZBENDIX_OVER);
    are_final(1, 1);
    go(2, &turn); /* the lamp dies: a failure, in front of its run */
    lazbendix_made made;
    IS(DONE, lazbendix_give(&hub, turn.device, turn.ticket, LAZBENDIX_DEAD, 0, 0, &made));
    IS(DONE, lazbendix_sealed(&hub, &turn.device));
    WANT(turn.device == 2);
    IS(DONE, lazbendix_final_item(&hub, 1, &item));
    WANT(item.kind == LAZBENDIX_FAILED && item.run == 0 && item.device == 0 && item.number == 1);
    IS(DONE, lazbendix_end(&hub));
}

/* The turn of a device that is out has the home's ticket, in a later window too. */
static void a_device_that_is_out_in_a_later_window(void) {
    lazbendix_turn turn, out;
    play(0, 3);
    IS(DONE, lazbendix_window(&hub, 1));
    go(1, &turn);
    IS(DONE, lazbendix_out(&hub, turn.device, &out));
    WANT(memcmp(&out, &turn, sizeof out) == 0 && out.ticket > 1);
    give(&out);
    IS(DONE, lazbendix_end(&hub));
}

/* A call as a log has it: kind, sort, device, value, then two words, the low bytes first. */
static void write_call(uint8_t *at, uint8_t kind, uint8_t sort, uint16_t device, uint32_t value, uint64_t first, uint64_t second) {
    at[0] = kind;
    at[1] = sort;
    for (int i = 0; i < 2; i++)
        at[2 + i] = (uint8_t)(device >> 8 * i);
    for (int i = 0; i < 4; i++)
        at[4 + i] = (uint8_t)(value >> 8 * i);
    for (int i = 0; i < 8; i++) {
        at[8 + i] = (uint8_t)(first >> 8 * i);
        at[16 + i] = (uint8_t)(second >> 8 * i);
    }
}

static int32_t reopen(const uint8_t *log, size_t len, uint32_t model, lazbendix_fault *fault, uint64_t *good) {
    return lazbendix_reopen(&hub, SCRIPT, log, len, model, LAZBENDIX_FCFS, fault, good);
}

/* The home is opened again in mid-window, with the first device out. */
static void a_home_that_is_opened_again(void) {
    enum { CALL = 24, CALLS = 5 };
    uint8_t log[CALLS * CALL];
    lazbendix_fault fault, before;
    lazbendix_turn turn, out;
    uint64_t good = 77;
    uint32_t calls = 1;
    IS(DONE, lazbendix_window(&hub, 0));
    write_call(log, 3, 0, 0, 0, 0, 0);
    do {
        IS(DONE, lazbendix_take(&hub, 1, 9, &turn));
        WANT(calls < CALLS);
        write_call(log + CALL * calls++, 4, 0, 0, 1, 0, 9);
    } while (turn.kind != LAZBENDIX_GO);
    memset(&fault, 0x55, sizeof fault);
    before = fault;
    IS(OPEN, reopen(log, calls * CALL, LAZBENDIX_EVENTUAL, &fault, &good));
    IS(DONE, lazbendix_end(&hub));
    IS(MODE, reopen(log, calls * CALL, 4, &fault, &good));
    WANT(memcmp(&fault, &before, sizeof fault) == 0 && good == 77);
    IS(REFUSED, lazbendix_reopen(&hub, log, 1, log, calls * CALL, LAZBENDIX_EVENTUAL, LAZBENDIX_FCFS, &fault, &good));
    WANT(fault.kind == LAZBENDIX_FAULT_NOT_JSON && good == 77);
    fault = before;
    IS(DONE, reopen(log, calls * CALL, LAZBENDIX_EVENTUAL, &fault, &good));
    WANT(good == calls * CALL && memcmp(&fault, &before, sizeof fault) == 0);
    IS(DONE, lazbendix_out(&hub, turn.device, &out));
    WANT(memcmp(&out, &turn, sizeof out) == 0);
    give(&out);
    IS(DONE, lazbendix_end(&hub));
    IS(DONE, reopen(log, calls * CALL - 1, LAZBENDIX_EVENTUAL, &fault, &good)); /* torn: the last call does not count */
    WANT(good == (calls - 1) * CALL);
    IS(NOT_OUT, lazbendix_out(&hub, turn.device, &out));
    IS(DONE, lazbendix_end(&hub));
    write_call(log + CALL, 7, 0, 0, 0, 0, 0); /* the window would be closed with runs that have not ended */
    good = 77;
    IS(NO_CALL, reopen(log, calls * CALL, LAZBENDIX_EVENTUAL, &fault, &good));
    WANT(good == CALL && memcmp(&fault, &before, sizeof fault) == 0);
    IS(CLOSED, lazbendix_end(&hub));
}

int main(void) {
    size_t len;
    lazbendix_fault fault;
    closed();
    memset(&hub, 0x5a, sizeof hub);
    closed();
    WANT(all_are((const uint8_t *)&hub, sizeof hub, 0x5a));
    openings();
    names();
    between();
    play(0, 3);
    play(1, 1);
    IS(DONE, lazbendix_record(&hub, 1, &len));
    IS(DONE, lazbendix_record(&hub, 0, &len));
    windows_of_the_moment();
    IS(NO_RECORD, lazbendix_record(&hub, 0, &len));
    play(WINDOWS, 64);
    IS(DONE, lazbendix_end(&hub));
    closed();
    IS(DONE, lazbendix_open(&hub, SCRIPT, LAZBENDIX_PARTITIONED, LAZBENDIX_FCFS, &fault));
    in_a_window();
    IS(DONE, lazbendix_open(&hub, SCRIPT, LAZBENDIX_EVENTUAL, LAZBENDIX_FCFS, &fault));
    a_probe_of_a_device_that_is_out();
    IS(DONE, lazbendix_open(&hub, SCRIPT, LAZBENDIX_EVENTUAL, LAZBENDIX_FCFS, &fault));
    a_device_that_is_lost();
    IS(DONE, lazbendix_open(&hub, SCRIPT, LAZBENDIX_EVENTUAL, LAZBENDIX_FCFS, &fault));
    runs_that_join();
    IS(DONE, lazbendix_open(&hub, SCRIPT, LAZBENDIX_EVENTUAL, LAZBENDIX_FCFS, &fault));
    a_run_that_joins_a_window_of_the_script();
    IS(DONE, lazbendix_open(&hub, SCRIPT, LAZBENDIX_EVENTUAL, LAZBENDIX_FCFS, &fault));
    what_is_asked_of_a_window();
    IS(DONE, lazbendix_open(&hub, SCRIPT, LAZBENDIX_EVENTUAL, LAZBENDIX_FCFS, &fault));
    a_device_that_is_out_in_a_later_window();
    IS(DONE, lazbendix_open(&hub, SCRIPT, LAZBENDIX_EVENTUAL, LAZBENDIX_FCFS, &fault));
    a_home_that_is_opened_again();
    WANT(lazbendix_version() == LAZBENDIX_VERSION);
    puts("each export answers each of its statuses");
    return 0;
}
