/* Plays the windows of a script through the library, each call of a device answered at once, and prints what was called how
   often and how long it took.

       library_steps [refused] < SCRIPT

   With `refused` the script's windows are not played: a take of no run and a give with another ticket are made 10,000 times
   each, in its first window. */
#include "../library/lazbendix.h"
#include <inttypes.h>
#include <stdio.h>
#include <stdlib.h>
#include <string.h>
#include <time.h>

#define MOST_BYTES (4u << 20)
#define REFUSED 10000

enum call { OPEN, WINDOW, TAKE, BLOCKED, GIVE, CLOSE_WINDOW, RECORD, CALLS };
static const char *const names[CALLS] = { "open", "window", "take", "blocked", "give", "close_window", "record" };
static uint64_t made_of[CALLS], spent[CALLS];
static lazbendix_hub hub = LAZBENDIX_HUB_CLOSED;

static uint64_t clock_ns(void) {
    struct timespec at;
    timespec_get(&at, TIME_UTC);
    return (uint64_t)at.tv_sec * 1000000000u + (uint64_t)at.tv_nsec;
}

/* The call was made since this moment. Its status has to be that. */
static void note(enum call call, uint64_t since, int32_t status, int32_t wanted) {
    if (status != wanted) {
        fprintf(stderr, "%s: status %d\n", names[call], (int)status);
        exit(1);
    }
    made_of[call]++;
    spent[call] += clock_ns() - since;
}

static void give(const lazbendix_turn *turn, uint64_t now) {
    lazbendix_made made;
    uint32_t answer = turn->task == LAZBENDIX_SENSE ? LAZBENDIX_FOUND_VALUE : LAZBENDIX_WORKED;
    uint64_t since = clock_ns();
    note(GIVE, since, lazbendix_give(&hub, turn->device, turn->ticket, answer, turn->stood, now, &made), LAZBENDIX_DONE);
}

static void steps(uint32_t runs) {
    lazbendix_turn turn;
    char is_over[65] = { 0 };
    uint32_t over = 0, blocked;
    for (uint64_t now = 0; over < runs; now++)
        for (uint32_t run = 1; run <= runs; run++) {
            if (is_over[run])
                continue;
            uint64_t since = clock_ns();
            note(BLOCKED, since, lazbendix_blocked(&hub, run, &blocked), LAZBENDIX_DONE);
            if (blocked)
                continue;
            since = clock_ns();
            note(TAKE, since, lazbendix_take(&hub, run, now, &turn), LAZBENDIX_DONE);
            if (turn.kind == LAZBENDIX_GO)
                give(&turn, now);
            is_over[run] = turn.kind == LAZBENDIX_OVER;
            over += turn.kind == LAZBENDIX_OVER;
        }
}

static void play(uint32_t number) {
    uint64_t runs, since;
    size_t len;
    lazbendix_run_count(&hub, number, &runs);
    since = clock_ns();
    note(WINDOW, since, lazbendix_window(&hub, number), LAZBENDIX_DONE);
    steps((uint32_t)runs);
    since = clock_ns();
    note(CLOSE_WINDOW, since, lazbendix_close_window(&hub), LAZBENDIX_DONE);
    since = clock_ns();
    note(RECORD, since, lazbendix_record(&hub, 0, &len), LAZBENDIX_DONE);
}

/* Calls of which the hub makes next to nothing. */
static void refused(void) {
    lazbendix_turn turn, out = { 0 };
    lazbendix_made made;
    if (lazbendix_window(&hub, 0) != LAZBENDIX_DONE)
        exit(1);
    do
        lazbendix_take(&hub, 1, 0, &out);
    while (out.kind != LAZBENDIX_GO);
    memset(made_of, 0, sizeof made_of);
    for (int i = 0; i < REFUSED; i++) {
        uint64_t since = clock_ns();
        note(TAKE, since, lazbendix_take(&hub, 0, 0, &turn), LAZBENDIX_DONE);
        since = clock_ns();
        note(GIVE, since, lazbendix_give(&hub, out.device, out.ticket + 1, LAZBENDIX_DEAD, 0, 0, &made), LAZBENDIX_NOT_OUT);
    }
}

int main(int argc, char **argv) {
    static uint8_t script[MOST_BYTES];
    size_t len = fread(script, 1, sizeof script, stdin);
    lazbendix_fault fault;
    lazbendix_counts_told counts;
    uint64_t since = clock_ns();
    note(OPEN, since, lazbendix_open(&hub, script, len, LAZBENDIX_EVENTUAL, LAZBENDIX_FCFS, &fault), LAZBENDIX_DONE);
    lazbendix_counts(&hub, &counts);
    if (argc > 1 && strcmp(argv[1], "refused") == 0)
        refused();
    else
        for (uint32_t k = 0; k < counts.windows; k++)
            play(k);
    lazbendix_end(&hub);
    for (int call = 0; call < CALLS; call++)
        printf("%s %" PRIu64 " %" PRIu64 "\n", names[call], made_of[call], made_of[call] ? spent[call] / made_of[call] : 0);
    return 0;
}
