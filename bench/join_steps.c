/* Lets a run join an open window, and prints how long that took, in ns, and the bytes of memory that the home has then.

       join_steps RUNS PROBES [opened] < SCRIPT

   The window is of the script's first routine RUNS times, with PROBES rounds of probes: it opens with one run, and the others
   join. Each run has arrived, and one device is out, as the last one joins. `measured_join` is that call alone, for a tool
   that counts instructions. With `opened` the window opens with all runs, the last one too. */
#include "../library/lazbendix.h"
#include <inttypes.h>
#include <malloc.h>
#include <stdio.h>
#include <stdlib.h>
#include <string.h>
#include <time.h>

#define MOST_BYTES (1u << 20)

static lazbendix_hub hub = LAZBENDIX_HUB_CLOSED;

static void want(int32_t status, const char *what) {
    if (status != LAZBENDIX_DONE) {
        fprintf(stderr, "%s: status %d\n", what, (int)status);
        exit(1);
    }
}

static uint64_t clock_ns(void) {
    struct timespec at;
    timespec_get(&at, TIME_UTC);
    return (uint64_t)at.tv_sec * 1000000000u + (uint64_t)at.tv_nsec;
}

__attribute__((noinline)) int32_t measured_join(uint32_t *run);

int32_t measured_join(uint32_t *run) {
    return lazbendix_add_run(&hub, 0, 0, run);
}

static size_t memory(void) {
    struct mallinfo2 told = mallinfo2();
    return told.uordblks + told.hblkhd;
}

int main(int argc, char **argv) {
    static const uint8_t at[] = "2021-04-26T07:00:00";
    static uint8_t script[MOST_BYTES];
    lazbendix_fault fault;
    lazbendix_turn turn;
    uint32_t number, run, runs = argc > 1 ? (uint32_t)atoi(argv[1]) : 1, probes = argc > 2 ? (uint32_t)atoi(argv[2]) : 0;
    size_t len = fread(script, 1, sizeof script, stdin), before = memory();
    uint64_t since = 0, until = 0;
    int is_opened = argc > 3 && strcmp(argv[3], "opened") == 0;
    want(lazbendix_open(&hub, script, len, LAZBENDIX_EVENTUAL, LAZBENDIX_FCFS, &fault), "open");
    want(lazbendix_begin_window(&hub, at, sizeof at - 1, probes, &number), "begin_window");
    for (run = 0; run < (is_opened ? runs + 1 : 1);)
        want(lazbendix_add_run(&hub, 0, 0, &run), "add_run");
    want(lazbendix_window(&hub, number), "window");
    while (run < runs)
        want(lazbendix_add_run(&hub, 0, 0, &run), "add_run");
    for (uint32_t r = 1; r <= runs; r++)
        do
            want(lazbendix_take(&hub, r, 0, &turn), "take");
        while (turn.kind == LAZBENDIX_MOVED);
    if (!is_opened) {
        since = clock_ns();
        want(measured_join(&run), "the join");
        until = clock_ns();
    }
    printf("%" PRIu64 " %zu\n", until - since, memory() - before);
    return lazbendix_end(&hub);
}
