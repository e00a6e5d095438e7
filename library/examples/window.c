/* Plays each window of a script, on devices that are the array `wall`, and prints the record with its trace.
   Usage: window [DEVICE] < SCRIPT. The device of this number never answers. */
#include "../lazbendix.h"
#include <stdio.h>
#include <stdlib.h>

#define MOST_BYTES (4u << 20)
#define DEVICES 256

static lazbendix_hub hub = LAZBENDIX_HUB_CLOSED;
static uint32_t wall[DEVICES];
static long broken = -1;
static unsigned long committed, aborted;

static void want(int32_t status, const char *what) {
    if (status != LAZBENDIX_DONE) {
        fprintf(stderr, "%s: status %d\n", what, (int)status);
        exit(1);
    }
}

/* The text that was made last. */
static void print_text(void) {
    uint8_t room[256];
    size_t from = 0, got;
    do {
        want(lazbendix_read(&hub, from, room, sizeof room, &got), "read");
        fwrite(room, 1, got, stdout);
        from += got;
    } while (got);
}

/* Makes the call that a turn asks for, and gives its answer. */
static void call(const lazbendix_turn *turn, uint64_t now) {
    lazbendix_made made;
    uint32_t answer = LAZBENDIX_WORKED, value = 0;
    if ((long)turn->device == broken) {
        answer = LAZBENDIX_DEAD;
    } else if (turn->task == LAZBENDIX_SENSE) {
        answer = LAZBENDIX_FOUND_VALUE;
        value = wall[turn->device];
    } else if (turn->task == LAZBENDIX_DRIVE || turn->task == LAZBENDIX_RESTORE) {
        wall[turn->device] = turn->value;
    }
    want(lazbendix_give(&hub, turn->device, turn->ticket, answer, value, now, &made), "give");
}

static void play(uint64_t runs) {
    lazbendix_turn turn, out[DEVICES];
    lazbendix_left left;
    uint64_t now = 0;
    do {
        size_t calls = 0;
        for (uint32_t run = 1; run <= runs; run++) {
            uint32_t blocked;
            want(lazbendix_blocked(&hub, run, &blocked), "blocked");
            if (blocked)
                continue;
            want(lazbendix_take(&hub, run, now, &turn), "take");
            if (turn.kind == LAZBENDIX_GO)
                out[calls++] = turn;
            if (turn.kind == LAZBENDIX_OVER && turn.made.count)
                *(turn.end.kind == LAZBENDIX_COMMITTED ? &committed : &aborted) += 1;
        }
        now++;
        while (calls)
            call(&out[--calls], now);
        want(lazbendix_quiet(&hub, &left), "quiet");
    } while (left.kind);
}

int main(int argc, char **argv) {
    static uint8_t script[MOST_BYTES + 1];
    size_t text, len = fread(script, 1, sizeof script, stdin);
    lazbendix_fault fault;
    lazbendix_counts_told counts;
    if (argc > 1)
        broken = atol(argv[1]);
    int32_t status = lazbendix_open(&hub, script, len, LAZBENDIX_EVENTUAL, LAZBENDIX_FCFS, &fault);
    if (status == LAZBENDIX_REFUSED)
        fprintf(stderr, "fault %u at part %u %u.%u\n", fault.kind, fault.part, fault.outer, fault.inner);
    want(status, "open");
    want(lazbendix_head(&hub, &text), "head");
    print_text();
    want(lazbendix_counts(&hub, &counts), "counts");
    for (uint32_t d = 0; d < counts.devices; d++) {
        lazbendix_stand_told stand;
        want(lazbendix_stand(&hub, d, &stand), "stand");
        wall[d] = stand.value;
    }
    for (uint32_t k = 0; k < counts.windows; k++) {
        uint64_t runs;
        want(lazbendix_run_count(&hub, k, &runs), "run_count");
        want(lazbendix_window(&hub, k), "window");
        play(runs);
        want(lazbendix_close_window(&hub), "close_window");
        want(lazbendix_record(&hub, 1, &text), "record");
        print_text();
    }
    printf("total windows %lu runs %lu committed %lu aborted %lu\n", (unsigned long)counts.windows, committed + aborted,
           committed, aborted);
    want(lazbendix_end(&hub), "end");
    return 0;
}
