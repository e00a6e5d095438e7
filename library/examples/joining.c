/* A window that runs join, by a clock that is made up. Somebody starts the washer, which takes three minutes. Ten seconds later
   the light is asked for: its run joins, and has committed after half a second. Ten seconds after that another one wants the
   washer: its run joins too, and waits until the first one is done with it. Prints the record; the lines `# at` say what the
   hub did.
   Usage: joining */
#include "../lazbendix.h"
#include <inttypes.h>
#include <stdio.h>
#include <stdlib.h>
#include <string.h>

enum { WASHER, LAMP, DEVICES };
enum { WASH, LIGHT, SPIN };
#define TRIGGERS 3

static const char home[] =
    "{\"safehome\": 1,"
    " \"devices\": [{\"name\": \"washer\", \"states\": [\"idle\", \"wash\", \"spin\"], \"start\": \"idle\"},"
    "               {\"name\": \"lamp\", \"states\": [\"off\", \"on\"], \"start\": \"off\"}],"
    " \"routines\": [{\"name\": \"wash\", \"commands\": [{\"on\": \"washer\", \"do\": \"set\", \"to\": \"wash\"},"
    "                                             {\"on\": \"washer\", \"do\": \"set\", \"to\": \"idle\"}]},"
    "                {\"name\": \"light\", \"commands\": [{\"on\": \"lamp\", \"do\": \"set\", \"to\": \"on\"}]},"
    "                {\"name\": \"spin\", \"commands\": [{\"on\": \"washer\", \"do\": \"set\", \"to\": \"spin\"},"
    "                                             {\"on\": \"washer\", \"do\": \"set\", \"to\": \"idle\"}]}],"
    " \"windows\": []}";

/* How long a device takes until it answers, for each of its values, in ms. */
static const uint64_t takes[DEVICES][3] = { { 1000, 180000, 60000 }, { 500, 500, 0 } };
static const struct { uint64_t at; uint32_t routine; } triggers[TRIGGERS] = { { 0, WASH }, { 10000, LIGHT }, { 20000, SPIN } };

static lazbendix_hub hub = LAZBENDIX_HUB_CLOSED;
static uint64_t now;
static uint32_t runs; /* of the window: one for each trigger that has come */
static struct { int is_out; uint64_t answers_at; lazbendix_turn turn; } calls[DEVICES];

static void want(int32_t status, const char *what) {
    if (status != LAZBENDIX_DONE) {
        fprintf(stderr, "%s: status %d\n", what, (int)status);
        exit(1);
    }
}

static void print_text(size_t len) {
    static uint8_t room[4096];
    size_t got;
    if (len <= sizeof room) {
        want(lazbendix_read(&hub, 0, room, sizeof room, &got), "read");
        fwrite(room, 1, got, stdout);
    }
}

/* Each trigger whose time has come becomes a run. A 65th run of a window would be LAZBENDIX_TOO_MANY, and its trigger would
   wait for the quiet moment. */
static void join(void) {
    uint32_t run;
    for (; runs < TRIGGERS && triggers[runs].at <= now; runs++) {
        want(lazbendix_add_run(&hub, triggers[runs].routine, 0, &run), "add_run");
        printf("# at %" PRIu64 " run %" PRIu32 " is added\n", now, run);
    }
}

/* Takes each run that is not blocked, until each of them waits or has ended. */
static void take_runs(void) {
    lazbendix_turn turn;
    uint64_t blocked;
    int has_moved = 1;
    while (has_moved) {
        has_moved = 0;
        want(lazbendix_blocked_runs(&hub, &blocked), "blocked_runs");
        for (uint32_t run = 1; run <= runs; run++) {
            if (blocked >> (run - 1) & 1)
                continue;
            want(lazbendix_take(&hub, run, now, &turn), "take");
            has_moved |= turn.kind == LAZBENDIX_MOVED || turn.kind == LAZBENDIX_GO;
            if (turn.kind == LAZBENDIX_OVER && turn.made.count)
                printf("# at %" PRIu64 " run %" PRIu32 " has ended\n", now, run);
            if (turn.kind != LAZBENDIX_GO)
                continue;
            printf("# at %" PRIu64 " run %" PRIu32 " calls device %" PRIu32 "\n", now, run, turn.device);
            calls[turn.device].is_out = 1;
            calls[turn.device].answers_at = now + takes[turn.device][turn.value];
            calls[turn.device].turn = turn;
        }
    }
}

/* Lets time pass until a trigger comes or a device answers, and hands its answer in. */
static void wait(void) {
    lazbendix_made made;
    uint64_t next = runs < TRIGGERS ? triggers[runs].at : UINT64_MAX;
    for (uint32_t d = 0; d < DEVICES; d++)
        if (calls[d].is_out && calls[d].answers_at < next)
            next = calls[d].answers_at;
    now = next;
    for (uint32_t d = 0; d < DEVICES; d++)
        if (calls[d].is_out && calls[d].answers_at == now) {
            calls[d].is_out = 0;
            want(lazbendix_give(&hub, d, calls[d].turn.ticket, LAZBENDIX_WORKED, 0, now, &made), "give");
        }
}

int main(void) {
    static const char at[] = "2021-04-26T07:00:00";
    lazbendix_fault fault;
    lazbendix_left left;
    uint32_t number;
    size_t len;
    want(lazbendix_open(&hub, (const uint8_t *)home, strlen(home), LAZBENDIX_EVENTUAL, LAZBENDIX_FCFS, &fault), "open");
    want(lazbendix_head(&hub, &len), "head");
    print_text(len);
    want(lazbendix_begin_window(&hub, (const uint8_t *)at, strlen(at), 100, &number), "begin_window");
    join(); /* the first trigger */
    want(lazbendix_window(&hub, number), "window");
    for (;;) {
        join();
        take_runs();
        want(lazbendix_quiet(&hub, &left), "quiet");
        if (!left.kind)
            break; /* and the window is closed at once */
        wait();
    }
    want(lazbendix_close_window(&hub), "close_window");
    want(lazbendix_record(&hub, 1, &len), "record");
    print_text(len);
    printf("total windows 1 runs %" PRIu32 " committed %" PRIu32 " aborted 0\n", runs, runs);
    return lazbendix_end(&hub);
}
