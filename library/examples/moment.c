/* A home that lives on: routines come as words, and each line of them is a window of the moment. One device answers late,
   one fails once, and one is turned by hand between two windows. Prints the journal.
   Usage: moment */
#include "../lazbendix.h"
#include <stdio.h>
#include <stdlib.h>
#include <string.h>

#define DEVICES 3
enum { LAMP, HEAT, DOOR };

static const char home[] =
    "{\"safehome\": 1,"
    " \"devices\": ["
    "  {\"name\": \"lamp\", \"states\": [\"off\", \"on\"], \"start\": \"off\"},"
    "  {\"name\": \"heat\", \"low\": 10, \"high\": 30, \"start\": 16},"
    "  {\"name\": \"door\", \"states\": [\"locked\", \"unlocked\"], \"start\": \"locked\"}],"
    " \"routines\": ["
    "  {\"name\": \"come\", \"commands\": [{\"on\": \"door\", \"do\": \"set\", \"to\": \"unlocked\"},"
    "    {\"on\": \"lamp\", \"do\": \"set\", \"to\": \"on\"}, {\"on\": \"heat\", \"do\": \"set\", \"to\": 21}]},"
    "  {\"name\": \"leave\", \"commands\": [{\"on\": \"lamp\", \"do\": \"set\", \"to\": \"off\"},"
    "    {\"on\": \"door\", \"do\": \"check\", \"to\": \"locked\"}, {\"on\": \"heat\", \"do\": \"set\", \"to\": 15}]}],"
    " \"windows\": []}";
enum { COME, LEAVE };

static lazbendix_hub hub = LAZBENDIX_HUB_CLOSED;

/* The things themselves. */
static struct { uint32_t value; int fails; } wall[DEVICES] = { { 0, 0 }, { 16, 0 }, { 0, 0 } };

static void want(int32_t status, const char *what) {
    if (status != LAZBENDIX_DONE) {
        fprintf(stderr, "%s: status %d\n", what, (int)status);
        exit(1);
    }
}

static void print_text(void) {
    uint8_t room[256];
    size_t from = 0, got;
    do {
        want(lazbendix_read(&hub, from, room, sizeof room, &got), "read");
        fwrite(room, 1, got, stdout);
        from += got;
    } while (got);
}

/* Makes the call of a device, and gives its answer. */
static void answer(const lazbendix_turn *turn, uint64_t now) {
    lazbendix_made made;
    uint32_t d = turn->device, told = LAZBENDIX_WORKED, value = 0;
    if (wall[d].fails > 0) {
        wall[d].fails--;
        told = LAZBENDIX_DEAD;
    } else if (turn->task == LAZBENDIX_SENSE) {
        told = LAZBENDIX_FOUND_VALUE;
        value = wall[d].value;
    } else if (turn->task != LAZBENDIX_PROBE) {
        wall[d].value = turn->value;
    }
    want(lazbendix_give(&hub, d, turn->ticket, told, value, now, &made), "give");
}

/* Steps the runs until nothing is left to do. The answer to a call comes when all runs have been taken once more. */
static void steps(uint32_t runs) {
    lazbendix_turn turn, under_way[DEVICES];
    lazbendix_left left;
    size_t calls = 0;
    for (uint32_t d = 0; d < DEVICES; d++) /* a probe for each device: one that is down comes back by it */
        if (lazbendix_probe(&hub, d, &turn) == LAZBENDIX_DONE)
            answer(&turn, 0);
    for (uint64_t now = 0; lazbendix_quiet(&hub, &left) == LAZBENDIX_DONE && left.kind; now += 100) {
        size_t late = calls;
        for (uint32_t run = 1; run <= runs; run++) {
            want(lazbendix_take(&hub, run, now, &turn), "take");
            if (turn.kind == LAZBENDIX_GO)
                under_way[calls++] = turn;
        }
        for (size_t i = 0; i < late; i++)
            answer(&under_way[i], now);
        memmove(under_way, under_way + late, (calls - late) * sizeof *under_way);
        calls -= late;
    }
}

/* A window of these routines. */
static void moment(const char *at, const uint32_t *routines, uint32_t count) {
    uint32_t number, run;
    size_t len;
    want(lazbendix_begin_window(&hub, (const uint8_t *)at, strlen(at), 1, &number), "begin_window");
    for (uint32_t i = 0; i < count; i++)
        want(lazbendix_add_run(&hub, routines[i], 0, &run), "add_run");
    want(lazbendix_window(&hub, number), "window");
    steps(count);
    want(lazbendix_close_window(&hub), "close_window");
    want(lazbendix_record(&hub, 1, &len), "record");
    print_text();
}

/* Looks where the things stand, and tells the home where it has them elsewhere. */
static void look(void) {
    for (uint32_t d = 0; d < DEVICES; d++) {
        lazbendix_stand_told stand;
        want(lazbendix_stand(&hub, d, &stand), "stand");
        if (stand.up && stand.value != wall[d].value) {
            want(lazbendix_restand(&hub, d, wall[d].value), "restand");
            printf("# found device %u at %u\n", (unsigned)d, (unsigned)wall[d].value);
        }
    }
}

int main(void) {
    static const uint32_t both[] = { COME, LEAVE }, one[] = { LEAVE };
    lazbendix_fault fault;
    want(lazbendix_open(&hub, (const uint8_t *)home, strlen(home), LAZBENDIX_EVENTUAL, LAZBENDIX_FCFS, &fault), "open");
    moment("2021-04-26T17:00:00", both, 2);
    wall[DOOR].value = 0; /* somebody locks the door by hand */
    wall[HEAT].fails = 1; /* the heating does not answer its next call */
    look();
    moment("2021-04-26T17:00:01", one, 1);
    moment("2021-04-26T17:00:02", one, 1);
    want(lazbendix_end(&hub), "end");
    return 0;
}
