/* Answers that come late: after their limit was over, in the same window or in a later one, between two windows, and
   after a window was begun. None is taken, since each call of a home has a ticket that no other call of it has, and the
   record says what was driven. Prints the script of the valve's day and its record, as `check` reads them; then a home
   of 1,000 windows is asked for each ticket at each point. */
#include "../lazbendix.h"
#include <stdio.h>
#include <stdlib.h>
#include <string.h>

#define WINDOWS 1000
#define DEVICES 2
#define RUNS 3
#define MOST_CALLS (WINDOWS * 16)

#define IS(status, call) is(LAZBENDIX_##status, (call), __LINE__, #call)
#define WANT(it) ((it) ? (void)0 : wrong(__LINE__, #it))

enum { VALVE, LAMP };
enum { SHUT, OPENED };
enum { WATER, LOOK };

/* The script up to its windows. */
#define DAY \
    "{\"safehome\": 1," \
    " \"devices\": [{\"name\": \"valve\", \"states\": [\"shut\", \"open\"], \"start\": \"shut\"}," \
    "               {\"name\": \"lamp\", \"states\": [\"off\", \"on\"], \"start\": \"off\"}]," \
    " \"routines\": [{\"name\": \"water\", \"commands\": [{\"on\": \"valve\", \"do\": \"set\", \"to\": \"open\"}," \
    "                                              {\"on\": \"lamp\", \"do\": \"set\", \"to\": \"on\"}]}," \
    "                {\"name\": \"look\", \"commands\": [{\"on\": \"valve\", \"do\": \"load\"}," \
    "                                             {\"on\": \"lamp\", \"do\": \"store\", \"must\": false}]}]," \
    " \"windows\": ["
/* Those of the valve: in the second one a device may be probed once. */
#define VALVE_WINDOWS \
    "{\"at\": \"2021-04-26T07:00:00\", \"runs\": [{\"routine\": \"water\"}]}," \
    " {\"at\": \"2021-04-26T08:00:00\", \"probes\": 1, \"runs\": []}," \
    " {\"at\": \"2021-04-26T09:00:00\", \"runs\": [{\"routine\": \"look\"}]}]}"

static lazbendix_hub hub = LAZBENDIX_HUB_CLOSED;

/* Every call that went out of the home, in their order. */
static lazbendix_turn calls[MOST_CALLS];
static size_t calls_len;
static size_t lates;

static void wrong(int line, const char *what) {
    fprintf(stderr, "line %d: %s\n", line, what);
    exit(1);
}

static void is(int32_t wanted, int32_t found, int line, const char *call) {
    if (wanted != found) {
        fprintf(stderr, "line %d: %s answered %d, not %d\n", line, call, (int)found, (int)wanted);
        exit(1);
    }
}

static void open_home(const char *script) {
    lazbendix_fault fault;
    IS(DONE, lazbendix_open(&hub, (const uint8_t *)script, strlen(script), LAZBENDIX_EVENTUAL, LAZBENDIX_FCFS, &fault));
    calls_len = 0;
}

/* Notes the call that goes out: its ticket is above that of each call before it. */
static void note(const lazbendix_turn *turn) {
    WANT(turn->kind == LAZBENDIX_GO && turn->ticket > (calls_len ? calls[calls_len - 1].ticket : 0));
    WANT(calls_len < MOST_CALLS);
    calls[calls_len++] = *turn;
}

static uint32_t good(const lazbendix_turn *turn) {
    return turn->task == LAZBENDIX_SENSE ? LAZBENDIX_FOUND_VALUE : LAZBENDIX_WORKED;
}

/* Hands the answer of an earlier call in once more, and that it is dead: both are refused so, and write nothing. */
static void late(const lazbendix_turn *turn, int32_t status) {
    lazbendix_made made, before;
    memset(&made, 0x55, sizeof made);
    before = made;
    is(status, lazbendix_give(&hub, turn->device, turn->ticket, good(turn), turn->stood, 0, &made), __LINE__, "a late answer");
    is(status, lazbendix_give(&hub, turn->device, turn->ticket, LAZBENDIX_DEAD, 0, 0, &made), __LINE__, "a late answer");
    WANT(memcmp(&made, &before, sizeof made) == 0);
    lates += 2;
}

/* The late answers of the calls before this one: the first, the last ones, and some between. */
static void all_late(size_t before, int32_t status) {
    for (size_t k = 0; k < before; k += 1 + (k + 12 < before) * (before / 8))
        late(&calls[k], status);
}

static void give(const lazbendix_turn *turn, uint32_t answer) {
    lazbendix_made made;
    IS(DONE, lazbendix_give(&hub, turn->device, turn->ticket, answer, turn->stood, 0, &made));
}

/* Steps the runs until nothing is left to do. A call goes out with all late answers before and after its own one; one of
   so many is answered as dead, 0 for none. */
static void play(uint32_t runs, unsigned dead_one_of) {
    lazbendix_turn turn;
    lazbendix_left left;
    for (;;) {
        IS(DONE, lazbendix_quiet(&hub, &left));
        if (!left.kind)
            return;
        for (uint32_t run = 1; run <= runs; run++) {
            IS(DONE, lazbendix_take(&hub, run, 0, &turn));
            if (turn.kind != LAZBENDIX_GO)
                continue;
            note(&turn);
            all_late(calls_len - 1, LAZBENDIX_NOT_OUT);
            give(&turn, dead_one_of && calls_len % dead_one_of == 0 ? LAZBENDIX_DEAD : good(&turn));
            all_late(calls_len, LAZBENDIX_NOT_OUT);
        }
    }
}

/* Prints the text made last. */
static void print_text(void) {
    static uint8_t room[1 << 16];
    size_t got;
    IS(DONE, lazbendix_read(&hub, 0, room, sizeof room, &got));
    fwrite(room, 1, got, stdout);
}

static void close_window(void) {
    size_t len;
    IS(DONE, lazbendix_close_window(&hub));
    IS(DONE, lazbendix_record(&hub, 0, &len));
    print_text();
}

/* The valve's `open` is answered too late, in the next window, while the valve is being shut. */
static void valve(void) {
    lazbendix_turn opens, shuts, turn;
    lazbendix_stand_told stand;
    lazbendix_left left;
    size_t len;
    open_home(DAY VALVE_WINDOWS);
    printf("%s%s\n%%%%\n", DAY, VALVE_WINDOWS);
    IS(DONE, lazbendix_head(&hub, &len));
    print_text();
    IS(DONE, lazbendix_window(&hub, 0));
    do
        IS(DONE, lazbendix_take(&hub, 1, 0, &opens));
    while (opens.kind != LAZBENDIX_GO);
    WANT(opens.device == VALVE && opens.task == LAZBENDIX_DRIVE && opens.value == OPENED);
    note(&opens);
    give(&opens, LAZBENDIX_DEAD); /* its limit is over */
    late(&opens, LAZBENDIX_NOT_OUT);
    do
        IS(DONE, lazbendix_take(&hub, 1, 0, &turn));
    while (turn.kind != LAZBENDIX_OVER);
    IS(DONE, lazbendix_quiet(&hub, &left));
    WANT(left.kind == 0);
    close_window();
    late(&opens, LAZBENDIX_NO_WINDOW);
    IS(DONE, lazbendix_window(&hub, 1));
    late(&opens, LAZBENDIX_NOT_OUT);
    IS(DONE, lazbendix_probe(&hub, VALVE, &shuts));
    WANT(shuts.task == LAZBENDIX_RESTORE && shuts.value == SHUT);
    note(&shuts);
    late(&opens, LAZBENDIX_NOT_OUT);
    IS(DONE, lazbendix_quiet(&hub, &left));
    WANT(left.kind == 2 && left.number == VALVE); /* it is out still */
    give(&shuts, LAZBENDIX_DEAD); /* it was not shut: nothing says that it was, nor that it is open */
    late(&opens, LAZBENDIX_NOT_OUT);
    late(&shuts, LAZBENDIX_NOT_OUT);
    close_window();
    IS(DONE, lazbendix_stand(&hub, VALVE, &stand));
    WANT(stand.value == SHUT && stand.up == 0);
    IS(DONE, lazbendix_window(&hub, 2));
    play(1, 0);
    close_window();
    printf("total windows 3 runs 2 committed 0 aborted 2\n");
    IS(DONE, lazbendix_end(&hub));
    late(&opens, LAZBENDIX_CLOSED);
}

/* A window of the moment, with all late answers at each point. */
static void window(unsigned k) {
    char at[32];
    uint32_t number, run;
    size_t calls_before = calls_len;
    lazbendix_turn turn;
    int len = snprintf(at, sizeof at, "2021-%02u-%02uT%02u:%02u:00", 1 + k / 28 / 24 % 12, 1 + k / 24 % 28, k % 24, k % 60);
    all_late(calls_before, LAZBENDIX_NO_WINDOW);
    IS(DONE, lazbendix_begin_window(&hub, (const uint8_t *)at, (size_t)len, 1, &number));
    all_late(calls_before, LAZBENDIX_NO_WINDOW);
    for (uint32_t r = 1; r <= RUNS; r++)
        IS(DONE, lazbendix_add_run(&hub, (k + r) % 2 ? WATER : LOOK, 0, &run));
    all_late(calls_before, LAZBENDIX_NO_WINDOW);
    IS(DONE, lazbendix_window(&hub, number));
    all_late(calls_before, LAZBENDIX_NOT_OUT);
    for (uint32_t d = 0; d < DEVICES; d++) {
        IS(DONE, lazbendix_probe(&hub, d, &turn));
        note(&turn);
    }
    all_late(calls_before, LAZBENDIX_NOT_OUT);
    for (size_t i = calls_before; i < calls_before + DEVICES; i++)
        give(&calls[i], LAZBENDIX_WORKED);
    play(RUNS, 7);
    IS(DONE, lazbendix_close_window(&hub));
}

int main(void) {
    valve();
    open_home(DAY "]}");
    for (unsigned k = 0; k < WINDOWS; k++)
        window(k);
    IS(DONE, lazbendix_end(&hub));
    fprintf(stderr, "%zu late answers to %zu calls in %d windows: none is taken\n", lates, calls_len, WINDOWS);
    return 0;
}
