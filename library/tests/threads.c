/* Four threads over one handle under a lock, on a home that they take through windows of the moment: each thread lets runs
   join, takes runs, makes the device calls outside of the lock, and gives the answers. Prints the script of the day and its record,
   as `check` reads them. */
#include "../lazbendix.h"
#include "home.h"
#include <pthread.h>
#include <sched.h>
#include <stdio.h>
#include <stdlib.h>
#include <string.h>

#define THREADS 4
#define RUNS 32
#define FIRST 4 /* runs with which a window opens */
#define MOMENTS 40

#define DONE(call) done((call), __LINE__)

static pthread_mutex_t lock = PTHREAD_MUTEX_INITIALIZER;
static lazbendix_hub hub = LAZBENDIX_HUB_CLOSED; /* under the lock */
static unsigned long steps;                      /* under the lock */
static uint32_t come;                            /* under the lock: the runs of the window */
static int is_over[RUNS + 1];                    /* under the lock: those that have ended */

static void done(int32_t status, int line) {
    if (status != LAZBENDIX_DONE) {
        printf("line %d: status %d\n", line, (int)status);
        exit(1);
    }
}

/* The next run joins, where there is one. */
static void join(void) {
    pthread_mutex_lock(&lock);
    if (come < RUNS)
        DONE(lazbendix_add_run(&hub, come % ROUTINES, 0, &come));
    pthread_mutex_unlock(&lock);
}

/* The step of a run that has joined, has not ended, and does not wait for a step of another one. Answers what it did, 0 for
   none. */
static uint32_t take(uint32_t run, lazbendix_turn *turn) {
    uint32_t blocked, kind = 0;
    pthread_mutex_lock(&lock);
    DONE(lazbendix_blocked(&hub, run, &blocked));
    if (run <= come && !blocked && !is_over[run]) {
        DONE(lazbendix_take(&hub, run, 0, turn));
        kind = turn->kind;
        is_over[run] = kind == LAZBENDIX_OVER;
        steps++;
    }
    pthread_mutex_unlock(&lock);
    return kind;
}

static void give(const lazbendix_turn *turn) {
    lazbendix_made made;
    uint32_t answer = turn->task == LAZBENDIX_SENSE ? LAZBENDIX_FOUND_VALUE : LAZBENDIX_WORKED;
    sched_yield(); /* here a device would be called */
    pthread_mutex_lock(&lock);
    DONE(lazbendix_give(&hub, turn->device, turn->ticket, answer, turn->stood, 0, &made));
    steps++;
    pthread_mutex_unlock(&lock);
}

static int is_quiet(void) {
    lazbendix_left left;
    pthread_mutex_lock(&lock);
    DONE(lazbendix_quiet(&hub, &left));
    int has_all = come == RUNS;
    pthread_mutex_unlock(&lock);
    return has_all && left.kind == 0;
}

static void *work(void *first) {
    lazbendix_turn turn;
    while (!is_quiet()) {
        int moved = 0;
        join();
        for (uint32_t i = 0; i < RUNS; i++) {
            uint32_t kind = take((uint32_t)(((size_t)first * RUNS / THREADS + i) % RUNS) + 1, &turn);
            if (kind == LAZBENDIX_GO)
                give(&turn);
            moved += kind == LAZBENDIX_GO || kind == LAZBENDIX_MOVED;
        }
        if (!moved)
            sched_yield();
    }
    return NULL;
}

static char record[1 << 20];
static size_t record_len;

/* Appends the text made last to the record. */
static void keep_text(void) {
    size_t got;
    DONE(lazbendix_read(&hub, 0, (uint8_t *)record + record_len, sizeof record - record_len, &got));
    record_len += got;
}

/* A window of the script that is printed. */
static void print_window(const char *at, unsigned moment) {
    static const char *const names[ROUTINES] = { "come", "leave", "warmer" };
    printf("%s{\"at\": \"%s\", \"runs\": [", moment ? ", " : "", at);
    for (uint32_t r = 0; r < RUNS; r++)
        printf("%s{\"routine\": \"%s\"}", r ? ", " : "", names[r % ROUTINES]);
    printf("]}");
}

/* How many runs of the window that is open, or was closed last, have committed. */
static unsigned long commits(void) {
    uint64_t count;
    unsigned long found = 0;
    DONE(lazbendix_entry_count(&hub, &count));
    for (uint64_t i = 0; i < count; i++) {
        lazbendix_entry entry;
        uint32_t maker;
        DONE(lazbendix_entry_at(&hub, i, &entry, &maker));
        found += entry.kind == LAZBENDIX_COMMITTED;
    }
    return found;
}

static unsigned long window(unsigned moment) {
    pthread_t threads[THREADS];
    uint32_t number;
    size_t len;
    char at[32];
    int at_len = snprintf(at, sizeof at, "2021-04-26T09:%02u:00", moment);
    DONE(lazbendix_begin_window(&hub, (const uint8_t *)at, (size_t)at_len, 0, &number));
    for (come = 0; come < FIRST;)
        DONE(lazbendix_add_run(&hub, come % ROUTINES, 0, &come));
    DONE(lazbendix_window(&hub, number));
    memset(is_over, 0, sizeof is_over);
    for (size_t i = 0; i < THREADS; i++)
        if (pthread_create(&threads[i], NULL, work, (void *)i) != 0)
            exit(2);
    for (size_t i = 0; i < THREADS; i++)
        pthread_join(threads[i], NULL);
    DONE(lazbendix_close_window(&hub));
    DONE(lazbendix_record(&hub, 0, &len));
    keep_text();
    print_window(at, moment);
    return commits();
}

int main(void) {
    static const char empty[] = HOME_DAY "]}";
    lazbendix_fault fault;
    size_t len;
    unsigned long committed = 0;
    DONE(lazbendix_open(&hub, (const uint8_t *)empty, strlen(empty), LAZBENDIX_EVENTUAL, LAZBENDIX_FCFS, &fault));
    DONE(lazbendix_head(&hub, &len));
    keep_text();
    printf("%s", HOME_DAY);
    for (unsigned moment = 0; moment < MOMENTS; moment++)
        committed += window(moment);
    DONE(lazbendix_end(&hub));
    printf("]}\n%%%%\n%.*s", (int)record_len, record);
    printf("total windows %d runs %d committed %lu aborted %lu\n", MOMENTS, MOMENTS * RUNS, committed, MOMENTS * RUNS - committed);
    fprintf(stderr, "%lu steps of %d threads\n", steps, THREADS);
    return 0;
}
