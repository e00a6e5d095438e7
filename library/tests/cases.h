/* The cases that cases.py writes, as C reads them: a day, the mode in which it is played, and the record of it. */
#ifndef CASES_H
#define CASES_H

#include <inttypes.h>
#include <stdio.h>
#include <stdlib.h>
#include <string.h>

typedef struct numbers {
    size_t len;
    uint64_t *at;
} numbers;

typedef struct text {
    size_t len;
    uint8_t *at;
} text;

typedef struct played_window {
    char at[32];
    uint64_t seed, probes;
    numbers routines; /* of its runs */
    numbers follows;  /* of each run the one that it follows, 0 for none */
    numbers turns;
} played_window;

typedef struct day {
    char name[64];
    uint32_t model, scheduler;
    size_t devices, routines, windows;
    numbers *downs; /* of each device: from which call on and before which one it does not answer, pair by pair */
    numbers *takes; /* of each routine: the ms of its commands */
    played_window *window;
    text script, record;
    text home; /* the script without its windows */
} day;

static void bad_case(const char *what) {
    fprintf(stderr, "no case: %s\n", what);
    exit(2);
}

static void *room(size_t count, size_t size) {
    void *made = calloc(count ? count : 1, size);
    if (!made)
        bad_case("no memory");
    return made;
}

static uint64_t read_number(FILE *in) {
    uint64_t n;
    if (fscanf(in, "%" SCNu64, &n) != 1)
        bad_case("a number");
    return n;
}

static size_t read_head(FILE *in, const char *word) {
    char found[16];
    if (fscanf(in, "%15s", found) != 1 || strcmp(found, word) != 0)
        bad_case(word);
    return (size_t)read_number(in);
}

static numbers read_numbers(FILE *in) {
    numbers list = { (size_t)read_number(in), NULL };
    list.at = (uint64_t *)room(list.len, sizeof *list.at);
    for (size_t i = 0; i < list.len; i++)
        list.at[i] = read_number(in);
    return list;
}

static text read_text(FILE *in, const char *word) {
    text found = { read_head(in, word), NULL };
    found.at = (uint8_t *)room(found.len + 1, 1);
    if (fgetc(in) != '\n' || fread(found.at, 1, found.len, in) != found.len)
        bad_case(word);
    return found;
}

/* The next day, 0 where there is none. */
static int read_day(FILE *in, day *made) {
    char word[16];
    if (fscanf(in, "%15s", word) != 1)
        return 0;
    if (strcmp(word, "case") != 0 || fscanf(in, "%63s", made->name) != 1)
        bad_case("case");
    made->model = (uint32_t)read_number(in);
    made->scheduler = (uint32_t)read_number(in);
    made->devices = read_head(in, "devices");
    made->downs = (numbers *)room(made->devices, sizeof *made->downs);
    for (size_t d = 0; d < made->devices; d++)
        made->downs[d] = read_numbers(in);
    made->routines = read_head(in, "routines");
    made->takes = (numbers *)room(made->routines, sizeof *made->takes);
    for (size_t r = 0; r < made->routines; r++)
        made->takes[r] = read_numbers(in);
    made->windows = read_head(in, "windows");
    made->window = (played_window *)room(made->windows, sizeof *made->window);
    for (size_t k = 0; k < made->windows; k++) {
        if (fscanf(in, "%31s", made->window[k].at) != 1)
            bad_case("a time");
        made->window[k].seed = read_number(in);
        made->window[k].probes = read_number(in);
        made->window[k].routines = read_numbers(in);
        made->window[k].follows = read_numbers(in);
        made->window[k].turns = read_numbers(in);
    }
    made->script = read_text(in, "script");
    made->home = read_text(in, "home");
    made->record = read_text(in, "record");
    return 1;
}

static void free_day(day *made) {
    for (size_t d = 0; d < made->devices; d++)
        free(made->downs[d].at);
    for (size_t r = 0; r < made->routines; r++)
        free(made->takes[r].at);
    for (size_t k = 0; k < made->windows; k++) {
        free(made->window[k].routines.at);
        free(made->window[k].follows.at);
        free(made->window[k].turns.at);
    }
    free(made->downs);
    free(made->takes);
    free(made->window);
    free(made->script.at);
    free(made->home.at);
    free(made->record.at);
}

#endif
