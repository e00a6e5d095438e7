/* Plays the days of cases.py on two homes at once: in one each window opens with all of its runs; in the other, whose script
   has no windows, it opens with some, and the others join at drawn moments, each before it is taken first. It is C and C++
   alike.

       python3 cases.py --coming | ./joins

   Both get the same calls, in the order of `replay`, and each answer is the same: turns and entries, the devices that are
   out, the items of the order that are final, what is left to do. A join is refused as it has to be, and some joins have each
   of their requests of memory refused, one after the other: after each refusal the home answers as before. In the end the
   record of both is, byte for byte, that of the reference. Link it with -Wl,--wrap=malloc,--wrap=realloc,--wrap=free. */
#include "../lazbendix.h"
#include "cases.h"
#include "wall.h"

#define ACTORS 65  /* the detector, and the runs of a window */
#define DETECTOR 0
#define UNTOUCHED 77

static const day *now_played;

#define WANT(it) ((it) ? (void)0 : wrong(__LINE__, #it))

static void wrong(int line, const char *what) {
    printf("%s, model %u, scheduler %u: line %d: %s\n", now_played->name, now_played->model, now_played->scheduler, line, what);
    exit(1);
}

/* Memory: one request is refused, after so many. */

static uint64_t before_refusal; /* requests that are granted before it, and it itself; 0 for no refusal */

static int is_refused(void) {
    return before_refusal && --before_refusal == 0;
}

#ifdef __cplusplus
extern "C" {
#endif
void *__real_malloc(size_t size);
void *__real_realloc(void *at, size_t size);
void __real_free(void *at);
void *__wrap_malloc(size_t size);
void *__wrap_realloc(void *at, size_t size);
void __wrap_free(void *at);

static long blocks;

void *__wrap_malloc(size_t size) {
    void *at = is_refused() ? NULL : __real_malloc(size);
    blocks += at != NULL;
    return at;
}

void *__wrap_realloc(void *at, size_t size) {
    void *made = is_refused() ? NULL : __real_realloc(at, size);
    blocks += at == NULL && made != NULL;
    return made;
}

void __wrap_free(void *at) {
    blocks -= at != NULL;
    __real_free(at);
}
#ifdef __cplusplus
}
#endif

/* What was tried. */
static struct {
    uint64_t windows, runs, joins, refused, out, over;
} counts;

/* The actors of a window, in both homes. */

typedef struct player {
    lazbendix_hub *whole, *joining;
    const day *played;
    const played_window *window;
    uint32_t number;
    device *wall;
    uint64_t moment, to_probe, draws, joins, eager, entries;
    uint32_t come; /* the runs of the window of the home in which they join */
    int has_ended[ACTORS], is_doomed[ACTORS], is_out[ACTORS], is_undo[ACTORS];
    uint64_t did[ACTORS];
    lazbendix_turn out[ACTORS];
    uint32_t final_len;
} player;

enum { PASSED, WAITED };

static uint32_t run_count(const player *p) {
    return (uint32_t)p->window->routines.len;
}

static uint64_t drawn_below(uint64_t *draws, uint64_t bound) {
    *draws = *draws * 6364136223846793005u + 1442695040888963407u;
    return (*draws >> 33) % bound;
}

/* What both homes tell is the same. */

static void ask_left(const player *p) {
    lazbendix_left whole, joining;
    WANT(lazbendix_quiet(p->whole, &whole) == LAZBENDIX_DONE);
    WANT(lazbendix_quiet(p->joining, &joining) == LAZBENDIX_DONE);
    if (whole.kind == 1 && whole.number > p->come) /* a run that has not joined; each that has joined has ended */
        WANT(joining.kind != 1);
    else
        WANT(memcmp(&whole, &joining, sizeof whole) == 0);
}

static void ask_device(const player *p, uint32_t device) {
    lazbendix_turn whole, joining;
    int32_t status = lazbendix_out(p->whole, device, &whole);
    WANT(lazbendix_out(p->joining, device, &joining) == status);
    WANT(status != LAZBENDIX_DONE || memcmp(&whole, &joining, sizeof whole) == 0);
}

static void ask_order(player *p) {
    lazbendix_item whole, joining;
    uint32_t count, other;
    WANT(lazbendix_sealed(p->whole, &count) == LAZBENDIX_DONE && count >= p->final_len);
    WANT(lazbendix_sealed(p->joining, &other) == LAZBENDIX_DONE && other == count);
    for (; p->final_len < count; p->final_len++) {
        WANT(lazbendix_final_item(p->whole, p->final_len, &whole) == LAZBENDIX_DONE);
        WANT(lazbendix_final_item(p->joining, p->final_len, &joining) == LAZBENDIX_DONE);
        WANT(memcmp(&whole, &joining, sizeof whole) == 0);
    }
}

static void ask_entries(player *p) {
    lazbendix_entry whole, joining;
    uint32_t maker, other;
    uint64_t count, same;
    WANT(lazbendix_entry_count(p->whole, &count) == LAZBENDIX_DONE);
    WANT(lazbendix_entry_count(p->joining, &same) == LAZBENDIX_DONE && same == count);
    for (; p->entries < count; p->entries++) {
        WANT(lazbendix_entry_at(p->whole, p->entries, &whole, &maker) == LAZBENDIX_DONE);
        WANT(lazbendix_entry_at(p->joining, p->entries, &joining, &other) == LAZBENDIX_DONE);
        WANT(memcmp(&whole, &joining, sizeof whole) == 0 && maker == other);
    }
}

/* A run that is blocked where runs join is so where all were there: a join forgets of all that they are. */
static void ask_blocked(const player *p) {
    uint64_t whole, joining;
    WANT(lazbendix_blocked_runs(p->whole, &whole) == LAZBENDIX_DONE);
    WANT(lazbendix_blocked_runs(p->joining, &joining) == LAZBENDIX_DONE && !(joining & ~whole));
}

static void ask(player *p) {
    uint64_t runs;
    ask_left(p);
    ask_order(p);
    ask_entries(p);
    ask_blocked(p);
    for (uint32_t d = 0; d < p->played->devices; d++)
        ask_device(p, d);
    WANT(lazbendix_run_count(p->joining, p->number, &runs) == LAZBENDIX_DONE && runs == p->come);
}

/* Joins. */

static void join_wrongly(player *p, uint32_t routine) {
    uint32_t run = UNTOUCHED;
    WANT(lazbendix_add_run(p->joining, (uint32_t)p->played->routines, 0, &run) == LAZBENDIX_ABSENT);
    WANT(lazbendix_add_run(p->joining, routine, p->come + 1, &run) == LAZBENDIX_BAD_FOLLOW);
    WANT(run == UNTOUCHED);
    ask(p);
}

/* The next run of the window joins, here after each of its requests of memory was refused. */
static void join_tightly(player *p, uint32_t routine, uint32_t follows, uint32_t *run) {
    for (uint64_t request = 1;; request++) {
        before_refusal = request;
        int32_t status = lazbendix_add_run(p->joining, routine, follows, run);
        int was_refused = before_refusal == 0;
        before_refusal = 0;
        WANT(status == (was_refused ? LAZBENDIX_NO_MEMORY : LAZBENDIX_DONE));
        if (!was_refused)
            return;
        WANT(*run == UNTOUCHED);
        counts.refused++;
        ask(p);
    }
}

static void join(player *p, int is_open) {
    uint32_t routine = (uint32_t)p->window->routines.at[p->come], follows = (uint32_t)p->window->follows.at[p->come];
    uint32_t run = UNTOUCHED;
    lazbendix_left left;
    if (is_open && drawn_below(&p->joins, 8) == 0)
        join_wrongly(p, routine);
    if (is_open) {
        WANT(lazbendix_quiet(p->joining, &left) == LAZBENDIX_DONE);
        counts.joins++;
        counts.over += left.kind == 0;
        for (uint32_t actor = 0; actor < ACTORS; actor++)
            counts.out += (uint64_t)p->is_out[actor];
    }
    if (is_open && drawn_below(&p->joins, 4) == 0)
        join_tightly(p, routine, follows, &run);
    else
        WANT(lazbendix_add_run(p->joining, routine, follows, &run) == LAZBENDIX_DONE);
    WANT(run == ++p->come);
}

/* Before a step of the actor it has joined, and perhaps others have. */
static void let_join(player *p, uint32_t actor) {
    while (p->come < actor || (p->come < run_count(p) && drawn_below(&p->joins, 16) < p->eager)) {
        join(p, 1);
        ask(p);
    }
}

/* Steps. */

static void note(player *p, const lazbendix_made *whole, const lazbendix_made *joining) {
    WANT(memcmp(whole, joining, sizeof *whole) == 0);
    for (uint64_t i = 0; i < whole->count; i++) {
        const lazbendix_entry *it = &whole->entries[i];
        p->did[it->run] += it->kind == LAZBENDIX_DID;
        p->is_doomed[it->run] |= it->kind == LAZBENDIX_DOOMED;
        p->has_ended[it->run] |= it->kind == LAZBENDIX_COMMITTED || it->kind == LAZBENDIX_ABORTED;
    }
}

static void give(player *p, uint32_t actor) {
    const lazbendix_turn *turn = &p->out[actor];
    lazbendix_made whole, joining;
    uint32_t value, d = turn->device;
    p->is_out[actor] = 0;
    if (actor != DETECTOR && !p->is_undo[actor])
        p->moment += p->played->takes[p->window->routines.at[actor - 1]].at[p->did[actor]];
    uint32_t answer = call_device(&p->wall[d], turn, &value);
    WANT(lazbendix_give(p->whole, d, turn->ticket, answer, value, p->moment, &whole) == LAZBENDIX_DONE);
    WANT(lazbendix_give(p->joining, d, turn->ticket, answer, value, p->moment, &joining) == LAZBENDIX_DONE);
    note(p, &whole, &joining);
}

static void goes_out(player *p, uint32_t actor, const lazbendix_turn *turn) {
    p->out[actor] = *turn;
    p->is_out[actor] = 1;
    p->is_undo[actor] = p->is_doomed[actor];
}

static void probe(player *p) {
    lazbendix_turn whole, joining;
    uint32_t device = (uint32_t)(p->to_probe++ % p->played->devices);
    int32_t status = lazbendix_probe(p->whole, device, &whole);
    WANT(lazbendix_probe(p->joining, device, &joining) == status);
    if (status == LAZBENDIX_NO_PROBE)
        return;
    WANT(status == LAZBENDIX_DONE && memcmp(&whole, &joining, sizeof whole) == 0);
    goes_out(p, DETECTOR, &whole);
}

static int has_ended(const player *p, uint32_t actor) {
    if (actor == DETECTOR)
        return p->to_probe == p->window->probes * p->played->devices && !p->is_out[DETECTOR];
    return p->has_ended[actor];
}

static int step(player *p, uint32_t actor) {
    lazbendix_turn whole, joining;
    if (has_ended(p, actor))
        return PASSED;
    if (p->is_out[actor])
        return give(p, actor), PASSED;
    if (actor == DETECTOR)
        return probe(p), PASSED;
    WANT(lazbendix_take(p->whole, actor, p->moment, &whole) == LAZBENDIX_DONE);
    WANT(lazbendix_take(p->joining, actor, p->moment, &joining) == LAZBENDIX_DONE);
    WANT(memcmp(&whole, &joining, sizeof whole) == 0);
    note(p, &whole.made, &joining.made);
    if (whole.kind == LAZBENDIX_GO)
        goes_out(p, actor, &whole);
    return whole.kind == LAZBENDIX_WAITS ? WAITED : PASSED;
}

static int pick(player *p, uint32_t actor) {
    lazbendix_turn turn;
    let_join(p, actor);
    int did = step(p, actor);
    ask(p);
    WANT(lazbendix_take(p->joining, p->come + 1, p->moment, &turn) == LAZBENDIX_DONE && turn.kind == LAZBENDIX_NO_RUN);
    return did;
}

/* Picks until every actor has ended: one is drawn, and from it on the first that does not wait. */
static void finish(player *p) {
    for (;;) {
        uint32_t actors[ACTORS], count = 0;
        for (uint32_t actor = 0; actor <= run_count(p); actor++)
            if (!has_ended(p, actor))
                actors[count++] = actor;
        if (!count)
            return;
        uint64_t first = drawn_below(&p->draws, count), i = 0;
        while (i < count && pick(p, actors[(first + i) % count]) == WAITED)
            i++;
        WANT(i < count);
    }
}

/* Windows and days. */

/* Compares the text made last with the next bytes of the record, and answers how many they are. */
static size_t compare(lazbendix_hub *hub, size_t len, const day *played, size_t at) {
    uint8_t *made = (uint8_t *)malloc(len + 1);
    size_t got;
    WANT(made != NULL);
    made[len] = 0;
    WANT(lazbendix_read(hub, 0, made, len, &got) == LAZBENDIX_DONE && got == len);
    if (len > played->record.len - at || memcmp(made, played->record.at + at, len) != 0) {
        printf("made:\n%s\nwanted:\n%s\n", (char *)made, (char *)played->record.at + at);
        WANT(!"the record is that of the reference");
    }
    free(made);
    return len;
}

static size_t close_window(lazbendix_hub *hub, const day *played, size_t at) {
    size_t len;
    WANT(lazbendix_close_window(hub) == LAZBENDIX_DONE);
    WANT(lazbendix_record(hub, 1, &len) == LAZBENDIX_DONE);
    return compare(hub, len, played, at);
}

/* Opens the window in both homes, in the one with some of its runs. */
static void open_window(player *p) {
    uint32_t number;
    const char *at = p->window->at;
    WANT(lazbendix_window(p->whole, p->number) == LAZBENDIX_DONE);
    int32_t begun = lazbendix_begin_window(p->joining, (const uint8_t *)at, strlen(at), (uint32_t)p->window->probes, &number);
    WANT(begun == LAZBENDIX_DONE && number == p->number);
    for (uint64_t i = drawn_below(&p->joins, 4); i > 0 && p->come < run_count(p); i--)
        join(p, 0);
    WANT(lazbendix_window(p->joining, number) == LAZBENDIX_DONE);
    ask(p);
}

/* A window, from the place of its text in the record on. */
static size_t play_window(player *p, uint32_t k, size_t at) {
    static const uint64_t eager[] = { 0, 0, 1, 4 };
    p->window = &p->played->window[k];
    p->number = k;
    p->draws = p->window->seed;
    p->eager = eager[drawn_below(&p->joins, 4)];
    open_window(p);
    for (size_t i = 0; i < p->window->turns.len; i++)
        pick(p, (uint32_t)p->window->turns.at[i]);
    finish(p);
    counts.windows++;
    counts.runs += run_count(p);
    size_t len = close_window(p->whole, p->played, at);
    WANT(close_window(p->joining, p->played, at) == len);
    return len;
}

static size_t open_home(lazbendix_hub *hub, const day *played, const text *script) {
    lazbendix_fault fault;
    size_t len;
    WANT(lazbendix_open(hub, script->at, script->len, played->model, played->scheduler, &fault) == LAZBENDIX_DONE);
    WANT(lazbendix_head(hub, &len) == LAZBENDIX_DONE);
    return compare(hub, len, played, 0);
}

static void play(const day *played, uint64_t joins) {
#ifdef __cplusplus
    lazbendix_hub whole, joining;
#else
    lazbendix_hub whole = LAZBENDIX_HUB_CLOSED, joining = LAZBENDIX_HUB_CLOSED;
#endif
    device wall[MOST_DEVICES];
    size_t at = open_home(&whole, played, &played->script);
    WANT(open_home(&joining, played, &played->home) == at);
    for (uint32_t d = 0; d < played->devices; d++) {
        lazbendix_stand_told stand;
        WANT(lazbendix_stand(&whole, d, &stand) == LAZBENDIX_DONE);
        wall[d] = hung(&played->downs[d], stand.value);
    }
    for (uint32_t k = 0; k < played->windows; k++) {
        player p;
        memset(&p, 0, sizeof p);
        p.whole = &whole;
        p.joining = &joining;
        p.played = played;
        p.wall = wall;
        p.joins = joins + k;
        at += play_window(&p, k, at);
    }
    WANT(strncmp((const char *)played->record.at + at, "total ", 6) == 0);
    WANT(lazbendix_end(&whole) == LAZBENDIX_DONE && lazbendix_end(&joining) == LAZBENDIX_DONE);
}

int main(void) {
    static day played;
    uint64_t days = 0;
    now_played = &played;
    while (read_day(stdin, &played)) {
        long before = blocks;
        play(&played, ++days * 1000);
        WANT(blocks == before);
        free_day(&played);
    }
    WANT(counts.joins > 0 && counts.refused > 0 && counts.out > 0 && counts.over > 0);
    printf("%" PRIu64 " days with %" PRIu64 " windows, %" PRIu64 " of %" PRIu64 " runs join, %" PRIu64 " of them while all have "
           "ended, with %" PRIu64 " devices out: as where all were there\n",
           days, counts.windows, counts.joins, counts.runs, counts.over, counts.out);
    printf("%" PRIu64 " requests of memory of a join refused: as before\n", counts.refused);
    return 0;
}
