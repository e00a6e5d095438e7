/* Plays the days of cases.py through the library, and compares each record, byte for byte, with that of the reference.
   It is C and C++ alike.

       python3 cases.py | ./plays

   The devices stand here: they fail as the script's `down` says. The actors of a window, its runs and the detector, are
   stepped in the order of `replay`. Each answer is first given as it must not be, and all of these are refused; the
   entries that the steps told are those of the history, and their lines those of the trace. After each step each device
   that is out is told with its turn, and no other one; the items that are final stay, and are the order of the record. */
#include "../lazbendix.h"
#include "cases.h"
#include "wall.h"

#define ACTORS 65  /* the detector, and the runs of a window */
#define DETECTOR 0

static const day *now_played;

#define WANT(it) ((it) ? (void)0 : wrong(__LINE__, #it))

static void wrong(int line, const char *what) {
    printf("%s, model %u, scheduler %u: line %d: %s\n", now_played->name, now_played->model, now_played->scheduler, line, what);
    exit(1);
}

/* The actors of a window. */

typedef struct player {
    lazbendix_hub *hub;
    const day *played;
    const played_window *window;
    device *wall;
    uint64_t moment, to_probe, draws, asked;
    size_t told_len;
    lazbendix_entry *told; /* the entries of all steps */
    int has_ended[ACTORS], is_doomed[ACTORS], is_out[ACTORS], is_undo[ACTORS];
    uint64_t did[ACTORS];
    lazbendix_turn out[ACTORS];
    uint32_t final_len;
    lazbendix_item *final_items;
} player;

enum { PASSED, WAITED };

static void note(player *p, const lazbendix_made *made) {
    WANT(made->count <= 3);
    for (uint64_t i = 0; i < made->count; i++) {
        const lazbendix_entry *it = &made->entries[i];
        p->told = (lazbendix_entry *)realloc(p->told, (p->told_len + 1) * sizeof *it);
        WANT(p->told != NULL);
        p->told[p->told_len++] = *it;
        p->did[it->run] += it->kind == LAZBENDIX_DID;
        p->is_doomed[it->run] |= it->kind == LAZBENDIX_DOOMED;
        p->has_ended[it->run] |= it->kind == LAZBENDIX_COMMITTED || it->kind == LAZBENDIX_ABORTED;
    }
}

/* Each device that is out is told with its turn, and of this one whether it is out. */
static void ask_devices(player *p, uint32_t device) {
    lazbendix_turn turn;
    int is_out = 0;
    for (uint32_t actor = 0; actor <= p->window->routines.len; actor++) {
        if (!p->is_out[actor])
            continue;
        is_out |= p->out[actor].device == device;
        WANT(lazbendix_out(p->hub, p->out[actor].device, &turn) == LAZBENDIX_DONE);
        WANT(memcmp(&turn, &p->out[actor], sizeof turn) == 0);
    }
    WANT(lazbendix_out(p->hub, device, &turn) == (is_out ? LAZBENDIX_DONE : LAZBENDIX_NOT_OUT));
    WANT(lazbendix_out(p->hub, (uint32_t)p->played->devices, &turn) == LAZBENDIX_ABSENT);
}

/* No fewer items are final than before, and this one of them is what it was. */
static void ask_order(player *p, uint32_t at) {
    lazbendix_item item;
    uint32_t count;
    WANT(lazbendix_sealed(p->hub, &count) == LAZBENDIX_DONE && count >= p->final_len);
    p->final_items = (lazbendix_item *)realloc(p->final_items, (count + 1) * sizeof item);
    WANT(p->final_items != NULL);
    for (; p->final_len < count; p->final_len++)
        WANT(lazbendix_final_item(p->hub, p->final_len, &p->final_items[p->final_len]) == LAZBENDIX_DONE);
    WANT(lazbendix_final_item(p->hub, count, &item) == LAZBENDIX_ABSENT);
    if (at < count) {
        WANT(lazbendix_final_item(p->hub, at, &item) == LAZBENDIX_DONE);
        WANT(memcmp(&item, &p->final_items[at], sizeof item) == 0);
    }
}

/* Gives what the turn does not take, and looks that nothing comes of it. */
static void give_wrongly(player *p, const lazbendix_turn *turn) {
    lazbendix_made made;
    uint32_t d = turn->device;
    uint64_t ticket = turn->ticket;
    WANT(lazbendix_give(p->hub, d, ticket + 1000, LAZBENDIX_DEAD, 0, p->moment, &made) == LAZBENDIX_NOT_OUT);
    WANT(lazbendix_give(p->hub, d + 70000, ticket, LAZBENDIX_DEAD, 0, p->moment, &made) == LAZBENDIX_NOT_OUT);
    WANT(lazbendix_give(p->hub, d, ticket, 0, 0, p->moment, &made) == LAZBENDIX_WRONG);
    WANT(lazbendix_give(p->hub, d, ticket, 4, 0, p->moment, &made) == LAZBENDIX_WRONG);
    if (turn->task == LAZBENDIX_SENSE) {
        WANT(lazbendix_give(p->hub, d, ticket, LAZBENDIX_WORKED, 0, p->moment, &made) == LAZBENDIX_WRONG);
        WANT(lazbendix_give(p->hub, d, ticket, LAZBENDIX_FOUND_VALUE, turn->stood + 1, p->moment, &made) == LAZBENDIX_DIFFERS);
    } else {
        WANT(lazbendix_give(p->hub, d, ticket, LAZBENDIX_FOUND_VALUE, turn->stood, p->moment, &made) == LAZBENDIX_WRONG);
    }
    WANT(lazbendix_close_window(p->hub) == LAZBENDIX_NOT_QUIET);
}

static void give(player *p, uint32_t actor) {
    const lazbendix_turn *turn = &p->out[actor];
    lazbendix_made made;
    uint32_t value;
    p->is_out[actor] = 0;
    give_wrongly(p, turn);
    if (actor != DETECTOR && !p->is_undo[actor])
        p->moment += p->played->takes[p->window->routines.at[actor - 1]].at[p->did[actor]];
    uint32_t answer = call_device(&p->wall[turn->device], turn, &value);
    WANT(lazbendix_give(p->hub, turn->device, turn->ticket, answer, value, p->moment, &made) == LAZBENDIX_DONE);
    note(p, &made);
    WANT(lazbendix_give(p->hub, turn->device, turn->ticket, answer, value, p->moment, &made) == LAZBENDIX_NOT_OUT);
}

static int has_ended(const player *p, uint32_t actor) {
    if (actor == DETECTOR)
        return p->to_probe == p->window->probes * p->played->devices && !p->is_out[DETECTOR];
    return p->has_ended[actor];
}

static void probe(player *p) {
    uint32_t device = (uint32_t)(p->to_probe++ % p->played->devices);
    int32_t status = lazbendix_probe(p->hub, device, &p->out[DETECTOR]);
    if (status == LAZBENDIX_NO_PROBE)
        return;
    WANT(status == LAZBENDIX_DONE && p->out[DETECTOR].kind == LAZBENDIX_GO && p->out[DETECTOR].run == DETECTOR);
    p->is_out[DETECTOR] = 1;
}

static int step(player *p, uint32_t actor) {
    lazbendix_turn turn;
    if (has_ended(p, actor))
        return PASSED;
    if (p->is_out[actor])
        return give(p, actor), PASSED;
    if (actor == DETECTOR)
        return probe(p), PASSED;
    uint32_t blocked;
    uint64_t runs;
    WANT(lazbendix_blocked(p->hub, actor, &blocked) == LAZBENDIX_DONE);
    WANT(lazbendix_blocked_runs(p->hub, &runs) == LAZBENDIX_DONE && blocked == (runs >> (actor - 1) & 1));
    WANT(lazbendix_take(p->hub, actor, p->moment, &turn) == LAZBENDIX_DONE);
    WANT(!blocked || turn.kind == LAZBENDIX_WAITS);
    note(p, &turn.made);
    if (turn.kind == LAZBENDIX_GO) {
        WANT(turn.run == actor);
        p->out[actor] = turn;
        p->is_out[actor] = 1;
        p->is_undo[actor] = p->is_doomed[actor];
    }
    return turn.kind == LAZBENDIX_WAITS ? WAITED : PASSED;
}

/* A step, and what is asked of the window behind it, of a device and an item that go round. */
static int pick(player *p, uint32_t actor) {
    int did = step(p, actor);
    p->asked++;
    ask_devices(p, (uint32_t)(p->asked % p->played->devices));
    ask_order(p, (uint32_t)(p->asked % (p->final_len + 1)));
    return did;
}

static uint64_t drawn_below(player *p, uint64_t bound) {
    p->draws = p->draws * 6364136223846793005u + 1442695040888963407u;
    return (p->draws >> 33) % bound;
}

/* Picks until every actor has ended: one is drawn, and from it on the first that does not wait. */
static void finish(player *p) {
    for (;;) {
        uint32_t actors[ACTORS], count = 0;
        for (uint32_t actor = 0; actor <= p->window->routines.len; actor++)
            if (!has_ended(p, actor))
                actors[count++] = actor;
        if (!count)
            return;
        uint64_t first = drawn_below(p, count), i = 0;
        while (i < count && pick(p, actors[(first + i) % count]) == WAITED)
            i++;
        WANT(i < count);
    }
}

/* Texts. */

static text text_made(lazbendix_hub *hub, size_t len) {
    text made = { len, (uint8_t *)room(len + 1, 1) };
    size_t from = 0, got;
    do {
        size_t most = len - from < 100 ? len - from + 1 : 100;
        WANT(lazbendix_read(hub, from, made.at + from, most, &got) == LAZBENDIX_DONE);
        from += got;
    } while (got);
    WANT(from == len);
    return made;
}

/* Compares the text made last with the next bytes of the record, and answers how many they are. */
static size_t compare(lazbendix_hub *hub, size_t len, const day *played, size_t at) {
    text made = text_made(hub, len);
    if (len > played->record.len - at || memcmp(made.at, played->record.at + at, len) != 0) {
        printf("made:\n%s\nwanted:\n%s\n", (char *)made.at, (char *)played->record.at + at);
        WANT(!"the record is that of the reference");
    }
    free(made.at);
    return len;
}

/* The entries are those that were told, and their lines stand in the trace. */
static void compare_entries(player *p, const char *trace) {
    uint64_t count;
    WANT(lazbendix_entry_count(p->hub, &count) == LAZBENDIX_DONE && count == p->told_len);
    for (uint64_t i = 0; i < count; i++) {
        lazbendix_entry entry;
        uint32_t maker;
        size_t len;
        WANT(lazbendix_entry_at(p->hub, i, &entry, &maker) == LAZBENDIX_DONE);
        WANT(memcmp(&entry, &p->told[i], sizeof entry) == 0 && maker <= p->window->routines.len);
        WANT(lazbendix_entry_text(p->hub, i, &len) == LAZBENDIX_DONE);
        text line = text_made(p->hub, len);
        WANT(strncmp(trace, (char *)line.at, line.len) == 0);
        trace += line.len;
        trace += *trace == '\n';
        free(line.at);
    }
    WANT(strncmp(trace, "# ", 2) != 0);
}

/* The final items are the order that the record has behind this place, but under the weak model. */
static void compare_order(const player *p, const char *record) {
    const char *line = strstr(record, "\norder ");
    WANT(line != NULL);
    line += strlen("\norder");
    if (p->played->model == LAZBENDIX_WEAK)
        return;
    for (uint32_t i = 0; i < p->final_len; i++) {
        static const char *const words[] = { "", "fail(", "back(" };
        const lazbendix_item *it = &p->final_items[i];
        char item[128];
        uint8_t name[32];
        size_t len;
        if (it->kind == LAZBENDIX_RAN) {
            snprintf(item, sizeof item, " %" PRIu32, it->run);
        } else {
            WANT(it->kind == LAZBENDIX_FAILED || it->kind == LAZBENDIX_BACK);
            WANT(lazbendix_device_name(p->hub, it->device, name, sizeof name, &len) == LAZBENDIX_DONE);
            snprintf(item, sizeof item, " %s%.*s)", words[it->kind - 1], (int)len, (char *)name);
        }
        WANT(strncmp(line, item, strlen(item)) == 0);
        line += strlen(item);
    }
    WANT(*line == '\n' || (p->final_len == 0 && strncmp(line, " none\n", 6) == 0));
}

/* A window, from the place of its text in the record on. Counts the runs that committed. */
static size_t play_window(lazbendix_hub *hub, const day *played, uint32_t k, device *wall, size_t at, uint64_t *committed) {
    player p;
    memset(&p, 0, sizeof p);
    p.hub = hub;
    p.played = played;
    p.window = &played->window[k];
    p.wall = wall;
    p.draws = played->window[k].seed;
    lazbendix_left left;
    size_t len;
    uint64_t runs;
    WANT(lazbendix_run_count(hub, k, &runs) == LAZBENDIX_DONE && runs == p.window->routines.len);
    WANT(lazbendix_window(hub, k) == LAZBENDIX_DONE);
    WANT(lazbendix_window(hub, k) == LAZBENDIX_IN_WINDOW);
    for (size_t i = 0; i < p.window->turns.len; i++)
        pick(&p, (uint32_t)p.window->turns.at[i]);
    finish(&p);
    WANT(lazbendix_quiet(hub, &left) == LAZBENDIX_DONE && left.kind == 0 && left.number == 0);
    WANT(lazbendix_record(hub, 1, &len) == LAZBENDIX_NO_RECORD);
    WANT(lazbendix_close_window(hub) == LAZBENDIX_DONE);
    const char *head_end = strchr((char *)played->record.at + at, '\n');
    WANT(head_end != NULL);
    compare_entries(&p, head_end + 1);
    for (size_t i = 0; i < p.told_len; i++)
        *committed += p.told[i].kind == LAZBENDIX_COMMITTED;
    compare_order(&p, head_end);
    WANT(lazbendix_record(hub, 1, &len) == LAZBENDIX_DONE);
    free(p.told);
    free(p.final_items);
    return compare(hub, len, played, at);
}

static void play(const day *played) {
#ifdef __cplusplus
    lazbendix_hub hub;
#else
    lazbendix_hub hub = LAZBENDIX_HUB_CLOSED;
#endif
    lazbendix_fault fault;
    lazbendix_counts_told counts;
    device wall[MOST_DEVICES];
    size_t len, at;
    uint64_t runs = 0, committed = 0;
    char total[128];
    WANT(lazbendix_open(&hub, played->script.at, played->script.len, played->model, played->scheduler, &fault) == LAZBENDIX_DONE);
    WANT(lazbendix_counts(&hub, &counts) == LAZBENDIX_DONE);
    WANT(counts.devices == played->devices && counts.routines == played->routines && counts.windows == played->windows);
    for (uint32_t d = 0; d < played->devices; d++) {
        lazbendix_stand_told stand;
        WANT(lazbendix_stand(&hub, d, &stand) == LAZBENDIX_DONE && stand.up == 1);
        wall[d] = hung(&played->downs[d], stand.value);
    }
    WANT(lazbendix_head(&hub, &len) == LAZBENDIX_DONE);
    at = compare(&hub, len, played, 0);
    for (uint32_t k = 0; k < played->windows; k++) {
        at += play_window(&hub, played, k, wall, at, &committed);
        runs += played->window[k].routines.len;
    }
    snprintf(total, sizeof total, "total windows %zu runs %" PRIu64 " committed %" PRIu64 " aborted %" PRIu64 "\n",
             played->windows, runs, committed, runs - committed);
    WANT(strcmp((char *)played->record.at + at, total) == 0);
    WANT(lazbendix_end(&hub) == LAZBENDIX_DONE);
    WANT(lazbendix_end(&hub) == LAZBENDIX_CLOSED);
}

int main(void) {
    static day played;
    size_t days = 0, windows = 0;
    now_played = &played;
    while (read_day(stdin, &played)) {
        play(&played);
        days++;
        windows += played.windows;
        free_day(&played);
    }
    if (!days)
        bad_case("there is none");
    printf("%zu days with %zu windows: each record is that of the reference\n", days, windows);
    return 0;
}
