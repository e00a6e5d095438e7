/* Calls of exports that are drawn, with arguments that are drawn, on four handles.

       ./fuzz [CALLS [SEED [REFUSED]]]

   Each call has to answer one of its own statuses, and where that is not DONE it may not have written anything; on a
   closed handle it leaves the handle's bytes too. A call of a device has a ticket above that of each call of its home
   before it, no answer is taken but one to a call that is out, a device that is out is told with the turn of its call,
   no item that is final changes, and a run that joins a window that is open is its last one. lazbendix_log has the status
   and the bytes that docs/CALL-LOG.md has for its numbers. Where REFUSED is not 0, one allocation of so many is refused in
   every second call. In the end no block of memory is left. Link it with -Wl,--wrap=malloc,--wrap=realloc,--wrap=free. */
#include "../lazbendix.h"
#include "home.h"
#include <inttypes.h>
#include <stdio.h>
#include <stdlib.h>
#include <string.h>

#define HANDLES 4
#define MOST_SCRIPT 2048
#define ROOM 64
#define STATUSES 20
#define ANSWERED 64
#define FINAL 16
#define MOST_LOG (24 * 40)

/* Memory, counted and refused. */

void *__real_malloc(size_t size);
void *__real_realloc(void *at, size_t size);
void __real_free(void *at);

static uint64_t draws = 1, refused_one_of;
static int is_tight; /* whether memory is refused in this call */
static long blocks;
static uint64_t asks; /* for memory */

static uint64_t drawn(void) {
    uint64_t z = draws += 0x9e3779b97f4a7c15u;
    z = (z ^ (z >> 30)) * 0xbf58476d1ce4e5b9u;
    z = (z ^ (z >> 27)) * 0x94d049bb133111ebu;
    return z ^ (z >> 31);
}

static int is_refused(void) {
    return is_tight && drawn() % refused_one_of == 0;
}

void *__wrap_malloc(size_t size) {
    asks++;
    void *at = is_refused() ? NULL : __real_malloc(size);
    blocks += at != NULL;
    return at;
}

void *__wrap_realloc(void *at, size_t size) {
    asks++;
    return is_refused() ? NULL : __real_realloc(at, size);
}

void __wrap_free(void *at) {
    blocks -= at != NULL;
    __real_free(at);
}

/* What the calls write. */

static struct {
    lazbendix_fault fault;
    lazbendix_turn turn;
    lazbendix_made made;
    lazbendix_entry entry;
    lazbendix_left left;
    lazbendix_item item;
    lazbendix_stand_told stand;
    lazbendix_counts_told counts;
    uint64_t wide;
    size_t len;
    uint32_t number;
    uint8_t room[ROOM];
} out, untouched;

static lazbendix_hub hubs[HANDLES];

/* What is known of the home behind a handle: the ticket that was given last, the call with which each device is out, and
   calls that were answered, of this home and of those before it. */
static struct {
    uint64_t ticket;
    lazbendix_turn out[DEVICES];
    int is_out[DEVICES];
    lazbendix_turn answered[ANSWERED];
    lazbendix_turn last;
    lazbendix_item final_items[FINAL]; /* of the window that is open */
    uint32_t sealed;
    uint32_t last_window; /* of the script */
} known[HANDLES];

/* The runs that joined an open window. */
static uint64_t joins;

/* The device or the place of the question that was drawn. */
static uint32_t asked;

/* The device and the ticket of the answer that was drawn. */
static struct {
    uint32_t device;
    uint64_t ticket;
} given;

/* Arguments: mostly small ones, and those at edges. */

static uint64_t wide(void) {
    static const uint64_t edges[] = { 255, 256, 65535, 65536, UINT32_MAX, 1ull << 32, 1ull << 63, UINT64_MAX };
    return drawn() % 16 ? drawn() % 6 : edges[drawn() % (sizeof edges / sizeof *edges)];
}

static uint32_t small(void) {
    return (uint32_t)wide();
}

/* The script of the home, as a rule with a byte or two changed, cut, or other bytes. */
static size_t script(uint8_t *at) {
    size_t len = strlen(HOME);
    memcpy(at, HOME, len);
    switch (drawn() % 8) {
    case 0:
        for (size_t i = 0; i < 1 + drawn() % 2; i++)
            at[drawn() % len] = (uint8_t)drawn();
        return len;
    case 1:
        return drawn() % len;
    case 2:
        for (size_t i = 0; i < ROOM; i++)
            at[i] = (uint8_t)drawn();
        return drawn() % ROOM;
    default:
        return len;
    }
}

static int32_t open_hub(int h) {
    static uint8_t text[MOST_SCRIPT];
    size_t len = script(text);
    return lazbendix_open(&hubs[h], text, len, drawn() % 4 ? 0 : small(), drawn() % 4 ? small() % 3 : small(), &out.fault);
}

/* A log of calls: a window is opened and stepped, as a rule, and then anything, some of it no calls. */
static size_t draw_log(uint8_t *at) {
    size_t calls = drawn() % (MOST_LOG / 24);
    for (size_t i = 0; i < calls; i++) {
        uint64_t kind = i == 0 ? 3 : drawn() % 4 ? 4 : drawn() % 10;
        uint64_t words[] = { kind | (drawn() % 8 ? 0 : small() % 4) << 8, kind == 4 || kind == 5 ? wide() : 0 };
        memset(at + 24 * i, 0, 24);
        memcpy(at + 24 * i, &words[0], 2);
        at[24 * i + 2] = kind == 5 || kind == 6 || kind > 7 ? (uint8_t)small() : 0;
        at[24 * i + 4] = kind == 4 ? (uint8_t)(1 + drawn() % 3) : kind == 6 || kind == 7 ? 0 : (uint8_t)small() % 4;
        at[24 * i + 8] = kind == 5 ? (uint8_t)(1 + drawn() % 3) : 0;
        memcpy(at + 24 * i + 16, &words[1], 8);
    }
    return calls && drawn() % 8 == 0 ? 24 * calls - drawn() % 24 : 24 * calls;
}

/* Opens a home again and ends it, so that what is known of homes stays. */
static int32_t reopen(int h) {
    static uint8_t text[MOST_SCRIPT], log[MOST_LOG];
    size_t len = script(text), log_len = draw_log(log);
    int32_t status = lazbendix_reopen(&hubs[h], text, len, log, log_len, drawn() % 4 ? 0 : small(), drawn() % 4 ? small() % 3 : small(),
                                      &out.fault, &out.wide);
    if ((status == LAZBENDIX_DONE || status == LAZBENDIX_NO_CALL) && (out.wide > log_len || out.wide % 24))
        return -2;
    if (status == LAZBENDIX_DONE && lazbendix_end(&hubs[h]) != LAZBENDIX_DONE)
        return -2;
    return status;
}

/* The rows of the table in docs/CALL-LOG.md, and which of their cells are not empty. */
enum { DEVICE = 1, VALUE = 2, FIRST = 4, SECOND = 8 };
static const struct {
    uint32_t kind, sort;
    unsigned cells;
} rows[] = {
    { 1, 0, VALUE | FIRST },
    { 2, 0, VALUE },
    { 2, 1, VALUE | FIRST },
    { 3, 0, VALUE },
    { 4, 0, VALUE | SECOND },
    { 5, 1, DEVICE | FIRST | SECOND },
    { 5, 2, DEVICE | VALUE | FIRST | SECOND },
    { 5, 3, DEVICE | FIRST | SECOND },
    { 6, 0, DEVICE },
    { 7, 0, 0 },
    { 8, 0, DEVICE | VALUE },
    { 9, 0, DEVICE },
};

static int is_time(uint64_t at) {
    uint64_t month = at / 100000000 % 100, day = at / 1000000 % 100;
    int is_day = at / 10000000000 <= 9999 && 1 <= month && month <= 12 && 1 <= day && day <= 31;
    return is_day && at / 10000 % 100 <= 23 && at / 100 % 100 <= 59 && at % 100 <= 59;
}

/* Whether a call has these numbers, by that page. */
static int is_call(const lazbendix_call *it) {
    for (size_t i = 0; i < sizeof rows / sizeof *rows; i++) {
        if (rows[i].kind != it->kind || rows[i].sort != it->sort)
            continue;
        unsigned filled = (it->device ? DEVICE : 0) | (it->value ? VALUE : 0) | (it->first ? FIRST : 0) | (it->second ? SECOND : 0);
        int is_first = it->kind == 1 ? is_time(it->first) : it->kind != 2 || it->first <= UINT32_MAX;
        return !(filled & ~rows[i].cells) && it->device <= UINT16_MAX && is_first;
    }
    return 0;
}

/* A time, some of whose parts are 0 or one too large. */
static uint64_t draw_time(void) {
    static const unsigned bounds[] = { 14, 33, 25, 61, 61 };
    uint64_t at = drawn() % 8 ? 2000 + drawn() % 100 : 9990 + drawn() % 20;
    for (size_t i = 0; i < sizeof bounds / sizeof *bounds; i++)
        at = 100 * at + (drawn() % 2 ? bounds[i] - 1 - (drawn() % 4 != 0) : drawn() % bounds[i]);
    return at;
}

/* The numbers of a row, as a rule; one of them is any in every fourth call. */
static lazbendix_call draw_call(void) {
    size_t row = drawn() % (sizeof rows / sizeof *rows);
    unsigned cells = rows[row].cells;
    lazbendix_call it = { .kind = rows[row].kind, .sort = rows[row].sort };
    it.device = cells & DEVICE ? small() : 0;
    it.value = cells & VALUE ? (drawn() % 2 ? small() : (uint32_t)drawn()) : 0;
    it.first = !(cells & FIRST) ? 0 : it.kind == 1 ? draw_time() : drawn() % 4 ? wide() : drawn();
    it.second = cells & SECOND ? (drawn() % 2 ? wide() : drawn()) : 0;
    switch (drawn() % 24) {
    case 0: it.kind = small(); break;
    case 1: it.sort = small(); break;
    case 2: it.device = small(); break;
    case 3: it.value = small(); break;
    case 4: it.first = wide(); break;
    case 5: it.second = wide(); break;
    default: break;
    }
    return it;
}

/* The call that was drawn for a log, the length of its room, and how often memory was asked for. */
static struct {
    lazbendix_call call;
    size_t len;
    uint64_t asks;
} logged;

static int32_t log_call(void) {
    logged.call = draw_call();
    logged.len = drawn() % 2 ? LAZBENDIX_CALL_SIZE - 2 + drawn() % 4 : drawn() % (ROOM + 1);
    lazbendix_call call = logged.call;
    logged.asks = asks;
    int32_t status = lazbendix_log(&call, out.room, logged.len);
    logged.asks = asks - logged.asks;
    return memcmp(&call, &logged.call, sizeof call) == 0 ? status : -2;
}

static int32_t begin_window(int h) {
    static unsigned seconds;
    char text[ROOM];
    unsigned at = seconds++;
    int len = snprintf(text, sizeof text, "20%02u-04-26T%02u:%02u:%02u", 22 + at / 86400 % 70, at / 3600 % 24, at / 60 % 60, at % 60);
    if (drawn() % 8 == 0)
        text[drawn() % (unsigned)len] = (char)drawn();
    return lazbendix_begin_window(&hubs[h], (uint8_t *)text, (size_t)len, small() % 128, &out.number);
}

/* An answer: to the call that went out last, to one that was answered before, or any. */
static int32_t give(int h) {
    const lazbendix_turn *turn = drawn() % 4 ? &known[h].last : &known[h].answered[drawn() % ANSWERED];
    uint32_t answer = drawn() % 8 == 0 ? LAZBENDIX_DEAD : turn->task == LAZBENDIX_SENSE ? LAZBENDIX_FOUND_VALUE : LAZBENDIX_WORKED;
    uint32_t value = turn->stood;
    given.device = turn->device;
    given.ticket = turn->ticket;
    if (drawn() % 4 == 0) {
        given.device = small();
        given.ticket = wide();
        answer = small();
        value = small();
    }
    return lazbendix_give(&hubs[h], given.device, given.ticket, answer, value, wide(), &out.made);
}

enum call {
    OPEN, REOPEN, LOG, END, WINDOW, TAKE, GIVE, PROBE, BLOCKED, BLOCKED_RUNS, OUT, SEALED, FINAL_ITEM, QUIET, CLOSE_WINDOW,
    RECORD, HEAD, ENTRY_TEXT, READ, ENTRY_COUNT, ENTRY_AT, BEGIN_WINDOW, ADD_RUN, RESTAND, LOSE, STAND, COUNTS, RUN_COUNT, DEVICE_NAME,
    ROUTINE_NAME, VALUE_NAME, CALLS
};

#define BIT(status) (1u << LAZBENDIX_##status)

/* What each call may answer beside DONE and CLOSED. */
static const struct {
    const char *name;
    uint32_t statuses;
} calls[CALLS] = {
    [OPEN] = { "open", BIT(OPEN) | BIT(MODE) | BIT(REFUSED) | BIT(NO_MEMORY) },
    [REOPEN] = { "reopen", BIT(OPEN) | BIT(MODE) | BIT(REFUSED) | BIT(NO_CALL) | BIT(NO_MEMORY) },
    [LOG] = { "log", BIT(TOO_MANY) | BIT(NO_CALL) },
    [END] = { "end", 0 },
    [WINDOW] = { "window", BIT(IN_WINDOW) | BIT(ABSENT) | BIT(TOO_MANY) | BIT(NO_MEMORY) },
    [TAKE] = { "take", BIT(NO_WINDOW) },
    [GIVE] = { "give", BIT(NO_WINDOW) | BIT(NOT_OUT) | BIT(WRONG) | BIT(DIFFERS) },
    [PROBE] = { "probe", BIT(NO_WINDOW) | BIT(NO_PROBE) },
    [BLOCKED] = { "blocked", BIT(NO_WINDOW) },
    [BLOCKED_RUNS] = { "blocked_runs", BIT(NO_WINDOW) },
    [OUT] = { "out", BIT(NO_WINDOW) | BIT(ABSENT) | BIT(NOT_OUT) },
    [SEALED] = { "sealed", BIT(NO_WINDOW) },
    [FINAL_ITEM] = { "final_item", BIT(NO_WINDOW) | BIT(ABSENT) },
    [QUIET] = { "quiet", BIT(NO_WINDOW) },
    [CLOSE_WINDOW] = { "close_window", BIT(NO_WINDOW) | BIT(NOT_QUIET) },
    [RECORD] = { "record", BIT(NO_RECORD) | BIT(NO_MEMORY) },
    [HEAD] = { "head", BIT(NO_MEMORY) },
    [ENTRY_TEXT] = { "entry_text", BIT(ABSENT) | BIT(NO_MEMORY) },
    [READ] = { "read", 0 },
    [ENTRY_COUNT] = { "entry_count", 0 },
    [ENTRY_AT] = { "entry_at", BIT(ABSENT) },
    [BEGIN_WINDOW] = { "begin_window", BIT(IN_WINDOW) | BIT(BAD_TIME) | BIT(TOO_MANY) | BIT(NO_MEMORY) },
    [ADD_RUN] = { "add_run", BIT(NO_WINDOW) | BIT(ABSENT) | BIT(BAD_FOLLOW) | BIT(TOO_MANY) | BIT(NO_MEMORY) },
    [RESTAND] = { "restand", BIT(IN_WINDOW) | BIT(ABSENT) | BIT(NO_VALUE) },
    [LOSE] = { "lose", BIT(IN_WINDOW) | BIT(ABSENT) },
    [STAND] = { "stand", BIT(IN_WINDOW) | BIT(ABSENT) },
    [COUNTS] = { "counts", 0 },
    [RUN_COUNT] = { "run_count", 0 },
    [DEVICE_NAME] = { "device_name", 0 },
    [ROUTINE_NAME] = { "routine_name", 0 },
    [VALUE_NAME] = { "value_name", 0 },
};

static int32_t make(enum call call, int h) {
    lazbendix_hub *hub = &hubs[h];
    size_t len = drawn() % (ROOM + 1);
    switch (call) {
    case OPEN: return open_hub(h);
    case REOPEN: return reopen(h);
    case LOG: return log_call();
    case END: return lazbendix_end(hub);
    case WINDOW: return lazbendix_window(hub, drawn() % 2 ? known[h].last_window : drawn() % 2 ? small() : (uint32_t)(drawn() % 40));
    case TAKE: return lazbendix_take(hub, small(), wide(), &out.turn);
    case GIVE: return give(h);
    case PROBE: return lazbendix_probe(hub, small(), &out.turn);
    case BLOCKED: return lazbendix_blocked(hub, small(), &out.number);
    case BLOCKED_RUNS: return lazbendix_blocked_runs(hub, &out.wide);
    case OUT: return lazbendix_out(hub, asked = small(), &out.turn);
    case SEALED: return lazbendix_sealed(hub, &out.number);
    case FINAL_ITEM: return lazbendix_final_item(hub, asked = small(), &out.item);
    case QUIET: return lazbendix_quiet(hub, &out.left);
    case CLOSE_WINDOW: return lazbendix_close_window(hub);
    case RECORD: return lazbendix_record(hub, small(), &out.len);
    case HEAD: return lazbendix_head(hub, &out.len);
    case ENTRY_TEXT: return lazbendix_entry_text(hub, wide(), &out.len);
    case READ: return lazbendix_read(hub, (size_t)wide(), out.room, len, &out.len);
    case ENTRY_COUNT: return lazbendix_entry_count(hub, &out.wide);
    case ENTRY_AT: return lazbendix_entry_at(hub, wide(), &out.entry, &out.number);
    case BEGIN_WINDOW: return begin_window(h);
    case ADD_RUN: return lazbendix_add_run(hub, small(), small(), &out.number);
    case RESTAND: return lazbendix_restand(hub, small(), small());
    case LOSE: return lazbendix_lose(hub, small());
    case STAND: return lazbendix_stand(hub, small(), &out.stand);
    case COUNTS: return lazbendix_counts(hub, &out.counts);
    case RUN_COUNT: return lazbendix_run_count(hub, small(), &out.wide);
    case DEVICE_NAME: return lazbendix_device_name(hub, small(), out.room, len, &out.len);
    case ROUTINE_NAME: return lazbendix_routine_name(hub, small(), out.room, len, &out.len);
    case VALUE_NAME: return lazbendix_value_name(hub, small(), small(), out.room, len, &out.len);
    case CALLS: break;
    }
    return -1;
}

/* A call that is drawn: those that take a window on come more often. */
static enum call drawn_call(void) {
    static const enum call often[] = { TAKE, TAKE, GIVE, GIVE, WINDOW, CLOSE_WINDOW, OPEN, ADD_RUN };
    if (drawn() % 2)
        return often[drawn() % (sizeof often / sizeof *often)];
    enum call call = (enum call)(drawn() % CALLS);
    return call == END && drawn() % 8 ? READ : call;
}

static void wrong(uint64_t number, enum call call, int32_t status, const char *what) {
    printf("call %" PRIu64 ", %s, status %d: %s\n", number, calls[call].name, (int)status, what);
    exit(1);
}

/* The run that was added is the last one of the script's last window, and where that is open no run is blocked any more. */
static const char *note_run(int h) {
    uint64_t runs, blocked = 0;
    int is_open = lazbendix_blocked_runs(&hubs[h], &blocked) == LAZBENDIX_DONE;
    joins += (uint64_t)is_open;
    if (lazbendix_run_count(&hubs[h], known[h].last_window, &runs) != LAZBENDIX_DONE || runs != out.number)
        return "a run is not the last one";
    return blocked ? "a run is blocked after a join" : NULL;
}

/* The numbers as bytes, low byte first. */
static void bytes_of(const lazbendix_call *it, uint8_t *bytes) {
    uint64_t words[] = { it->kind | it->sort << 8 | it->device << 16 | (uint64_t)it->value << 32, it->first, it->second };
    for (size_t i = 0; i < LAZBENDIX_CALL_SIZE; i++)
        bytes[i] = (uint8_t)(words[i / 8] >> i % 8 * 8);
}

/* Whether a home that is made again of these bytes reads a call in them, which it may refuse. */
static int is_read(const uint8_t *bytes) {
    lazbendix_hub hub = LAZBENDIX_HUB_CLOSED;
    lazbendix_fault fault;
    uint64_t good = 0;
    int32_t status =
        lazbendix_reopen(&hub, (const uint8_t *)HOME, strlen(HOME), bytes, LAZBENDIX_CALL_SIZE, 0, 0, &fault, &good);
    lazbendix_end(&hub);
    return status == LAZBENDIX_NO_CALL || (status == LAZBENDIX_DONE && good);
}

/* The header's statuses of a call for a log, which takes no memory and no handle, and the page's bytes. */
static const char *note_log(int32_t status) {
    const lazbendix_call *it = &logged.call;
    uint8_t bytes[LAZBENDIX_CALL_SIZE];
    int32_t wanted = logged.len < LAZBENDIX_CALL_SIZE ? LAZBENDIX_TOO_MANY : is_call(it) ? LAZBENDIX_DONE : LAZBENDIX_NO_CALL;
    if (status != wanted)
        return "the header has another status";
    if (logged.asks)
        return "it asks for memory";
    bytes_of(it, bytes);
    if (status == LAZBENDIX_DONE && memcmp(out.room, bytes, sizeof bytes) != 0)
        return "the page has other bytes";
    size_t written = status == LAZBENDIX_DONE ? sizeof bytes : 0;
    if (memcmp(out.room + written, untouched.room + written, ROOM - written) != 0)
        return "it has written more than the bytes";
    if (it->kind <= UINT8_MAX && it->sort <= UINT8_MAX && it->device <= UINT16_MAX && is_read(bytes) != is_call(it))
        return "its bytes are read otherwise";
    return NULL;
}

/* Notes what the call did, and looks whether it may. */
static const char *note(enum call call, int h, int32_t status) {
    uint32_t d = given.device;
    if (call == LOG)
        return note_log(status);
    if (status != LAZBENDIX_DONE)
        return NULL;
    switch (call) {
    case OPEN:
        known[h].ticket = 0;
        known[h].last_window = WINDOWS - 1;
        break;
    case BEGIN_WINDOW:
        known[h].last_window = out.number;
        break;
    case ADD_RUN:
        return note_run(h);
    case TAKE:
    case PROBE:
        if (out.turn.kind != LAZBENDIX_GO)
            break;
        d = out.turn.device;
        if (out.turn.ticket <= known[h].ticket)
            return "a ticket is given twice";
        if (d >= DEVICES || known[h].is_out[d])
            return "a device goes out that is out";
        known[h].ticket = out.turn.ticket;
        known[h].last = known[h].out[d] = out.turn;
        known[h].is_out[d] = 1;
        break;
    case GIVE:
        if (d >= DEVICES || !known[h].is_out[d] || known[h].out[d].ticket != given.ticket)
            return "an answer is taken that is none to a call that is out";
        known[h].answered[drawn() % ANSWERED] = known[h].out[d];
        known[h].is_out[d] = 0;
        break;
    case OUT:
        if (asked >= DEVICES || !known[h].is_out[asked] || memcmp(&out.turn, &known[h].out[asked], sizeof out.turn) != 0)
            return "a device is told as out otherwise than it went out";
        break;
    case WINDOW:
        memset(known[h].final_items, 0, sizeof known[h].final_items);
        known[h].sealed = 0;
        break;
    case SEALED:
        if (out.number < known[h].sealed)
            return "fewer items are final than before";
        known[h].sealed = out.number;
        break;
    case FINAL_ITEM:
        if (asked < FINAL && known[h].final_items[asked].kind && memcmp(&out.item, &known[h].final_items[asked], sizeof out.item) != 0)
            return "an item that was final has changed";
        if (asked < FINAL)
            known[h].final_items[asked] = out.item;
        break;
    case END:
        memset(known[h].is_out, 0, sizeof known[h].is_out);
        break;
    default:
        break;
    }
    return NULL;
}

int main(int argc, char **argv) {
    static uint64_t counts[CALLS][STATUSES];
    uint64_t many = argc > 1 ? strtoull(argv[1], NULL, 10) : 100000;
    uint64_t seed = draws = argc > 2 ? strtoull(argv[2], NULL, 10) : 1;
    refused_one_of = argc > 3 ? strtoull(argv[3], NULL, 10) : 0;
    memset(&untouched, 0x55, sizeof untouched);
    for (uint64_t i = 1; i <= many; i++) {
        enum call call = drawn_call();
        int h = (int)(drawn() % HANDLES);
        memcpy(&out, &untouched, sizeof out);
        uint8_t before[sizeof hubs[h]]; /* to compare alone: a handle is not copied */
        memcpy(before, &hubs[h], sizeof before);
        is_tight = refused_one_of && drawn() % 2;
        int32_t status = make(call, h);
        is_tight = 0;
        if (status < 0 || status >= STATUSES || !((calls[call].statuses | BIT(DONE) | BIT(CLOSED)) >> status & 1))
            wrong(i, call, status, "it is no status of this call");
        if (status != LAZBENDIX_DONE && status != LAZBENDIX_REFUSED && status != LAZBENDIX_NO_CALL && memcmp(&out, &untouched, sizeof out) != 0)
            wrong(i, call, status, "it has written");
        if (status == LAZBENDIX_CLOSED && memcmp(before, &hubs[h], sizeof before) != 0)
            wrong(i, call, status, "it has written to the handle");
        const char *fault = note(call, h, status);
        if (fault)
            wrong(i, call, status, fault);
        counts[call][status]++;
    }
    for (int h = 0; h < HANDLES; h++)
        lazbendix_end(&hubs[h]);
    for (int call = 0; call < CALLS; call++)
        for (int status = 0; status < STATUSES; status++)
            if (counts[call][status] && argc > 4)
                printf("%-14s status %2d: %" PRIu64 "\n", calls[call].name, status, counts[call][status]);
    if (blocks) {
        printf("%ld blocks of memory are left\n", blocks);
        return 1;
    }
    if (!joins || !counts[LOG][LAZBENDIX_DONE] || !counts[LOG][LAZBENDIX_TOO_MANY] || !counts[LOG][LAZBENDIX_NO_CALL]) {
        puts("no run joined, or a status of a call for a log did not come");
        return 1;
    }
    printf("%" PRIu64 " calls of the seed %" PRIu64 ", in which %" PRIu64 " runs join: a status each time, and no block is left\n",
           many, seed, joins);
    return 0;
}
