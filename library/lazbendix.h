/*
 * lazbendix: the proved core of a smart-home hub, for C.
 *
 * A home stands behind a handle. The caller opens windows on it, takes the runs of the window step by step, makes the
 * device calls that the steps ask for, however late and in which order, and hands the answers in. There is no input, no
 * output, no clock and no thread inside. What a step does is proved; README.md beside this file says what of it.
 *
 * Every call but lazbendix_version answers a status. Where it is not LAZBENDIX_DONE, the home is as it was, and so is all that the call would
 * have written; the exceptions are the fault of a script that is refused, and what is good of a log of which a call is. LAZBENDIX_NO_MEMORY is told only where no other
 * status of the call holds, but by lazbendix_open and lazbendix_reopen. A call on a closed handle writes nothing, not to the handle either.
 *
 * Numbers: devices, routines, windows, commands and entries count from 0, runs from 1. Moments are ms from the beginning
 * of the window, by the caller's clock; one that is earlier than the last counts as the last.
 *
 * WHAT NO CALL CAN TEST. Each of these is undefined:
 *  1. A handle is not copied: not by assignment, memcpy, or passing it by value. Two copies own one home, and a copy that
 *     is used after the other was ended uses memory that is free. Moving it is fine if the old bytes are not used again.
 *  2. Nobody writes into a handle. One that was never opened is all zeros (LAZBENDIX_HUB_CLOSED).
 *  3. Each pointer points to what its type says, aligned and for its whole length, and is not null, also at length 0. No
 *     `out` lies over the handle, the text or another `out`.
 *  4. One call at a time on one handle. Between threads it goes under a lock, by a thread's start or join, or over an
 *     atomic that is sequentially consistent. Two handles share nothing.
 *  5. malloc, realloc and free are of one allocator and align to 16. No call from a signal handler, nor from the forked
 *     child of a process with threads.
 *  6. There is stack for the call: 128 KB is enough for each.
 *  7. The names lazbendix_.. and rattle_alloc, rattle_dealloc and rattle_realloc are the library's alone.
 */
#ifndef LAZBENDIX_H
#define LAZBENDIX_H

#include <stddef.h>
#include <stdint.h>

/* The version of this header, 1.2.3 as 1002003; lazbendix_version answers that of the library. */
#define LAZBENDIX_VERSION 1001000

#ifdef __cplusplus
extern "C" {
#endif

/* The handle of a home. Its two words are the library's. */
typedef struct lazbendix_hub {
    uint64_t mark;
    void *at;
#ifdef __cplusplus
    lazbendix_hub() : mark(0), at(nullptr) {}
    lazbendix_hub(const lazbendix_hub &) = delete;
    lazbendix_hub &operator=(const lazbendix_hub &) = delete;
#endif
} lazbendix_hub;

#ifndef __cplusplus
#define LAZBENDIX_HUB_CLOSED { 0, 0 }
#endif

/* What a call answers. */
enum {
    LAZBENDIX_DONE = 0,        /* the call did what it says */
    LAZBENDIX_CLOSED = 1,      /* the handle is closed: never opened, ended, or of other bytes */
    LAZBENDIX_OPEN = 2,        /* the handle is open */
    LAZBENDIX_REFUSED = 3,     /* the script is refused: the fault tells why */
    LAZBENDIX_MODE = 4,        /* there is no such model or scheduler, or they do not go together */
    LAZBENDIX_NO_MEMORY = 5,   /* there is no memory; the call may be made again */
    LAZBENDIX_IN_WINDOW = 6,   /* a window is open */
    LAZBENDIX_NO_WINDOW = 7,   /* no window is open, or none was begun that is still to be opened */
    LAZBENDIX_ABSENT = 8,      /* there is no such window, routine, device, entry or final item */
    LAZBENDIX_TOO_MANY = 9,    /* more runs, rounds of probes, or windows of a home than there may be; more bytes than the room has */
    LAZBENDIX_NOT_OUT = 10,    /* the device is not out, or is out with another ticket: an answer that is late, or twice */
    LAZBENDIX_WRONG = 11,      /* no answer to the task */
    LAZBENDIX_DIFFERS = 12,    /* a sense found another value than that at which the device stands for the hub */
    LAZBENDIX_NO_PROBE = 13,   /* the device is out, or no probe of it is left, or there is no such device */
    LAZBENDIX_NOT_QUIET = 14,  /* a run of the window has not ended, or a device is out */
    LAZBENDIX_NO_RECORD = 15,  /* no window was closed since the last one was begun or opened */
    LAZBENDIX_BAD_TIME = 16,   /* no time, or one that is not later than that of the window before */
    LAZBENDIX_BAD_FOLLOW = 17, /* the run that is to be followed is none of those before */
    LAZBENDIX_NO_VALUE = 18,   /* the device has no such value */
    LAZBENDIX_NO_CALL = 19     /* a call of the log is refused; or no call has these numbers */
};

/* How the runs of a window see each other, and how a run gets its place. The last two schedulers go with the eventual
   model alone. */
enum { LAZBENDIX_EVENTUAL = 0, LAZBENDIX_PARTITIONED = 1, LAZBENDIX_GLOBAL = 2, LAZBENDIX_WEAK = 3 };
enum { LAZBENDIX_FCFS = 0, LAZBENDIX_JIT = 1, LAZBENDIX_TIMELINE = 2 };

/* Why a script is refused, and where. A number that its kind does not speak of is 0. */
enum {
    LAZBENDIX_FAULT_NOT_JSON = 2, LAZBENDIX_FAULT_SHAPE, LAZBENDIX_FAULT_UNKNOWN_NAME, LAZBENDIX_FAULT_DOUBLE_NAME,
    LAZBENDIX_FAULT_BAD_NAME, LAZBENDIX_FAULT_BAD_STATE, LAZBENDIX_FAULT_BAD_TIME, LAZBENDIX_FAULT_TOO_MANY,
    LAZBENDIX_FAULT_BAD_FOLLOW, LAZBENDIX_FAULT_BAD_VERSION, LAZBENDIX_FAULT_BAD_TURN
};
/* The part of the script: numbers count from 1, and the inner one is that of the last four in their device, routine or
   window. */
enum {
    LAZBENDIX_PART_TOP = 1, LAZBENDIX_PART_DEVICE, LAZBENDIX_PART_DOWN, LAZBENDIX_PART_ROUTINE, LAZBENDIX_PART_COMMAND,
    LAZBENDIX_PART_WINDOW, LAZBENDIX_PART_TURN, LAZBENDIX_PART_RUN
};
/* Of what there are too many. */
enum {
    LAZBENDIX_COUNT_BYTES = 1, LAZBENDIX_COUNT_DEVICES, LAZBENDIX_COUNT_STATES, LAZBENDIX_COUNT_DOWNS,
    LAZBENDIX_COUNT_ROUTINES, LAZBENDIX_COUNT_COMMANDS, LAZBENDIX_COUNT_MS, LAZBENDIX_COUNT_WINDOWS,
    LAZBENDIX_COUNT_RUNS, LAZBENDIX_COUNT_TURNS, LAZBENDIX_COUNT_PROBES
};
typedef struct lazbendix_fault {
    uint64_t count; /* how many there are of what there are too many, or the version, where it is neither 1 nor 2 */
    uint64_t limit; /* how many there may be */
    uint32_t kind, counted, part, outer, inner;
    uint32_t zero;  /* always 0 */
} lazbendix_fault;

/* An entry of a window's history. A number that its kind does not speak of is 0. */
enum {
    LAZBENDIX_ARRIVED = 1, /* run, moment */
    LAZBENDIX_PLACED,      /* run, place, moment */
    LAZBENDIX_DID,         /* run, command, answer, value where the answer is FOUND */
    LAZBENDIX_UNDID,       /* run, device, drove */
    LAZBENDIX_FELL,        /* device: it failed */
    LAZBENDIX_ROSE,        /* device: it came back */
    LAZBENDIX_DOOMED,      /* run, cause: it will be aborted */
    LAZBENDIX_COMMITTED,   /* run */
    LAZBENDIX_ABORTED      /* run, cause */
};
enum { LAZBENDIX_FINE = 1, LAZBENDIX_FOUND, LAZBENDIX_DOWN, LAZBENDIX_SKIPPED };
enum {
    LAZBENDIX_MUST_DOWN = 1, /* command: a must command whose device was down */
    LAZBENDIX_REFUTED,       /* command, value: a must check that found this value */
    LAZBENDIX_LOST,          /* device: it failed between the run's first and last command on it */
    LAZBENDIX_REVOKED,       /* lender, device, deadline, moment: its lease was over when the lender asked */
    LAZBENDIX_DOWN_AT_END    /* device: a strict model aborts a run whose device is down at its end */
};
typedef struct lazbendix_entry {
    uint64_t moment, deadline;
    uint32_t kind, run, command, device, place, answer, value, drove, cause, lender;
} lazbendix_entry;

/* The entries of a step, in their order: the first `count` of the three. */
typedef struct lazbendix_made {
    lazbendix_entry entries[3];
    uint64_t count;
} lazbendix_made;

/* What the step of a run did. */
enum {
    LAZBENDIX_MOVED = 1, /* it made these entries */
    LAZBENDIX_WAITS,     /* it waits: why, and for which device and run */
    LAZBENDIX_GO,        /* a device is out: make its call, and give the answer with the ticket */
    LAZBENDIX_OVER,      /* it has ended, as `end` tells; entries where it ended in this step */
    LAZBENDIX_NO_RUN     /* the window has no such run */
};
enum {
    LAZBENDIX_FOLLOWS = 1, /* until the run ends that it follows */
    LAZBENDIX_DENIED,      /* the scheduler denies it the device; ends by time alone, or by a step */
    LAZBENDIX_BEHIND,      /* a run before it holds the device; ends by time alone, or by a step */
    LAZBENDIX_DIRTY,       /* it would read what a run before it may still take back */
    LAZBENDIX_STRICT,      /* a strict model lets that run end first */
    LAZBENDIX_BUSY         /* the device is out */
};
enum {
    LAZBENDIX_DRIVE = 1, /* drive the device to `value`: WORKED or DEAD */
    LAZBENDIX_SENSE,     /* sense it: FOUND_VALUE with `stood`, or DEAD; another value is DIFFERS */
    LAZBENDIX_PROBE,     /* probe it: WORKED or DEAD */
    LAZBENDIX_RESTORE    /* probe it, and where it answers drive it to `value`: WORKED where both did, else DEAD */
};
typedef struct lazbendix_turn {
    uint64_t ticket;
    lazbendix_made made;
    lazbendix_entry end;
    uint32_t kind, why, device;
    uint32_t run;   /* for which it waits; of a device that is out the run for which it is out, 0 for a probe */
    uint32_t task, value;
    uint32_t stood; /* the value at which the device that is out stands for the hub */
    uint32_t zero;  /* always 0 */
} lazbendix_turn;

/* What a device told. */
enum { LAZBENDIX_WORKED = 1, LAZBENDIX_FOUND_VALUE = 2, LAZBENDIX_DEAD = 3 };

/* What is left to do in a window: 0 nothing, 1 the smallest run that has not ended, 2 the smallest device that is out. */
typedef struct lazbendix_left { uint32_t kind, number; } lazbendix_left;

/* An item of a window's order. A number that its kind does not speak of is 0. */
enum {
    LAZBENDIX_RAN = 1, /* run, done whole */
    LAZBENDIX_FAILED,  /* device, and the number of its failure in the window, from 1 */
    LAZBENDIX_BACK     /* device, and the number of its restart in the window, from 1 */
};
typedef struct lazbendix_item { uint32_t kind, run, device, number; } lazbendix_item;

/* Where a device stands between two windows, and whether it is up, 1 or 0. */
typedef struct lazbendix_stand_told { uint32_t value, up; } lazbendix_stand_told;

typedef struct lazbendix_counts_told { uint64_t devices, routines, windows; } lazbendix_counts_told;

/* A call that changed the home, for a log. A number that its kind does not speak of is 0. */
enum {
    LAZBENDIX_CALL_BEGIN_WINDOW = 1, /* value: rounds of probes; first: the time, 20261201090500 for 2026-12-01T09:05:00 */
    LAZBENDIX_CALL_ADD_RUN,          /* value: the routine; of a run that follows another sort 1, first: that run */
    LAZBENDIX_CALL_WINDOW,           /* value: its number */
    LAZBENDIX_CALL_TAKE,             /* value: the run; second: the moment */
    LAZBENDIX_CALL_GIVE,             /* sort: WORKED, FOUND_VALUE with value, or DEAD; device; first: the ticket; second: the moment */
    LAZBENDIX_CALL_PROBE,            /* device */
    LAZBENDIX_CALL_CLOSE_WINDOW,
    LAZBENDIX_CALL_RESTAND,          /* device, value */
    LAZBENDIX_CALL_LOSE              /* device */
};
enum { LAZBENDIX_CALL_SIZE = 24 };
typedef struct lazbendix_call {
    uint64_t first, second;
    uint32_t kind, sort, device, value;
} lazbendix_call;

/* Opening and ending. */

/* Reads the script and opens its home on a closed handle: every device up at its start, no window open. Its windows are
   opened in this mode. OPEN, MODE, REFUSED (the fault tells why), NO_MEMORY (of any script, since reading takes memory). */
int32_t lazbendix_open(lazbendix_hub *h, const uint8_t *script, size_t len, uint32_t model, uint32_t scheduler,
                       lazbendix_fault *fault);
/* Opens the home of the script as lazbendix_open does, and makes the calls of the log on it, one after the other: it is the
   home on which they were made, also in the middle of a window. The log has 24 bytes for each call that changed the home, as
   docs/CALL-LOG.md says, and is read up to the first that is cut off or of no call; good tells how many bytes that are. With
   NO_CALL a call that is read is refused, and good tells how many bytes stand before it: the log is of another script, model
   or scheduler, or it lacks calls. OPEN, MODE, REFUSED (the fault tells why), NO_CALL, NO_MEMORY. */
int32_t lazbendix_reopen(lazbendix_hub *h, const uint8_t *script, size_t len, const uint8_t *log, size_t log_len, uint32_t model,
                         uint32_t scheduler, lazbendix_fault *fault, uint64_t *good);
/* Writes the LAZBENDIX_CALL_SIZE bytes of the call into the front of the room, as lazbendix_reopen reads them. Asks for no
   handle and takes no memory. TOO_MANY where the room is shorter, NO_CALL where no call has these numbers. */
int32_t lazbendix_log(const lazbendix_call *call, uint8_t *room, size_t room_len);
/* Closes the handle and frees all behind it, whatever is open or out. CLOSED. */
int32_t lazbendix_end(lazbendix_hub *h);
/* Answers the version of the library, as LAZBENDIX_VERSION has it, and no status. */
int32_t lazbendix_version(void);

/* A window. */

/* Opens the script's window of this number. IN_WINDOW, ABSENT, TOO_MANY (2^31 windows on one home), NO_MEMORY. */
int32_t lazbendix_window(lazbendix_hub *h, uint32_t number);
/* Makes the step of the run. NO_WINDOW. */
int32_t lazbendix_take(lazbendix_hub *h, uint32_t run, uint64_t now, lazbendix_turn *turn);
/* Hands in what the device told to the call with this ticket: a run's, or a probe's. NO_WINDOW, NOT_OUT, WRONG, DIFFERS: the
   device stays out. No two calls of a home have the same ticket, in whatever window, until it is ended: so an answer that
   comes late is never one to another call. A home that is opened anew gives tickets from 1 again. */
int32_t lazbendix_give(lazbendix_hub *h, uint32_t device, uint64_t ticket, uint32_t answer, uint32_t value, uint64_t now,
                       lazbendix_made *made);
/* Sends a probe to the device: the turn is a GO. NO_WINDOW, NO_PROBE. */
int32_t lazbendix_probe(lazbendix_hub *h, uint32_t device, lazbendix_turn *turn);
/* Tells 1 only of a run that need not be taken: it waits, at every moment, until another step; 0 says nothing. NO_WINDOW. */
int32_t lazbendix_blocked(lazbendix_hub *h, uint32_t run, uint32_t *yes);
/* Tells of all runs at once what lazbendix_blocked tells of one: of the run r in the bit r - 1. NO_WINDOW. */
int32_t lazbendix_blocked_runs(lazbendix_hub *h, uint64_t *runs);
/* Tells the turn with which the device went out, a GO, as lazbendix_take or lazbendix_probe told it. NO_WINDOW, ABSENT,
   NOT_OUT. */
int32_t lazbendix_out(lazbendix_hub *h, uint32_t device, lazbendix_turn *turn);
/* Tells how many items of the window's order are final: those before the first run that is live, from its place to its
   end, all where none is. They stay in their order, whatever comes. But under the weak model the order of the window's
   record begins with them. NO_WINDOW. */
int32_t lazbendix_sealed(lazbendix_hub *h, uint32_t *count);
/* Tells the final item at this place of the order. NO_WINDOW, ABSENT from lazbendix_sealed on. */
int32_t lazbendix_final_item(lazbendix_hub *h, uint32_t at, lazbendix_item *item);
/* Tells what is left to do in the window. NO_WINDOW. */
int32_t lazbendix_quiet(lazbendix_hub *h, lazbendix_left *left);
/* Closes the window. NO_WINDOW, NOT_QUIET. */
int32_t lazbendix_close_window(lazbendix_hub *h);

/* Texts. Each call makes one and tells its length; read copies it. */

/* The window closed last, as a record has it; with its trace where `trace` is not 0. NO_RECORD, NO_MEMORY. */
int32_t lazbendix_record(lazbendix_hub *h, uint32_t trace, size_t *len);
/* The two lines above the windows of a record. NO_MEMORY. */
int32_t lazbendix_head(lazbendix_hub *h, size_t *len);
/* The line of an entry, as a trace has it: of the open window, or of the one closed last. ABSENT, NO_MEMORY. */
int32_t lazbendix_entry_text(lazbendix_hub *h, uint64_t at, size_t *len);
/* Copies the text made last from the byte `from` on, as much as there is and fits, and tells how much. */
int32_t lazbendix_read(lazbendix_hub *h, size_t from, uint8_t *room, size_t room_len, size_t *got);

/* Entries: of the open window, or of the one closed last. */
int32_t lazbendix_entry_count(lazbendix_hub *h, uint64_t *count);
/* Tells the entry and its maker: the run that made the step, 0 for a probe. ABSENT. */
int32_t lazbendix_entry_at(lazbendix_hub *h, uint64_t at, lazbendix_entry *entry, uint32_t *maker);

/* Windows of the moment. A window is begun between two windows; runs are added to it then, and while it is open. */

/* Appends a window without runs to the script, and tells its number. The time is one as in a script, later than that of
   the window before. A script has 288 windows at most: those of a full day are dropped, and this one is the first of the
   next. IN_WINDOW, BAD_TIME, TOO_MANY (100 rounds of probes), NO_MEMORY. */
int32_t lazbendix_begin_window(lazbendix_hub *h, const uint8_t *at, size_t at_len, uint32_t probes, uint32_t *number);
/* Appends a run of the routine to the window that was begun, or to the one that is open, where it is the script's last
   one, and tells its number; it waits for the end of the run that it follows, 0 for none. A run that joins an open
   window has not arrived, and nothing else of the window changes; who sleeps by lazbendix_blocked asks again.
   NO_WINDOW, ABSENT, TOO_MANY (64 runs), BAD_FOLLOW, NO_MEMORY. */
int32_t lazbendix_add_run(lazbendix_hub *h, uint32_t routine, uint32_t follows, uint32_t *run);
/* Tells the home that the device was found up at this value, as somebody turned it. IN_WINDOW, ABSENT, NO_VALUE. */
int32_t lazbendix_restand(lazbendix_hub *h, uint32_t device, uint32_t value);
/* Tells the home that the device is lost, as its own protocol says: the next window begins with it down, and a probe
   finds it. Its value stays, and so does one that is down. IN_WINDOW, ABSENT. */
int32_t lazbendix_lose(lazbendix_hub *h, uint32_t device);

/* The home and its script. */

/* How the device stands between two windows. IN_WINDOW, ABSENT. */
int32_t lazbendix_stand(lazbendix_hub *h, uint32_t device, lazbendix_stand_told *stand);
int32_t lazbendix_counts(lazbendix_hub *h, lazbendix_counts_told *counts);
/* How many runs the script's window has, 0 where there is none. */
int32_t lazbendix_run_count(lazbendix_hub *h, uint32_t window, uint64_t *count);
/* A name, of at most 32 bytes, as much as fits, and its length, 0 where there is none. */
int32_t lazbendix_device_name(lazbendix_hub *h, uint32_t device, uint8_t *room, size_t room_len, size_t *len);
int32_t lazbendix_routine_name(lazbendix_hub *h, uint32_t routine, uint8_t *room, size_t room_len, size_t *len);
int32_t lazbendix_value_name(lazbendix_hub *h, uint32_t device, uint32_t value, uint8_t *room, size_t room_len,
                             size_t *len);

#ifdef __cplusplus
}
#endif

#endif
