/* The devices of the caller, as they hang on the wall: each stands at a value, and does not answer in calls of listed
   numbers. For C and C++. */
#ifndef WALL_H
#define WALL_H

#include "../lazbendix.h"
#include "cases.h"

#define MOST_DEVICES 256

typedef struct device {
    const numbers *downs; /* from which call on and before which one it does not answer, pair by pair */
    uint64_t calls;
    uint32_t stands;
} device;

static device hung(const numbers *downs, uint32_t stands) {
    device made = { downs, 0, stands };
    return made;
}

static int answers(device *it) {
    it->calls++;
    for (size_t i = 0; i + 1 < it->downs->len; i += 2)
        if (it->downs->at[i] <= it->calls && it->calls < it->downs->at[i + 1])
            return 0;
    return 1;
}

/* Makes the call that the turn asks for, and answers what the device told. */
static uint32_t call_device(device *it, const lazbendix_turn *turn, uint32_t *value) {
    *value = 0;
    if (!answers(it))
        return LAZBENDIX_DEAD;
    if (turn->task == LAZBENDIX_RESTORE && !answers(it))
        return LAZBENDIX_DEAD;
    if (turn->task == LAZBENDIX_DRIVE || turn->task == LAZBENDIX_RESTORE)
        it->stands = turn->value;
    if (turn->task == LAZBENDIX_SENSE)
        *value = it->stands;
    return turn->task == LAZBENDIX_SENSE ? LAZBENDIX_FOUND_VALUE : LAZBENDIX_WORKED;
}

#endif
