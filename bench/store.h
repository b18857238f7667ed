/* The store over one kind of flash, whose name is KIND, as -DKIND=simulator. Its type and calls
   have the kind's name before theirs: STORE(get) is simulator_store_get. A call answers 0 or the
   number of its refusal; what it gives goes to *out. */
#ifndef STORE_H
#define STORE_H

#include "mirror.h"
#include "readings.h"

#define JOINED(a, b) a##_##b
#define NAMED(kind, name) JOINED(kind, name)
#define FLASH(name) NAMED(KIND, name)
#define STORE(name) NAMED(KIND, store_##name)

typedef enum { COLD, READY, CHANGING } phase_t;

/* What the units read as: active bank, pairs, number, and the place after the last unit in use. */
typedef struct {
    unsigned bank;
    pairs_t pairs;
    uint32_t number;
    unsigned end;
} standing_t;

/* Where the last write stopped that a call refused with 11; an erase has no unit, -1. */
typedef struct {
    unsigned bank;
    int unit;
} place_t;

/* An open change has its pairs in `change` and its ticket in `open`; `next` is the next ticket. */
typedef struct {
    FLASH(t) flash;
    phase_t phase;
    standing_t standing;
    pairs_t change;
    uint32_t open, next;
    place_t stopped;
} STORE(t);

/* A cold store over a blank flash of 2 banks, whose first ticket is 1. */
void STORE(make)(STORE(t) *s, unsigned units);
int STORE(format)(STORE(t) *s, uint32_t *out);
int STORE(recover)(STORE(t) *s, uint32_t *out);
int STORE(begin)(STORE(t) *s, uint32_t *out);
int STORE(put)(STORE(t) *s, uint32_t ticket, uint8_t key, int32_t value, uint32_t *out);
int STORE(commit)(STORE(t) *s, uint32_t ticket, uint32_t *out);
int STORE(abandon)(STORE(t) *s, uint32_t ticket);
/* *has is false where the key has no value. */
int STORE(get)(STORE(t) *s, uint8_t key, bool *has, int32_t *out);
int STORE(temperature)(STORE(t) *s, int32_t ut, step_t *out);
int STORE(pressure)(STORE(t) *s, step_t step, int32_t up, line_t *out);

#endif
