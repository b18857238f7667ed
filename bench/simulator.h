/* A flash in memory whose power-ups follow a plan. */
#ifndef SIMULATOR_H
#define SIMULATOR_H

#include <stdbool.h>
#include <stdlib.h>
#include <string.h>
#include "flash.h"

enum { PLAN_LIMIT = 16 };

typedef struct {
    uint32_t charge;
    uint8_t residue;
    uint64_t pattern;
} entry_t;

/* `entry` is what the last power-up set, its charge less the writes since. */
typedef struct {
    unsigned banks, width;
    unit_t *table;
    bool on;
    entry_t entry, plan[PLAN_LIMIT];
    unsigned planned, taken;
} simulator_t;

static inline unsigned simulator_banks(const simulator_t *f) { return f->banks; }

static inline unsigned simulator_width(const simulator_t *f) { return f->width; }

static inline int simulator_read(const simulator_t *f, unsigned bank, unsigned unit, unit_t *out) {
    if (!f->on) return OFF;
    if (bank >= f->banks || unit >= f->width) return MISSING;
    *out = f->table[bank * f->width + unit];
    return 0;
}

static inline int simulator_program(simulator_t *f, unsigned bank, unsigned unit, uint64_t value) {
    if (!f->on) return OFF;
    if (bank >= f->banks || unit >= f->width) return MISSING;
    unit_t *u = &f->table[bank * f->width + unit];
    if (u->state != BLANK) return NOT_BLANK;
    if (f->entry.charge == 0) {
        if (f->entry.residue == 1) *u = (unit_t){ PROGRAMMED, value };
        if (f->entry.residue > 1) u->state = UNREADABLE;
        f->on = false;
        return CUT;
    }
    *u = (unit_t){ PROGRAMMED, value };
    f->entry.charge--;
    return 0;
}

/* What a cut erase leaves of unit u: two bits of the pattern decide. */
static inline void simulator_residue(unit_t *unit, unsigned u, uint64_t pattern) {
    unsigned bits = pattern >> (2 * (u % 32)) & 3;
    if (bits == 1) unit->state = BLANK;
    if (bits > 1) unit->state = UNREADABLE;
}

static inline int simulator_erase(simulator_t *f, unsigned bank) {
    if (!f->on) return OFF;
    if (bank >= f->banks) return MISSING;
    unit_t *units = f->table + bank * f->width;
    if (f->entry.charge == 0) {
        for (unsigned u = 0; u < f->width; u++) simulator_residue(&units[u], u, f->entry.pattern);
        f->on = false;
        return CUT;
    }
    memset(units, 0, f->width * sizeof *units);
    f->entry.charge--;
    return 0;
}

static inline void simulator_power_up(simulator_t *f) {
    f->entry = (entry_t){ UINT32_MAX, 2, 0 };
    if (f->taken < f->planned) f->entry = f->plan[f->taken++];
    f->on = true;
}

/* Adds an entry to the plan; false where it is full. */
static inline bool simulator_add_entry(simulator_t *f, entry_t entry) {
    if (f->planned == PLAN_LIMIT) return false;
    f->plan[f->planned++] = entry;
    return true;
}

/* Blank and off. */
static inline void simulator_make(simulator_t *f, unsigned width) {
    memset(f, 0, sizeof *f);
    f->banks = BANKS;
    f->width = width;
    f->table = calloc((size_t)BANKS * width, sizeof *f->table);
    if (!f->table) abort();
}

#endif
