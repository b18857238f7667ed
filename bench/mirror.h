/* A mirror of two flashes of one kind: MIRROR(NAME, SIDE) defines the kind NAME over the kind
   SIDE. */
#ifndef MIRROR_H
#define MIRROR_H

#include "image.h"
#include "simulator.h"

/* Turns the first side's unit into what both sides' units hold as one. */
static inline void mix(unit_t *a, const unit_t *b) {
    if (a->state == PROGRAMMED) return;
    if (a->state == UNREADABLE && b->state == PROGRAMMED) {
        *a = *b;
        return;
    }
    if (a->state == BLANK && b->state == BLANK) return;
    a->state = UNREADABLE;
}

/* What the mirror answers where a side refuses a read: off first, then that there is no such place.
   A mirror is off where a side is, and lacks the places that a side lacks. */
static inline int refused_read(int first, int second) {
    return first == OFF || second == OFF ? OFF : MISSING;
}

/* A read asks each side once. A write goes to one side, and to the other only where that one
   completed it. */
#define MIRROR(NAME, SIDE)                                                                        \
    typedef struct {                                                                              \
        SIDE##_t first, second;                                                                   \
    } NAME##_t;                                                                                   \
                                                                                                  \
    static inline unsigned NAME##_banks(const NAME##_t *f) {                                      \
        unsigned a = SIDE##_banks(&f->first), b = SIDE##_banks(&f->second);                       \
        return a < b ? a : b;                                                                     \
    }                                                                                             \
                                                                                                  \
    static inline unsigned NAME##_width(const NAME##_t *f) {                                      \
        unsigned a = SIDE##_width(&f->first), b = SIDE##_width(&f->second);                       \
        return a < b ? a : b;                                                                     \
    }                                                                                             \
                                                                                                  \
    static inline int NAME##_read(const NAME##_t *f, unsigned bank, unsigned unit, unit_t *out) { \
        unit_t other = { BLANK, 0 };                                                              \
        int first = SIDE##_read(&f->first, bank, unit, out);                                      \
        int second = SIDE##_read(&f->second, bank, unit, &other);                                 \
        if (first || second) return refused_read(first, second);                                  \
        mix(out, &other);                                                                         \
        return 0;                                                                                 \
    }                                                                                             \
                                                                                                  \
    static inline int NAME##_program(NAME##_t *f, unsigned bank, unsigned unit, uint64_t value) { \
        unit_t u = { BLANK, 0 };                                                                  \
        int no = NAME##_read(f, bank, unit, &u);                                                  \
        if (no) return no;                                                                        \
        if (u.state != BLANK) return NOT_BLANK;                                                   \
        no = SIDE##_program(&f->first, bank, unit, value);                                        \
        return no ? no : SIDE##_program(&f->second, bank, unit, value);                           \
    }                                                                                             \
                                                                                                  \
    static inline int NAME##_erase(NAME##_t *f, unsigned bank) {                                  \
        unit_t u = { BLANK, 0 };                                                                  \
        int no = NAME##_read(f, bank, 0, &u);                                                     \
        if (no) return no;                                                                        \
        no = SIDE##_erase(&f->second, bank);                                                      \
        return no ? no : SIDE##_erase(&f->first, bank);                                           \
    }                                                                                             \
                                                                                                  \
    static inline void NAME##_power_up(NAME##_t *f) {                                             \
        SIDE##_power_up(&f->first);                                                               \
        SIDE##_power_up(&f->second);                                                              \
    }                                                                                             \
                                                                                                  \
    static inline void NAME##_make(NAME##_t *f, unsigned width) {                                 \
        SIDE##_make(&f->first, width);                                                            \
        SIDE##_make(&f->second, width);                                                           \
    }

MIRROR(mirror, image)
MIRROR(mirrors, mirror)
MIRROR(simulators, simulator)

#endif
