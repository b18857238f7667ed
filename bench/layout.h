/* The catalogue of keys and lists of pairs. */
#ifndef LAYOUT_H
#define LAYOUT_H

#include <stdbool.h>
#include <stdint.h>

enum { LAST_COEFFICIENT = 11, OSS = 12, PCOR = 13, LAST_KEY = 13 };

/* The most pairs that a change may have. */
enum { CHANGE_MOST = 12 };

/* The values that a key admits: those from the lowest to the highest, in some without 0 and -1. */
typedef struct {
    int32_t low, high;
    bool hole;
} limits_t;

/* By its keys; the row of key 0 admits nothing. */
extern const limits_t catalogue[LAST_KEY + 1];

static inline bool is_key(uint8_t key) { return key >= 1 && key <= LAST_KEY; }

static inline bool admits(uint8_t key, int32_t value) {
    if (!is_key(key)) return false;
    const limits_t *l = &catalogue[key];
    return value >= l->low && value <= l->high && !(l->hole && (value == 0 || value == -1));
}

/* Values by their keys; bit k of `has` says that key k has one. */
typedef struct {
    int32_t value[LAST_KEY + 1];
    uint16_t has;
} pairs_t;

static inline bool has_key(const pairs_t *p, unsigned key) { return p->has >> key & 1; }

/* How many bits are set: by pairs, by fours, by bytes, and their sum in the highest byte. */
static inline unsigned count_of(const pairs_t *p) {
    uint32_t x = p->has;
    x -= x >> 1 & 0x55555555;
    x = (x & 0x33333333) + (x >> 2 & 0x33333333);
    x = (x + (x >> 4)) & 0x0f0f0f0f;
    return x * 0x01010101 >> 24;
}

static inline void lay(pairs_t *p, unsigned key, int32_t value) {
    p->value[key] = value;
    p->has |= (uint16_t)(1u << key);
}

/* Lays the pairs of a change over a list. */
static inline void overlay(pairs_t *p, const pairs_t *change) {
    for (unsigned key = 1; key <= LAST_KEY; key++)
        if (has_key(change, key)) p->value[key] = change->value[key];
    p->has |= change->has;
}

#endif
