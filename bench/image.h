/* A flash kept in a byte buffer, numbers with their highest byte first: a header of 17 bytes, then
   nine bytes a unit. */
#ifndef IMAGE_H
#define IMAGE_H

#include <endian.h>
#include <stdlib.h>
#include <string.h>
#include "flash.h"

enum { BANKS_AT = 5, WIDTH_AT = 6, CHARGE_AT = 8, SUPPLY_AT = 12, POWER_AT = 16 };
enum { HEADER_SIZE = 17, UNIT_SIZE = 9 };

typedef struct {
    uint8_t *bytes;
} image_t;

static inline uint32_t word_at(const uint8_t *p) {
    uint32_t x;
    memcpy(&x, p, sizeof x);
    return be32toh(x);
}

static inline uint64_t long_word_at(const uint8_t *p) {
    uint64_t x;
    memcpy(&x, p, sizeof x);
    return be64toh(x);
}

static inline void put_word(uint8_t *p, uint32_t x) {
    x = htobe32(x);
    memcpy(p, &x, sizeof x);
}

static inline void put_long_word(uint8_t *p, uint64_t x) {
    x = htobe64(x);
    memcpy(p, &x, sizeof x);
}

static inline unsigned image_banks(const image_t *f) { return f->bytes[BANKS_AT]; }

static inline unsigned image_width(const image_t *f) {
    return (unsigned)f->bytes[WIDTH_AT] << 8 | f->bytes[WIDTH_AT + 1];
}

static inline uint8_t *image_unit(const image_t *f, unsigned bank, unsigned unit) {
    return f->bytes + HEADER_SIZE + UNIT_SIZE * (bank * image_width(f) + unit);
}

static inline int image_gate(const image_t *f, unsigned bank, unsigned unit) {
    if (f->bytes[POWER_AT] != 1) return OFF;
    if (bank >= image_banks(f) || unit >= image_width(f)) return MISSING;
    return 0;
}

static inline int image_read(const image_t *f, unsigned bank, unsigned unit, unit_t *out) {
    int no = image_gate(f, bank, unit);
    if (no) return no;
    const uint8_t *u = image_unit(f, bank, unit);
    out->state = u[0] > PROGRAMMED ? UNREADABLE : (state_t)u[0];
    out->value = long_word_at(u + 1);
    return 0;
}

static inline int image_program(image_t *f, unsigned bank, unsigned unit, uint64_t value) {
    int no = image_gate(f, bank, unit);
    if (no) return no;
    uint8_t *u = image_unit(f, bank, unit);
    if (u[0] != BLANK) return NOT_BLANK;
    uint32_t charge = word_at(f->bytes + CHARGE_AT);
    if (charge == 0) {
        u[0] = UNREADABLE;
        f->bytes[POWER_AT] = 0;
        return CUT;
    }
    u[0] = PROGRAMMED;
    put_long_word(u + 1, value);
    put_word(f->bytes + CHARGE_AT, charge - 1);
    return 0;
}

static inline int image_erase(image_t *f, unsigned bank) {
    int no = image_gate(f, bank, 0);
    if (no) return no;
    uint8_t *units = image_unit(f, bank, 0);
    unsigned width = image_width(f);
    uint32_t charge = word_at(f->bytes + CHARGE_AT);
    if (charge == 0) {
        memset(units, 0, UNIT_SIZE * (width / 2));
        f->bytes[POWER_AT] = 0;
        return CUT;
    }
    memset(units, 0, UNIT_SIZE * width);
    put_word(f->bytes + CHARGE_AT, charge - 1);
    return 0;
}

static inline void image_power_up(image_t *f) {
    memcpy(f->bytes + CHARGE_AT, f->bytes + SUPPLY_AT, 4);
    f->bytes[POWER_AT] = 1;
}

/* Blank and off; its power-ups bring the greatest charge. */
static inline void image_make(image_t *f, unsigned width) {
    static const uint8_t mark[5] = { 0x43, 0x46, 0x49, 0, 1 };
    f->bytes = calloc(HEADER_SIZE + (size_t)UNIT_SIZE * BANKS * width, 1);
    if (!f->bytes) abort();
    memcpy(f->bytes, mark, sizeof mark);
    f->bytes[BANKS_AT] = BANKS;
    f->bytes[WIDTH_AT] = (uint8_t)(width >> 8);
    f->bytes[WIDTH_AT + 1] = (uint8_t)width;
    put_word(f->bytes + SUPPLY_AT, UINT32_MAX);
}

#endif
