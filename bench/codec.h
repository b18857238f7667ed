/* What the units of the store say, and the values that say it. */
#ifndef CODEC_H
#define CODEC_H

#include "flash.h"
#include "layout.h"

/* The marks of units, and how many records a commit and a header may count. */
enum { RECORD_MARK = 0x52, COMMIT_MARK = 0x43, HEADER_MARK = 0x48 };
enum { COMMIT_MOST = 12, HEADER_MOST = 48 };

/* What a unit says: `second` is a record's key or a count, `word` its value or a number. */
typedef enum { NOISE, RECORD, COMMIT, HEADER } kind_t;

typedef struct {
    kind_t kind;
    uint8_t second;
    uint32_t word;
} meaning_t;

/* CRC-16 by its table: polynomial 1021, start FFFF, not reflected, not inverted. */
extern const uint16_t crc_table[256];

/* Of the six high bytes of a value. */
static inline uint16_t content_crc(uint64_t value) {
    uint16_t r = 0xffff;
    for (int shift = 56; shift > 8; shift -= 8)
        r = (uint16_t)(r << 8) ^ crc_table[(r >> 8) ^ (uint8_t)(value >> shift)];
    return r;
}

static inline uint64_t sealed(uint8_t mark, uint8_t second, uint32_t word) {
    uint64_t content = (uint64_t)mark << 56 | (uint64_t)second << 48 | (uint64_t)word << 16;
    return content | content_crc(content);
}

static inline meaning_t decoded(uint64_t value) {
    meaning_t m = { NOISE, (uint8_t)(value >> 48), (uint32_t)(value >> 16) };
    if (content_crc(value) != (uint16_t)value) return m;
    switch (value >> 56) {
    case RECORD_MARK:
        if (admits(m.second, (int32_t)m.word)) m.kind = RECORD;
        break;
    case COMMIT_MARK:
        if (m.second <= COMMIT_MOST) m.kind = COMMIT;
        break;
    case HEADER_MARK:
        if (m.second <= HEADER_MOST) m.kind = HEADER;
        break;
    }
    return m;
}

static inline meaning_t meaning_of(unit_t unit) {
    return unit.state == PROGRAMMED ? decoded(unit.value) : (meaning_t){ NOISE, 0, 0 };
}

#endif
