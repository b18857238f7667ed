/* Degrees and pascals from raw values, by the pairs that stand. */
#ifndef READINGS_H
#define READINGS_H

#include "layout.h"

/* The store's number when a temperature was taken, and what a pressure needs of it. */
typedef struct {
    int32_t b5, t;
    uint32_t number;
} step_t;

/* T in tenths of a degree, P in Pa. */
typedef struct {
    int32_t t, p;
} line_t;

/* The greatest whole number not above the quotient. By a power of two `>>` gives it, as compilers
   have it. */
static inline int64_t floor_div(int64_t n, int64_t d) {
    int64_t q = n / d;
    return q - (n % d != 0 && (n < 0) != (d < 0));
}

/* Whether each of the keys 1 to 11 has a value. */
static inline bool is_complete(const pairs_t *p) { return (p->has & 0xffe) == 0xffe; }

/* Answers 0 or the number of the refusal, as the calls of the store do. */
static inline int temperature_of(const pairs_t *pairs, int32_t ut, step_t *out) {
    if (ut < 0 || ut > 65535) return 12;
    if (!is_complete(pairs)) return 13;
    const int32_t *k = pairs->value;
    int64_t ac5 = k[5], ac6 = k[6], mc = k[10], md = k[11];
    int64_t x1 = (ut - ac6) * ac5 >> 15;
    if (x1 + md == 0) return 15;
    int64_t x2 = floor_div(mc * 2048, x1 + md);
    int64_t b5 = x1 + x2, t = (b5 + 8) >> 4;
    if (t < -400 || t > 850) return 15;
    out->b5 = (int32_t)b5;
    out->t = (int32_t)t;
    return 0;
}

static inline int pressure_of(const pairs_t *pairs, uint32_t number, const step_t *step, int32_t up,
                              line_t *out) {
    if (!is_complete(pairs)) return 13;
    if (step->number != number) return 14;
    const int32_t *k = pairs->value;
    int64_t ac1 = k[1], ac2 = k[2], ac3 = k[3], ac4 = k[4], b1 = k[7], b2 = k[8];
    int oss = has_key(pairs, OSS) ? k[OSS] : 0;
    int pcor = has_key(pairs, PCOR) ? k[PCOR] : 0;
    if (up < 0 || up >= INT32_C(65536) << oss) return 12;
    int64_t b6 = step->b5 - 4000, s = b6 * b6 >> 12;
    int64_t x3 = (b2 * s >> 11) + (ac2 * b6 >> 11);
    int64_t b3 = ((ac1 * 4 + x3) * (INT64_C(1) << oss) + 2) >> 2;
    int64_t y3 = ((ac3 * b6 >> 13) + (b1 * s >> 16) + 2) >> 2;
    int64_t b4 = ac4 * (y3 + 32768) >> 15;
    if (up < b3 || b4 <= 0) return 16;
    int64_t b7 = (up - b3) * (50000 >> oss);
    int64_t p = b7 < INT64_C(2147483648) ? b7 * 2 / b4 : b7 / b4 * 2;
    if (p > 1000000) return 16;
    int64_t q = p >> 8;
    int64_t correction = ((q * q * 3038 >> 16) + (-7357 * p >> 16) + 3791) >> 4;
    out->t = step->t;
    out->p = (int32_t)(p + correction + pcor);
    return 0;
}

#endif
