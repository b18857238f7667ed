/* What a unit of a flash holds, and why a call of a flash is refused. */
#ifndef FLASH_H
#define FLASH_H

#include <stdint.h>

typedef enum { BLANK, PROGRAMMED, UNREADABLE } state_t;

typedef struct {
    state_t state;
    uint64_t value;
} unit_t;

/* A call of a flash answers 0, or one of these numbers. */
enum { OFF = 21, MISSING = 22, NOT_BLANK = 23, CUT = 24 };

/* What a blank flash is made of: 2 banks, and the memory for them. */
enum { BANKS = 2 };

#endif
