/* The jobs of crates/bench. A line is OP FLASH U N REPS; crates/bench/src/main.rt says what each
   word means. */
#ifndef WORK_H
#define WORK_H

#include <stdint.h>

enum { WORD = 16 };

typedef struct {
    char op[WORD], flash[WORD];
    unsigned units, pairs;
    uint32_t repetitions;
} job_t;

/* The checksum of a job on each kind of flash. Where a call is refused, the program ends. */
uint64_t simulator_work(const job_t *job);
uint64_t image_work(const job_t *job);
uint64_t mirror_work(const job_t *job);
uint64_t mirrors_work(const job_t *job);
uint64_t simulators_work(const job_t *job);

#endif
