/* The work of crates/bench in C: a line on standard input is a job, a line on standard output its
   checksum, the same as there. */
#include <inttypes.h>
#include <stdio.h>
#include <string.h>
#include "work.h"

static const struct {
    const char *flash;
    uint64_t (*work)(const job_t *job);
} kinds[] = {
    { "simulator", simulator_work }, { "image", image_work },           { "mirror", mirror_work },
    { "mirrors", mirrors_work },     { "simulators", simulators_work },
};

int main(void) {
    job_t job;
    while (scanf("%15s %15s %u %u %" SCNu32, job.op, job.flash, &job.units, &job.pairs,
                 &job.repetitions) == 5)
        for (unsigned i = 0; i < sizeof kinds / sizeof *kinds; i++)
            if (!strcmp(kinds[i].flash, job.flash)) printf("%" PRIu64 "\n", kinds[i].work(&job));
    return 0;
}
