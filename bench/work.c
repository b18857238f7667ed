/* What the program of crates/bench does, in its order and with its checksums; compiled once for
   each kind of flash. */
#include <stdio.h>
#include "codec.h"
#include "store.h"
#include "work.h"

/* AC1 to MD of the chip's datasheet, by their keys 1 to 11. */
static const int32_t example[LAST_COEFFICIENT] = {
    408, -72, -14383, 32741, 32757, 23153, 6190, 4, -32768, -8711, 2868,
};

/* Ends the program where a call was refused. */
static void check(int no) {
    if (!no) return;
    fprintf(stderr, "refused with %d\n", no);
    exit(1);
}

static void add(uint64_t *sum, uint64_t number) { *sum = *sum * 31 + number; }

static void add_signed(uint64_t *sum, int32_t number) { add(sum, (uint64_t)(int64_t)number); }

static void add_value_of(uint64_t *sum, STORE(t) *s, uint8_t key) {
    bool has;
    int32_t value;
    check(STORE(get)(s, key, &has, &value));
    add_signed(sum, has ? value : 7);
}

static int32_t value_in_round(unsigned key, uint32_t round) {
    uint64_t some = ((uint64_t)round * 13 + key * 7) % 1000;
    return (int32_t)(key == OSS ? some % 4 : some + 1);
}

/* Opens a change and puts the keys 1 to `pairs`; how many pairs it then has. */
static uint32_t put_round(STORE(t) *s, unsigned pairs, uint32_t round, uint32_t *ticket) {
    uint32_t count = 0;
    check(STORE(begin)(s, ticket));
    for (unsigned key = 1; key <= pairs; key++)
        check(STORE(put)(s, *ticket, (uint8_t)key, value_in_round(key, round), &count));
    return count;
}

static void commit_round(STORE(t) *s, unsigned pairs, uint32_t round, uint64_t *sum) {
    uint32_t ticket, number;
    put_round(s, pairs, round, &ticket);
    check(STORE(commit)(s, ticket, &number));
    add(sum, number);
}

static void abandon_round(STORE(t) *s, unsigned pairs, uint32_t round, uint64_t *sum) {
    uint32_t ticket, count = put_round(s, pairs, round, &ticket);
    check(STORE(abandon)(s, ticket));
    add(sum, count);
}

static void commit_example(STORE(t) *s) {
    uint32_t ticket, count, number;
    check(STORE(begin)(s, &ticket));
    for (uint8_t key = 1; key <= LAST_COEFFICIENT; key++)
        check(STORE(put)(s, ticket, key, example[key - 1], &count));
    check(STORE(commit)(s, ticket, &number));
}

static bool is(const job_t *job, const char *op) { return !strcmp(job->op, op); }

/* How many commits fill bank 0 behind its header, move to bank 1, and fill that, or half of it. */
static uint32_t commits_before(const job_t *job) {
    unsigned each = job->pairs + 1;
    uint32_t first = (job->units - 1) / each, second = (job->units - each) / each;
    if (is(job, "full")) return first + 1 + second;
    if (is(job, "half")) return first + 1 + second / 2;
    return 0;
}

static void recovers(STORE(t) *s, const job_t *job, uint64_t *sum) {
    uint32_t before = commits_before(job);
    for (uint32_t i = 0; i < before; i++) commit_round(s, job->pairs, i, sum);
    for (uint32_t i = 0; i < job->repetitions; i++) {
        uint32_t number;
        check(STORE(recover)(s, &number));
        add(sum, number);
        add_value_of(sum, s, 1);
    }
}

static void gets(STORE(t) *s, const job_t *job, uint64_t *sum) {
    commit_example(s);
    for (uint32_t i = 0; i < job->repetitions; i++)
        add_value_of(sum, s, (uint8_t)(1 + i % LAST_KEY));
}

static void readings(STORE(t) *s, const job_t *job, uint64_t *sum) {
    commit_example(s);
    for (uint32_t i = 0; i < job->repetitions; i++) {
        step_t step;
        line_t line;
        check(STORE(temperature)(s, (int32_t)(27000 + i % 1000), &step));
        check(STORE(pressure)(s, step, (int32_t)(23000 + i % 4096), &line));
        add_signed(sum, line.t);
        add_signed(sum, line.p);
    }
}

/* ---- units made at random, as no run of a store leaves them ---- */

/* `key` is that of the last record, `number` that of the bank's header. */
typedef struct {
    uint64_t state;
    uint8_t key;
    uint32_t number;
} maker_t;

/* Knuth's linear congruential generator. */
static uint64_t next(maker_t *m) {
    return m->state = m->state * UINT64_C(6364136223846793005) + UINT64_C(1442695040888963407);
}

static uint8_t below(maker_t *m, unsigned limit) { return (uint8_t)((next(m) >> 60) % limit); }

/* Each of these makes the value of a unit; false for a blank one. */
static bool first_unit(maker_t *m, uint64_t *out) {
    m->key = 0;
    m->number = below(m, 3);
    *out = sealed(HEADER_MARK, below(m, 3), m->number);
    return below(m, 8) > 0;
}

/* Values at the limits of the catalogue, within and beyond. */
static const int32_t limits[16] = {
    -32769, -32768, -501, -500, -1, 0, 3, 4, 500, 501, 32767, 32768, 65534, 65535, INT32_MIN,
    INT32_MAX,
};

static int32_t made_value(maker_t *m) {
    return below(m, 2) == 0 ? 1 + below(m, 2) : limits[below(m, 16)];
}

static uint64_t made_record(maker_t *m) {
    m->key = (uint8_t)((m->key + below(m, 3)) % 15);
    return sealed(RECORD_MARK, m->key, (uint32_t)made_value(m));
}

/* With one of the four numbers after the header's. */
static uint64_t made_commit(maker_t *m) {
    uint8_t count = below(m, 4);
    return sealed(COMMIT_MARK, count, m->number + 1 + below(m, 4));
}

static bool later_unit(maker_t *m, uint64_t *out) {
    switch (below(m, 16)) {
    case 0:
        return false;
    case 1:
        *out = made_record(m) ^ 1; /* a wrong CRC */
        return true;
    case 2:
        *out = sealed(HEADER_MARK, 0, m->number);
        return true;
    case 3:
    case 4:
        *out = made_commit(m);
        return true;
    }
    *out = made_record(m);
    return true;
}

static void fill(STORE(t) *s, maker_t *m) {
    FLASH(power_up)(&s->flash);
    for (unsigned bank = 0; bank < BANKS; bank++) {
        check(FLASH(erase)(&s->flash, bank));
        for (unsigned unit = 0; unit < FLASH(width)(&s->flash); unit++) {
            uint64_t value;
            if (unit == 0 ? first_unit(m, &value) : later_unit(m, &value))
                check(FLASH(program)(&s->flash, bank, unit, value));
        }
    }
}

/* ---- the jobs ---- */

static void add_standing(uint64_t *sum, STORE(t) *s) {
    for (uint8_t key = 1; key <= LAST_KEY; key++) add_value_of(sum, s, key);
}

/* What every unit holds. */
static void add_units(uint64_t *sum, const STORE(t) *s) {
    for (unsigned bank = 0; bank < BANKS; bank++)
        for (unsigned unit = 0; unit < FLASH(width)(&s->flash); unit++) {
            unit_t u = { BLANK, 0 };
            check(FLASH(read)(&s->flash, bank, unit, &u));
            add(sum, u.state == BLANK ? 1 : u.state == PROGRAMMED ? u.value : 2);
        }
}

static void recovers_random(STORE(t) *s, const job_t *job, uint64_t *sum) {
    maker_t maker = { .state = 1 };
    for (uint32_t i = 0; i < job->repetitions; i++) {
        uint32_t number;
        fill(s, &maker);
        int no = STORE(recover)(s, &number);
        add(sum, no ? (uint32_t)no : number);
        if (!no) add_standing(sum, s);
    }
}

static void commits(STORE(t) *s, const job_t *job, uint64_t *sum) {
    for (uint32_t i = 0; i < job->repetitions; i++) commit_round(s, job->pairs, i, sum);
}

static void changes(STORE(t) *s, const job_t *job, uint64_t *sum) {
    for (uint32_t i = 0; i < job->repetitions; i++) abandon_round(s, job->pairs, i, sum);
}

uint64_t NAMED(KIND, work)(const job_t *job) {
    STORE(t) s;
    uint32_t number;
    uint64_t sum = 0;
    STORE(make)(&s, job->units);
    if (is(job, "random")) {
        recovers_random(&s, job, &sum);
        return sum;
    }
    check(STORE(format)(&s, &number));
    if (is(job, "full") || is(job, "half") || is(job, "fresh")) recovers(&s, job, &sum);
    if (is(job, "commit") || is(job, "written")) commits(&s, job, &sum);
    if (is(job, "change")) changes(&s, job, &sum);
    if (is(job, "get")) gets(&s, job, &sum);
    if (is(job, "reading")) readings(&s, job, &sum);
    add_standing(&sum, &s);
    if (is(job, "written")) add_units(&sum, &s);
    return sum;
}
