/* The store over one kind of flash; compiled once for each kind. */
#include "store.h"
#include "codec.h"

/* ---- reading ---- */

static inline unit_t unit_at(const STORE(t) *s, unsigned bank, unsigned unit) {
    unit_t u = { BLANK, 0 };
    if (FLASH(read)(&s->flash, bank, unit, &u)) u.state = BLANK;
    return u;
}

/* What a bank's lawful header gives: its number, the pairs of the records that it counts, and the
   place after them. False where the header is not lawful. */
static bool opening(const STORE(t) *s, unsigned bank, standing_t *out) {
    meaning_t header = meaning_of(unit_at(s, bank, 0));
    if (header.kind != HEADER) return false;
    out->pairs.has = 0;
    unsigned last = 0;
    for (unsigned unit = 1; unit <= header.second; unit++) {
        meaning_t m = meaning_of(unit_at(s, bank, unit));
        if (m.kind != RECORD || m.second <= last) return false;
        last = m.second;
        lay(&out->pairs, m.second, (int32_t)m.word);
    }
    out->bank = bank;
    out->number = header.word;
    out->end = 1 + header.second;
    return true;
}

/* The run, the records directly before the next unit: the newest, as a commit counts at most 12. */
enum { NEWEST = 16 };

typedef struct {
    struct {
        uint8_t key;
        int32_t value;
    } record[NEWEST];
    unsigned length;
} run_t;

static inline void extend(run_t *run, uint8_t key, int32_t value) {
    run->record[run->length % NEWEST].key = key;
    run->record[run->length % NEWEST].value = value;
    run->length++;
}

/* Lays the newest `count` records of the run over the pairs, if there are so many and their keys
   rise. */
static inline bool take_newest(const run_t *run, unsigned count, pairs_t *pairs) {
    if (count > run->length) return false;
    unsigned first = run->length - count, last = 0;
    for (unsigned i = first; i < run->length; i++) {
        if (run->record[i % NEWEST].key <= last) return false;
        last = run->record[i % NEWEST].key;
    }
    for (unsigned i = first; i < run->length; i++)
        lay(pairs, run->record[i % NEWEST].key, run->record[i % NEWEST].value);
    return true;
}

/* Takes the units after the header's records in order, each of them once. */
static void scan(const STORE(t) *s, standing_t *out) {
    run_t run = { .length = 0 };
    unsigned width = FLASH(width)(&s->flash);
    for (unsigned unit = out->end; unit < width; unit++) {
        unit_t u = unit_at(s, out->bank, unit);
        if (u.state == BLANK) {
            run.length = 0;
            continue;
        }
        out->end = unit + 1;
        meaning_t m = meaning_of(u);
        if (m.kind == RECORD) {
            extend(&run, m.second, (int32_t)m.word);
            continue;
        }
        bool is_next = m.kind == COMMIT && out->number < UINT32_MAX && m.word == out->number + 1;
        if (is_next && take_newest(&run, m.second, &out->pairs)) out->number = m.word;
        run.length = 0;
    }
}

/* The active bank, by the headers of both: that of the higher number, and of equal ones bank 0. */
static bool read_units(const STORE(t) *s, standing_t *out) {
    standing_t second;
    bool has_first = opening(s, 0, out), has_second = opening(s, 1, &second);
    if (!has_first && !has_second) return false;
    if (!has_first || (has_second && out->number < second.number)) *out = second;
    scan(s, out);
    return true;
}

/* ---- writing: each answers false where the flash refuses the write ---- */

static bool wrote(STORE(t) *s, unsigned bank, unsigned unit, uint64_t value) {
    if (!FLASH(program)(&s->flash, bank, unit, value)) return true;
    s->stopped = (place_t){ bank, (int)unit };
    return false;
}

static bool wiped(STORE(t) *s, unsigned bank) {
    if (!FLASH(erase)(&s->flash, bank)) return true;
    s->stopped = (place_t){ bank, -1 };
    return false;
}

static bool wrote_records(STORE(t) *s, unsigned bank, unsigned at, const pairs_t *p) {
    for (unsigned key = 1; key <= LAST_KEY; key++)
        if (has_key(p, key)
            && !wrote(s, bank, at++, sealed(RECORD_MARK, (uint8_t)key, (uint32_t)p->value[key])))
            return false;
    return true;
}

/* Behind the end of what stands. */
static bool appended(STORE(t) *s, unsigned count, uint32_t number) {
    standing_t *st = &s->standing;
    if (!wrote_records(s, st->bank, st->end, &s->change)) return false;
    if (!wrote(s, st->bank, st->end + count, sealed(COMMIT_MARK, (uint8_t)count, number)))
        return false;
    overlay(&st->pairs, &s->change);
    st->end += count + 1;
    return true;
}

/* Into the other bank, with the pairs that stand. */
static bool moved(STORE(t) *s, uint32_t number) {
    standing_t *st = &s->standing;
    st->bank = st->bank == 0;
    overlay(&st->pairs, &s->change);
    unsigned count = count_of(&st->pairs);
    st->end = count + 1;
    return wiped(s, st->bank) && wrote_records(s, st->bank, 1, &st->pairs)
        && wrote(s, st->bank, 0, sealed(HEADER_MARK, (uint8_t)count, number));
}

/* ---- the calls ---- */

static bool is_roomy(const STORE(t) *s) {
    return FLASH(banks)(&s->flash) >= 2 && FLASH(width)(&s->flash) >= 64;
}

/* 1 or 6 where the ticket is not that of the open change. */
static int ticket_refusal(const STORE(t) *s, uint32_t ticket) {
    if (s->phase == COLD) return 1;
    return s->phase == CHANGING && s->open == ticket ? 0 : 6;
}

void STORE(make)(STORE(t) *s, unsigned units) {
    *s = (STORE(t)){ .phase = COLD, .next = 1 };
    FLASH(make)(&s->flash, units);
}

int STORE(format)(STORE(t) *s, uint32_t *out) {
    if (!is_roomy(s)) return 2;
    s->phase = COLD;
    FLASH(power_up)(&s->flash);
    if (!wiped(s, 0) || !wiped(s, 1) || !wrote(s, 0, 0, sealed(HEADER_MARK, 0, 0))) return 11;
    s->standing = (standing_t){ .bank = 0, .number = 0, .end = 1 };
    s->phase = READY;
    *out = 0;
    return 0;
}

int STORE(recover)(STORE(t) *s, uint32_t *out) {
    s->phase = COLD;
    if (!is_roomy(s)) return 2;
    FLASH(power_up)(&s->flash);
    if (!read_units(s, &s->standing)) return 3;
    s->phase = READY;
    *out = s->standing.number;
    return 0;
}

int STORE(begin)(STORE(t) *s, uint32_t *out) {
    if (s->phase == COLD) return 1;
    if (s->phase == CHANGING) return 4;
    if (s->next == UINT32_MAX) return 5;
    s->change.has = 0;
    s->phase = CHANGING;
    s->open = *out = s->next++;
    return 0;
}

int STORE(put)(STORE(t) *s, uint32_t ticket, uint8_t key, int32_t value, uint32_t *out) {
    int no = ticket_refusal(s, ticket);
    if (no) return no;
    if (!is_key(key)) return 7;
    if (!admits(key, value)) return 8;
    if (count_of(&s->change) >= CHANGE_MOST && !has_key(&s->change, key)) return 9;
    lay(&s->change, key, value);
    *out = count_of(&s->change);
    return 0;
}

int STORE(commit)(STORE(t) *s, uint32_t ticket, uint32_t *out) {
    int no = ticket_refusal(s, ticket);
    if (no) return no;
    if (s->standing.number == UINT32_MAX) {
        s->phase = READY;
        return 10;
    }
    uint32_t number = s->standing.number + 1;
    unsigned count = count_of(&s->change);
    bool is_room = s->standing.end + count + 1 <= FLASH(width)(&s->flash);
    s->phase = COLD;
    if (!(is_room ? appended(s, count, number) : moved(s, number))) return 11;
    s->standing.number = number;
    s->phase = READY;
    *out = number;
    return 0;
}

int STORE(abandon)(STORE(t) *s, uint32_t ticket) {
    int no = ticket_refusal(s, ticket);
    if (no) return no;
    s->phase = READY;
    return 0;
}

int STORE(get)(STORE(t) *s, uint8_t key, bool *has, int32_t *out) {
    if (s->phase == COLD) return 1;
    if (!is_key(key)) return 7;
    *has = has_key(&s->standing.pairs, key);
    *out = s->standing.pairs.value[key];
    return 0;
}

int STORE(temperature)(STORE(t) *s, int32_t ut, step_t *out) {
    if (s->phase == COLD) return 1;
    out->number = s->standing.number;
    return temperature_of(&s->standing.pairs, ut, out);
}

int STORE(pressure)(STORE(t) *s, step_t step, int32_t up, line_t *out) {
    if (s->phase == COLD) return 1;
    return pressure_of(&s->standing.pairs, s->standing.number, &step, up, out);
}
