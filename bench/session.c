/* The session of crates/barometer by hand: a line on standard input is a command, a line on
   standard output its answer, written at once. */
#include <stdio.h>
#include <unistd.h>
#include "store.h"

enum { UNITS = 64, LONGEST = 80, UNKNOWN = 17 };

static const char *const names[LAST_KEY + 1] = {
    "", "AC1", "AC2", "AC3", "AC4", "AC5", "AC6", "B1", "B2", "MB", "MC", "MD", "OSS", "PCOR",
};

/* ---- words and numbers ---- */

typedef struct {
    const char *text;
    size_t length;
} word_t;

/* Cuts a line into its words, at most `most` of them; how many there are. */
static unsigned words_of(const char *line, size_t length, word_t *words, unsigned most) {
    unsigned count = 0;
    for (size_t i = 0; i < length && count < most;) {
        if (line[i] == ' ') {
            i++;
            continue;
        }
        size_t from = i;
        while (i < length && line[i] != ' ') i++;
        words[count++] = (word_t){ line + from, i - from };
    }
    return count;
}

static bool is(word_t word, const char *text) {
    return word.length == strlen(text) && !memcmp(word.text, text, word.length);
}

static bool is_number(word_t word, uint64_t most, uint64_t *out) {
    uint64_t value = 0;
    for (size_t i = 0; i < word.length; i++) {
        unsigned digit = (unsigned char)word.text[i] - '0';
        if (digit > 9 || value > (UINT64_MAX - digit) / 10) return false;
        value = value * 10 + digit;
    }
    *out = value;
    return word.length && value <= most;
}

static bool is_signed_number(word_t word, int32_t *out) {
    bool is_negative = word.length && *word.text == '-';
    uint64_t size;
    if (is_negative) word.text++, word.length--;
    if (!is_number(word, is_negative ? UINT64_C(2147483648) : INT32_MAX, &size)) return false;
    *out = (int32_t)(is_negative ? -(int64_t)size : (int64_t)size);
    return true;
}

/* 0 where the catalogue has no such name. */
static uint8_t key_named(word_t word) {
    for (uint8_t key = 1; key <= LAST_KEY; key++)
        if (is(word, names[key])) return key;
    return 0;
}

/* ---- answers ---- */

typedef struct {
    enum { DONE, NUMBER, VALUE, ABSENT, TEMPERATURE, LINE } kind;
    uint32_t number;
    int32_t value;
    line_t line;
} answer_t;

typedef struct {
    char text[64];
    unsigned length;
} text_t;

static void put_text(text_t *to, const char *text) {
    while (*text) to->text[to->length++] = *text++;
}

static void put_unsigned(text_t *to, uint32_t x) {
    char digits[10];
    unsigned count = 0;
    do digits[count++] = (char)('0' + x % 10);
    while (x /= 10);
    while (count) to->text[to->length++] = digits[--count];
}

static uint32_t put_sign(text_t *to, int32_t x) {
    if (x < 0) put_text(to, "-");
    return x < 0 ? 0u - (uint32_t)x : (uint32_t)x;
}

static void put_tenths(text_t *to, int32_t x) {
    uint32_t size = put_sign(to, x);
    put_unsigned(to, size / 10);
    put_text(to, ".");
    put_unsigned(to, size % 10);
}

static void put_answer(text_t *to, const answer_t *answer) {
    put_text(to, answer->kind == DONE ? "ok" : "ok ");
    switch (answer->kind) {
    case DONE:
        break;
    case NUMBER:
        put_unsigned(to, answer->number);
        break;
    case VALUE:
        put_unsigned(to, put_sign(to, answer->value));
        break;
    case ABSENT:
        put_text(to, "-");
        break;
    case TEMPERATURE:
        put_tenths(to, answer->line.t);
        break;
    case LINE:
        put_tenths(to, answer->line.t);
        put_text(to, " ");
        put_tenths(to, (int32_t)floor_div(answer->line.p, 10));
        break;
    }
}

static void put_refusal(text_t *to, int no, place_t stopped) {
    put_text(to, "no ");
    put_unsigned(to, (uint32_t)no);
    if (no != 11) return;
    put_text(to, " ");
    put_unsigned(to, stopped.bank);
    put_text(to, " ");
    if (stopped.unit < 0)
        put_text(to, "-");
    else
        put_unsigned(to, (uint32_t)stopped.unit);
}

/* ---- the session ---- */

/* The ticket of the change that was begun, and the step of the last temperature, each until it is
   used. */
typedef struct {
    STORE(t) store;
    bool has_ticket, has_step;
    uint32_t ticket;
    step_t step;
} session_t;

static int planned(session_t *s, entry_t entry, answer_t *out) {
    if (!simulator_add_entry(&s->store.flash, entry)) return UNKNOWN;
    out->kind = NUMBER;
    out->number = s->store.flash.planned;
    return 0;
}

static void let_go(session_t *s) {
    if (s->has_ticket) STORE(abandon)(&s->store, s->ticket);
    s->has_ticket = false;
}

static int begun(session_t *s, answer_t *out) {
    int no = STORE(begin)(&s->store, &out->number);
    if (no) return no;
    s->has_ticket = true;
    s->ticket = out->number;
    return 0;
}

static int committed(session_t *s, answer_t *out) {
    if (!s->has_ticket) return UNKNOWN;
    s->has_ticket = false;
    return STORE(commit)(&s->store, s->ticket, &out->number);
}

static int abandoned(session_t *s) {
    if (!s->has_ticket) return UNKNOWN;
    s->has_ticket = false;
    return STORE(abandon)(&s->store, s->ticket);
}

static int got(session_t *s, uint8_t key, answer_t *out) {
    bool has = false;
    int no = STORE(get)(&s->store, key, &has, &out->value);
    out->kind = has ? VALUE : ABSENT;
    return no;
}

static int measured_t(session_t *s, int32_t ut, answer_t *out) {
    step_t step;
    int no = STORE(temperature)(&s->store, ut, &step);
    if (no) return no;
    s->step = step;
    s->has_step = true;
    out->kind = TEMPERATURE;
    out->line.t = step.t;
    return 0;
}

static int measured_p(session_t *s, int32_t up, answer_t *out) {
    if (!s->has_step) return UNKNOWN;
    s->has_step = false;
    out->kind = LINE;
    return STORE(pressure)(&s->store, s->step, up, &out->line);
}

/* The commands of one word. */
static int answered_verb(session_t *s, word_t verb, answer_t *out) {
    out->kind = NUMBER;
    if (is(verb, "format")) {
        let_go(s);
        return STORE(format)(&s->store, &out->number);
    }
    if (is(verb, "recover")) {
        let_go(s);
        return STORE(recover)(&s->store, &out->number);
    }
    if (is(verb, "begin")) return begun(s, out);
    if (is(verb, "commit")) return committed(s, out);
    out->kind = DONE;
    return is(verb, "abandon") ? abandoned(s) : UNKNOWN;
}

/* Does what a line says; 0 or the number of the refusal. */
static int answered(session_t *s, const char *line, size_t length, answer_t *out) {
    word_t w[5];
    uint64_t charge, residue, pattern;
    int32_t value;
    unsigned count = length > LONGEST ? 0 : words_of(line, length, w, 5);
    switch (count) {
    case 1:
        return answered_verb(s, w[0], out);
    case 2:
        if (is(w[0], "get")) return got(s, key_named(w[1]), out);
        if (is(w[0], "temp") && is_signed_number(w[1], &value)) return measured_t(s, value, out);
        if (is(w[0], "press") && is_signed_number(w[1], &value)) return measured_p(s, value, out);
        return UNKNOWN;
    case 3:
        if (!is(w[0], "put") || !is_signed_number(w[2], &value) || !s->has_ticket) return UNKNOWN;
        out->kind = NUMBER;
        return STORE(put)(&s->store, s->ticket, key_named(w[1]), value, &out->number);
    case 4:
        if (!is(w[0], "plan") || !is_number(w[1], UINT32_MAX, &charge)
            || !is_number(w[2], UINT8_MAX, &residue) || !is_number(w[3], UINT64_MAX, &pattern))
            return UNKNOWN;
        return planned(s, (entry_t){ (uint32_t)charge, (uint8_t)residue, pattern }, out);
    }
    return UNKNOWN;
}

int main(void) {
    session_t session = { .has_ticket = false, .has_step = false };
    char *line = NULL;
    size_t room = 0;
    ssize_t length;
    STORE(make)(&session.store, UNITS);
    while ((length = getline(&line, &room, stdin)) > 0) {
        answer_t answer = { .kind = DONE };
        text_t text = { .length = 0 };
        if (line[length - 1] == '\n') length--;
        int no = answered(&session, line, (size_t)length, &answer);
        if (no)
            put_refusal(&text, no, session.store.stopped);
        else
            put_answer(&text, &answer);
        put_text(&text, "\n");
        if (write(STDOUT_FILENO, text.text, text.length) != (ssize_t)text.length) return 1;
    }
    let_go(&session);
    return 0;
}
