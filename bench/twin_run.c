/* The twin's run, undo and redo. */
#include <string.h>

#include "twin_parts.h"

void twin_count(const Records *t, Counts *c) {
    memset(c->loops, 0, (t->faces + 1) * sizeof *c->loops);
    memset(c->faces, 0, (t->solids + 1) * sizeof *c->faces);
    for (unsigned l = 1; l <= t->loops; l++) c->loops[t->loop[l].face]++;
    for (unsigned f = 1; f <= t->faces; f++) c->faces[t->face[f].solid]++;
}

/* What a run, an undo and a redo begin with. */
typedef struct {
    Records t;
    OperandKind kinds[KINDS];
    Counts counts;
} State;

static void open_state(State *s, Records t) {
    s->t = t;
    twin_kinds(&t, s->kinds);
    twin_count(&t, &s->counts);
}

/* The operator at *at, which moves behind it, where it may be carried out; otherwise the refusal. */
static inline unsigned admit(const State *s, const uint8_t **at, const uint8_t *end, Operator *o) {
    unsigned refusal = twin_read(&s->t, s->kinds, at, end, o);
    if (refusal) return refusal;
    return twin_fits(&s->t, &s->counts, o) ? 0 : 8;
}

static inline void carry_out(State *s, const Operator *o) {
    twin_recount(&s->t, &s->counts, o);
    twin_effect(&s->t, o->code, o->args);
    if (o->code == MFKRH && o->args[2]) twin_count(&s->t, &s->counts); /* a solid was divided */
}

/* How many bytes an inverse takes, at most 19, and its bytes. */
static inline size_t length_of(const Inverse *o) {
    size_t length = 1;
    for (unsigned i = 0; i < o->count; i++) length += 1u + (o->number[i] >= 128) + (o->number[i] >= 128 * 128);
    return length;
}
static inline void write_inverse(const Inverse *o, uint8_t *at) {
    *at++ = o->code;
    for (unsigned i = 0; i < o->count; i++) {
        unsigned n = o->number[i];
        for (; n >= 128; n >>= 7) *at++ = n | 128;
        *at++ = n;
    }
}

TwinRan twin_run(Records t, uint8_t *log, size_t start, const uint8_t *script, size_t script_n) {
    State s;
    open_state(&s, t);
    TwinRan r = {0, 0, 0, start};
    const uint8_t *end = script + script_n;
    for (const uint8_t *at = script; at < end; r.used = (size_t)(at - script)) {
        Operator o;
        if ((r.refusal = admit(&s, &at, end, &o))) break;
        Inverse inverse = twin_inverse(&t, &o);
        size_t length = length_of(&inverse);
        if (length > r.start) {
            r.refusal = 9;
            break;
        }
        carry_out(&s, &o);
        r.start -= length;
        write_inverse(&inverse, log + r.start);
        r.done++;
    }
    return r;
}

/* Both ways out of a log; `logged` is known where this is compiled in. */
static inline TwinMoved moved(Records t, const uint8_t *log, size_t log_n, TwinMoved r, uint8_t *other, size_t n,
                              int logged) {
    State s;
    open_state(&s, t);
    const uint8_t *end = log + log_n;
    for (const uint8_t *at = log + r.from; r.done < n; r.from = (size_t)(at - log)) {
        Operator o;
        if (at == end) {
            r.refusal = 11;
            break;
        }
        if ((r.refusal = admit(&s, &at, end, &o))) break;
        Inverse inverse = logged ? twin_inverse(&t, &o) : (Inverse){0};
        size_t length = logged ? length_of(&inverse) : 0;
        if (length > r.to) {
            r.refusal = 9;
            break;
        }
        carry_out(&s, &o);
        r.to -= length;
        if (logged) write_inverse(&inverse, other + r.to);
        r.done++;
    }
    return r;
}

TwinMoved twin_move(Records t, const uint8_t *log, size_t log_n, size_t from, uint8_t *other, size_t to, size_t n) {
    return moved(t, log, log_n, (TwinMoved){0, 0, from, to}, other, n, 1);
}

TwinMoved twin_undo_only(Records t, const uint8_t *log, size_t log_n, size_t from, size_t n) {
    return moved(t, log, log_n, (TwinMoved){0, 0, from, 0}, NULL, n, 0);
}
