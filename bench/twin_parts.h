/* What the parts of the twin share among themselves. */
#ifndef BENCH_TWIN_PARTS_H
#define BENCH_TWIN_PARTS_H

#include "twin.h"

static inline unsigned least(unsigned a, unsigned b) { return a < b ? a : b; }

/* The least face of solid s, which has one. */
unsigned twin_face_in(const Records *t, unsigned s);

/* Union-find over faces: those that a chain of faces links, neighbours sharing an edge, have one root. */
typedef struct {
    uint16_t parent[CAPACITY + 1];
} Shells;
void twin_shells(const Records *t, Shells *s);
static inline unsigned shell_of(Shells *s, unsigned f) {
    while (s->parent[f] != f) f = s->parent[f] = s->parent[s->parent[f]];
    return f;
}

/* An operator as a script holds it. The numbers of one to be written are as they are written, coordinates too. */
typedef struct {
    unsigned code;
    int32_t args[8];
} Operator;
typedef struct {
    unsigned code, count, number[8];
} Inverse;

/* What an operand may be in this table: at most `max`, 0 or not, and the refusal that an item gets, by the first word
 * of its record, which lies `step` times its number behind `offset` in links. */
typedef struct {
    unsigned max, offset, step;
    uint8_t zero, if_free, if_used;
} OperandKind;
enum { OLD_S, NEW_S, MAY_S, OLD_F, NEW_F, OLD_L, NEW_L, NEW_E, OLD_H, MAY_H, NEW_V, WAY1, WAY3, COORDINATE, KINDS };
void twin_kinds(const Records *t, OperandKind *kinds);

/* The operator at *script, which moves behind it; otherwise the refusal, 3 to 7. */
unsigned twin_read(const Records *t, const OperandKind *kinds, const uint8_t **script, const uint8_t *end, Operator *o);
/* A coordinate as it is written. */
static inline unsigned coordinate(int32_t c) { return c < 0 ? 2 * (unsigned)-c - 1 : 2 * (unsigned)c; }

/* What must be known of a table beyond its records. */
typedef struct {
    uint16_t loops[CAPACITY + 1], faces[CAPACITY + 1]; /* loops of a face, faces of a solid */
} Counts;
void twin_count(const Records *t, Counts *c);
/* Before the operator's effect: the counts as they are behind it. */
void twin_recount(const Records *t, Counts *c, const Operator *o);

int twin_fits(const Records *t, const Counts *c, const Operator *o); /* the operator's condition */
Inverse twin_inverse(const Records *t, const Operator *o);

#endif
