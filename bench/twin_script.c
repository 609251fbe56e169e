/* The twin's reading of scripts: ranges and items in one pass over the operands. */
#include "twin_parts.h"

static const struct {
    uint8_t count, kind[8];
} operands[RMOV + 1] = {
    [MVSF] = {7, {NEW_S, NEW_F, NEW_L, NEW_V, COORDINATE, COORDINATE, COORDINATE}},
    [KVSF] = {1, {OLD_S}},
    [MEV] = {8, {OLD_L, MAY_H, NEW_E, NEW_V, WAY1, COORDINATE, COORDINATE, COORDINATE}},
    [KEV] = {1, {OLD_H}},
    [MEF] = {7, {OLD_L, MAY_H, MAY_H, NEW_E, NEW_F, NEW_L, WAY3}},
    [KEF] = {1, {OLD_H}},
    [KEMR] = {2, {OLD_H, NEW_L}},
    [MEKR] = {6, {OLD_L, MAY_H, OLD_L, MAY_H, NEW_E, WAY1}},
    [KFMRH] = {2, {OLD_F, OLD_F}},
    [MFKRH] = {3, {OLD_L, NEW_F, MAY_S}},
    [SEMV] = {7, {OLD_H, NEW_E, NEW_V, WAY1, COORDINATE, COORDINATE, COORDINATE}},
    [JEKV] = {1, {OLD_H}},
    [RMOV] = {2, {OLD_L, OLD_F}},
};

uint8_t twin_operands(unsigned code) { return operands[code].count; }

void twin_kinds(const Records *t, OperandKind *kinds) {
    const unsigned s = t->solid - t->links, f = (uint16_t *)t->face - t->links, l = (uint16_t *)t->loop - t->links;
    const unsigned h = (uint16_t *)t->half - t->links, v = t->vertex - t->links;
    kinds[OLD_S] = (OperandKind){t->solids, s, 1, 0, 6, 0};
    kinds[NEW_S] = (OperandKind){t->solids, s, 1, 0, 0, 7};
    kinds[MAY_S] = (OperandKind){t->solids, s, 1, 1, 0, 7};
    kinds[OLD_F] = (OperandKind){t->faces, f, 2, 0, 6, 0};
    kinds[NEW_F] = (OperandKind){t->faces, f, 2, 0, 0, 7};
    kinds[OLD_L] = (OperandKind){t->loops, l, 3, 0, 6, 0};
    kinds[NEW_L] = (OperandKind){t->loops, l, 3, 0, 0, 7};
    kinds[NEW_E] = (OperandKind){t->edges, h, 8, 0, 0, 7}; /* by its second half-edge */
    kinds[OLD_H] = (OperandKind){2 * t->edges, h, 4, 0, 6, 0};
    kinds[MAY_H] = (OperandKind){2 * t->edges, h, 4, 1, 6, 0};
    kinds[NEW_V] = (OperandKind){t->vertices, v, 1, 0, 0, 7};
    kinds[WAY1] = (OperandKind){1, 0, 0, 1, 0, 0};
    kinds[WAY3] = (OperandKind){3, 0, 0, 1, 0, 0};
    kinds[COORDINATE] = (OperandKind){100000, 0, 0, 1, 0, 0};
}

/* The number at *at, in however many groups, which moves behind it; BAD where it is cut off or too long. */
enum { BAD = 1 << 21 };
static inline unsigned read_number(const uint8_t **at, const uint8_t *end) {
    const uint8_t *p = *at;
    if (p < end && *p < 128) return *at = p + 1, *p; /* as most are */
    unsigned n = 0;
    for (unsigned shift = 0; shift < 21 && p < end; shift += 7, p++) {
        n |= (*p & 127u) << shift;
        if (*p < 128) return *at = p + 1, n;
    }
    return BAD;
}

unsigned twin_read(const Records *t, const OperandKind *kinds, const uint8_t **script, const uint8_t *end,
                   Operator *o) {
    const uint8_t *at = *script;
    unsigned range = 0, item = 0, code = read_number(&at, end);
    if (code == BAD) return 3;
    if (code < MVSF || code > RMOV) return 4;
    for (unsigned i = 0, n = operands[code].count; i < n; i++) {
        unsigned number = read_number(&at, end), kind = operands[code].kind[i];
        const OperandKind *k = &kinds[kind];
        if (number == BAD) return 3;
        if (number > k->max || (number == 0 && !k->zero)) range = 5;
        else if (number != 0 && item == 0) item = t->links[k->offset + k->step * number] ? k->if_used : k->if_free;
        o->args[i] = kind == COORDINATE ? (int32_t)(number >> 1) ^ -(int32_t)(number & 1) : (int32_t)number;
    }
    o->code = code;
    *script = at;
    return range ? range : item;
}
