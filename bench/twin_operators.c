/* What the twin asks of an operator before its effect: its condition, its inverse, and the counts behind it. */
#include "twin_parts.h"

static int corner(const Records *t, unsigned l, unsigned h) { return h ? t->half[h].loop == l : t->loop[l].lone != 0; }
static int ring(const Records *t, unsigned l) { return t->face[t->loop[l].face].outer != l; }
static unsigned face_at(const Records *t, unsigned k) { return t->loop[t->half[k].loop].face; }

static int kvsf_fits(const Records *t, const Counts *c, unsigned s) {
    if (c->faces[s] != 1) return 0;
    unsigned f = twin_face_in(t, s);
    return c->loops[f] == 1 && t->loop[t->face[f].outer].lone != 0;
}

/* Half-edge k lies in the face of ring l, but not in l. */
static int beside(const Records *t, unsigned l, unsigned k) {
    return t->half[k].loop != l && face_at(t, k) == t->loop[l].face;
}

/* Face f shares an edge with the face of ring l, outside l. Most often one lies on the outer loop of f, so that is
 * walked before all half-edges are looked at. */
static int shares_edge(const Records *t, unsigned l, unsigned f) {
    unsigned first = t->loop[t->face[f].outer].first, k = first;
    for (; k; k = t->half[k].next == first ? 0 : t->half[k].next)
        if (beside(t, l, mate(k))) return 1;
    for (k = 1; k <= 2 * t->edges; k++)
        if (t->half[k].start && beside(t, l, k) && face_at(t, mate(k)) == f) return 1;
    return 0;
}

/* Whether a chain of faces would link face f and l's face if l lay in f. */
static int linked_after(const Records *t, unsigned l, unsigned f) {
    Shells shells;
    unsigned old = t->loop[l].face;
    t->loop[l].face = f;
    twin_shells(t, &shells);
    t->loop[l].face = old;
    return shell_of(&shells, f) == shell_of(&shells, old);
}

static int mekr_fits(const Records *t, const int32_t *a) {
    return a[0] != a[2] && t->loop[a[0]].face == t->loop[a[2]].face && ring(t, a[2]) && corner(t, a[0], a[1]) &&
           corner(t, a[2], a[3]);
}

static int jekv_fits(const Records *t, unsigned k) {
    unsigned n = t->half[k].next;
    return edge_of(n) != edge_of(k) && t->half[mate(n)].next == mate(k);
}

static int rmov_fits(const Records *t, unsigned l, unsigned f) {
    return ring(t, l) && (t->loop[l].face == f || shares_edge(t, l, f));
}

int twin_fits(const Records *t, const Counts *c, const Operator *o) {
    const int32_t *a = o->args;
    switch (o->code) {
    case KVSF: return kvsf_fits(t, c, a[0]);
    case MEV: return corner(t, a[0], a[1]);
    case KEV: return t->half[a[0]].next == mate(a[0]);
    case MEF: return corner(t, a[0], a[1]) && corner(t, a[0], a[2]) && (a[6] < 2 || (a[1] == a[2] && a[1]));
    case KEF: return c->loops[face_at(t, a[0])] == 1 && face_at(t, a[0]) != face_at(t, mate(a[0]));
    case KEMR: return t->half[a[0]].loop == t->half[mate(a[0])].loop;
    case MEKR: return mekr_fits(t, a);
    case KFMRH: return a[0] != a[1] && c->loops[a[1]] == 1;
    case MFKRH: return ring(t, a[0]) && linked_after(t, a[0], a[1]) == (a[2] == 0);
    case JEKV: return jekv_fits(t, a[0]);
    case RMOV: return rmov_fits(t, a[0], a[1]);
    default: return 1;
    }
}

void twin_recount(const Records *t, Counts *c, const Operator *o) {
    const int32_t *a = o->args;
    unsigned f, g;
    switch (o->code) {
    case MVSF: c->faces[a[0]] = c->loops[a[1]] = 1; break;
    case KVSF: c->faces[a[0]] = c->loops[twin_face_in(t, a[0])] = 0; break;
    case MEF: c->faces[t->face[t->loop[a[0]].face].solid]++, c->loops[a[4]] = 1; break;
    case KEF: f = face_at(t, a[0]), c->faces[t->face[f].solid]--, c->loops[f] = 0; break;
    case KEMR: c->loops[face_at(t, a[0])]++; break;
    case MEKR: c->loops[t->loop[a[0]].face]--; break;
    case KFMRH:
        f = t->face[a[1]].solid, g = t->face[a[0]].solid;
        c->loops[a[0]]++, c->loops[a[1]] = 0, c->faces[f]--;
        if (f != g) c->faces[g] += c->faces[f], c->faces[f] = 0;
        break;
    case MFKRH: f = t->loop[a[0]].face, c->faces[t->face[f].solid]++, c->loops[f]--, c->loops[a[1]] = 1; break;
    case RMOV: c->loops[t->loop[a[0]].face]--, c->loops[a[1]]++; break;
    }
}

static Inverse kvsf_inverse(const Records *t, unsigned s) {
    unsigned f = twin_face_in(t, s), l = t->face[f].outer, v = t->loop[l].lone;
    Point p = t->point[v - 1];
    return (Inverse){MVSF, 7, {s, f, l, v, coordinate(p.x), coordinate(p.y), coordinate(p.z)}};
}

static Inverse kev_inverse(const Records *t, unsigned k) {
    unsigned m = mate(k), n = t->half[m].next, v = t->half[m].start;
    Point p = t->point[v - 1];
    return (Inverse){MEV, 8, {t->half[k].loop, n == k ? 0 : n, edge_of(k), v, way_of(k), coordinate(p.x),
                              coordinate(p.y), coordinate(p.z)}};
}

static Inverse kef_inverse(const Records *t, unsigned k) {
    unsigned m = mate(k), n = t->half[k].next, o = t->half[m].next, l2 = t->half[k].loop;
    int alone = n == k, other_alone = o == m;
    unsigned h1 = !alone ? n : other_alone ? 0 : o, h2 = !other_alone ? o : alone ? 0 : n;
    unsigned w = way_of(m) + (other_alone && !alone ? 2 : 0);
    return (Inverse){MEF, 7, {t->half[m].loop, h1, h2, edge_of(k), t->loop[l2].face, l2, w}};
}

static Inverse kemr_inverse(const Records *t, unsigned k, unsigned l2) {
    unsigned m = mate(k), n = t->half[k].next, o = t->half[m].next;
    return (Inverse){MEKR, 6, {t->half[k].loop, o == k ? 0 : o, l2, n == m ? 0 : n, edge_of(k), way_of(k)}};
}

static Inverse kfmrh_inverse(const Records *t, unsigned f1, unsigned f2) {
    unsigned s = t->face[f2].solid;
    return (Inverse){MFKRH, 3, {t->face[f2].outer, f2, s == t->face[f1].solid ? 0 : s}};
}

static Inverse jekv_inverse(const Records *t, unsigned k) {
    unsigned n = t->half[k].next, v = t->half[n].start;
    Point p = t->point[v - 1];
    return (Inverse){SEMV, 7, {k, edge_of(n), v, way_of(n), coordinate(p.x), coordinate(p.y), coordinate(p.z)}};
}

static Inverse rmov_inverse(const Records *t, unsigned l, unsigned f) {
    unsigned old = t->loop[l].face;
    return (Inverse){RMOV, 2, {old == f ? t->face[f].outer : l, old}};
}

Inverse twin_inverse(const Records *t, const Operator *o) {
    const int32_t *a = o->args;
    switch (o->code) {
    case MVSF: return (Inverse){KVSF, 1, {a[0]}};
    case KVSF: return kvsf_inverse(t, a[0]);
    case MEV: return (Inverse){KEV, 1, {half_by(a[2], a[4])}};
    case KEV: return kev_inverse(t, a[0]);
    case MEF: return (Inverse){KEF, 1, {mate(half_by(a[3], a[6]))}};
    case KEF: return kef_inverse(t, a[0]);
    case KEMR: return kemr_inverse(t, a[0], a[1]);
    case MEKR: return (Inverse){KEMR, 2, {half_by(a[4], a[5]), a[2]}};
    case KFMRH: return kfmrh_inverse(t, a[0], a[1]);
    case MFKRH: return (Inverse){KFMRH, 2, {t->loop[a[0]].face, a[1]}};
    case SEMV: return (Inverse){JEKV, 1, {a[0]}};
    case JEKV: return jekv_inverse(t, a[0]);
    default: return rmov_inverse(t, a[0], a[1]);
    }
}
