/* The twin's thirteen effects. */
#include "twin_parts.h"

static void put_half(const Records *t, unsigned k, unsigned start, unsigned loop, unsigned next, unsigned prev) {
    t->half[k] = (HalfEdge){start, loop, next, prev};
}
static void tie(const Records *t, unsigned a, unsigned b) {
    t->half[a].next = b;
    t->half[b].prev = a;
}
static void free_edge(const Records *t, unsigned k) { t->half[k] = t->half[mate(k)] = (HalfEdge){0, 0, 0, 0}; }

/* Vertex v, at which so many half-edges start. */
static void put_vertex(const Records *t, unsigned v, unsigned starts, const int32_t *c) {
    t->vertex[v] = 1 + starts;
    t->point[v - 1] = (Point){c[0], c[1], c[2]};
}
static void free_vertex(const Records *t, unsigned v) {
    t->vertex[v] = 0;
    t->point[v - 1] = (Point){0, 0, 0};
}

/* An edge comes between vertices that stay, or goes; they may be one. */
static void more_starts(const Records *t, unsigned u, unsigned v) { t->vertex[u]++, t->vertex[v]++; }
static void less_starts(const Records *t, unsigned u, unsigned v) { t->vertex[u]--, t->vertex[v]--; }

/* Loop l loses its last half-edge. */
static void become_lone(const Records *t, unsigned l, unsigned v) {
    t->loop[l].first = 0;
    t->loop[l].lone = v;
}

/* The least half-edge of k's cycle, that of loop l, where none is at or below `low`: a walk, and beside it a look at
 * the numbers from there on, whichever ends first. So a row of operators that each take the first away costs the
 * numbers passed and not the loop each time. */
static unsigned least_above(const Records *t, unsigned l, unsigned k, unsigned low) {
    unsigned best = k;
    for (unsigned i = t->half[k].next; i != k; i = t->half[i].next) {
        if (++low <= 2 * t->edges && t->half[low].loop == l) return low;
        best = least(best, i);
    }
    return best;
}

/* The run from k up to before `stop` gets loop l. Its least half-edge, above all numbers where the run is empty. */
static unsigned relabel(const Records *t, unsigned k, unsigned stop, unsigned l) {
    unsigned best = ~0u;
    for (; k != stop; k = t->half[k].next) {
        t->half[k].loop = l;
        best = least(best, k);
    }
    return best;
}

static void mvsf(const Records *t, unsigned s, unsigned f, unsigned l, unsigned v, const int32_t *point) {
    t->solid[s] = 1;
    t->face[f] = (Face){s, l};
    t->loop[l] = (Loop){f, 0, v};
    put_vertex(t, v, 0, point);
}

unsigned twin_face_in(const Records *t, unsigned s) {
    unsigned f = 1;
    while (t->face[f].solid != s) f++;
    return f;
}

static void kvsf(const Records *t, unsigned s) {
    unsigned f = twin_face_in(t, s), l = t->face[f].outer;
    free_vertex(t, t->loop[l].lone);
    t->solid[s] = 0;
    t->face[f] = (Face){0, 0};
    t->loop[l] = (Loop){0, 0, 0};
}

static void mev(const Records *t, unsigned l, unsigned h, unsigned k, unsigned v, const int32_t *point) {
    unsigned m = mate(k);
    if (h == 0) {
        put_half(t, k, t->loop[l].lone, l, m, m);
        put_half(t, m, v, l, k, k);
        t->loop[l].first = least(k, m);
        t->loop[l].lone = 0;
    } else {
        unsigned p = t->half[h].prev;
        put_half(t, k, t->half[h].start, l, m, p);
        put_half(t, m, v, l, h, k);
        t->half[p].next = k;
        t->half[h].prev = m;
        t->loop[l].first = least(t->loop[l].first, least(k, m));
    }
    t->vertex[t->half[k].start]++;
    put_vertex(t, v, 1, point);
}

static void kev(const Records *t, unsigned k) {
    unsigned m = mate(k), l = t->half[k].loop, n = t->half[m].next, start = t->half[k].start, first = t->loop[l].first;
    free_vertex(t, t->half[m].start);
    t->vertex[start]--;
    if (n != k) tie(t, t->half[k].prev, n);
    free_edge(t, k);
    if (n == k) become_lone(t, l, start);
    else if (first == k || first == m) t->loop[l].first = least_above(t, l, n, first);
}

/* mef where the new face gets its half b of the edge alone: before corner h, or at a lone vertex. */
static void mef_alone(const Records *t, unsigned l, unsigned h, unsigned a, unsigned l2) {
    unsigned b = mate(a), v = h ? t->half[h].start : t->loop[l].lone;
    put_half(t, b, v, l2, b, b);
    t->loop[l2].first = b;
    if (h == 0) {
        put_half(t, a, v, l, a, a);
        t->loop[l].first = a;
        t->loop[l].lone = 0;
        return;
    }
    unsigned p = t->half[h].prev;
    put_half(t, a, v, l, h, p);
    t->half[p].next = t->half[h].prev = a;
    t->loop[l].first = least(t->loop[l].first, a);
}

/* mef where the new face gets the whole old loop, which begins at h, and the old one its half a of the edge alone. */
static void mef_whole(const Records *t, unsigned l, unsigned h, unsigned a, unsigned l2) {
    unsigned b = mate(a), v = t->half[h].start, p = t->half[h].prev;
    put_half(t, a, v, l, a, a);
    put_half(t, b, v, l2, h, p);
    t->half[p].next = t->half[h].prev = b;
    t->loop[l2].first = least(relabel(t, h, b, l2), b);
    t->loop[l].first = a;
}

static void mef_runs(const Records *t, unsigned l, unsigned h1, unsigned h2, unsigned a, unsigned l2) {
    unsigned b = mate(a), p = t->half[h1].prev, q = t->half[h2].prev, first = t->loop[l].first;
    put_half(t, a, t->half[h1].start, l, h2, p);
    put_half(t, b, t->half[h2].start, l2, h1, q);
    t->half[p].next = t->half[h2].prev = a;
    t->half[q].next = t->half[h1].prev = b;
    t->loop[l2].first = least(relabel(t, h1, b, l2), b);
    int kept = t->half[first].loop == l;
    t->loop[l].first = kept ? least(first, a) : least_above(t, l, a, least(first, a - 1));
}

static void mef(const Records *t, const int32_t *args) {
    unsigned l = args[0], h1 = args[1], h2 = args[2], f = args[4], l2 = args[5], w = args[6];
    unsigned a = half_by(args[3], w);
    t->face[f] = (Face){t->face[t->loop[l].face].solid, l2};
    t->loop[l2].face = f;
    if (h1 != h2) mef_runs(t, l, h1, h2, a, l2);
    else if (w < 2) mef_alone(t, l, h1, a, l2);
    else mef_whole(t, l, h1, a, l2);
    more_starts(t, t->half[a].start, t->half[mate(a)].start);
}

static void kef(const Records *t, unsigned k) {
    unsigned m = mate(k), l2 = t->half[k].loop, l = t->half[m].loop;
    HalfEdge dead = t->half[k], other = t->half[m];
    unsigned first = t->loop[l].first;
    int alone = dead.next == k, other_alone = other.next == m; /* each in a loop by itself */
    unsigned taken = alone ? ~0u : relabel(t, dead.next, k, l);
    tie(t, other.prev, alone ? other.next : dead.next);
    tie(t, dead.prev, other_alone ? dead.next : other.next);
    free_edge(t, k);
    less_starts(t, dead.start, other.start);
    if (alone && other_alone) become_lone(t, l, dead.start);
    else if (first != m) t->loop[l].first = least(first, taken);
    else if (other_alone || taken < first) t->loop[l].first = taken;
    else t->loop[l].first = least_above(t, l, other.next, first);
    t->face[t->loop[l2].face] = (Face){0, 0};
    t->loop[l2] = (Loop){0, 0, 0};
}

static void kemr(const Records *t, unsigned k, unsigned l2) {
    unsigned m = mate(k), l = t->half[k].loop, first = t->loop[l].first;
    HalfEdge here = t->half[k], there = t->half[m];
    unsigned taken = relabel(t, here.next, m, l2);
    if (here.next != m) tie(t, there.prev, here.next);
    if (there.next != k) tie(t, here.prev, there.next);
    t->loop[l2] = here.next == m ? (Loop){t->loop[l].face, 0, there.start} : (Loop){t->loop[l].face, taken, 0};
    free_edge(t, k);
    less_starts(t, here.start, there.start);
    if (there.next == k) become_lone(t, l, here.start);
    else if (t->half[first].loop != l) t->loop[l].first = least_above(t, l, there.next, first);
}

static void mekr(const Records *t, unsigned l, unsigned h1, unsigned l2, unsigned h2, unsigned k) {
    unsigned m = mate(k), first = least(k, m);
    unsigned v1 = h1 ? t->half[h1].start : t->loop[l].lone, v2 = h2 ? t->half[h2].start : t->loop[l2].lone;
    unsigned p = h1 ? t->half[h1].prev : m, q = h2 ? t->half[h2].prev : k;
    if (h1) first = least(first, t->loop[l].first);
    if (h2) first = least(first, t->loop[l2].first);
    put_half(t, k, v1, l, h2 ? h2 : m, p);
    put_half(t, m, v2, l, h1 ? h1 : k, q);
    if (h1) t->half[p].next = k, t->half[h1].prev = m;
    if (h2) t->half[q].next = m, t->half[h2].prev = k, relabel(t, h2, m, l);
    t->loop[l].first = first;
    t->loop[l].lone = 0;
    t->loop[l2] = (Loop){0, 0, 0};
    more_starts(t, v1, v2);
}

static void kfmrh(const Records *t, unsigned f1, unsigned f2) {
    unsigned from = t->face[f2].solid, to = t->face[f1].solid;
    t->loop[t->face[f2].outer].face = f1;
    t->face[f2] = (Face){0, 0};
    if (from == to) return;
    for (unsigned f = 1; f <= t->faces; f++)
        if (t->face[f].solid == from) t->face[f].solid = to;
    t->solid[from] = 0;
}

void twin_shells(const Records *t, Shells *s) {
    for (unsigned f = 0; f <= t->faces; f++) s->parent[f] = f;
    for (unsigned k = 1; k < 2 * t->edges; k += 2) {
        if (t->half[k].start == 0) continue;
        unsigned a = t->loop[t->half[k].loop].face, b = t->loop[t->half[k + 1].loop].face;
        if (a == b) continue;
        a = shell_of(s, a), b = shell_of(s, b);
        s->parent[a < b ? b : a] = least(a, b);
    }
}

static void mfkrh(const Records *t, unsigned l, unsigned f, unsigned s) {
    t->face[f] = (Face){t->face[t->loop[l].face].solid, l};
    t->loop[l].face = f;
    if (s == 0) return;
    Shells shells;
    twin_shells(t, &shells);
    unsigned shell = shell_of(&shells, f);
    for (unsigned g = 1; g <= t->faces; g++)
        if (t->face[g].solid && shell_of(&shells, g) == shell) t->face[g].solid = s;
    t->solid[s] = 1;
}

static void semv(const Records *t, unsigned k, unsigned n, unsigned v, const int32_t *point) {
    unsigned km = mate(k), nm = mate(n), l = t->half[k].loop, o = t->half[km].loop;
    unsigned next = t->half[k].next;
    put_half(t, n, v, l, next, k);
    t->half[k].next = t->half[next].prev = n;
    unsigned prev = t->half[km].prev; /* n itself where k's edge is a spur, so it is read only now */
    put_half(t, nm, t->half[km].start, o, km, prev);
    t->half[prev].next = t->half[km].prev = nm;
    t->half[km].start = v;
    t->loop[l].first = least(t->loop[l].first, n);
    t->loop[o].first = least(t->loop[o].first, nm);
    put_vertex(t, v, 2, point); /* at the ends one goes and one comes */
}

static void jekv(const Records *t, unsigned k) {
    unsigned n = t->half[k].next, km = mate(k), nm = mate(n), l = t->half[k].loop, o = t->half[km].loop;
    free_vertex(t, t->half[n].start);
    tie(t, k, t->half[n].next);
    tie(t, t->half[nm].prev, km);
    t->half[km].start = t->half[nm].start;
    free_edge(t, n);
    unsigned first = t->loop[l].first;
    if (first == n || first == nm) t->loop[l].first = least_above(t, l, k, first);
    first = t->loop[o].first;
    if (first == n || first == nm) t->loop[o].first = least_above(t, o, km, first);
}

static void rmov(const Records *t, unsigned l, unsigned f) {
    if (t->loop[l].face == f) t->face[f].outer = l;
    else t->loop[l].face = f;
}

void twin_effect(const Records *t, unsigned code, const int32_t *a) {
    switch (code) {
    case MVSF: mvsf(t, a[0], a[1], a[2], a[3], a + 4); break;
    case KVSF: kvsf(t, a[0]); break;
    case MEV: mev(t, a[0], a[1], half_by(a[2], a[4]), a[3], a + 5); break;
    case KEV: kev(t, a[0]); break;
    case MEF: mef(t, a); break;
    case KEF: kef(t, a[0]); break;
    case KEMR: kemr(t, a[0], a[1]); break;
    case MEKR: mekr(t, a[0], a[1], a[2], a[3], half_by(a[4], a[5])); break;
    case KFMRH: kfmrh(t, a[0], a[1]); break;
    case MFKRH: mfkrh(t, a[0], a[1], a[2]); break;
    case SEMV: semv(t, a[0], half_by(a[1], a[3]), a[2], a + 4); break;
    case JEKV: jekv(t, a[0]); break;
    case RMOV: rmov(t, a[0], a[1]); break;
    }
}
