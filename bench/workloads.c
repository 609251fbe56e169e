#include "workloads.h"

#include <stdio.h>
#include <stdlib.h>
#include <string.h>

#include "twin.h"
#include "zoghvari.h"

static const uint16_t caps[SIZES] = {64, 512, CAPACITY};

/* A workload in the making. Operators change the table `after`; from begin() on they are put into the script too. */
struct Maker {
    Workload w;
    Records t;
    unsigned face, loop, edge, vertex; /* the last numbers given out */
    int recorded;
};

static void record(Workload *w, uint8_t code, const int32_t *args) {
    w->script = realloc(w->script, w->script_n + 19);
    ZoghvariWritten r = {9, 0};
    ZoghvariOperator op = {code, (uint8_t)twin_operands(code), {0}};
    memcpy(op.args, args, sizeof op.args);
    if (w->script) r = zoghvari_write(op, w->script + w->script_n, 19);
    if (r.refusal) {
        fprintf(stderr, "%s, size %u: operator %zu cannot be written\n", w->name, w->size, w->operators + 1);
        exit(1);
    }
    w->script_n += r.length;
    w->operators++;
}

static void apply(Maker *m, uint8_t code, const int32_t args[8]) {
    twin_effect(&m->t, code, args);
    if (m->recorded) record(&m->w, code, args);
}

static void begin(Maker *m) {
    copy_table(&m->w.before, &m->w.after);
    m->recorded = 1;
}

/* mev of the next numbers before corner (l, h); the half-edge that starts at the new vertex. */
static unsigned mev(Maker *m, unsigned l, unsigned h) {
    int32_t e = (int32_t)++m->edge, v = (int32_t)++m->vertex;
    apply(m, MEV, (int32_t[8]){l, h, e, v, 0, 97 * v % 9000, 31 * v % 9000, 500});
    return 2 * m->edge;
}
/* mef of the next numbers: loop l loses what runs from h1 up to before h2. */
static void mef(Maker *m, unsigned l, unsigned h1, unsigned h2) {
    m->edge++, m->face++, m->loop++;
    apply(m, MEF, (int32_t[8]){l, h1, h2, m->edge, m->face, m->loop, 0});
}
/* semv of the next numbers. */
static void semv(Maker *m, unsigned k) {
    int32_t e = (int32_t)++m->edge, v = (int32_t)++m->vertex;
    apply(m, SEMV, (int32_t[8]){k, e, v, 0, v, 5, 6});
}

/* A solid of two faces, both with n corners: a path from vertex to vertex, closed by an edge from its end. */
static void polygon(Maker *m, unsigned n) {
    apply(m, MVSF, (int32_t[8]){1, 1, 1, 1, 0, 0, 0});
    m->face = m->loop = m->vertex = 1;
    unsigned end = 0;
    for (unsigned i = 1; i < n; i++) end = mev(m, 1, end);
    mef(m, 1, end, 1);
}

/* The face of loop l is lifted: an upright at each corner, then a side from upright to upright. The last side ends at
 * the half-edge that the lifted face has of the first one, behind the lower edge and the first upright. */
static void lift(Maker *m, unsigned l) {
    static unsigned corner[CAPACITY], tip[CAPACITY];
    const HalfEdge *half = m->t.half;
    unsigned first = m->t.loop[l].first, n = 0;
    for (unsigned h = first; h; h = half[h].next == first ? 0 : half[h].next) corner[n++] = h;
    for (unsigned i = 0; i < n; i++) tip[i] = mev(m, l, corner[i]);
    for (unsigned i = 0; i < n; i++)
        mef(m, l, tip[i], i + 1 < n ? tip[i + 1] : half[half[half[tip[i]].next].next].next);
}

static void lifted(Maker *m, unsigned corners, unsigned levels) {
    polygon(m, corners);
    for (unsigned i = 0; i < levels; i++) lift(m, 1);
}

static void tower(Maker *m, unsigned levels) {
    begin(m);
    lifted(m, 4, levels);
}
static void prism(Maker *m, unsigned corners) {
    begin(m);
    lifted(m, corners, 1);
}
static void split_one(Maker *m, unsigned n) {
    polygon(m, 3);
    begin(m);
    for (unsigned i = 0; i < n; i++) semv(m, 1);
}
static void split_all(Maker *m, unsigned levels) {
    lifted(m, 4, levels);
    begin(m);
    for (unsigned e = 1, n = m->edge; e <= n; e++) semv(m, 2 * e);
}

/* A pocket in the face of loop 1: a quad on a spur from the loop, the spur killed, so that the quad's outline is a ring
 * of that face, and the quad lifted. The killed edge's number stays free. */
typedef struct {
    unsigned ring, floor;
} Pocket;
static Pocket pocket(Maker *m) {
    unsigned end = mev(m, 1, m->t.loop[1].first), spur = m->edge;
    for (int i = 0; i < 3; i++) end = mev(m, 1, end);
    mef(m, 1, 2 * spur + 1, end);
    Pocket p = {m->loop + 1, m->face};
    unsigned quad = m->loop++;
    apply(m, KEMR, (int32_t[8]){2 * spur - 1, p.ring});
    lift(m, quad);
    return p;
}
static const Pocket *plate(Maker *m, unsigned n) {
    static Pocket p[CAPACITY];
    lifted(m, 4, 1);
    for (unsigned i = 0; i < n; i++) p[i] = pocket(m);
    return p;
}

static void pockets(Maker *m, unsigned n) {
    lifted(m, 4, 1);
    begin(m);
    for (unsigned i = 0; i < n; i++) pocket(m);
}
/* Each pocket's outline is tied to the outer loop. */
static void bridges(Maker *m, unsigned n) {
    const Pocket *p = plate(m, n);
    begin(m);
    for (unsigned i = 0; i < n; i++) {
        unsigned h1 = m->t.loop[1].first, h2 = m->t.loop[p[i].ring].first;
        apply(m, MEKR, (int32_t[8]){1, h1, p[i].ring, h2, ++m->edge, 0});
    }
}
/* Each pocket's floor goes into the plate's back: a hole through it. */
static void holes(Maker *m, unsigned n) {
    const Pocket *p = plate(m, n);
    begin(m);
    for (unsigned i = 0; i < n; i++) apply(m, KFMRH, (int32_t[8]){2, p[i].floor});
}
/* Each pocket's outline goes to a side of the plate. */
static void rings_away(Maker *m, unsigned n) {
    const Pocket *p = plate(m, n);
    begin(m);
    for (unsigned i = 0; i < n; i++) apply(m, RMOV, (int32_t[8]){p[i].ring, 3 + i % 4});
}
/* Each pocket's outline becomes the outer loop of its own face. */
static void rings_outer(Maker *m, unsigned n) {
    const Pocket *p = plate(m, n);
    begin(m);
    for (unsigned i = 0; i < n; i++) apply(m, RMOV, (int32_t[8]){p[i].ring, 1});
}

/* A polygon is divided into triangles. The loop that goes on keeps its first half-edge each time, or loses it. */
static void fan(Maker *m, unsigned corners, int first_lost) {
    polygon(m, corners);
    begin(m);
    const HalfEdge *half = m->t.half;
    for (unsigned i = 3; i < corners; i++) {
        unsigned first = m->t.loop[1].first, h = first_lost ? first : half[half[first].prev].prev;
        mef(m, 1, h, half[half[h].next].next);
    }
}
static void fan_kept(Maker *m, unsigned corners) { fan(m, corners, 0); }
static void fan_lost(Maker *m, unsigned corners) { fan(m, corners, 1); }

static void lone_solids(Maker *m, unsigned n) {
    begin(m);
    for (int32_t i = 1; i <= (int32_t)n; i++) apply(m, MVSF, (int32_t[8]){i, i, i, i, i % 9000, 5, 6});
}

const WorkloadKind workload_kinds[] = {
    {"tower", "levels", tower, {7, 63, 511}, cgal_tower, NULL},
    {"prism", "corners", prism, {20, 160, 1300}, cgal_prism, NULL},
    {"split one edge", "splits", split_one, {60, 500, 4000}, cgal_split_one, openmesh_split_one},
    {"split all edges", "levels", split_all, {3, 31, 255}, cgal_split_all, NULL},
    {"plate with pockets", "pockets", pockets, {4, 38, 300}, NULL, NULL},
    {"rings tied (mekr)", "rings", bridges, {3, 35, 290}, NULL, NULL},
    {"holes (kfmrh)", "holes", holes, {4, 38, 300}, NULL, NULL},
    {"rings away (rmov)", "rings", rings_away, {4, 38, 300}, NULL, NULL},
    {"rings outer (rmov)", "rings", rings_outer, {4, 38, 300}, NULL, NULL},
    {"fan, first kept", "corners", fan_kept, {32, 256, 2040}, cgal_fan, openmesh_fan},
    {"fan, first lost", "corners", fan_lost, {32, 256, 2040}, NULL, NULL},
    {"solids (mvsf)", "solids", lone_solids, {64, 512, 4096}, NULL, NULL},
};
const size_t workload_kinds_n = sizeof workload_kinds / sizeof *workload_kinds;

Workload make_workload(const WorkloadKind *kind, int i) {
    Maker m = {.w = {.name = kind->name, .unit = kind->unit, .size = kind->size[i]}};
    m.w.before = empty_table(caps[i]);
    m.w.after = empty_table(caps[i]);
    m.t = records_of(m.w.after.links, m.w.after.points);
    kind->make(&m, kind->size[i]);
    return m.w;
}

void free_workload(Workload w) {
    free(w.script);
    free_table(w.before);
    free_table(w.after);
}
