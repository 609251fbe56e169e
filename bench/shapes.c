#include "shapes.h"

/* Rows of quads around an axis: in each row one quad for each corner, between the row's lower ring of edges and the
 * ring above, which belongs to the next row. Numbers are given out as when a polygon is lifted row by row: a ring of
 * edges, the uprights on it, the ring above. Vertices and edges follow the numbers v and e, the quads' faces and loops
 * the number f. Where `closed`, the ring above the last row is the lowest one. */
typedef struct {
    unsigned corners, rows, closed;
    unsigned v, e, f;
} Wall;

static unsigned ring_of(const Wall *w, unsigned row) { return w->closed ? row % w->rows : row; }
static unsigned vertex_at(const Wall *w, unsigned row, unsigned i) {
    return w->v + ring_of(w, row) * w->corners + i % w->corners + 1;
}
/* The edge from corner i to the next one, and the edge from corner i upward. */
static unsigned along(const Wall *w, unsigned row, unsigned i) {
    return w->e + 2 * ring_of(w, row) * w->corners + i % w->corners + 1;
}
static unsigned upright(const Wall *w, unsigned row, unsigned i) { return along(w, row, i) + w->corners; }

static void put_ring_edges(Table *t, const Wall *w, unsigned row) {
    for (unsigned i = 0; i < w->corners; i++)
        put_edge(t, along(w, row, i), vertex_at(w, row, i), vertex_at(w, row, i + 1));
}

static void put_wall(Table *t, const Wall *w) {
    unsigned f = w->f;
    for (unsigned row = 0; row < w->rows; row++) {
        put_ring_edges(t, w, row);
        for (unsigned i = 0; i < w->corners; i++)
            put_edge(t, upright(w, row, i), vertex_at(w, row, i), vertex_at(w, row + 1, i));
        for (unsigned i = 0; i < w->corners; i++, f++) {
            unsigned quad[4] = {2 * along(w, row, i) - 1, 2 * upright(w, row, i + 1) - 1, 2 * along(w, row + 1, i),
                                2 * upright(w, row, i)};
            put_loop(t, f + 1, f + 1, quad, 4);
            put_face(t, 1, f + 1, f + 1);
        }
    }
    if (!w->closed) put_ring_edges(t, w, w->rows);
}

/* Loop l of face f on the open side of a wall: above its last ring, or below its first. */
static void put_upper_loop(Table *t, const Wall *w, unsigned f, unsigned l) {
    static unsigned halves[4096];
    for (unsigned i = 0; i < w->corners; i++) halves[i] = 2 * along(w, w->rows, i) - 1;
    put_loop(t, f, l, halves, w->corners);
}
static void put_lower_loop(Table *t, const Wall *w, unsigned f, unsigned l) {
    static unsigned halves[4096];
    for (unsigned i = 0; i < w->corners; i++) halves[i] = 2 * along(w, 0, w->corners - 1 - i);
    put_loop(t, f, l, halves, w->corners);
}

/* Face 1 above, face 2 below, the wall between them, where there are rows of it. */
static Shape lifted(unsigned corners, unsigned rows, uint16_t cap) {
    Shape s = {empty_table(cap), 1, (2 * rows + 1) * corners, 0, 0};
    Wall w = {corners, rows, 0, 0, 0, 2};
    put_wall(&s.table, &w);
    put_upper_loop(&s.table, &w, 1, 1);
    put_lower_loop(&s.table, &w, 2, 2);
    put_face(&s.table, 1, 1, 1);
    put_face(&s.table, 1, 2, 2);
    return s;
}

Shape tower(unsigned n, uint16_t cap) { return lifted(4, n, cap); }
Shape prism(unsigned n, uint16_t cap) { return lifted(n, 1, cap); }
Shape sheet(unsigned n, uint16_t cap) { return lifted(n, 0, cap); }

Shape torus(unsigned n, uint16_t cap) {
    Shape s = {empty_table(cap), 1, 2 * n * n, 0, 1};
    Wall w = {n, n, 1, 0, 0, 0};
    put_wall(&s.table, &w);
    return s;
}

/* Around vertex i start, in this order, a, b, a's mate, b's mate, the bridge onward and the bridge back. A half-edge is
 * followed by what starts there behind its mate: so the loop passes a, b's mate, a's mate and b at each vertex on its
 * way along the row, and nothing but bridges on its way back. */
Shape handles(unsigned n, uint16_t cap) {
    Shape s = {empty_table(cap), 1, 3 * n - 1, 0, n};
    static unsigned halves[8192];
    unsigned at = 0;
    for (unsigned i = 1; i <= n; i++) {
        unsigned a = n - 1 + 2 * i - 1, b = a + 1;
        put_edge(&s.table, a, i, i);
        put_edge(&s.table, b, i, i);
        halves[at++] = 2 * a - 1;
        halves[at++] = 2 * b;
        halves[at++] = 2 * a;
        halves[at++] = 2 * b - 1;
        if (i == n) break;
        put_edge(&s.table, i, i, i + 1);
        halves[at++] = 2 * i - 1;
    }
    for (unsigned i = n - 1; i >= 1; i--) halves[at++] = 2 * i;
    put_loop(&s.table, 1, 1, halves, at);
    put_face(&s.table, 1, 1, 1);
    return s;
}

/* Each pocket, and last the block, is a wall with a face above it: the pocket's floor, the block's back. The face below
 * the block has the pockets' lower loops as rings. */
Shape pockets(unsigned n, uint16_t cap) {
    Shape s = {empty_table(cap), 1, 12 * n + 12, n, 0};
    Table *t = &s.table;
    unsigned face = 5 * n + 6; /* the one with the pockets: the last number, its rings' loops behind it */
    for (unsigned i = 0; i <= n; i++) {
        Wall w = {4, 1, 0, 8 * i, 12 * i, 5 * i + 1};
        put_wall(t, &w);
        put_upper_loop(t, &w, w.f, w.f);
        put_face(t, 1, w.f, w.f);
        put_lower_loop(t, &w, face, i == n ? face : face + 1 + i);
    }
    put_face(t, 1, face, face);
    return s;
}

Shape lone_solids(unsigned n, uint16_t cap) {
    Shape s = {empty_table(cap), n, 0, 0, 0};
    for (unsigned i = 1; i <= n; i++) {
        put_lone_loop(&s.table, i, i, i);
        put_face(&s.table, i, i, i);
    }
    return s;
}
