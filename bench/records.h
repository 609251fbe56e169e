/* The records of a table, as links and points hold them: written here once, for the benchmarks' tables and for the
 * twin. */
#ifndef BENCH_RECORDS_H
#define BENCH_RECORDS_H

#include <stdint.h>

enum { MVSF = 1, KVSF, MEV, KEV, MEF, KEF, KEMR, MEKR, KFMRH, MFKRH, SEMV, JEKV, RMOV };
enum { CAPACITY = 4096 }; /* the largest */

typedef struct {
    uint16_t solid, outer;
} Face;
typedef struct {
    uint16_t face, first, lone;
} Loop;
typedef struct {
    uint16_t start, loop, next, prev;
} HalfEdge;
typedef struct {
    int32_t x, y, z;
} Point;

/* A table by its records. They are numbered from 1, so each pointer but that of the points lies one record before the
 * first, which is still within links: the capacities stand there, or the records of the kind before. */
typedef struct {
    uint16_t *links;
    uint16_t *solid, *vertex; /* a vertex: 0 where it is free, else 1 plus the half-edges that start there */
    Face *face;
    Loop *loop;
    HalfEdge *half;
    Point *point; /* that of vertex v is point[v - 1] */
    unsigned solids, faces, loops, edges, vertices; /* capacities */
} Records;

static inline Records records_of(uint16_t *links, int32_t *points) {
    Records r = {.links = links, .point = (Point *)points};
    r.solids = links[0], r.faces = links[1], r.loops = links[2], r.edges = links[3], r.vertices = links[4];
    r.solid = links + 5 - 1;
    r.face = (Face *)(links + 5 + r.solids) - 1;
    r.loop = (Loop *)(r.face + r.faces + 1) - 1;
    r.half = (HalfEdge *)(r.loop + r.loops + 1) - 1;
    r.vertex = (uint16_t *)(r.half + 2 * r.edges + 1) - 1;
    return r;
}

static inline unsigned mate(unsigned k) { return k & 1 ? k + 1 : k - 1; }
static inline unsigned edge_of(unsigned k) { return (k + 1) / 2; }
/* The half-edge that way w gives to edge e, and the way that gives half-edge k. */
static inline unsigned half_by(unsigned e, unsigned w) { return 2 * e - 1 + (w & 1); }
static inline unsigned way_of(unsigned k) { return !(k & 1); }

#endif
