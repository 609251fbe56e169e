/* Tables written word by word, so that a large one does not need a script. All five capacities of such a table are the
 * same. */
#ifndef BENCH_TABLE_H
#define BENCH_TABLE_H

#include <stddef.h>
#include <stdint.h>

typedef struct {
    uint16_t cap;
    size_t links_n, points_n;
    uint16_t *links;
    int32_t *points;
} Table;

/* Ends the program where a table is not what it should be, and says of which row. */
void must(int ok, const char *name, unsigned size, const char *otherwise);

Table empty_table(uint16_t cap);
void free_table(Table t);

/* Everything of `from` but the memory it lies in; both have the same capacity. */
void copy_table(Table *to, const Table *from);
int same_table(const Table *a, const Table *b);

/* Vertex v in use, somewhere: the kernel does not look at the place. Nothing starts there before an edge is put. */
void put_vertex(Table *t, unsigned v);
/* Solid s, which may be put already, has the face f with this outer loop. */
void put_face(Table *t, unsigned s, unsigned f, unsigned outer);
/* Edge e, which is put once, and its two ends: half-edge 2e - 1 starts at `from`, 2e at `to`. */
void put_edge(Table *t, unsigned e, unsigned from, unsigned to);
/* Loop l of face f: these half-edges, each followed by the next one and the last by the first. */
void put_loop(Table *t, unsigned f, unsigned l, const unsigned *halves, unsigned n);
/* Loop l of face f: the vertex v alone. */
void put_lone_loop(Table *t, unsigned f, unsigned l, unsigned v);

#endif
