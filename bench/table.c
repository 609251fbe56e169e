#include "table.h"

#include <stdio.h>
#include <stdlib.h>
#include <string.h>

#include "records.h"
#include "zoghvari.h"

void must(int ok, const char *name, unsigned size, const char *otherwise) {
    if (ok) return;
    fprintf(stderr, "%s, size %u: %s\n", name, size, otherwise);
    exit(1);
}

Table empty_table(uint16_t c) {
    Table t = {c, 5 + 15 * (size_t)c, 3 * (size_t)c, NULL, NULL};
    t.links = malloc(t.links_n * sizeof *t.links);
    t.points = malloc(t.points_n * sizeof *t.points);
    ZoghvariSession s; /* of no use here: who runs something on the table has logs of his own */
    if (!t.links || !t.points ||
        zoghvari_clear(t.links, t.links_n, t.points, t.points_n, 0, 0, &s, c, c, c, c, c).refusal) {
        fprintf(stderr, "no empty table of capacity %u\n", c);
        exit(2);
    }
    return t;
}

void free_table(Table t) {
    free(t.links);
    free(t.points);
}

void copy_table(Table *to, const Table *from) {
    memcpy(to->links, from->links, from->links_n * sizeof *from->links);
    memcpy(to->points, from->points, from->points_n * sizeof *from->points);
}

int same_table(const Table *a, const Table *b) {
    return a->cap == b->cap && !memcmp(a->links, b->links, a->links_n * sizeof *a->links) &&
           !memcmp(a->points, b->points, a->points_n * sizeof *a->points);
}

static Records records(const Table *t) { return records_of(t->links, t->points); }

void put_vertex(Table *t, unsigned v) {
    Records r = records(t);
    int32_t n = (int32_t)v;
    if (!r.vertex[v]) r.vertex[v] = 1;
    r.point[v - 1] = (Point){97 * n % 9000, -(31 * n % 9000), n % 500};
}

void put_face(Table *t, unsigned s, unsigned f, unsigned outer) {
    Records r = records(t);
    r.solid[s] = 1;
    r.face[f] = (Face){s, outer};
}

void put_edge(Table *t, unsigned e, unsigned from, unsigned to) {
    Records r = records(t);
    put_vertex(t, from);
    put_vertex(t, to);
    r.half[2 * e - 1].start = from;
    r.half[2 * e].start = to;
    r.vertex[from]++;
    r.vertex[to]++;
}

void put_loop(Table *t, unsigned f, unsigned l, const unsigned *halves, unsigned n) {
    Records r = records(t);
    unsigned first = halves[0];
    for (unsigned i = 0; i < n; i++) {
        unsigned k = halves[i], next = halves[i + 1 < n ? i + 1 : 0];
        r.half[k].loop = l;
        r.half[k].next = next;
        r.half[next].prev = k;
        if (k < first) first = k;
    }
    r.loop[l] = (Loop){f, first, 0};
}

void put_lone_loop(Table *t, unsigned f, unsigned l, unsigned v) {
    put_vertex(t, v);
    records(t).loop[l] = (Loop){f, 0, v};
}
