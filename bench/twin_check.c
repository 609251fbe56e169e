/* The twin's check: the six rules of a sound table, each a function that answers whether it holds where those before
 * do. Tests are joined by | and &, since a branch for each word would cost more than the word. */
#include <string.h>

#include "twin_parts.h"

static unsigned bad_point(const Point *p, unsigned used) {
    unsigned far = ((unsigned)(p->x + 50000) > 100000) | ((unsigned)(p->y + 50000) > 100000) |
                   ((unsigned)(p->z + 50000) > 100000);
    return far | (!used & ((p->x | p->y | p->z) != 0));
}

static unsigned bad_half(const Records *t, const HalfEdge *h, unsigned used) {
    unsigned wide = (h->start > t->vertices) | (h->loop > t->loops) | (h->next > 2 * t->edges) |
                    (h->prev > 2 * t->edges);
    unsigned mixed = ((h->start != 0) != used) | ((h->loop != 0) != used) | ((h->next != 0) != used) |
                     ((h->prev != 0) != used);
    return wide | mixed;
}

static int ranges(const Records *t) {
    unsigned bad = 0;
    for (unsigned s = 1; s <= t->solids; s++) bad |= t->solid[s] > 1;
    for (unsigned f = 1; f <= t->faces; f++) {
        Face r = t->face[f];
        bad |= (r.solid > t->solids) | (r.outer > t->loops) | ((r.solid == 0) != (r.outer == 0));
    }
    for (unsigned l = 1; l <= t->loops; l++) {
        Loop r = t->loop[l];
        bad |= (r.face > t->faces) | (r.first > 2 * t->edges) | (r.lone > t->vertices);
        bad |= (r.face == 0) & ((r.first | r.lone) != 0);
    }
    for (unsigned k = 1; k < 2 * t->edges; k += 2) {
        unsigned used = t->half[k].start != 0;
        bad |= bad_half(t, &t->half[k], used) | bad_half(t, &t->half[k + 1], used);
    }
    for (unsigned v = 1; v <= t->vertices; v++) bad |= bad_point(&t->point[v - 1], t->vertex[v] != 0);
    return !bad;
}

static int names(const Records *t) {
    unsigned bad = 0;
    uint8_t has_face[CAPACITY + 1] = {0};
    for (unsigned f = 1; f <= t->faces; f++) {
        Face r = t->face[f];
        if (r.solid == 0) continue;
        bad |= !t->solid[r.solid] | (t->loop[r.outer].face != f);
        has_face[r.solid] = 1;
    }
    for (unsigned s = 1; s <= t->solids; s++) bad |= t->solid[s] & !has_face[s];
    for (unsigned l = 1; l <= t->loops; l++) {
        Loop r = t->loop[l];
        if (r.face == 0) continue;
        bad |= !t->face[r.face].solid | (r.first && !t->half[r.first].start) | (r.lone && !t->vertex[r.lone]);
    }
    for (unsigned k = 1; k <= 2 * t->edges; k++) {
        HalfEdge r = t->half[k];
        if (r.start == 0) continue;
        bad |= !t->vertex[r.start] | !t->loop[r.loop].face | !t->half[r.next].start | !t->half[r.prev].start;
    }
    return !bad;
}

static int first_or_lone(const Records *t) {
    unsigned bad = 0;
    for (unsigned l = 1; l <= t->loops; l++)
        bad |= t->loop[l].face && (t->loop[l].first != 0) == (t->loop[l].lone != 0);
    return !bad;
}

static unsigned halves_in_use(const Records *t) {
    unsigned n = 0;
    for (unsigned k = 1; k <= 2 * t->edges; k++) n += t->half[k].start != 0;
    return n;
}

/* Next and previous undo each other, so the walks from the loops' firsts end; together they must pass all
 * half-edges. */
static int loops_are_cycles(const Records *t) {
    unsigned bad = 0, passed = 0;
    for (unsigned k = 1; k <= 2 * t->edges; k++) {
        HalfEdge r = t->half[k], n = t->half[r.next];
        if (r.start == 0) continue;
        bad |= (n.prev != k) | (t->half[r.prev].next != k) | (n.start != t->half[mate(k)].start) | (n.loop != r.loop);
    }
    if (bad) return 0;
    for (unsigned l = 1; l <= t->loops; l++) {
        unsigned first = t->loop[l].first;
        if (first == 0) continue;
        bad |= t->half[first].loop != l;
        for (unsigned k = first; k; passed++) {
            bad |= k < first;
            k = t->half[k].next == first ? 0 : t->half[k].next;
        }
    }
    return !bad && passed == halves_in_use(t);
}

/* One walk from one half-edge of each vertex; together they must pass all half-edges, and each as many as the word of
 * its vertex says. */
static int vertices_are_cycles(const Records *t) {
    uint16_t from[CAPACITY + 1] = {0}, lone[CAPACITY + 1] = {0};
    unsigned bad = 0, passed = 0;
    for (unsigned k = 2 * t->edges; k >= 1; k--) from[t->half[k].start] = k;
    for (unsigned l = 1; l <= t->loops; l++) lone[t->loop[l].lone]++;
    for (unsigned v = 1; v <= t->vertices; v++) {
        unsigned first = from[v], starts = 0;
        for (unsigned k = first; k; starts++) {
            unsigned next = t->half[mate(k)].next;
            k = next == first ? 0 : next;
        }
        bad |= t->vertex[v] && (lone[v] != !first || t->vertex[v] != 1 + starts);
        passed += starts;
    }
    return !bad && passed == halves_in_use(t);
}

static int solids_are_linked(const Records *t) {
    Shells shells;
    uint16_t shell[CAPACITY + 1] = {0}; /* that of a solid's first face */
    unsigned bad = 0;
    for (unsigned k = 1; k < 2 * t->edges; k += 2) {
        unsigned f = t->loop[t->half[k].loop].face, g = t->loop[t->half[k + 1].loop].face;
        if (t->half[k].start) bad |= t->face[f].solid != t->face[g].solid;
    }
    if (bad) return 0;
    twin_shells(t, &shells);
    for (unsigned f = 1; f <= t->faces; f++) {
        unsigned s = t->face[f].solid, own = shell_of(&shells, f);
        if (s && shell[s] == 0) shell[s] = own;
        bad |= s && shell[s] != own;
    }
    return !bad;
}

unsigned twin_check(Records t) {
    int (*const rules[])(const Records *) = {ranges, names, first_or_lone, loops_are_cycles, vertices_are_cycles,
                                             solids_are_linked};
    for (unsigned i = 0; i < sizeof rules / sizeof *rules; i++)
        if (!rules[i](&t)) return i + 1;
    return 0;
}
