/* The twin's OBJ text: the solid's vertices are found by one pass over the half-edges and counted, the text is
 * measured, and where it fits it is written. */
#include <string.h>

#include "twin.h"

/* The place of each vertex among the v lines, 0 for one of another solid. */
typedef struct {
    uint16_t of[CAPACITY + 1];
} Places;

static void find_places(const Records *t, size_t solid, Places *place) {
    memset(place, 0, sizeof *place);
    for (unsigned k = 1; k <= 2 * t->edges; k++) {
        HalfEdge h = t->half[k];
        if (h.start && t->face[t->loop[h.loop].face].solid == solid) place->of[h.start] = 1;
    }
    for (unsigned v = 1, n = 0; v <= t->vertices; v++)
        if (place->of[v]) place->of[v] = ++n;
}

/* All loops of the solid are outer ones of three sides at least. */
static int all_polygons(const Records *t, size_t solid) {
    for (unsigned l = 1; l <= t->loops; l++) {
        Loop r = t->loop[l];
        if (r.face == 0 || t->face[r.face].solid != solid) continue;
        if (t->face[r.face].outer != l || r.first == 0) return 0;
        unsigned second = t->half[r.first].next;
        if (second == r.first || t->half[second].next == r.first) return 0;
    }
    return 1;
}

static inline unsigned size_of(int32_t c) { return c < 0 ? (unsigned)-c : (unsigned)c; }
/* How many digits a number has; none here has more than four. */
static inline size_t digits(unsigned n) { return n < 10 ? 1 : n < 100 ? 2 : n < 1000 ? 3 : 4; }
static inline size_t coordinate_length(int32_t c) { return (c < 0) + digits(size_of(c) / 100) + 4; }

static size_t measure(const Records *t, size_t solid, const Places *place) {
    size_t length = 0;
    for (unsigned v = 1; v <= t->vertices; v++) {
        Point p = t->point[v - 1];
        if (place->of[v]) length += 2 + coordinate_length(p.x) + coordinate_length(p.y) + coordinate_length(p.z);
    }
    for (unsigned f = 1; f <= t->faces; f++) {
        if (t->face[f].solid != solid) continue;
        unsigned first = t->loop[t->face[f].outer].first, k = first;
        length += 2;
        do {
            length += 1 + digits(place->of[t->half[k].start]);
            k = t->half[k].prev;
        } while (k != first);
    }
    return length;
}

static inline uint8_t *put_number(uint8_t *at, unsigned n) {
    uint8_t *end = at + digits(n);
    for (uint8_t *p = end; p > at; n /= 10) *--p = (uint8_t)('0' + n % 10);
    return end;
}
static inline uint8_t *put_coordinate(uint8_t *at, int32_t c) {
    unsigned n = size_of(c);
    *at++ = ' ';
    if (c < 0) *at++ = '-';
    at = put_number(at, n / 100);
    *at++ = '.';
    *at++ = (uint8_t)('0' + n / 10 % 10);
    *at++ = (uint8_t)('0' + n % 10);
    return at;
}

static uint8_t *put_vertices(const Records *t, const Places *place, uint8_t *at) {
    for (unsigned v = 1; v <= t->vertices; v++) {
        Point p = t->point[v - 1];
        if (!place->of[v]) continue;
        *at++ = 'v';
        at = put_coordinate(put_coordinate(put_coordinate(at, p.x), p.y), p.z);
        *at++ = '\n';
    }
    return at;
}

static void put_faces(const Records *t, size_t solid, const Places *place, uint8_t *at) {
    for (unsigned f = 1; f <= t->faces; f++) {
        if (t->face[f].solid != solid) continue;
        unsigned first = t->loop[t->face[f].outer].first, k = first;
        *at++ = 'f';
        do {
            *at++ = ' ';
            at = put_number(at, place->of[t->half[k].start]);
            k = t->half[k].prev;
        } while (k != first);
        *at++ = '\n';
    }
}

TwinText twin_obj(Records t, size_t solid, uint8_t *out, size_t out_n) {
    Places place;
    if (solid == 0 || solid > t.solids) return (TwinText){5, 0};
    if (!t.solid[solid]) return (TwinText){6, 0};
    if (!all_polygons(&t, solid)) return (TwinText){12, 0};
    find_places(&t, solid, &place);
    size_t length = measure(&t, solid, &place);
    if (length > out_n) return (TwinText){13, length};
    put_faces(&t, solid, &place, put_vertices(&t, &place, out));
    return (TwinText){0, length};
}
