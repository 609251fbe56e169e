/* A part for a viewer: a script is run, and the first solid comes out as OBJ text.
 *
 *     cc -I include -o view examples/view.c target/staticlib/libkernel.a
 *     ./view < examples/insert.script > insert.obj
 *     ./view < examples/pocket.script > pocket.obj
 *
 * What it has to tell it puts into OBJ comments, lines that begin with #, so that all of its output is one OBJ file.
 * OBJ has no faces with rings, and a block with a pocket has three of them: the kernel refuses its text (12). Then each
 * ring is joined to the outer loop of its face by an edge, on a copy, so that the part stays what it is. */
#include <stdio.h>
#include <stdlib.h>

#include "lent.h"
#include "zoghvari.h"

/* The records that are looked at, by number. A face: its solid, its outer loop. A loop: its face, its first half-edge,
 * its lone vertex. A half-edge: its start, its loop, the next one, the one before. A vertex: 0 where it is free, else 1
 * plus the number of half-edges that start there. */
static const uint16_t *face(const Table *t, unsigned f) { return t->links + 5 + N + 2 * (f - 1); }
static const uint16_t *loop(const Table *t, unsigned l) { return face(t, N + 1) + 3 * (l - 1); }
static const uint16_t *half(const Table *t, unsigned k) { return loop(t, N + 1) + 4 * (k - 1); }
static const uint16_t *vertex(const Table *t, unsigned v) { return half(t, 2 * N + 1) + (v - 1); }

/* How many half-edges start at a vertex in use: one read, and no walk around it. */
static unsigned valence(const Table *t, unsigned v) { return vertex(t, v)[0] - 1u; }

/* A corner is a half-edge of a loop, or 0 where the loop is lone; the vertex there, and the corner behind it. */
static unsigned vertex_at(const Table *t, unsigned l, unsigned h) { return h ? half(t, h)[0] : loop(t, l)[2]; }
static unsigned corner_behind(const Table *t, unsigned h) { return h ? half(t, h)[2] : 0; }

static double distance(const Table *t, unsigned v, unsigned w) {
    double sum = 0;
    for (int i = 0; i < 3; i++) {
        double d = (double)t->points[3 * (v - 1) + i] - t->points[3 * (w - 1) + i];
        sum += d * d;
    }
    return sum;
}

/* The corners of two loops that lie nearest to each other: between them an edge crosses least. */
static void nearest(const Table *t, unsigned l, unsigned l2, unsigned *h, unsigned *h2) {
    const unsigned first = loop(t, l)[1], first2 = loop(t, l2)[1];
    unsigned a = first, b = first2;
    *h = a, *h2 = b;
    do {
        do {
            double best = distance(t, vertex_at(t, l, *h), vertex_at(t, l2, *h2));
            if (distance(t, vertex_at(t, l, a), vertex_at(t, l2, b)) < best) *h = a, *h2 = b;
            b = corner_behind(t, b);
        } while (b != first2);
        a = corner_behind(t, a);
    } while (a != first);
}

static ZoghvariRan run(Table *t, const uint8_t *script, size_t length) {
    return zoghvari_run(t->links, LINKS, t->points, POINTS, t->log, LOG, REDO, &t->session, script, length);
}

/* Ring l2 joined to the outer loop of its face: mekr l h1 l2 h2 e w. Tells how many half-edges start at the two corners
 * afterwards, and answers whether it was joined. */
static int join(Table *t, unsigned l2) {
    unsigned l = face(t, loop(t, l2)[0])[1], h, h2, e = 1;
    while (e <= N && half(t, 2 * e)[0]) e++; /* the least free edge; N + 1, where there is none, is refused */
    nearest(t, l, l2, &h, &h2);
    const unsigned v = vertex_at(t, l, h), w = vertex_at(t, l2, h2);
    ZoghvariOperator mekr = {8, 6, {l, h, l2, h2, e, 0}};
    uint8_t script[19];
    ZoghvariRan r = run(t, script, zoghvari_write(mekr, script, sizeof script).length);
    printf("# mekr %u %u %u %u %u 0: refusal %u\n", l, h, l2, h2, e, r.refusal);
    printf("# corners: %u half-edges at vertex %u, %u at vertex %u\n", valence(t, v), v, valence(t, w), w);
    return r.refusal == 0;
}

/* All rings of a solid joined to the outer loops of their faces. Answers how many that were. */
static unsigned join_rings(Table *t, size_t solid) {
    unsigned joined = 0;
    for (unsigned l = 1; l <= N; l++) {
        unsigned f = loop(t, l)[0];
        if (f && face(t, f)[0] == solid && face(t, f)[1] != l) joined += (unsigned)join(t, l);
    }
    return joined;
}

/* Asks how long the text is, lends as much memory and prints the text. Answers the refusal. */
static unsigned show(const Table *t, size_t solid) {
    ZoghvariText asked = zoghvari_obj(t->links, LINKS, t->points, POINTS, solid, NULL, 0);
    printf("# solid %zu: refusal %u length %zu\n", solid, asked.refusal, asked.length);
    uint8_t *text = asked.refusal == 13 ? malloc(asked.length) : NULL;
    if (!text) return asked.refusal;
    ZoghvariText w = zoghvari_obj(t->links, LINKS, t->points, POINTS, solid, text, asked.length);
    fwrite(text, 1, w.refusal ? 0 : w.length, stdout);
    free(text);
    return w.refusal;
}

int main(void) {
    static Table part, copy;
    static uint8_t script[SCRIPT + 1]; /* one byte more than may be there shows that there are too many */
    size_t length = fread(script, 1, sizeof script, stdin), solid = 1;
    zoghvari_clear(part.links, LINKS, part.points, POINTS, LOG, REDO, &part.session, N, N, N, N, N);
    if (length > SCRIPT) {
        printf("# input too long\n");
        return 1;
    }
    ZoghvariRan r = run(&part, script, length);
    printf("# build: refusal %u done %zu used %zu of %zu\n", r.refusal, r.done, r.used, length);
    if (r.refusal) return 1;
    while (solid < N && !part.links[5 + solid - 1]) solid++; /* the first solid in use */
    unsigned refusal = show(&part, solid);
    copy = part;
    if (refusal == 12 && join_rings(&copy, solid)) refusal = show(&copy, solid);
    return refusal ? 1 : 0;
}
