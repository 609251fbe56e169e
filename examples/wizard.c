/* A pocket wizard: a square is drawn on the top of a block, the face inside it is swept down, and the sweep is undone.
 *
 *     cc -I include -o wizard examples/wizard.c target/staticlib/libsweep.a target/staticlib/libkernel.a && ./wizard
 *
 * In millimetres: the block is 80 by 60 by 30, the pocket 30 by 30 and 12 deep. The block is made by a sweep too: a
 * rectangle of two faces, whose upper face is lifted. A pocket 600 deep is refused, since its floor would be out of
 * range; the digest after the refusal is the one before. Undo by the number of operators that the sweep answered gives
 * that digest again: every byte of links and points is back. */
#include <inttypes.h>
#include <stdio.h>

#include "digest.h"
#include "zoghvari_sweep.h"

enum { N = 64, LOG = 19 * 64, SCRIPT = 19 * 8 }; /* in logs and script 19 bytes for each operator are enough */
enum { LINKS = ZOGHVARI_LINKS_LENGTH(N, N, N, N, N), POINTS = ZOGHVARI_POINTS_LENGTH(N) };

static uint16_t links[LINKS];
static int32_t points[POINTS];
static uint8_t log_bytes[LOG], redo_bytes[LOG];
static ZoghvariSession session;

/* Face 1 is the bottom, seen from below; face 2 lies on it, seen from above. */
static const ZoghvariOperator rectangle[] = {
    {1, 7, {1, 1, 1, 1, -4000, -3000, 0}},
    {3, 8, {1, 0, 1, 2, 0, -4000, 3000, 0}},
    {3, 8, {1, 2, 2, 3, 0, 4000, 3000, 0}},
    {3, 8, {1, 4, 3, 4, 0, 4000, -3000, 0}},
    {5, 7, {1, 1, 6, 4, 2, 2, 0}},
};

/* On the block's top, which is still face 2. mev draws a bridge from the rim to the square's first corner, then three
 * sides; mef draws the last side, and inside the square is face 7; kemr removes the bridge, so that the square becomes
 * a ring of face 2. */
static const ZoghvariOperator square[] = {
    {3, 8, {2, 17, 13, 9, 0, -1500, -1500, 3000}},
    {3, 8, {2, 26, 14, 10, 0, -1500, 1500, 3000}},
    {3, 8, {2, 28, 15, 11, 0, 1500, 1500, 3000}},
    {3, 8, {2, 30, 16, 12, 0, 1500, -1500, 3000}},
    {5, 7, {2, 27, 32, 17, 7, 7, 0}},
    {7, 2, {25, 8}},
};

/* Prints what the table has in use, and its digest, which it answers. */
static uint64_t tell(const char *what) {
    ZoghvariCounted c = zoghvari_count(links, LINKS, points, POINTS);
    uint64_t d = digest(links, LINKS, points, POINTS);
    printf("%-9s s %zu f %zu l %zu e %zu v %zu r %zu h %zu, digest %016" PRIx64 "\n", what, c.solids, c.faces, c.loops,
           c.edges, c.vertices, c.rings, c.holes, d);
    return d;
}

/* Runs a list of at most eight operators. */
static void draw(const char *what, const ZoghvariOperator *ops, size_t n) {
    uint8_t script[SCRIPT];
    size_t length = 0;
    for (size_t i = 0; i < n; i++) length += zoghvari_write(ops[i], script + length, SCRIPT - length).length;
    ZoghvariRan r = zoghvari_run(links, LINKS, points, POINTS, log_bytes, LOG, LOG, &session, script, length);
    printf("%s: refusal %u done %zu\n", what, r.refusal, r.done);
}

/* Sweeps a face up or down. Answers the number of operators to undo. */
static size_t sweep(size_t face, int32_t dz) {
    ZoghvariDone d = zoghvari_sweep(links, LINKS, points, POINTS, log_bytes, LOG, LOG, &session, face, 0, 0, dz);
    printf("sweep of face %zu by 0 0 %" PRId32 ": refusal %u done %zu\n", face, dz, d.refusal, d.done);
    return d.done;
}

static void undo(size_t n) {
    ZoghvariUndone u = zoghvari_undo(links, LINKS, points, POINTS, log_bytes, LOG, redo_bytes, LOG, &session, n);
    printf("undo %zu: refusal %u undone %zu\n", n, u.refusal, u.undone);
}

int main(void) {
    zoghvari_clear(links, LINKS, points, POINTS, LOG, LOG, &session, N, N, N, N, N);
    draw("draw a rectangle", rectangle, sizeof rectangle / sizeof *rectangle);
    tell("rectangle");
    sweep(2, 3000);
    tell("block");
    draw("draw a square on the top", square, sizeof square / sizeof *square);
    uint64_t before = tell("square");
    sweep(7, -60000); /* too deep: refused */
    uint64_t refused = tell("square");
    size_t done = sweep(7, -1200);
    uint64_t pocket = tell("pocket");
    undo(done);
    return refused == before && pocket != before && tell("undone") == before ? 0 : 1;
}
