/* The sweep's header by itself: its function has this type and answers these fields, the kernel's functions are
 * declared with it, and a slice of no elements may have a null pointer.
 *
 * Built as C and as C++, as header.c is, and linked with the sweep's archive alone: the tables are written down here.
 */
#include "zoghvari_sweep.h"

#include <stdio.h>
#include <string.h>

/* A spur has two corners, so that its sweep makes 2 vertices, 4 edges, 2 faces and 2 loops: these capacities. */
enum { LINKS = ZOGHVARI_LINKS_LENGTH(1, 3, 3, 5, 4), POINTS = ZOGHVARI_POINTS_LENGTH(4), LOG = 64 };

static uint16_t links[LINKS];
static int32_t points[POINTS];
static uint8_t log_bytes[LOG];
static ZoghvariSession session;
static int wrong;

static ZoghvariDone (*const function)(uint16_t *, size_t, int32_t *, size_t, uint8_t *, size_t, size_t,
                                      ZoghvariSession *, size_t, int32_t, int32_t, int32_t) = zoghvari_sweep;

static void equal(const char *what, size_t got, size_t wanted) {
    if (got == wanted) return;
    printf("%s: %lu, not %lu\n", what, (unsigned long)got, (unsigned long)wanted);
    wrong = 1;
}

/* A call answers these three, and leaves this session. */
static void swept(const char *what, ZoghvariDone d, unsigned refusal, unsigned rule, size_t done) {
    equal(what, d.refusal, refusal);
    equal(what, d.rule, rule);
    equal(what, d.done, done);
}
static void left(const char *what, size_t log, size_t redo) {
    equal(what, session.log, log);
    equal(what, session.redo, redo);
}

/* A record's words, from a place on. */
static void put(size_t at, uint16_t a, uint16_t b, uint16_t c, uint16_t d) {
    links[at] = a;
    links[at + 1] = b;
    links[at + 2] = c;
    links[at + 3] = d;
}

/* A solid of one face, whose loop is the lone vertex 1 at 0 0 0. */
static void lone(void) {
    memset(links, 0, sizeof links);
    memset(points, 0, sizeof points);
    put(0, 1, 3, 3, 5);
    links[4] = 4;
    put(5, 1, 1, 1, 0);
    put(12, 1, 0, 1, 0);
    links[61] = 1;
}

/* The same with an edge from it to vertex 2 at 100 0 0. */
static void spur(void) {
    lone();
    put(12, 1, 1, 0, 0);
    put(21, 1, 1, 2, 2);
    put(25, 2, 1, 1, 1);
    links[61] = links[62] = 2;
    points[3] = 100;
}

static ZoghvariDone sweep(uint8_t *log, size_t log_n, size_t face, int32_t dx) {
    return function(links, LINKS, points, POINTS, log, log_n, 7, &session, face, dx, 20, -500);
}

static void no_table(void) {
    session.log = session.redo = 0;
    if (sizeof zoghvari_check(NULL, 0, NULL, 0) != sizeof(ZoghvariChecked)) {
        wrong = 1; /* the kernel's functions are declared */
    }
    swept("no table", function(NULL, 0, NULL, 0, NULL, 0, 7, &session, 1, 0, 0, 500), 1, 0, 0);
    swept("no points", function(links, LINKS, NULL, 0, NULL, 0, 7, &session, 1, 0, 0, 500), 1, 0, 0);
    left("the session after 1", 0, 0);
}

/* No log is lent, so what comes last is 9. */
static void refusals(void) {
    session.log = session.redo = 0;
    lone();
    swept("a lone loop", sweep(NULL, 0, 1, 0), 14, 0, 0);
    spur();
    swept("face 0", sweep(NULL, 0, 0, 0), 5, 0, 0);
    swept("a face above the capacity", sweep(NULL, 0, 4, 0), 5, 0, 0);
    swept("a free face", sweep(NULL, 0, 2, 0), 6, 0, 0);
    swept("a point out of range", sweep(NULL, 0, 1, 49901), 5, 0, 0);
    swept("no log", sweep(NULL, 0, 1, 49900), 9, 0, 0);
    left("the session after refusals", 0, 0);
}

/* Two bytes for each of four operators; the redo log's length is 7. Then no number is free. */
static void accepted(void) {
    session.log = 7;
    session.redo = 99; /* ignored */
    swept("a byte too few", sweep(log_bytes, 8, 1, 0), 9, 0, 0);
    left("the session after 9", 7, 99);
    session.log = 8;
    swept("just enough", sweep(log_bytes, 8, 1, 10), 0, 0, 4);
    left("the session after a sweep", 0, 7);
    /* vertices 1 and 2, and above them 3 and 4 */
    const int32_t wanted[POINTS] = {0, 0, 0, 100, 0, 0, 10, 20, -500, 110, 20, -500};
    equal("points", memcmp(points, wanted, sizeof wanted) == 0, 1);
    equal("face 3 and its outer loop", links[10] * 10 + links[11], 13);
    equal("edge 5 starts at the new vertices", links[53] * 10 + links[57], 43);
    equal("words of the vertices", links[61] * 1000 + links[62] * 100 + links[63] * 10 + links[64], 3344);
    swept("no number", sweep(NULL, 0, 1, 0), 10, 0, 0);
    links[5] = 0; /* the solid is free, and its faces still name it */
    swept("a table that is not sound", sweep(NULL, 0, 1, 0), 2, 2, 0);
    left("the session after it", 0, 7);
}

int main(void) {
    no_table();
    refusals();
    accepted();
    return wrong;
}
