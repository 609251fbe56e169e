/* Edits, undo and redo: several scripts run on one table, refused ones among them, then undone together, two operators
 * too far, and done again.
 *
 *     cc -I include -o edit examples/edit.c target/staticlib/libkernel.a && ./edit
 *
 * The redo of the two that were too many gives the digest from before the first edit, and the redo of the edits the
 * digest from behind the last: every byte of links and points is back each time. So are the session and the log. */
#include <stdio.h>
#include <string.h>

#include "digest.h"
#include "zoghvari.h"

enum { N = 8, LOG = 256, SCRIPT = 128 };
enum { LINKS = ZOGHVARI_LINKS_LENGTH(N, N, N, N, N), POINTS = ZOGHVARI_POINTS_LENGTH(N) };

static uint16_t links[LINKS];
static int32_t points[POINTS];
static uint8_t log_bytes[LOG], redo_bytes[LOG]; /* in either of them 19 bytes for each operator are enough */
static ZoghvariSession session;

typedef struct {
    const char *what;
    ZoghvariOperator ops[4];
    int n;
    int damaged; /* a byte behind the operators that no script may hold there */
} Edit;

/* A triangle: one face seen from above, one from below. The edits start from here. */
static const Edit triangle = {"a triangle",
                              {{1, 7, {1, 1, 1, 1, 0, 0, 0}},
                               {3, 8, {1, 0, 1, 2, 0, 1000, 0, 0}},
                               {3, 8, {1, 2, 2, 3, 0, 1000, 1000, 0}},
                               {5, 7, {1, 1, 4, 3, 2, 2, 0}}},
                              4,
                              0};

static const Edit edits[] = {
    {"a corner on an edge", {{11, 7, {1, 4, 4, 0, 500, -200, 0}}}, 1, 0},
    {"a face cut in two, then a damaged byte", {{5, 7, {2, 7, 6, 5, 3, 3, 0}}}, 1, 0xFF},
    {"a solid's number that is in use", {{1, 7, {1, 4, 4, 5, 0, 0, 0}}}, 1, 0},
    {"a solid killed that has edges", {{2, 1, {1}}}, 1, 0},
    {"an edge to a new vertex, taken away again: a lone ring",
     {{3, 8, {1, 5, 6, 5, 0, 300, 300, 0}}, {7, 2, {11, 4}}},
     2,
     0},
    {"an edge that is free", {{6, 1, {15}}}, 1, 0},
    {"a code that does not exist", {{0}}, 0, 0x0E},
};

/* The edit's script; answers its length. */
static size_t script_of(const Edit *edit, uint8_t *script) {
    size_t length = 0;
    for (int i = 0; i < edit->n; i++) {
        ZoghvariWritten w = zoghvari_write(edit->ops[i], script + length, SCRIPT - length);
        if (w.refusal) printf("operator %d cannot be written: refusal %u\n", i + 1, w.refusal);
        length += w.length;
    }
    if (edit->damaged) script[length++] = (uint8_t)edit->damaged;
    return length;
}

/* Runs an edit's script and answers how many operators were done. */
static size_t run(const Edit *edit) {
    uint8_t script[SCRIPT + 1];
    size_t length = script_of(edit, script);
    ZoghvariRan r = zoghvari_run(links, LINKS, points, POINTS, log_bytes, LOG, LOG, &session, script, length);
    printf("%s: refusal %u done %zu used %zu of %zu\n", edit->what, r.refusal, r.done, r.used, length);
    return r.done;
}

static void undo(size_t n) {
    ZoghvariUndone u = zoghvari_undo(links, LINKS, points, POINTS, log_bytes, LOG, redo_bytes, LOG, &session, n);
    printf("undo %zu: refusal %u undone %zu\n", n, u.refusal, u.undone);
}

static void redo(size_t n) {
    ZoghvariRedone r = zoghvari_redo(links, LINKS, points, POINTS, log_bytes, LOG, redo_bytes, LOG, &session, n);
    printf("redo %zu: refusal %u done %zu\n", n, r.refusal, r.done);
}

/* Tells the table's digest under a name, and answers it. */
static uint64_t tell(const char *name) {
    uint64_t d = digest(links, LINKS, points, POINTS);
    printf("%-8s %016llx\n", name, (unsigned long long)d);
    return d;
}

/* Undoes the edits and two operators of the triangle with them, and goes forward again, first to where the edits began.
 * Answers whether the table was there what it was, and whether in the end all is back. */
static int too_far(size_t edited, uint64_t before, uint64_t behind) {
    static uint8_t held_log[LOG];
    const ZoghvariSession held = session;
    memcpy(held_log, log_bytes, LOG);
    undo(edited + 2);
    tell("too_far");
    redo(2);
    int ok = tell("undone") == before;
    redo(edited);
    ok &= tell("redone") == behind;
    return ok && session.log == held.log && session.redo == held.redo && !memcmp(log_bytes, held_log, LOG);
}

int main(void) {
    size_t done = 0;
    zoghvari_clear(links, LINKS, points, POINTS, LOG, LOG, &session, N, N, N, N, N);
    run(&triangle);
    uint64_t before = tell("before");
    for (size_t i = 0; i < sizeof edits / sizeof *edits; i++) done += run(&edits[i]);
    int ok = too_far(done, before, tell("edited"));
    redo(1); /* all that was undone is done again: the redo log has ended */
    return ok ? 0 : 1;
}
