/* A table as a script: a part is built, taken down, and built again from nothing but what the take-down has logged.
 *
 *     cc -I include -o rebuild examples/rebuild.c target/staticlib/libkernel.a && ./rebuild < examples/pocket.script
 *
 * It takes any script. The one that comes out differs from the one that goes in, since the take-down sees the table and
 * not how it was made. The digests before and after are equal: every byte of links and points is back. */
#include <inttypes.h>
#include <stdio.h>
#include <string.h>

#include "digest.h"
#include "lent.h"
#include "zoghvari.h"

static const char *const names[] = {"",     "mvsf", "kvsf",  "mev",   "kev",  "mef",  "kef",
                                    "kemr", "mekr", "kfmrh", "mfkrh", "semv", "jekv", "rmov"};

static void clear(Table *t) {
    zoghvari_clear(t->links, LINKS, t->points, POINTS, LOG, REDO, &t->session, N, N, N, N, N);
}

/* Tells the table's digest under a name, and answers it. */
static uint64_t tell(const char *name, const Table *t) {
    uint64_t d = digest(t->links, LINKS, t->points, POINTS);
    printf("%-8s %016" PRIx64 "\n", name, d);
    return d;
}

/* Runs a script on a table and tells how far it came. */
static ZoghvariRan run(Table *t, const char *what, const uint8_t *script, size_t length) {
    ZoghvariRan r = zoghvari_run(t->links, LINKS, t->points, POINTS, t->log, LOG, REDO, &t->session, script, length);
    printf("%s: refusal %u done %zu used %zu of %zu\n", what, r.refusal, r.done, r.used, length);
    return r;
}

/* Takes the table down and tells how many operators that took, and the most that it may take. */
static ZoghvariInverted take_down(Table *t) {
    ZoghvariCounted c = zoghvari_count(t->links, LINKS, t->points, POINTS);
    size_t most = c.vertices + 2 * c.faces + 2 * c.rings + 3 * c.holes - 2 * c.solids;
    ZoghvariInverted i = zoghvari_invert(t->links, LINKS, t->points, POINTS, t->log, LOG, REDO, &t->session);
    printf("take-down: refusal %u done %zu of at most %zu\n", i.refusal, i.done, most);
    return i;
}

/* Tells a script in words, an operator a line, and answers how many there are; what cannot be read ends it. */
static size_t tell_script(const uint8_t *script, size_t length) {
    size_t operators = 0;
    printf("its script, %zu bytes:\n", length);
    for (size_t at = 0; at < length; operators++) {
        ZoghvariRead r = zoghvari_read(script, length, at);
        if (r.refusal) break;
        printf("  %s", names[r.op.code]);
        for (int i = 0; i < r.op.count; i++) printf(" %" PRId32, r.op.args[i]);
        printf("\n");
        at = r.next;
    }
    return operators;
}

/* The digests are for the eye; equal bytes are what counts. */
static int same(const Table *a, const Table *b) {
    return !memcmp(a->links, b->links, sizeof a->links) && !memcmp(a->points, b->points, sizeof a->points);
}

/* Takes a part down and builds it again in another table, which has to be empty. Answers whether all came out equal. */
static int rebuild(Table *part, Table *other) {
    static Table first; /* to compare with */
    first = *part;
    uint64_t before = tell("before", part);
    ZoghvariInverted i = take_down(part);
    tell("emptied", part);
    if (i.refusal || !same(part, other)) return 0;
    /* Only these bytes go over to the other table. A shop would keep them in a file, with the capacities. */
    const uint8_t *script = part->log + i.start;
    size_t length = first.session.log - i.start;
    if (tell_script(script, length) != i.done) return 0;
    ZoghvariRan r = run(other, "rebuild", script, length);
    if (r.refusal || r.done != i.done || r.used != length) return 0;
    return tell("rebuilt", other) == before && same(&first, other);
}

int main(void) {
    static Table part, other;
    static uint8_t script[SCRIPT + 1]; /* one byte more than may be there shows that there are too many */
    size_t length = fread(script, 1, sizeof script, stdin);
    clear(&part);
    clear(&other);
    if (length > SCRIPT) {
        printf("input too long\n");
        return 1;
    }
    if (run(&part, "build", script, length).refusal) return 1;
    int equal = rebuild(&part, &other);
    printf("%s\n", equal ? "equal: every byte of links and points is back" : "not equal");
    return equal ? 0 : 1;
}
