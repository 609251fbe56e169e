/* What a take-down costs that is refused with 10 behind as many operators as can come before: these, and the way back,
 * beside the same table with one number more, which is accepted.
 *
 *   refused [-w WORD]
 *     -w  only rows with this word in their name
 *
 * A solid that is down has freed a face and a loop, and an edge that is gone is free: so a loop lacks behind the spurs
 * of the first solid at the latest, a face behind a kemr more, and an edge behind solids of one vertex. A script makes
 * each table through the library. The two take-downs take turns in one program: trust the ratio, not the times. Nothing
 * is timed before the refused one has left every word of the table, and the script of the accepted one has built its
 * table again. */
#include <stdio.h>
#include <stdlib.h>
#include <string.h>

#include "options.h"
#include "records.h"
#include "table.h"
#include "timing.h"
#include "zoghvari.h"

enum { REFUSED, ACCEPTED, WAYS };
enum { LONGEST = 19, SIZES = 3 };

/* Links and points of five capacities that need not be alike. */
typedef struct {
    uint16_t cap[5];
    size_t links_n, points_n;
    uint16_t *links;
    int32_t *points;
} Part;

typedef struct {
    const char *name;
    unsigned n;
    unsigned before; /* operators that come before the lack */
    uint8_t *script;
    size_t script_n;
    Part part[WAYS], work[WAYS]; /* what is taken down, and the copies that the calls work on */
    uint8_t *log;
    size_t log_n; /* both ask for as much */
    size_t done;  /* of the accepted one */
    Sample seconds[WAYS];
} Bench;

static void must_of(int ok, const Bench *b, const char *otherwise) { must(ok, b->name, b->n, otherwise); }

static void record(Bench *b, ZoghvariOperator op) {
    ZoghvariWritten w = zoghvari_write(op, b->script + b->script_n, LONGEST);
    must_of(w.refusal == 0, b, "an operator cannot be written");
    b->script_n += w.length;
}

/* Solid, face, loop and vertex by these numbers: one vertex and nothing else. */
static void record_vertex(Bench *b, int32_t s, int32_t l, int32_t v) {
    record(b, (ZoghvariOperator){MVSF, 7, {s, s, l, v, v % 500, 0, 0}});
}

/* A vertex with two edges to itself that cross, n spurs at it, and a vertex for itself behind: two solids, faces and
 * loops are in use, and n spurs go before an edge that is crossed calls for a loop. */
static void record_spurs(Bench *b, unsigned n) {
    record_vertex(b, 1, 1, 1);
    record(b, (ZoghvariOperator){MEF, 7, {1, 0, 0, 1, 2, 2, 0}});
    record(b, (ZoghvariOperator){KFMRH, 2, {1, 2}});
    record(b, (ZoghvariOperator){MEKR, 6, {1, 1, 2, 2, 2, 0}});
    for (int32_t i = 1; i <= (int32_t)n; i++)
        record(b, (ZoghvariOperator){MEV, 8, {1, 1, 2 + i, 2 + i, 0, i % 500, 0, 0}});
    record_vertex(b, 2, 2, 2);
}

/* n solids of one vertex, one whose face has a lone ring, and one of the only edge that there is. */
static void record_solids(Bench *b, unsigned n) {
    int32_t m = (int32_t)n;
    for (int32_t i = 1; i <= m + 1; i++) record_vertex(b, i, i, i);
    record(b, (ZoghvariOperator){MEV, 8, {m + 1, 0, 1, m + 2, 0, 0, 0, 0}});
    record(b, (ZoghvariOperator){KEMR, 2, {1, m + 2}});
    record_vertex(b, m + 2, m + 3, m + 3);
    record(b, (ZoghvariOperator){MEV, 8, {m + 3, 0, 1, m + 4, 0, 0, 0, 0}});
}

/* What is made, which capacity decides, and how many operators go before the lack beside the n. */
typedef struct {
    const char *name;
    void (*make)(Bench *b, unsigned n);
    int kind; /* place among the capacities */
    unsigned besides, n[SIZES];
} Row;
enum { FACES = 1, LOOPS = 2, EDGES = 3 };
static const Row rows[] = {
    {"spurs, then no loop", record_spurs, LOOPS, 0, {60, 508, 4092}},
    {"spurs, then no face", record_spurs, FACES, 1, {60, 508, 4092}},
    {"solids, then no edge", record_solids, EDGES, 0, {60, 508, 4092}},
};
enum { ROWS = sizeof rows / sizeof *rows };

/* The numbers that the script takes, and those that the accepted take-down calls for: a loop and a face, or an edge. To
 * the refused one a number of the row's kind is left out. */
static Part empty_part(const Row *row, unsigned n, int way) {
    uint16_t m = (uint16_t)n;
    Part p = {.cap = {2, 3, 3, m + 2, m + 2}};
    if (row->kind == EDGES) p = (Part){.cap = {m + 2, m + 2, m + 3, 2, m + 4}};
    if (way == REFUSED) p.cap[row->kind]--;
    p.links_n = ZOGHVARI_LINKS_LENGTH(p.cap[0], p.cap[1], p.cap[2], p.cap[3], p.cap[4]);
    p.points_n = ZOGHVARI_POINTS_LENGTH(p.cap[4]);
    p.links = malloc(p.links_n * sizeof *p.links);
    p.points = malloc(p.points_n * sizeof *p.points);
    ZoghvariSession s;
    must(p.links && p.points &&
             !zoghvari_clear(p.links, p.links_n, p.points, p.points_n, 0, 0, &s, p.cap[0], p.cap[1], p.cap[2], p.cap[3],
                             p.cap[4]).refusal,
         row->name, n, "no empty table");
    return p;
}

static void free_part(Part p) {
    free(p.links);
    free(p.points);
}

static size_t bytes_of_links(const Part *p) { return p->links_n * sizeof *p->links; }
static size_t bytes_of_points(const Part *p) { return p->points_n * sizeof *p->points; }

static int same_part(const Part *a, const Part *b) {
    return !memcmp(a->links, b->links, bytes_of_links(a)) && !memcmp(a->points, b->points, bytes_of_points(a));
}

static void copy_both(void *with) {
    Bench *b = with;
    for (int way = 0; way < WAYS; way++) {
        memcpy(b->work[way].links, b->part[way].links, bytes_of_links(&b->part[way]));
        memcpy(b->work[way].points, b->part[way].points, bytes_of_points(&b->part[way]));
    }
}

static ZoghvariInverted invert(Bench *b, int way) {
    Part *p = &b->work[way];
    ZoghvariSession s = {b->log_n, 0};
    return zoghvari_invert(p->links, p->links_n, p->points, p->points_n, b->log, b->log_n, 0, &s);
}
static void refused_pass(void *with) { invert(with, REFUSED); }
static void accepted_pass(void *with) { invert(with, ACCEPTED); }

static ZoghvariRan run(Part *p, uint8_t *log, size_t log_n, const uint8_t *script, size_t script_n) {
    ZoghvariSession s = {log_n, 0};
    return zoghvari_run(p->links, p->links_n, p->points, p->points_n, log, log_n, 0, &s, script, script_n);
}

/* By 10 the table is as before, and the steps before the lack have left so many operators in the log. */
static void verify_refused(Bench *b) {
    memset(b->log, 0, b->log_n);
    ZoghvariInverted r = invert(b, REFUSED);
    must_of(r.refusal == 10 && r.done == 0 && r.start == b->log_n, b, "it is not refused with 10");
    must_of(same_part(&b->part[REFUSED], &b->work[REFUSED]), b, "the refused take-down leaves another table");
    size_t at = 0, logged = 0;
    while (at < r.start && b->log[at] == 0) at++; /* no operator begins with 0 */
    for (; at < r.start; logged++) at = zoghvari_read(b->log, r.start, at).next;
    must_of(logged == b->before, b, "the number does not lack at the last turn");
}

/* The logged script builds the table again, where the take-down has emptied it. */
static void verify_accepted(Bench *b) {
    ZoghvariInverted r = invert(b, ACCEPTED);
    must_of(r.refusal == 0 && r.done > b->before, b, "it is not accepted with a number more");
    size_t other_n = LONGEST * r.done;
    uint8_t *other = malloc(other_n);
    must_of(other != NULL, b, "no memory");
    ZoghvariRan q = run(&b->work[ACCEPTED], other, other_n, b->log + r.start, b->log_n - r.start);
    must_of(q.refusal == 0 && q.done == r.done && same_part(&b->part[ACCEPTED], &b->work[ACCEPTED]), b,
            "its script builds another table");
    b->done = r.done;
    free(other);
}

static size_t room_of(const Part *p) {
    ZoghvariCounted c = zoghvari_count(p->links, p->links_n, p->points, p->points_n);
    return LONGEST * (c.vertices + 2 * c.faces + 2 * c.rings + 3 * c.holes - 2 * c.solids);
}

/* The script, and by it both parts. */
static void build(Bench *b, const Row *row) {
    size_t most = LONGEST * ((size_t)b->n + 8);
    uint8_t *log = malloc(most), *script = b->script = malloc(most);
    must_of(log && script, b, "no memory");
    row->make(b, b->n);
    for (int way = 0; way < WAYS; way++) {
        b->part[way] = empty_part(row, b->n, way);
        b->work[way] = empty_part(row, b->n, way);
        ZoghvariRan r = run(&b->part[way], log, most, script, b->script_n);
        must_of(r.refusal == 0 && r.used == b->script_n, b, "the script is refused");
    }
    b->script = NULL;
    free(script);
    free(log);
}

static Bench open_bench(const Row *row, unsigned n) {
    Bench b = {.name = row->name, .n = n, .before = n + row->besides};
    build(&b, row);
    b.log_n = room_of(&b.part[REFUSED]);
    b.log = malloc(b.log_n);
    must_of(b.log && b.log_n == room_of(&b.part[ACCEPTED]), &b, "no log");
    copy_both(&b);
    verify_refused(&b);
    verify_accepted(&b);
    return b;
}

static void close_bench(Bench *b) {
    for (int way = 0; way < WAYS; way++) {
        free_part(b->part[way]);
        free_part(b->work[way]);
    }
    free(b->log);
}

static void round_of(Bench *b) {
    Pass *const ways[WAYS] = {refused_pass, accepted_pass};
    double took[WAYS];
    shortest_passes(copy_both, ways, WAYS, b, took);
    for (int way = 0; way < WAYS; way++) add(&b->seconds[way], took[way]);
}

static double ms(const Bench *b, int way) { return 1e3 * median(&b->seconds[way]); }

static void print_row(const Bench *b) {
    printf("%-21s %5u %6u %6zu %10.3f %10.3f %8.2f\n", b->name, b->n, b->before, b->done, ms(b, REFUSED),
           ms(b, ACCEPTED), ms(b, REFUSED) / ms(b, ACCEPTED));
}

int main(int argc, char **argv) {
    const char *word = wanted_word(argc, argv, "refused");
    Bench b[ROWS * SIZES];
    int n = 0;
    printf("take-down refused with 10 at the last possible turn, and the same with a number more: ms, and their ratio\n"
           "before: operators done and taken back; done: those of the accepted one\n"
           "%-21s %5s %6s %6s %10s %10s %8s\n", "shape", "size", "before", "done", "refused", "accepted", "ratio");
    for (int i = 0; i < ROWS * SIZES; i++)
        if (strstr(rows[i / SIZES].name, word)) b[n++] = open_bench(&rows[i / SIZES], rows[i / SIZES].n[i % SIZES]);
    for (int i = 0; i < ROUNDS * n; i++) round_of(&b[i % n]);
    for (int i = 0; i < n; i++) {
        print_row(&b[i]);
        close_bench(&b[i]);
    }
    return 0;
}
