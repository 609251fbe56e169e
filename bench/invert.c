/* What the take-down costs, on several shapes of about 64, 512 and 4,096 edges, beside running the script that it logs.
 *
 *   invert [-t SECONDS] [-e EDGES] [-w WORD]
 *     -t  how long one take-down may last, 10 unless said; a row where it lasts longer stays empty
 *     -e  only tables of at most so many edges (solids, where there is no edge)
 *     -w  only shapes with this word in their name
 *
 * No row is timed before the take-down has emptied its table and its script has built it again to the byte. */
#include <math.h>
#include <setjmp.h>
#include <signal.h>
#include <stdio.h>
#include <stdlib.h>
#include <string.h>
#include <unistd.h>

#include "shapes.h"
#include "table.h"
#include "timing.h"
#include "zoghvari.h"

typedef struct {
    const char *name;
    Shape (*make)(unsigned n, uint16_t cap);
    unsigned n[3]; /* for capacities 64, 512 and 4,096; a face, a loop and an edge number stay free, which need not be
                    * (see refused.c), so that figures can be held beside older ones */
} Row;

static const Row rows[] = {
    {"tower of lifted quads", tower, {7, 63, 511}},
    {"prism", prism, {21, 170, 1365}},
    {"grid on a torus", torus, {5, 15, 45}},
    {"handles behind low bridges", handles, {21, 170, 1365}},
    {"plate with pockets", pockets, {4, 41, 340}},
    {"single-vertex solids", lone_solids, {63, 511, 4095}},
};
static const uint16_t caps[3] = {64, 512, 4096};

static const double ROUND_SECONDS = 0.03; /* for one size; a pass at least */

typedef struct {
    double invert, run; /* seconds, the shortest pass; infinite before the first */
    double total;       /* of all passes */
    size_t done;
} Figures;

/* A shape, the table that the calls work on, the take-down's log and the log of its script, both of the length that the
 * take-down asks for: its operators are as many as their inverses. */
typedef struct {
    const char *name;
    unsigned n;
    Shape shape;
    Table work;
    uint8_t *log, *other;
    size_t log_n;
    Figures best;
} Bench;

static Bench open_bench(const char *name, unsigned n, Shape s) {
    const Table *t = &s.table;
    ZoghvariCounted c = zoghvari_count(t->links, t->links_n, t->points, t->points_n);
    must(c.refusal == 0, name, n, "the table is not sound");
    must(c.solids == s.solids && c.edges == s.edges && c.rings == s.rings && c.holes == s.holes, name, n,
         "the table is not the shape that it should be");
    size_t log_n = 19 * (c.vertices + 2 * c.faces + 2 * c.rings + 3 * c.holes - 2 * c.solids);
    Bench b = {name, n, s, empty_table(t->cap), malloc(log_n), malloc(log_n), log_n, {INFINITY, INFINITY, 0, 0}};
    must(b.log && b.other, name, n, "no memory");
    memset(b.log, 1, log_n); /* so that the first pass does not pay for the pages */
    memset(b.other, 1, log_n);
    return b;
}

static void close_bench(Bench *b) {
    free_table(b->shape.table);
    free_table(b->work);
    free(b->log);
    free(b->other);
}

static ZoghvariInverted invert(Bench *b) {
    Table *t = &b->work;
    ZoghvariSession s = {b->log_n, 0};
    return zoghvari_invert(t->links, t->links_n, t->points, t->points_n, b->log, b->log_n, 0, &s);
}

/* The script that the take-down has left in the log from `start` on. */
static ZoghvariRan run_script(Bench *b, size_t start) {
    Table *t = &b->work;
    ZoghvariSession s = {b->log_n, 0};
    return zoghvari_run(t->links, t->links_n, t->points, t->points_n, b->other, b->log_n, 0, &s, b->log + start,
                        b->log_n - start);
}

/* The library asks for no memory and keeps nothing between calls, so a call may be left in its middle. */
static sigjmp_buf too_long;
static void leave(int signal_number) {
    (void)signal_number;
    siglongjmp(too_long, 1);
}

static int invert_within(Bench *b, unsigned limit, ZoghvariInverted *r) {
    if (sigsetjmp(too_long, 1)) return 0;
    alarm(limit);
    *r = invert(b);
    alarm(0);
    return 1;
}

/* 0 where the take-down lasts longer than the limit; a wrong one ends the program. */
static int verify(Bench *b, unsigned limit) {
    ZoghvariInverted r;
    copy_table(&b->work, &b->shape.table);
    if (!invert_within(b, limit, &r)) return 0;
    must(r.refusal == 0, b->name, b->n, "the take-down refuses");
    Table empty = empty_table(b->work.cap);
    must(same_table(&b->work, &empty), b->name, b->n, "the take-down leaves something");
    free_table(empty);
    ZoghvariRan q = run_script(b, r.start);
    must(q.refusal == 0 && q.done == r.done && q.used == b->log_n - r.start, b->name, b->n, "its script is refused");
    must(same_table(&b->work, &b->shape.table), b->name, b->n, "its script builds another table");
    return 1;
}

/* The take-down and its script in turn: the one leaves the empty table that the other begins with. */
static void pass(Bench *b) {
    copy_table(&b->work, &b->shape.table);
    double t0 = seconds();
    ZoghvariInverted r = invert(b);
    double t1 = seconds();
    ZoghvariRan q = run_script(b, r.start);
    double t2 = seconds();
    must(r.refusal == 0 && q.refusal == 0, b->name, b->n, "refused while it is timed");
    b->best.invert = fmin(b->best.invert, t1 - t0);
    b->best.run = fmin(b->best.run, t2 - t1);
    b->best.total += t2 - t0;
    b->best.done = r.done;
}

/* Of n sizes, the smallest first, those up to the first that lasts longer than the limit: how many they are. They are
 * timed in turn, round by round, so that a slow moment of the machine falls on all of them. */
static int measure(Bench *b, int n, unsigned limit) {
    int m = 0;
    while (m < n && verify(&b[m], limit)) m++;
    for (int round = 0; round < ROUNDS; round++)
        for (int i = 0; i < m; i++) {
            double until = fmin(b[i].best.total + ROUND_SECONDS, limit);
            while (b[i].best.total < until) pass(&b[i]);
        }
    return m;
}

typedef struct {
    unsigned limit, edges;
    const char *word;
} Options;

/* Growth is taken against edges, and against solids only where there is no edge. */
static double extent(const Shape *s) { return s->edges ? s->edges : s->solids; }

/* The first m of n sizes have figures. */
static void print_sizes(const Bench *b, int n, int m, unsigned limit) {
    for (int i = 0; i < n; i++) {
        const Figures *f = &b[i].best;
        printf("%-26s %5u %6u ", b[i].name, b[i].n, b[i].shape.edges);
        if (i >= m) {
            printf("%6s more than %u s\n", "-", limit);
            continue;
        }
        printf("%6zu %12.3f ", f->done, 1e3 * f->invert);
        if (i == 0) printf("%7s ", "-");
        else printf("%7.2f ", growth(b[i - 1].best.invert, f->invert, extent(&b[i - 1].shape), extent(&b[i].shape)));
        printf("%10.3f %8.1f\n", 1e3 * f->run, f->invert / f->run);
    }
    fflush(stdout);
}

static void bench_row(const Row *row, const Options *o) {
    Bench b[3];
    int n = 0;
    for (int i = 0; i < 3; i++) {
        b[n] = open_bench(row->name, row->n[i], row->make(row->n[i], caps[i]));
        if (extent(&b[n].shape) <= o->edges) n++;
        else close_bench(&b[n]);
    }
    print_sizes(b, n, measure(b, n, o->limit), o->limit);
    for (int i = 0; i < n; i++) close_bench(&b[i]);
}

static Options options(int argc, char **argv) {
    Options o = {10, 4096, ""};
    for (int c; (c = getopt(argc, argv, "t:e:w:")) != -1;) {
        if (c == 't') o.limit = (unsigned)strtoul(optarg, NULL, 10);
        else if (c == 'e') o.edges = (unsigned)strtoul(optarg, NULL, 10);
        else if (c == 'w') o.word = optarg;
        else o.limit = 0;
    }
    if (o.limit == 0 || optind < argc) {
        fprintf(stderr, "usage: invert [-t SECONDS] [-e EDGES] [-w WORD]\n");
        exit(2);
    }
    return o;
}

int main(int argc, char **argv) {
    Options o = options(argc, argv);
    signal(SIGALRM, leave);
    printf("take-down, and its script run from an empty table: ms, the shortest of several passes; ratio: of the two\n"
           "growth: exponent of the take-down's time against edges (solids where there are none) from the size above\n"
           "%-26s %5s %6s %6s %12s %7s %10s %8s\n", "shape", "size", "edges", "done", "take-down", "growth", "script",
           "ratio");
    for (size_t i = 0; i < sizeof rows / sizeof *rows; i++)
        if (strstr(rows[i].name, o.word)) bench_row(&rows[i], &o);
    return 0;
}
