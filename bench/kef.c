/* What kef costs for each half-edge that it passes, beside the twin (twin.h), which stores in a plain array.
 *
 *   kef [-w WORD]
 *     -w  only rows with this word in their name
 *
 * A script kills the edge between a long loop and one of three half-edges, the long loop as the one that is killed, and
 * makes the edge again with the three as the new loop, so that of the two operators kef alone walks far. What the same
 * script takes where the killed loop has three half-edges too is taken off, and so is the check at the head of a call:
 * what is left are the half-edges more. Library and twin take turns in one program: trust the ratios, not the times.
 * Nothing is timed before both have left the same bytes of it. */
#include <stdio.h>
#include <stdlib.h>
#include <string.h>

#include "options.h"
#include "table.h"
#include "timing.h"
#include "twin.h"
#include "zoghvari.h"

enum { LIBRARY, TWIN, SYSTEMS };
enum { LONG, SHORT, LENGTHS };
enum { PERIOD = 4, PASSED = 500000, LONGEST = 19 }; /* PASSED: about how many half-edges a script passes */

/* What kef does beside relabelling the rest of the killed loop is to find the kept loop's first anew. Where the least
 * half-edge of both loops stays, that is found at once. Where it was the killed edge's and the numbers behind it are
 * free, a second walk passes the whole loop. */
typedef struct {
    const char *name;
    unsigned more;  /* half-edges that the long loop has more than the short one */
    unsigned gap;   /* free edges between the killed edge and the others; 0 where it is not the least */
    unsigned walks; /* how often each half-edge is passed */
    uint16_t cap;
} Kind;

static const Kind kinds[] = {
    {"first kept", 100, 0, 1, 128},   {"first kept", 1000, 0, 1, 1024},   {"first kept", 4000, 0, 1, 4096},
    {"first lost", 100, 60, 2, 128},  {"first lost", 1000, 510, 2, 1024}, {"first lost", 4000, 2050, 2, 4096},
};
enum { KINDS = sizeof kinds / sizeof *kinds };

/* The edges of the triangle: the killed one from corner 3 to 1, and those from 1 to 2 and from 2 to 3. */
typedef struct {
    unsigned killed, first, second;
} Triangle;

typedef struct {
    const Kind *kind;
    Table table[LENGTHS], *work; /* `work` is the one that the calls are for */
    size_t operators, script_n, log_n;
    size_t end[PERIOD]; /* where each of the first operators ends in the script */
    uint8_t *script, *log;
    Sample seconds[SYSTEMS]; /* a half-edge */
} Bench;

static void must_of(int ok, const Kind *kind, const char *otherwise) { must(ok, kind->name, kind->more, otherwise); }

static Triangle triangle_of(const Kind *kind) {
    if (kind->gap == 0) return (Triangle){3, 1, 2};
    return (Triangle){1, kind->gap + 2, kind->gap + 3};
}

/* A triangle, loop 1 inside and loop 2 outside; outside, a path of this many half-edges goes out from corner 1 and
 * comes back. */
static Table put_triangle(const Kind *kind, unsigned more) {
    static unsigned outside[CAPACITY + 3];
    Table t = empty_table(kind->cap);
    Triangle c = triangle_of(kind);
    unsigned inside[3] = {2 * c.first - 1, 2 * c.second - 1, 2 * c.killed - 1}, e = kind->gap + 3, n = more / 2;
    put_edge(&t, c.first, 1, 2);
    put_edge(&t, c.second, 2, 3);
    put_edge(&t, c.killed, 3, 1);
    outside[0] = 2 * c.killed, outside[1] = 2 * c.second, outside[2] = 2 * c.first;
    for (unsigned i = 1; i <= n; i++) {
        put_edge(&t, e + i, i == 1 ? 1 : i + 2, i + 3);
        outside[2 + i] = 2 * (e + i) - 1;
        outside[3 + 2 * n - i] = 2 * (e + i);
    }
    put_loop(&t, 1, 1, inside, 3);
    put_loop(&t, 2, 2, outside, 3 + 2 * n);
    put_face(&t, 1, 1, 1);
    put_face(&t, 1, 2, 2);
    return t;
}

static void record(Bench *b, uint8_t code, const int32_t *args) {
    ZoghvariOperator op = {code, twin_operands(code), {0}};
    memcpy(op.args, args, sizeof op.args);
    ZoghvariWritten r = zoghvari_write(op, b->script + b->script_n, LONGEST);
    must_of(r.refusal == 0, b->kind, "an operator cannot be written");
    b->script_n += r.length;
    if (b->operators < PERIOD) b->end[b->operators] = b->script_n;
    b->operators++;
}

/* Twice in turn: the long loop is killed, then mef gives the inside of the triangle a new one of that number. The long
 * loop has the other number then, so it takes two such pairs until the table is as it was. */
static void write_period(Bench *b) {
    Triangle c = triangle_of(b->kind);
    int32_t k = 2 * c.killed, h1 = 2 * c.first - 1, h2 = 2 * c.second, e = c.killed;
    for (int32_t kept = 1; kept <= 2; kept++) {
        int32_t lost = 3 - kept;
        record(b, KEF, (int32_t[8]){k});
        record(b, MEF, (int32_t[8]){kept, h1, h2, e, lost, lost, 1});
    }
}

static void write_script(Bench *b) {
    unsigned periods = PASSED / b->kind->more / 2;
    b->log_n = (size_t)LONGEST * PERIOD * periods;
    b->script = malloc(b->log_n);
    b->log = malloc(b->log_n);
    must_of(b->script && b->log, b->kind, "no memory");
    for (unsigned i = 0; i < periods; i++) write_period(b);
}

/* The first bytes of the script, on the table as it stands. */
static TwinRan library_run(Bench *b, uint8_t *log, size_t n) {
    Table *t = b->work;
    ZoghvariSession s = {b->log_n, 0};
    ZoghvariRan r = zoghvari_run(t->links, t->links_n, t->points, t->points_n, log, b->log_n, 0, &s, b->script, n);
    return (TwinRan){r.refusal, r.done, r.used, r.start};
}
static TwinRan run_twin(Bench *b, uint8_t *log, size_t n) {
    return twin_run(records_of(b->work->links, b->work->points), log, b->log_n, b->script, n);
}

/* Library and twin carry out this many operators, n bytes, of the script, and leave the same table and log. */
static void verify_part(Bench *b, const Table *from, size_t operators, size_t n) {
    Table left[SYSTEMS] = {empty_table(from->cap), empty_table(from->cap)};
    uint8_t *other = malloc(b->log_n);
    TwinRan r[SYSTEMS];
    must_of(other != NULL, b->kind, "no memory");
    memset(b->log, 1, b->log_n); /* so that bytes that no run may touch are compared too */
    memset(other, 1, b->log_n);
    for (int system = LIBRARY; system <= TWIN; system++) {
        copy_table(b->work = &left[system], from);
        r[system] = system == LIBRARY ? library_run(b, b->log, n) : run_twin(b, other, n);
        must_of(!r[system].refusal && r[system].done == operators && r[system].used == n, b->kind, "it is refused");
    }
    must_of(same_table(&left[LIBRARY], &left[TWIN]), b->kind, "the twin leaves another table");
    must_of(r[LIBRARY].start == r[TWIN].start && !memcmp(b->log, other, b->log_n), b->kind, "the twin logs otherwise");
    must_of(same_table(&left[LIBRARY], from) == (operators % PERIOD == 0), b->kind, "the table does not come back");
    for (int system = LIBRARY; system <= TWIN; system++) free_table(left[system]);
    free(other);
}

static Bench open_bench(const Kind *kind) {
    Bench b = {.kind = kind, .table = {[LONG] = put_triangle(kind, kind->more), [SHORT] = put_triangle(kind, 0)}};
    write_script(&b);
    for (int length = LONG; length <= SHORT; length++) {
        for (size_t i = 0; i < PERIOD; i++) verify_part(&b, &b.table[length], i + 1, b.end[i]);
        verify_part(&b, &b.table[length], b.operators, b.script_n);
    }
    return b;
}

static void close_bench(Bench *b) {
    for (int length = LONG; length <= SHORT; length++) free_table(b->table[length]);
    free(b->script);
    free(b->log);
}

/* What is timed; the whole script leaves the table as it was, so nothing is to be done before a pass. */
static void nothing(void *b) { (void)b; }
static void library_call_pass(void *with) { library_run(with, ((Bench *)with)->log, 0); }
static void library_run_pass(void *with) { library_run(with, ((Bench *)with)->log, ((Bench *)with)->script_n); }
static void twin_call_pass(void *with) { run_twin(with, ((Bench *)with)->log, 0); }
static void twin_run_pass(void *with) { run_twin(with, ((Bench *)with)->log, ((Bench *)with)->script_n); }

/* Each script less a call with no operator on the same table, and the long loop's less the short one's. */
static void round_of(Bench *b) {
    Pass *const body[] = {library_run_pass, library_call_pass, twin_run_pass, twin_call_pass};
    double took[LENGTHS][2 * SYSTEMS], passed = (double)b->kind->more * b->kind->walks * (double)b->operators / 2;
    for (int length = LONG; length <= SHORT; length++) {
        b->work = &b->table[length];
        shortest_passes(nothing, body, 2 * SYSTEMS, b, took[length]);
    }
    for (int system = LIBRARY; system <= TWIN; system++) {
        double *with = &took[LONG][2 * system], *without = &took[SHORT][2 * system];
        add(&b->seconds[system], (with[0] - with[1] - (without[0] - without[1])) / passed);
    }
}

static void print_head(void) {
    printf("kef: ns for each half-edge passed; ratio: times the twin's\n"
           "%-10s %8s %10s %5s | %7s %7s %6s\n", "row", "capacity", "half-edges", "walks", "library", "twin", "ratio");
    fflush(stdout);
}

static void print_row(const Bench *b) {
    double library = 1e9 * median(&b->seconds[LIBRARY]), twin = 1e9 * median(&b->seconds[TWIN]);
    printf("%-10s %8u %10u %5u | %7.2f %7.2f %6.2f\n", b->kind->name, b->kind->cap, b->kind->more, b->kind->walks,
           library, twin, library / twin);
}

/* All rows in turn, round by round, so that a slow moment of the machine falls on none of them alone. */
static void bench_all(Bench *b, int n) {
    for (int i = 0; i < ROUNDS * n; i++) round_of(&b[i % n]);
    for (int i = 0; i < n; i++) print_row(&b[i]);
    for (int i = 0; i < n; i++) close_bench(&b[i]);
}

int main(int argc, char **argv) {
    static Bench b[KINDS];
    const char *word = wanted_word(argc, argv, "kef");
    int n = 0;
    print_head();
    for (int i = 0; i < KINDS; i++)
        if (strstr(kinds[i].name, word)) b[n++] = open_bench(&kinds[i]);
    bench_all(b, n);
    return 0;
}
