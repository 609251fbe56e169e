/* What padded numbers cost: a workload's script with three groups for each number, against the same script in shortest
 * form, read operator by operator and run.
 *
 *   padded [-w WORD]
 *     -w  only workloads with this word in their name
 *
 * Both forms take turns in one program: trust the ratios, not the times. The check at the head of a call is measured
 * beside and taken off. Nothing is timed before both forms have been read alike and have left the same bytes, with the
 * twin (twin.h) too. */
#include <math.h>
#include <stdio.h>
#include <stdlib.h>
#include <string.h>

#include "options.h"
#include "timing.h"
#include "twin.h"
#include "workloads.h"
#include "zoghvari.h"

enum { SHORTEST, PADDED, FORMS };
enum { READ, RUN, WAYS };
enum { FEW = 20 }; /* operators */

typedef struct {
    uint8_t *bytes;
    size_t n;
} Script;

typedef struct {
    Workload w;
    Script script[FORMS];
    Table work;
    uint8_t *log;
    size_t log_n;
    Sample seconds[WAYS][FORMS]; /* an operator */
} Bench;

static void must_of(int ok, const Bench *b, const char *otherwise) { must(ok, b->w.name, b->w.size, otherwise); }

/* Each number of a script in shortest form, followed by groups of 0 up to three. */
static Script padded(Script s) {
    Script p = {malloc(3 * s.n), 0};
    if (!p.bytes) return p;
    for (size_t at = 0; at < s.n;) {
        int open = 1; /* whether a group of this number is still to come */
        for (int i = 0; i < 3; i++) {
            uint8_t group = open ? s.bytes[at++] : 0;
            open = open && group >= 128;
            p.bytes[p.n++] = group | (i < 2 ? 128 : 0);
        }
    }
    return p;
}

static TwinRan library_run(Bench *b, Script s) {
    Table *t = &b->work;
    ZoghvariSession at = {b->log_n, 0};
    ZoghvariRan r =
        zoghvari_run(t->links, t->links_n, t->points, t->points_n, b->log, b->log_n, 0, &at, s.bytes, s.n);
    return (TwinRan){r.refusal, r.done, r.used, r.start};
}
static TwinRan run_twin(Bench *b, Script s) {
    return twin_run(records_of(b->work.links, b->work.points), b->log, b->log_n, s.bytes, s.n);
}
static void load(void *b) { copy_table(&((Bench *)b)->work, &((Bench *)b)->w.before); }

/* Both forms hold the same operators. */
static void verify_read(Bench *b) {
    size_t at = 0, padded_at = 0;
    for (size_t i = 0; i < b->w.operators; i++) {
        ZoghvariRead r = zoghvari_read(b->script[SHORTEST].bytes, b->script[SHORTEST].n, at);
        ZoghvariRead p = zoghvari_read(b->script[PADDED].bytes, b->script[PADDED].n, padded_at);
        must_of(r.refusal == 0 && p.refusal == 0, b, "an operator is not read");
        must_of(r.op.code == p.op.code && r.op.count == p.op.count, b, "another operator is read");
        must_of(!memcmp(r.op.args, p.op.args, sizeof r.op.args), b, "other operands are read");
        at = r.next, padded_at = p.next;
    }
    must_of(at == b->script[SHORTEST].n && padded_at == b->script[PADDED].n, b, "bytes are left");
}

/* A script is run whole, and leaves the workload's table and this log. */
static void verify_run(Bench *b, TwinRan (*run)(Bench *, Script), int form, const uint8_t *log) {
    memset(b->log, 1, b->log_n); /* so that bytes that no run may touch are compared too */
    load(b);
    TwinRan r = run(b, b->script[form]);
    must_of(r.refusal == 0 && r.done == b->w.operators && r.used == b->script[form].n, b, "it is refused");
    must_of(same_table(&b->work, &b->w.after), b, "another table is left");
    must_of(!log || !memcmp(b->log, log, b->log_n), b, "another log is left");
}

static void verify(Bench *b) {
    verify_read(b);
    verify_run(b, library_run, SHORTEST, NULL);
    uint8_t *log = malloc(b->log_n);
    must_of(log != NULL, b, "no memory");
    memcpy(log, b->log, b->log_n);
    verify_run(b, library_run, PADDED, log);
    verify_run(b, run_twin, SHORTEST, log);
    verify_run(b, run_twin, PADDED, log);
    free(log);
}

static Bench open_bench(const WorkloadKind *kind, int i) {
    Bench b = {.w = make_workload(kind, i)};
    b.script[SHORTEST] = (Script){b.w.script, b.w.script_n};
    b.script[PADDED] = padded(b.script[SHORTEST]);
    b.work = empty_table(b.w.before.cap);
    b.log_n = 19 * b.w.operators;
    b.log = malloc(b.log_n);
    must_of(b.script[PADDED].bytes && b.log, &b, "no memory");
    verify(&b);
    return b;
}

static void close_bench(Bench *b) {
    free(b->script[PADDED].bytes);
    free_workload(b->w);
    free_table(b->work);
    free(b->log);
}

static void read_all(Script s) {
    for (size_t at = 0; at < s.n;) at = zoghvari_read(s.bytes, s.n, at).next; /* each moves on, as was verified */
}
static void read_shortest(void *b) { read_all(((Bench *)b)->script[SHORTEST]); }
static void read_padded(void *b) { read_all(((Bench *)b)->script[PADDED]); }
static void run_nothing(void *b) { library_run(b, (Script){NULL, 0}); }
static void run_shortest(void *b) { library_run(b, ((Bench *)b)->script[SHORTEST]); }
static void run_padded(void *b) { library_run(b, ((Bench *)b)->script[PADDED]); }

static void round_of(Bench *b) {
    Pass *const body[] = {read_shortest, read_padded, run_nothing, run_shortest, run_padded};
    double took[5], n = (double)b->w.operators;
    shortest_passes(load, body, 5, b, took);
    for (int form = SHORTEST; form < FORMS; form++) {
        add(&b->seconds[READ][form], took[form] / n);
        add(&b->seconds[RUN][form], (took[3 + form] - took[2]) / n);
    }
}

static double ns(const Bench *b, int way, int form) { return 1e9 * median(&b->seconds[way][form]); }
static double ratio(const Bench *b, int way) { return ns(b, way, PADDED) / ns(b, way, SHORTEST); }

static void print_row(const Bench *b) {
    printf("%-19s %5u %5zu", b->w.name, b->w.size, b->w.operators);
    printf(" %6zu %6zu", b->script[SHORTEST].n, b->script[PADDED].n);
    for (int way = READ; way < WAYS; way++)
        printf(" | %8.1f %7.1f %6.2f", ns(b, way, SHORTEST), ns(b, way, PADDED), ratio(b, way));
    printf("\n");
}
static void print_head(void) {
    static const char *columns = " | shortest  padded  ratio";
    printf("padded: three groups for each number against its fewest; ns an operator, a run's less the check\n"
           "%-45s | %-23s | run\n", "", "read");
    printf("%-19s %5s %5s %6s %6s%s%s\n", "workload", "size", "ops", "bytes", "padded", columns, columns);
    fflush(stdout);
}

/* The mean of all rows' ratios, as of factors. */
static double mean_ratio(const Bench *b, int n, int way) {
    double sum = 0;
    for (int i = 0; i < n; i++) sum += log(ratio(&b[i], way));
    return exp(sum / n);
}

/* All rows in turn, round by round, so that a slow moment of the machine falls on none of them alone. */
static void bench_all(Bench *b, int n) {
    for (int i = 0; i < ROUNDS * n; i++) round_of(&b[i % n]);
    for (int i = 0; i < n; i++) print_row(&b[i]);
    if (n) printf("mean ratio: read %.2f, run %.2f\n", mean_ratio(b, n, READ), mean_ratio(b, n, RUN));
    for (int i = 0; i < n; i++) close_bench(&b[i]);
}

/* Opens the smallest and the largest size of the workloads with this word in their name, where numbers have one group
 * and two; how many benches that are. What is over as soon as the clock is read is left out. */
static int open_all(Bench *b, const char *word) {
    int n = 0;
    for (size_t i = 0; i < workload_kinds_n; i++)
        for (int size = 0; size < SIZES && strstr(workload_kinds[i].name, word); size += SIZES - 1) {
            b[n] = open_bench(&workload_kinds[i], size);
            if (b[n].w.operators < FEW) close_bench(&b[n]);
            else n++;
        }
    return n;
}

int main(int argc, char **argv) {
    const char *word = wanted_word(argc, argv, "padded");
    print_head();
    Bench *b = calloc(workload_kinds_n * SIZES, sizeof *b);
    must(b != NULL, "padded", 0, "no memory");
    bench_all(b, open_all(b, word));
    free(b);
    return 0;
}
