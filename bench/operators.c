/* What an operator costs in a run and in undo, by workloads of three sizes, beside the same work by the twin (twin.h)
 * and by peers where they were installed (peers.h).
 *
 *   operators [-f FILE] [-w WORD]
 *     -f  writes the figures to FILE too, as CSV
 *     -w  only workloads with this word in their name
 *
 * The check at the head of a call is measured beside and taken off, the twin's counting likewise. No workload is timed
 * before library and twin have left the same bytes of it. */
#include <math.h>
#include <stdio.h>
#include <stdlib.h>
#include <string.h>
#include <unistd.h>

#include "timing.h"
#include "twin.h"
#include "workloads.h"
#include "zoghvari.h"

enum { LIBRARY, TWIN, CGAL, OPENMESH, SYSTEMS };
enum { RUN, UNDO };

/* A workload, the table that the calls work on, the log with the place where its live part starts behind a run, and the
 * redo log, which is as long and empty when an undo begins. */
typedef struct {
    Workload w;
    Peer *peer[SYSTEMS]; /* of CGAL and OpenMesh */
    Table work;
    uint8_t *log, *redo;
    size_t log_n, start;
    Sample seconds[SYSTEMS][2]; /* an operator */
    double ns[SYSTEMS][2];
} Bench;

static void must_of(int ok, const Workload *w, const char *otherwise) { must(ok, w->name, w->size, otherwise); }

/* The four calls, each on the table as it stands. */
static ZoghvariRan library_run(Bench *b, uint8_t *log, const uint8_t *script, size_t script_n) {
    Table *t = &b->work;
    ZoghvariSession s = {b->log_n, b->log_n};
    return zoghvari_run(t->links, t->links_n, t->points, t->points_n, log, b->log_n, b->log_n, &s, script, script_n);
}
static TwinMoved library_undo(Bench *b) {
    Table *t = &b->work;
    ZoghvariSession s = {b->start, b->log_n};
    ZoghvariUndone u = zoghvari_undo(t->links, t->links_n, t->points, t->points_n, b->log, b->log_n, b->redo, b->log_n,
                                     &s, b->w.operators);
    return (TwinMoved){u.refusal, u.undone, s.log, s.redo};
}
static Records records(Bench *b) { return records_of(b->work.links, b->work.points); }
static TwinRan run_twin(Bench *b, uint8_t *log, const uint8_t *script, size_t script_n) {
    return twin_run(records(b), log, b->log_n, script, script_n);
}
static TwinMoved undo_twin(Bench *b) {
    return twin_move(records(b), b->log, b->log_n, b->start, b->redo, b->log_n, b->w.operators);
}

static void load_before(void *b) { copy_table(&((Bench *)b)->work, &((Bench *)b)->w.before); }
static void load_after(void *b) { copy_table(&((Bench *)b)->work, &((Bench *)b)->w.after); }

/* Library and twin run a script of all the operators: both leave this table, and the same log; its start. */
static size_t verify_run(Bench *b, Pass *load, const uint8_t *script, size_t n, const Table *left, uint8_t *log) {
    const Workload *w = &b->w;
    uint8_t *other = malloc(b->log_n);
    must_of(other != NULL, w, "no memory");
    memset(log, 1, b->log_n); /* so that bytes that no run may touch are compared too */
    memset(other, 1, b->log_n);
    load(b);
    ZoghvariRan r = library_run(b, log, script, n);
    must_of(r.refusal == 0 && r.done == w->operators && r.used == n, w, "the library refuses it");
    must_of(same_table(&b->work, left), w, "the library's run leaves another table than the twin's effects");
    load(b);
    TwinRan q = run_twin(b, other, script, n);
    must_of(q.refusal == 0 && q.done == r.done && q.used == n, w, "the twin refuses it");
    must_of(same_table(&b->work, left), w, "the twin's run leaves another table");
    must_of(q.start == r.start && !memcmp(log, other, b->log_n), w, "the twin's run leaves another log");
    free(other);
    return r.start;
}

/* An undo of all leaves the first table, and in the redo log the script, which is in shortest form. */
static void verify_undo(Bench *b, TwinMoved (*undo)(Bench *)) {
    const Workload *w = &b->w;
    memset(b->redo, 1, b->log_n);
    load_after(b);
    TwinMoved u = undo(b);
    must_of(u.refusal == 0 && u.done == w->operators && u.from == b->log_n, w, "it is not undone");
    must_of(same_table(&b->work, &w->before), w, "undo leaves another table");
    must_of(u.to == b->log_n - w->script_n && !memcmp(b->redo + u.to, w->script, w->script_n), w,
            "undo leaves another script in the redo log");
    for (size_t i = 0; i < u.to; i++) must_of(b->redo[i] == 1, w, "undo writes below the redo log's start");
}

/* The script, its undo, and the log's live part as a script: so the inverses' inverses are compared too. Sets where the
 * log starts. */
static void verify(Bench *b) {
    uint8_t *scratch = malloc(b->log_n);
    must_of(scratch != NULL, &b->w, "no memory");
    b->start = verify_run(b, load_before, b->w.script, b->w.script_n, &b->w.after, b->log);
    verify_undo(b, library_undo);
    verify_undo(b, undo_twin);
    verify_run(b, load_after, b->log + b->start, b->log_n - b->start, &b->w.before, scratch);
    free(scratch);
}

static Bench open_bench(const WorkloadKind *kind, int i) {
    Bench b = {.w = make_workload(kind, i), .peer = {[CGAL] = kind->cgal, [OPENMESH] = kind->openmesh}};
    b.work = empty_table(b.w.before.cap);
    b.log_n = 19 * b.w.operators;
    b.log = malloc(b.log_n);
    b.redo = malloc(b.log_n);
    must_of(b.log && b.redo, &b.w, "no memory");
    verify(&b);
    return b;
}

static void close_bench(Bench *b) {
    free_workload(b->w);
    free_table(b->work);
    free(b->log);
    free(b->redo);
}

/* What is timed; the answers were verified, and they are the same each time. */
static void library_call_pass(void *with) {
    Bench *b = with;
    library_run(b, b->log, b->w.script, 0);
}
static void library_run_pass(void *with) {
    Bench *b = with;
    library_run(b, b->log, b->w.script, b->w.script_n);
}
static void library_undo_pass(void *with) { library_undo(with); }
static void twin_call_pass(void *with) {
    Bench *b = with;
    run_twin(b, b->log, b->w.script, 0);
}
static void twin_run_pass(void *with) {
    Bench *b = with;
    run_twin(b, b->log, b->w.script, b->w.script_n);
}
static void twin_undo_pass(void *with) { undo_twin(with); }

/* A round of one direction by library and twin, each less a call with no operator on the same table. */
static void round_of(Bench *b, int direction, Pass *load, Pass *library, Pass *twin) {
    Pass *const body[] = {library_call_pass, library, twin_call_pass, twin};
    double took[4], n = (double)b->w.operators;
    shortest_passes(load, body, 4, b, took);
    add(&b->seconds[LIBRARY][direction], (took[1] - took[0]) / n);
    add(&b->seconds[TWIN][direction], (took[3] - took[2]) / n);
}

static void round_of_peer(Bench *b, int system) {
    PeerTimes t, shortest = {INFINITY, INFINITY};
    double until = seconds() + 2e-3;
    for (int passes = 0; passes < 3 || seconds() < until; passes++) {
        must_of(b->peer[system](b->w.size, &t), &b->w, "a peer makes another shape");
        shortest.run = fmin(shortest.run, t.run);
        shortest.undo = fmin(shortest.undo, t.undo);
    }
    add(&b->seconds[system][RUN], shortest.run);
    add(&b->seconds[system][UNDO], shortest.undo);
}

static void round_of_all(Bench *b) {
    round_of(b, RUN, load_before, library_run_pass, twin_run_pass);
    round_of(b, UNDO, load_after, library_undo_pass, twin_undo_pass);
    for (int system = CGAL; system < SYSTEMS; system++)
        if (b->peer[system]) round_of_peer(b, system);
}

static void take_medians(Bench *b) {
    for (int system = LIBRARY; system < SYSTEMS; system++)
        for (int direction = RUN; direction <= UNDO; direction++)
            b->ns[system][direction] = 1e9 * median(&b->seconds[system][direction]);
}

static void print_cell(int wide, int places, double x) {
    if (isnan(x)) printf(" %*s", wide, "-");
    else printf(" %*.*f", wide, places, x);
}

static void print_direction(const Bench *b, const Bench *above, int direction) {
    double ns = b->ns[LIBRARY][direction];
    print_cell(8, 0, ns);
    print_cell(7, 2, above ? growth(above->ns[LIBRARY][direction], ns, above->w.size, b->w.size) : NAN);
    for (int system = TWIN; system < SYSTEMS; system++) print_cell(7, 1, ns / b->ns[system][direction]);
}

static void print_row(const Bench *b, const Bench *above) {
    printf("%-19s %5u %5zu |", b->w.name, b->w.size, b->w.operators);
    print_direction(b, above, RUN);
    printf(" |");
    print_direction(b, above, UNDO);
    printf("\n");
}

static void print_head(void) {
    static const char *columns = "      ns  growth   /twin   /CGAL  /OMesh";
    printf("operators: ns each, less the check at the call's head\n"
           "growth: exponent of that time against the size, from the size above; /twin, /CGAL, /OMesh: times theirs\n"
           "%-31s |%-40s |%s\n", "", " run", " undo");
    printf("%-19s %5s %5s |%s |%s\n", "workload", "size", "ops", columns, columns);
    fflush(stdout);
}

static void write_figures(FILE *f, const Bench *b) {
    static const char *directions[] = {"run", "undo"};
    for (int direction = RUN; direction <= UNDO; direction++) {
        fprintf(f, "\"%s\",%s,%u,%zu,%s", b->w.name, b->w.unit, b->w.size, b->w.operators, directions[direction]);
        for (int system = LIBRARY; system < SYSTEMS; system++) {
            double ns = b->ns[system][direction];
            if (isnan(ns)) fprintf(f, ",");
            else fprintf(f, ",%.1f", ns);
        }
        fprintf(f, "\n");
    }
}

/* Opens the workloads with this word in their name, three sizes each; how many benches that are. */
static int open_all(Bench *b, const char *word) {
    int n = 0;
    for (size_t i = 0; i < workload_kinds_n; i++)
        for (int size = 0; size < SIZES && strstr(workload_kinds[i].name, word); size++)
            b[n++] = open_bench(&workload_kinds[i], size);
    return n;
}

/* All rows in turn, round by round, so that a slow moment of the machine falls on none of them alone. */
static void bench_all(Bench *b, int n, FILE *figures) {
    for (int i = 0; i < ROUNDS * n; i++) round_of_all(&b[i % n]);
    for (int i = 0; i < n; i++) {
        take_medians(&b[i]);
        print_row(&b[i], i % SIZES ? &b[i - 1] : NULL);
        if (figures) write_figures(figures, &b[i]);
    }
    for (int i = 0; i < n; i++) close_bench(&b[i]);
}

typedef struct {
    FILE *figures;
    const char *word;
} Options;

static Options options(int argc, char **argv) {
    Options o = {NULL, ""};
    int bad = 0;
    for (int c; (c = getopt(argc, argv, "f:w:")) != -1;) {
        if (c == 'w') o.word = optarg;
        else bad = c != 'f' || !(o.figures = fopen(optarg, "w"));
        if (c == 'f' && bad) perror(optarg);
    }
    if (bad || optind < argc) {
        fprintf(stderr, "usage: operators [-f FILE] [-w WORD]\n");
        exit(2);
    }
    return o;
}

int main(int argc, char **argv) {
    Options o = options(argc, argv);
    const char *columns = "workload,unit,size,operators,direction,library_ns,twin_ns,cgal_ns,openmesh_ns";
    if (o.figures) fprintf(o.figures, "%s\n", columns);
    print_head();
    Bench *b = calloc(workload_kinds_n * SIZES, sizeof *b);
    must(b != NULL, "operators", 0, "no memory");
    bench_all(b, open_all(b, o.word), o.figures);
    free(b);
    if (o.figures && fclose(o.figures)) {
        perror("figures");
        return 2;
    }
    return 0;
}
