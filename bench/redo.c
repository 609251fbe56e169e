/* What going back and forth costs: the same operators run, undone and redone, by the workloads of operators.c.
 *
 *   redo [-w WORD]
 *     -w  only workloads with this word in their name
 *
 * Undo writes what it takes back into the redo log; what that costs is told by the twin (twin.h), which can undo with
 * and without one. Redo does what a run does, out of another buffer. All take turns in one program: trust the ratios,
 * not the times. The check at the head of a call is measured beside and taken off, the twin's counting likewise.
 * Nothing is timed before undo and redo have given back table, session and both logs, and the twin the same bytes. */
#include <math.h>
#include <stdio.h>
#include <stdlib.h>
#include <string.h>

#include "options.h"
#include "timing.h"
#include "twin.h"
#include "workloads.h"
#include "zoghvari.h"

enum { RUN, UNDO, REDO, TWIN_UNDO, TWIN_PLAIN, TWIN_REDO, WAYS };
enum { FEW = 20 }; /* operators */

/* A workload, the table that the calls work on, and the two logs: `log` as the run leaves it, `redo` as the undo does.
 * No pass changes a byte of them. */
typedef struct {
    Workload w;
    Table work;
    uint8_t *log, *redo;
    size_t log_n; /* of each */
    ZoghvariSession ran, undone; /* behind the run, and behind the undo of all of it */
    Sample seconds[WAYS]; /* an operator */
} Bench;

static void must_of(int ok, const Bench *b, const char *otherwise) { must(ok, b->w.name, b->w.size, otherwise); }

static void load_before(void *b) { copy_table(&((Bench *)b)->work, &((Bench *)b)->w.before); }
static void load_after(void *b) { copy_table(&((Bench *)b)->work, &((Bench *)b)->w.after); }

/* The calls, each on the table as it stands; they answer how many operators were done, and leave the session. */
static size_t run(Bench *b, ZoghvariSession *s, size_t script_n) {
    Table *t = &b->work;
    return zoghvari_run(t->links, t->links_n, t->points, t->points_n, b->log, b->log_n, b->log_n, s, b->w.script,
                        script_n).done;
}
static size_t undo(Bench *b, ZoghvariSession *s, size_t n) {
    Table *t = &b->work;
    return zoghvari_undo(t->links, t->links_n, t->points, t->points_n, b->log, b->log_n, b->redo, b->log_n, s, n)
        .undone;
}
static size_t redo(Bench *b, ZoghvariSession *s, size_t n) {
    Table *t = &b->work;
    return zoghvari_redo(t->links, t->links_n, t->points, t->points_n, b->log, b->log_n, b->redo, b->log_n, s, n).done;
}
static Records records(Bench *b) { return records_of(b->work.links, b->work.points); }
static TwinMoved twin_undo(Bench *b, size_t n) {
    return twin_move(records(b), b->log, b->log_n, b->ran.log, b->redo, b->ran.redo, n);
}
static TwinMoved twin_plain(Bench *b, size_t n) {
    return twin_undo_only(records(b), b->log, b->log_n, b->ran.log, n);
}
static TwinMoved twin_redo(Bench *b, size_t n) {
    return twin_move(records(b), b->redo, b->log_n, b->undone.redo, b->log, b->undone.log, n);
}

static int same_session(ZoghvariSession a, ZoghvariSession b) { return a.log == b.log && a.redo == b.redo; }

/* Forth, back and forth again by the library. Sets both sessions, and copies what the run logs. */
static void verify_library(Bench *b, uint8_t *log) {
    size_t n = b->w.operators;
    load_before(b);
    b->ran = (ZoghvariSession){b->log_n, b->log_n};
    must_of(run(b, &b->ran, b->w.script_n) == n && same_table(&b->work, &b->w.after), b, "the run is another");
    memcpy(log, b->log, b->log_n);
    b->undone = b->ran;
    must_of(undo(b, &b->undone, n) == n && same_table(&b->work, &b->w.before), b, "the undo leaves another table");
    must_of(!memcmp(b->log, log, b->log_n), b, "the undo changes the log");
    must_of(b->undone.log == b->log_n && b->undone.redo == b->log_n - b->w.script_n, b, "other starts behind the undo");
    must_of(!memcmp(b->redo + b->undone.redo, b->w.script, b->w.script_n), b, "the undo writes another script");
    ZoghvariSession s = b->undone;
    must_of(redo(b, &s, n) == n && same_table(&b->work, &b->w.after), b, "the redo leaves another table");
    must_of(same_session(s, b->ran) && !memcmp(b->log, log, b->log_n), b, "the redo leaves another log");
}

/* The twin goes the same ways. */
static void verify_twin(Bench *b, const uint8_t *log) {
    size_t n = b->w.operators;
    load_after(b);
    TwinMoved u = twin_plain(b, n);
    must_of(u.done == n && u.from == b->undone.log && same_table(&b->work, &b->w.before), b, "the plain twin differs");
    memset(b->redo, 1, b->log_n);
    load_after(b);
    u = twin_undo(b, n);
    must_of(u.done == n && same_session((ZoghvariSession){u.from, u.to}, b->undone), b, "the twin's undo differs");
    must_of(same_table(&b->work, &b->w.before), b, "the twin's undo leaves another table");
    must_of(!memcmp(b->redo + u.to, b->w.script, b->w.script_n), b, "the twin's undo writes another script");
    memset(b->log, 1, b->ran.log);
    u = twin_redo(b, n);
    must_of(u.done == n && same_session((ZoghvariSession){u.to, u.from}, b->ran), b, "the twin's redo differs");
    must_of(same_table(&b->work, &b->w.after) && !memcmp(b->log, log, b->log_n), b, "the twin's redo logs otherwise");
}

static Bench open_bench(const WorkloadKind *kind, int i) {
    Bench b = {.w = make_workload(kind, i)};
    b.work = empty_table(b.w.before.cap);
    b.log_n = 19 * b.w.operators;
    b.log = malloc(b.log_n);
    b.redo = malloc(b.log_n);
    uint8_t *log = malloc(b.log_n);
    must_of(b.log && b.redo && log, &b, "no memory");
    memset(b.log, 1, b.log_n); /* so that bytes that no call may touch are compared too */
    memset(b.redo, 1, b.log_n);
    verify_library(&b, log);
    verify_twin(&b, log);
    free(log);
    return b;
}

static void close_bench(Bench *b) {
    free_workload(b->w);
    free_table(b->work);
    free(b->log);
    free(b->redo);
}

/* What is timed; each begins with the session that belongs to its table. */
static void run_pass(void *with) {
    Bench *b = with;
    run(b, &(ZoghvariSession){b->log_n, b->log_n}, b->w.script_n);
}
static void run_nothing(void *with) { run(with, &(ZoghvariSession){((Bench *)with)->log_n, 0}, 0); }
static void undo_pass(void *with) {
    ZoghvariSession s = ((Bench *)with)->ran;
    undo(with, &s, ((Bench *)with)->w.operators);
}
static void undo_nothing(void *with) {
    ZoghvariSession s = ((Bench *)with)->ran;
    undo(with, &s, 0);
}
static void redo_pass(void *with) {
    ZoghvariSession s = ((Bench *)with)->undone;
    redo(with, &s, ((Bench *)with)->w.operators);
}
static void redo_nothing(void *with) {
    ZoghvariSession s = ((Bench *)with)->undone;
    redo(with, &s, 0);
}
static void twin_undo_pass(void *with) { twin_undo(with, ((Bench *)with)->w.operators); }
static void twin_plain_pass(void *with) { twin_plain(with, ((Bench *)with)->w.operators); }
static void twin_redo_pass(void *with) { twin_redo(with, ((Bench *)with)->w.operators); }
static void twin_undo_nothing(void *with) { twin_undo(with, 0); }
static void twin_redo_nothing(void *with) { twin_redo(with, 0); }

/* Each way less a call for no operator on the same table. */
static void round_of(Bench *b) {
    Pass *const forth[] = {run_nothing, run_pass, redo_nothing, redo_pass, twin_redo_nothing, twin_redo_pass};
    Pass *const back[] = {undo_nothing, undo_pass, twin_undo_nothing, twin_undo_pass, twin_plain_pass};
    double went[6], came[5], n = (double)b->w.operators;
    shortest_passes(load_before, forth, 6, b, went);
    shortest_passes(load_after, back, 5, b, came);
    add(&b->seconds[RUN], (went[1] - went[0]) / n);
    add(&b->seconds[REDO], (went[3] - went[2]) / n);
    add(&b->seconds[TWIN_REDO], (went[5] - went[4]) / n);
    add(&b->seconds[UNDO], (came[1] - came[0]) / n);
    add(&b->seconds[TWIN_UNDO], (came[3] - came[2]) / n);
    add(&b->seconds[TWIN_PLAIN], (came[4] - came[2]) / n);
}

static double ns(const Bench *b, int way) { return 1e9 * median(&b->seconds[way]); }

/* The ratios that are told, each of two ways. */
static const int ratios[][2] = {{REDO, RUN}, {UNDO, TWIN_UNDO}, {REDO, TWIN_REDO}, {TWIN_UNDO, TWIN_PLAIN}};
enum { RATIOS = sizeof ratios / sizeof *ratios };
static double ratio(const Bench *b, int i) { return ns(b, ratios[i][0]) / ns(b, ratios[i][1]); }

static void print_head(void) {
    printf("redo: ns an operator, less the check at the call's head; undo writes the redo log\n"
           "/twin: times the twin's; with/without: the twin's undo with a redo log, times that without one\n"
           "%-19s %5s %5s | %7s %7s %7s %9s | %10s %10s %13s\n", "workload", "size", "ops", "run", "undo", "redo",
           "redo/run", "undo /twin", "redo /twin", "with/without");
    fflush(stdout);
}

static void print_row(const Bench *b) {
    printf("%-19s %5u %5zu | %7.1f %7.1f %7.1f %9.2f | %10.2f %10.2f %13.2f\n", b->w.name, b->w.size, b->w.operators,
           ns(b, RUN), ns(b, UNDO), ns(b, REDO), ratio(b, 0), ratio(b, 1), ratio(b, 2), ratio(b, 3));
}

/* The mean of all rows' ratios, as of factors. */
static double mean_ratio(const Bench *b, int n, int i) {
    double sum = 0;
    for (int row = 0; row < n; row++) sum += log(ratio(&b[row], i));
    return exp(sum / n);
}

/* All rows in turn, round by round, so that a slow moment of the machine falls on none of them alone. */
static void bench_all(Bench *b, int n) {
    for (int i = 0; i < ROUNDS * n; i++) round_of(&b[i % n]);
    for (int i = 0; i < n; i++) print_row(&b[i]);
    if (n) printf("mean ratio: redo/run %.2f, undo/twin %.2f, redo/twin %.2f, with/without %.2f\n", mean_ratio(b, n, 0),
                  mean_ratio(b, n, 1), mean_ratio(b, n, 2), mean_ratio(b, n, 3));
    for (int i = 0; i < n; i++) close_bench(&b[i]);
}

/* Opens the smallest and the largest size of the workloads with this word in their name; how many benches that are.
 * What is over as soon as the clock is read is left out. */
static int open_all(Bench *b, const char *word) {
    int n = 0;
    for (size_t i = 0; i < workload_kinds_n; i++)
        for (int size = 0; size < SIZES && strstr(workload_kinds[i].name, word); size += SIZES - 1) {
            b[n] = open_bench(&workload_kinds[i], size);
            if (b[n].w.operators < FEW) close_bench(&b[n]);
            else n++;
        }
    return n;
}

int main(int argc, char **argv) {
    const char *word = wanted_word(argc, argv, "redo");
    print_head();
    Bench *b = calloc(workload_kinds_n * SIZES, sizeof *b);
    must(b != NULL, "redo", 0, "no memory");
    bench_all(b, open_all(b, word));
    free(b);
    return 0;
}
