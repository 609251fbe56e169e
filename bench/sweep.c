/* What a sweep costs, against zoghvari_run of the same operators as a script.
 *
 *   sweep [-w WORD]
 *     -w  only rows with this word in their name
 *
 * The script is written here by hand, from document 02. A sweep checks the table, tests its refusals, writes the
 * script and runs it; the run checks the table again. So there is also a ratio for the sweep less one check, measured
 * in the same turn. What the sweep does between its check and the run is the difference of two refused sweeps, but for
 * setting the script's memory to 0, which both do. All take turns in one program: trust the ratios, not the times.
 * Nothing is timed before sweep and run have left the same table, log and session to the byte, undo has given the
 * table back and written the script, and the refused sweeps have changed nothing. */
#include <stdio.h>
#include <stdlib.h>
#include <string.h>

#include "options.h"
#include "records.h"
#include "shapes.h"
#include "timing.h"
#include "zoghvari_sweep.h"

enum { SWEEP, RUN, CHECK, ENTRY, REFUSED, WAYS };
enum { LONGEST = 19, DZ = 700, MARK = 0xEE };
enum { SOLIDS, FACES, LOOPS, EDGES, VERTICES, ITEM_KINDS };

/* Operators as a script, and the numbers that they take, one after the other. */
typedef struct {
    uint8_t *script;
    size_t script_n, operators, most;
    int32_t number[ITEM_KINDS][CAPACITY + 1];
    unsigned taken[ITEM_KINDS];
} Drawing;

typedef struct Bench Bench;
typedef struct {
    const char *name;
    void (*make)(Bench *b);
    unsigned corners;
    uint16_t cap;
} Row;

/* The table before, the one that the calls work on, and the log; `room` is what the inverses take of it. */
struct Bench {
    const Row *row;
    size_t face;
    Table before, work;
    Drawing *reference;
    uint8_t *log, *redo;
    size_t log_n, room; /* log_n: of each log */
    Sample seconds[WAYS];
};

static void must_of(int ok, const Row *row, const char *otherwise) { must(ok, row->name, row->corners, otherwise); }

static Drawing *new_drawing(const Row *row, size_t most) {
    Drawing *d = calloc(1, sizeof *d);
    must_of(d && (d->script = malloc(LONGEST * most)), row, "no memory");
    d->most = most;
    return d;
}

static void free_drawing(Drawing *d) {
    free(d->script);
    free(d);
}

static void record(Drawing *d, ZoghvariOperator op) {
    ZoghvariWritten w = {9, 0};
    if (d->operators < d->most) w = zoghvari_write(op, d->script + d->script_n, LONGEST);
    must(w.refusal == 0, "operator", op.code, "it cannot be written");
    d->script_n += w.length;
    d->operators++;
}

static int32_t take(Drawing *d, int kind) { return d->number[kind][d->taken[kind]++]; }

/* Runs what is drawn, with logs of its own. */
static void run_drawing(const Row *row, const Drawing *d, Table *t) {
    size_t log_n = LONGEST * d->operators;
    uint8_t *log = malloc(log_n);
    must_of(log != NULL, row, "no memory");
    ZoghvariSession s = {log_n, 0};
    ZoghvariRan r = zoghvari_run(t->links, t->links_n, t->points, t->points_n, log, log_n, 0, &s, d->script,
                                 d->script_n);
    must_of(r.refusal == 0 && r.done == d->operators, row, "the drawing is refused");
    free(log);
}

/* All numbers up to n, in an order of chance that is always the same. */
static void scatter(int32_t *number, unsigned n, uint32_t chance) {
    for (unsigned i = 0; i < n; i++) number[i] = (int32_t)i + 1;
    for (unsigned i = n - 1; i > 0; i--) {
        chance = chance * 1664525 + 1013904223;
        unsigned j = (chance >> 8) % (i + 1);
        int32_t k = number[i];
        number[i] = number[j];
        number[j] = k;
    }
}

/* A path of edges before corner (l, h): the first edge's half-edge on the way out, and the one that starts at its end
 * then. */
typedef struct {
    int32_t first, end;
} Path;
static Path draw_path(Drawing *d, int32_t l, int32_t h, unsigned edges) {
    Path p = {0, h};
    for (unsigned i = 0; i < edges; i++) {
        int32_t e = take(d, EDGES), v = take(d, VERTICES);
        record(d, (ZoghvariOperator){MEV, 8, {l, p.end, e, v, 0, 97 * v % 9000, 31 * v % 9000, v % 500}});
        if (i == 0) p.first = 2 * e - 1;
        p.end = 2 * e;
    }
    return p;
}
static void close_path(Drawing *d, int32_t l, int32_t h1, int32_t h2) {
    record(d, (ZoghvariOperator){MEF, 7, {l, h1, h2, take(d, EDGES), take(d, FACES), take(d, LOOPS), 0}});
}

static int32_t draw_solid(Drawing *d, int32_t f, int32_t l) {
    int32_t s = take(d, SOLIDS), v = take(d, VERTICES);
    record(d, (ZoghvariOperator){MVSF, 7, {s, f, l, v, v % 500, 0, 0}});
    return s;
}

/* A polygon, and in its face a ring with two fifths of the corners: drawn on a bridge, which is killed. */
static int32_t draw_plate(Drawing *d, unsigned corners) {
    unsigned inner = 2 * corners / 5;
    int32_t f = take(d, FACES), l = take(d, LOOPS);
    draw_solid(d, f, l);
    Path rim = draw_path(d, l, 0, corners - inner - 1);
    close_path(d, l, rim.end, rim.first);
    Path bridge = draw_path(d, l, rim.first, 1), ring = draw_path(d, l, bridge.end, inner - 1);
    close_path(d, l, ring.first, ring.end);
    record(d, (ZoghvariOperator){KEMR, 2, {bridge.first, take(d, LOOPS)}});
    return f;
}

/* Two solids of one vertex for each corner, and the plate; then every other one of these solids is killed. All numbers
 * are of chance, so those in use and the free ones lie scattered, and a loop does not follow the numbers. */
static void edited_plate(Bench *b) {
    unsigned n = b->row->corners;
    Drawing *d = new_drawing(b->row, 5 * (size_t)n);
    for (int kind = 0; kind < ITEM_KINDS; kind++) scatter(d->number[kind], b->row->cap, (uint32_t)kind + 1);
    static int32_t solids[CAPACITY];
    for (unsigned i = 0; i < 2 * n; i++) {
        int32_t f = take(d, FACES), l = take(d, LOOPS);
        solids[i] = draw_solid(d, f, l);
    }
    b->face = (size_t)draw_plate(d, n);
    for (unsigned i = 0; i < 2 * n; i += 2) record(d, (ZoghvariOperator){KVSF, 1, {solids[i]}});
    b->before = empty_table(b->row->cap);
    run_drawing(b->row, d, &b->before);
    free_drawing(d);
}

/* Face 1 of a shape; all numbers in use come before the free ones. */
static void whole_polygon(Bench *b) { b->before = sheet(b->row->corners, b->row->cap).table, b->face = 1; }
static void whole_prism(Bench *b) { b->before = prism(b->row->corners, b->row->cap).table, b->face = 1; }
static void top_of_tower(Bench *b) {
    b->before = tower((b->row->cap - 12u) / 8, b->row->cap).table, b->face = 1; /* as high as can be swept once more */
}

/* A prism has three edges for each corner and gets two more: at capacity 4,096 it ends at 819 corners. */
static const Row rows[] = {
    {"polygon", whole_polygon, 250, 1024},
    {"polygon", whole_polygon, 250, 4096},
    {"polygon", whole_polygon, 1000, 4096},
    {"edited, a ring", edited_plate, 250, 1024},
    {"edited, a ring", edited_plate, 250, 4096},
    {"edited, a ring", edited_plate, 1000, 4096},
    {"prism", whole_prism, 819, 4096},
    {"tower", top_of_tower, 4, 4096},
};
enum { ROWS = sizeof rows / sizeof *rows };

/* The free numbers of each kind, the least first. */
static void free_numbers(Drawing *d, const Records *t) {
    unsigned n[ITEM_KINDS] = {0};
    for (unsigned i = 1; i <= t->faces; i++)
        if (t->face[i].solid == 0) d->number[FACES][n[FACES]++] = (int32_t)i;
    for (unsigned i = 1; i <= t->loops; i++)
        if (t->loop[i].face == 0) d->number[LOOPS][n[LOOPS]++] = (int32_t)i;
    for (unsigned i = 1; i <= t->edges; i++)
        if (t->half[2 * i].start == 0) d->number[EDGES][n[EDGES]++] = (int32_t)i;
    for (unsigned i = 1; i <= t->vertices; i++)
        if (t->vertex[i] == 0) d->number[VERTICES][n[VERTICES]++] = (int32_t)i;
}

/* Loop l lifted: a mev at each corner, then a mef over each side. The last side ends at the first one's new edge. */
static void lift_loop(Drawing *d, const Records *t, int32_t l) {
    static int32_t riser[CAPACITY], side[CAPACITY];
    unsigned first = t->loop[l].first, h = first, n = 0;
    do {
        Point p = t->point[t->half[h].start - 1];
        int32_t e = riser[n++] = take(d, EDGES), v = take(d, VERTICES);
        record(d, (ZoghvariOperator){MEV, 8, {l, (int32_t)h, e, v, 0, p.x, p.y, p.z + DZ}});
        h = t->half[h].next;
    } while (h != first);
    for (unsigned i = 0; i < n; i++) side[i] = take(d, EDGES);
    for (unsigned i = 0; i < n; i++) {
        int32_t end = i + 1 < n ? 2 * riser[i + 1] : n > 1 ? 2 * side[0] - 1 : 2 * riser[0];
        int32_t f = take(d, FACES), l2 = take(d, LOOPS);
        record(d, (ZoghvariOperator){MEF, 7, {l, 2 * riser[i], end, side[i], f, l2, n > 1 ? 0 : 2}});
    }
}

static void write_reference(Bench *b) {
    Records t = records_of(b->before.links, b->before.points);
    b->reference = new_drawing(b->row, 2 * (size_t)b->row->corners);
    free_numbers(b->reference, &t);
    for (unsigned l = 1; l <= t.loops; l++)
        if (t.loop[l].face == b->face) lift_loop(b->reference, &t, (int32_t)l);
    must_of(b->reference->operators == b->reference->most, b->row, "the face has another number of corners");
}

/* The calls, each on the table as it stands. */
static void load(void *with) { copy_table(&((Bench *)with)->work, &((Bench *)with)->before); }
static ZoghvariDone sweep(Bench *b, ZoghvariSession *s, size_t face) {
    Table *t = &b->work;
    return zoghvari_sweep(t->links, t->links_n, t->points, t->points_n, b->log, b->log_n, b->log_n, s, face, 0, 0, DZ);
}
static ZoghvariRan run(Bench *b, ZoghvariSession *s) {
    Table *t = &b->work;
    return zoghvari_run(t->links, t->links_n, t->points, t->points_n, b->log, b->log_n, b->log_n, s,
                        b->reference->script, b->reference->script_n);
}

/* What is timed. A sweep of face 0 is refused with 5 as soon as the table is checked. */
static void sweep_pass(void *with) {
    Bench *b = with;
    sweep(b, &(ZoghvariSession){b->log_n, 0}, b->face);
}
static void run_pass(void *with) { run(with, &(ZoghvariSession){((Bench *)with)->log_n, 0}); }
static void check_pass(void *with) {
    const Table *t = &((Bench *)with)->work;
    zoghvari_check(t->links, t->links_n, t->points, t->points_n);
}
static void entry_pass(void *with) { sweep(with, &(ZoghvariSession){((Bench *)with)->log_n, 0}, 0); }
static void refused_pass(void *with) {
    Bench *b = with;
    sweep(b, &(ZoghvariSession){b->room - 1, 0}, b->face);
}

/* The sweep and the run by hand leave the same; `log` is as long as the bench's. */
static void verify_run(Bench *b, Table *after, uint8_t *log) {
    size_t n = b->reference->operators;
    ZoghvariSession s = {b->log_n, 0}, q = s;
    load(b);
    memset(b->log, MARK, b->log_n);
    ZoghvariRan r = run(b, &q);
    must_of(r.refusal == 0 && r.done == n, b->row, "the script is refused");
    copy_table(after, &b->work);
    memcpy(log, b->log, b->log_n);
    load(b);
    memset(b->log, MARK, b->log_n);
    ZoghvariDone d = sweep(b, &s, b->face);
    must_of(d.refusal == 0 && d.done == n && s.log == q.log && s.redo == q.redo, b->row, "the sweep answers otherwise");
    must_of(same_table(&b->work, after) && !memcmp(b->log, log, b->log_n), b->row, "the sweep leaves other bytes");
    b->room = b->log_n - s.log;
}

/* Undo of what the sweep has just done, then the refused sweeps; `log` is as the sweep left it. */
static void verify_undo(Bench *b, const uint8_t *log) {
    const Drawing *d = b->reference;
    Table *t = &b->work;
    ZoghvariSession s = {b->log_n - b->room, b->log_n}, q = {b->room - 1, 0};
    ZoghvariUndone u = zoghvari_undo(t->links, t->links_n, t->points, t->points_n, b->log, b->log_n, b->redo, b->log_n,
                                     &s, d->operators);
    must_of(u.refusal == 0 && same_table(t, &b->before), b->row, "the undo leaves another table");
    must_of(s.redo + d->script_n == b->log_n && !memcmp(b->redo + s.redo, d->script, d->script_n), b->row,
            "the undo writes another script");
    must_of(sweep(b, &q, 0).refusal == 5, b->row, "face 0 is not refused with 5");
    must_of(sweep(b, &q, b->face).refusal == 9, b->row, "a byte of log too few is not refused with 9");
    must_of(q.log == b->room - 1 && q.redo == 0 && same_table(t, &b->before) && !memcmp(b->log, log, b->log_n), b->row,
            "a refused sweep leaves other bytes");
}

static Bench open_bench(const Row *row) {
    Bench b = {.row = row, .work = empty_table(row->cap), .log_n = 2 * LONGEST * (size_t)row->corners};
    Table after = empty_table(row->cap);
    uint8_t *log = malloc(b.log_n);
    b.log = malloc(b.log_n);
    b.redo = malloc(b.log_n);
    must_of(log && b.log && b.redo, row, "no memory");
    row->make(&b);
    write_reference(&b);
    verify_run(&b, &after, log);
    verify_undo(&b, log);
    free_table(after);
    free(log);
    return b;
}

static void close_bench(Bench *b) {
    free_table(b->before);
    free_table(b->work);
    free_drawing(b->reference);
    free(b->log);
    free(b->redo);
}

static void round_of(Bench *b) {
    Pass *const body[WAYS] = {sweep_pass, run_pass, check_pass, entry_pass, refused_pass};
    double took[WAYS];
    shortest_passes(load, body, WAYS, b, took);
    for (int way = 0; way < WAYS; way++) add(&b->seconds[way], took[way]);
}

static double us(const Bench *b, int way) { return 1e6 * median(&b->seconds[way]); }
static double less_check(const Bench *b) { return us(b, SWEEP) - us(b, CHECK); }
static double less_checks(const Bench *b) { return less_check(b) - us(b, CHECK); }

static void print_head(void) {
    printf("sweep: us a call; run: the same operators as a script; check: of the table before; entry, refused: sweeps\n"
           "refused with 5 as soon as the table is checked, and with 9 before the run\n"
           "ratio: sweep over run; less: the sweep less one check, over the run\n"
           "ns a corner: own, from entry to refused; run, less the check\n");
    printf("%-14s %7s %8s | %6s %6s %6s %6s %7s | %5s %5s | %6s %6s\n", "face", "corners", "capacity", "sweep", "run",
           "check", "entry", "refused", "ratio", "less", "own ns", "run ns");
    fflush(stdout);
}

static void print_row(const Bench *b) {
    double corners = 1e-3 * b->row->corners;
    printf("%-14s %7u %8u | %6.0f %6.0f %6.0f %6.0f %7.0f", b->row->name, b->row->corners, b->row->cap, us(b, SWEEP),
           us(b, RUN), us(b, CHECK), us(b, ENTRY), us(b, REFUSED));
    printf(" | %5.2f %5.2f", us(b, SWEEP) / us(b, RUN), less_check(b) / us(b, RUN));
    printf(" | %6.0f %6.0f\n", (us(b, REFUSED) - us(b, ENTRY)) / corners, (us(b, RUN) - us(b, CHECK)) / corners);
}

/* Of two rows of one shape where the second has four times the corners: how many times as long its sweep takes. */
static void print_growth(const Bench *b, int n) {
    for (int i = 0; i < n * n; i++) {
        const Bench *from = &b[i / n], *to = &b[i % n];
        if (from->row->make != to->row->make || to->row->corners != 4 * from->row->corners) continue;
        printf("%-14s %u to %u corners, capacity %u to %u: %.2f times, less two checks %.2f, the check %.2f\n",
               to->row->name, from->row->corners, to->row->corners, from->row->cap, to->row->cap,
               us(to, SWEEP) / us(from, SWEEP), less_checks(to) / less_checks(from), us(to, CHECK) / us(from, CHECK));
    }
}

int main(int argc, char **argv) {
    const char *word = wanted_word(argc, argv, "sweep");
    static Bench b[ROWS];
    int n = 0;
    print_head();
    for (int i = 0; i < ROWS; i++)
        if (strstr(rows[i].name, word)) b[n++] = open_bench(&rows[i]);
    for (int i = 0; i < ROUNDS * n; i++) round_of(&b[i % n]);
    for (int i = 0; i < n; i++) print_row(&b[i]);
    print_growth(b, n);
    for (int i = 0; i < n; i++) close_bench(&b[i]);
    return 0;
}
