/* What it costs to tell how many edges meet at a corner that was picked: one read of its vertex's word, or a walk
 * around the vertex by next of the mate, which is what was to be done before the word said it.
 *
 *   picking [-w WORD]
 *     -w  only rows with this word in their name
 *
 * A table is as full as it can be with stars, which a script makes through the library: so many edges from one vertex
 * each. The corners at their middles are picked in an order of chance, each told by a half-edge that starts there.
 * Reading and walking take turns in one program: trust the ratio, not the times. Nothing is timed before the check has
 * found the table sound, and both have told the same of every corner. */
#include <stdio.h>
#include <stdlib.h>
#include <string.h>

#include "options.h"
#include "records.h"
#include "table.h"
#include "timing.h"
#include "zoghvari.h"

enum { READ, WALK, WAYS };
enum { LONGEST = 19 };

typedef struct {
    const char *name;
    unsigned valence, stars;
} Kind;
static const Kind kinds[] = {{"valence 3", 3, 1024}, {"valence 64", 64, 63}};
enum { KINDS = sizeof kinds / sizeof *kinds };

typedef struct {
    const Kind *kind;
    Table table;
    uint8_t *script;
    size_t script_n;
    unsigned *picked; /* half-edges */
    size_t sum; /* of all that a pass has told */
    Sample seconds[WAYS]; /* a corner */
} Bench;

static void must_of(int ok, const Kind *kind, const char *otherwise) { must(ok, kind->name, kind->valence, otherwise); }

static void record(Bench *b, ZoghvariOperator op) {
    ZoghvariWritten w = zoghvari_write(op, b->script + b->script_n, LONGEST);
    must_of(w.refusal == 0, b->kind, "an operator cannot be written");
    b->script_n += w.length;
}

/* Star i: a solid of one vertex, and edges from there, each before the first one's half-edge. */
static void record_star(Bench *b, int32_t i) {
    int32_t n = (int32_t)b->kind->valence, e = (i - 1) * n + 1, v = (i - 1) * (n + 1) + 1;
    record(b, (ZoghvariOperator){MVSF, 7, {i, i, i, v, i, 0, 0}});
    for (int32_t j = 0; j < n; j++)
        record(b, (ZoghvariOperator){MEV, 8, {i, j ? 2 * e - 1 : 0, e + j, v + 1 + j, 0, i, j, 0}});
    b->picked[i - 1] = (unsigned)(2 * e - 1);
}

/* All stars, by one run. */
static void build(Bench *b) {
    Table *t = &b->table;
    size_t operators = (size_t)b->kind->stars * (b->kind->valence + 1), log_n = LONGEST * operators;
    uint8_t *log = malloc(log_n);
    b->script = malloc(log_n);
    b->picked = malloc(b->kind->stars * sizeof *b->picked);
    must_of(log && b->script && b->picked, b->kind, "no memory");
    for (unsigned i = 1; i <= b->kind->stars; i++) record_star(b, (int32_t)i);
    ZoghvariSession s = {log_n, 0};
    ZoghvariRan r = zoghvari_run(t->links, t->links_n, t->points, t->points_n, log, log_n, 0, &s, b->script,
                                 b->script_n);
    must_of(r.refusal == 0 && r.done == operators, b->kind, "the script is refused");
    must_of(zoghvari_check(t->links, t->links_n, t->points, t->points_n).refusal == 0, b->kind, "it is not sound");
    free(log);
    free(b->script);
    b->script = NULL;
}

/* The corners in an order of chance, always the same. */
static void shuffle(Bench *b) {
    uint32_t chance = 1;
    for (unsigned i = b->kind->stars - 1; i > 0; i--) {
        chance = chance * 1664525 + 1013904223;
        unsigned j = (chance >> 8) % (i + 1), k = b->picked[i];
        b->picked[i] = b->picked[j];
        b->picked[j] = k;
    }
}

/* How many half-edges start where k does. */
static unsigned read_word(const Records *t, unsigned k) { return t->vertex[t->half[k].start] - 1u; }
static unsigned walk_around(const Records *t, unsigned k) {
    unsigned n = 0, h = k;
    do {
        h = t->half[mate(h)].next;
        n++;
    } while (h != k);
    return n;
}

static void no_preparation(void *with) { (void)with; }
static void read_pass(void *with) {
    Bench *b = with;
    Records t = records_of(b->table.links, b->table.points);
    for (unsigned i = 0; i < b->kind->stars; i++) b->sum += read_word(&t, b->picked[i]);
}
static void walk_pass(void *with) {
    Bench *b = with;
    Records t = records_of(b->table.links, b->table.points);
    for (unsigned i = 0; i < b->kind->stars; i++) b->sum += walk_around(&t, b->picked[i]);
}

static void verify(Bench *b) {
    Records t = records_of(b->table.links, b->table.points);
    for (unsigned i = 0; i < b->kind->stars; i++) {
        unsigned told = read_word(&t, b->picked[i]);
        must_of(told == b->kind->valence && told == walk_around(&t, b->picked[i]), b->kind, "word and walk differ");
    }
}

static Bench open_bench(const Kind *kind) {
    Bench b = {.kind = kind, .table = empty_table(CAPACITY)};
    build(&b);
    shuffle(&b);
    verify(&b);
    return b;
}

static void round_of(Bench *b) {
    Pass *const ways[WAYS] = {read_pass, walk_pass};
    double took[WAYS];
    shortest_passes(no_preparation, ways, WAYS, b, took);
    for (int way = 0; way < WAYS; way++) add(&b->seconds[way], took[way] / b->kind->stars);
}

static double ns(const Bench *b, int way) { return 1e9 * median(&b->seconds[way]); }

static void print_row(const Bench *b) {
    printf("%-10s %7u | %8.2f %8.2f %10.1f\n", b->kind->name, b->kind->stars, ns(b, READ), ns(b, WALK),
           ns(b, WALK) / ns(b, READ));
}

int main(int argc, char **argv) {
    const char *word = wanted_word(argc, argv, "picking");
    Bench b[KINDS];
    int n = 0;
    printf("picking: ns for each corner; read: the vertex's word, walk: around the vertex by next of the mate\n"
           "%-10s %7s | %8s %8s %10s\n", "corners", "picked", "read", "walk", "walk/read");
    for (int i = 0; i < KINDS; i++)
        if (strstr(kinds[i].name, word)) b[n++] = open_bench(&kinds[i]);
    for (int i = 0; i < ROUNDS * n; i++) round_of(&b[i % n]);
    for (int i = 0; i < n; i++) {
        must_of(b[i].sum > 0, b[i].kind, "nothing was told"); /* so that no pass is left out */
        print_row(&b[i]);
        free_table(b[i].table);
        free(b[i].picked);
    }
    return 0;
}
