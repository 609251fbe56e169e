/* What OBJ text costs: bytes written in a second, beside the twin's (twin.h), which does not check the table, and
 * beside the twin's with its check in front.
 *
 *   obj [-w WORD]
 *     -w  only shapes with this word in their name
 *
 * All take turns in one program: trust the ratios, not the times. Nothing is timed before library and twin have
 * answered alike, with too little room too, and have written the same bytes. */
#include <stdio.h>
#include <stdlib.h>
#include <string.h>

#include "options.h"
#include "shapes.h"
#include "timing.h"
#include "twin.h"
#include "zoghvari.h"

enum { CALL, ROOMY, CHECK, TWIN, TWIN_CHECKED, WAYS };
enum { LONGEST = 155648, MARK = 0xEE }; /* what no text is longer than, and a byte that no text holds */

typedef struct {
    const char *name;
    unsigned vertices;
    Table table;
    size_t length;
    uint8_t *out;
    Sample seconds[WAYS];
} Bench;

typedef struct {
    const char *name;
    Shape (*make)(unsigned size, uint16_t cap);
    unsigned size, vertices;
    uint16_t cap;
} Kind;

/* A prism of n corners has 2n vertices and 3n edges: the largest table ends it at 2,730 vertices, a sheet at 4,096. */
static const Kind kinds[] = {
    {"sheet", sheet, 64, 64, 64},
    {"sheet", sheet, 4096, 4096, 4096},
    {"prism", prism, 32, 64, 96},
    {"prism", prism, 1365, 2730, 4096},
};
enum { KINDS = sizeof kinds / sizeof *kinds };

static TwinText library_text(const Table *t, size_t solid, uint8_t *out, size_t out_n) {
    ZoghvariText r = zoghvari_obj(t->links, t->links_n, t->points, t->points_n, solid, out, out_n);
    return (TwinText){r.refusal, r.length};
}
static TwinText twin_text(const Table *t, size_t solid, uint8_t *out, size_t out_n) {
    return twin_obj(records_of(t->links, t->points), solid, out, out_n);
}

/* Library and twin answer alike for a solid and leave the same bytes, be it in a buffer that is too short. */
static TwinText verify(const char *name, unsigned size, const Table *t, size_t solid, size_t out_n) {
    static uint8_t library[LONGEST + 1], twin[LONGEST + 1];
    memset(library, MARK, sizeof library);
    memset(twin, MARK, sizeof twin);
    TwinText r = library_text(t, solid, library, out_n), s = twin_text(t, solid, twin, out_n);
    must(r.refusal == s.refusal && r.length == s.length, name, size, "the twin answers otherwise");
    must(!memcmp(library, twin, sizeof library), name, size, "the twin writes other bytes");
    size_t written = r.refusal ? 0 : r.length;
    must(library[written] == MARK && (!written || library[written - 1] == '\n'), name, size, "the text ends elsewhere");
    return r;
}

/* What has no text: solids that are none or free, a solid with rings, one of one vertex. */
static void verify_refusals(void) {
    Shape rings = pockets(2, 64), vertex = lone_solids(1, 64);
    must(verify("rings", 2, &rings.table, 1, LONGEST).refusal == 12, "rings", 2, "they have a text");
    must(verify("vertex", 1, &vertex.table, 1, LONGEST).refusal == 12, "vertex", 1, "it has a text");
    must(verify("no solid", 0, &rings.table, 0, LONGEST).refusal == 5, "no solid", 0, "it has a text");
    must(verify("no solid", 65, &rings.table, 65, LONGEST).refusal == 5, "no solid", 65, "it has a text");
    must(verify("free solid", 2, &rings.table, 2, LONGEST).refusal == 6, "free solid", 2, "it has a text");
    free_table(rings.table);
    free_table(vertex.table);
}

static Bench open_bench(const Kind *kind) {
    Bench b = {.name = kind->name, .vertices = kind->vertices, .table = kind->make(kind->size, kind->cap).table};
    TwinText asked = verify(b.name, b.vertices, &b.table, 1, 0);
    must(asked.refusal == 13, b.name, b.vertices, "no length is told");
    b.length = asked.length;
    must(verify(b.name, b.vertices, &b.table, 1, b.length - 1).refusal == 13, b.name, b.vertices, "it fits too early");
    must(verify(b.name, b.vertices, &b.table, 1, b.length).refusal == 0, b.name, b.vertices, "it does not fit");
    b.out = malloc(LONGEST);
    must(b.out != NULL, b.name, b.vertices, "no memory");
    return b;
}

static void close_bench(Bench *b) {
    free_table(b->table);
    free(b->out);
}

static void nothing(void *b) { (void)b; }
static void call(void *with) {
    Bench *b = with;
    library_text(&b->table, 1, b->out, b->length);
}
/* With room for the longest text of any table the library need not measure this one. */
static void roomy(void *with) {
    Bench *b = with;
    library_text(&b->table, 1, b->out, LONGEST);
}
static void check(void *with) {
    const Table *t = &((Bench *)with)->table;
    zoghvari_check(t->links, t->links_n, t->points, t->points_n);
}
static void twin(void *with) {
    Bench *b = with;
    twin_text(&b->table, 1, b->out, b->length);
}
static void twin_checked(void *with) {
    Bench *b = with;
    if (twin_check(records_of(b->table.links, b->table.points)) == 0) twin(b);
}

static void round_of(Bench *b) {
    Pass *const body[] = {
        [CALL] = call, [ROOMY] = roomy, [CHECK] = check, [TWIN] = twin, [TWIN_CHECKED] = twin_checked};
    double took[WAYS];
    shortest_passes(nothing, body, WAYS, b, took);
    for (int way = CALL; way < WAYS; way++) add(&b->seconds[way], took[way]);
}

static void print_head(void) {
    printf("obj: a solid as OBJ text, MB/s of it; ratio: times the twin's time\n"
           "%27s | %-22s | %-14s | %-14s | %s\n", "", "whole call", "less the check", "a check in both",
           "ratios with room for any text");
    printf("%-6s %8s %6s %4s | %7s %7s %6s | %7s %6s | %7s %6s | %7s %7s %7s\n", "shape", "vertices", "bytes", "us",
           "library", "twin", "ratio", "library", "ratio", "twin", "ratio", "whole", "less", "both");
    fflush(stdout);
}

static void print_row(const Bench *b) {
    double whole = median(&b->seconds[CALL]), less = whole - median(&b->seconds[CHECK]);
    double plain = median(&b->seconds[TWIN]), checked = median(&b->seconds[TWIN_CHECKED]);
    double megabytes = 1e-6 * (double)b->length;
    printf("%-6s %8u %6zu %4.0f", b->name, b->vertices, b->length, 1e6 * whole);
    printf(" | %7.0f %7.0f %6.2f", megabytes / whole, megabytes / plain, whole / plain);
    printf(" | %7.0f %6.2f", megabytes / less, less / plain);
    printf(" | %7.0f %6.2f", megabytes / checked, whole / checked);
    double ample = median(&b->seconds[ROOMY]);
    printf(" | %7.2f %7.2f %7.2f\n", ample / plain, (ample - median(&b->seconds[CHECK])) / plain, ample / checked);
}

/* All rows in turn, round by round, so that a slow moment of the machine falls on none of them alone. */
static void bench_all(Bench *b, int n) {
    for (int i = 0; i < ROUNDS * n; i++) round_of(&b[i % n]);
    for (int i = 0; i < n; i++) print_row(&b[i]);
    for (int i = 0; i < n; i++) close_bench(&b[i]);
}

int main(int argc, char **argv) {
    static Bench b[KINDS];
    const char *word = wanted_word(argc, argv, "obj");
    int n = 0;
    print_head();
    verify_refusals();
    for (int i = 0; i < KINDS; i++)
        if (strstr(kinds[i].name, word)) b[n++] = open_bench(&kinds[i]);
    bench_all(b, n);
    return 0;
}
