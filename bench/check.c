/* How the time of the check grows: full tables of capacities 64, 512 and 4,096, beside the twin's check (twin.h). It is
 * what a call costs beyond its operators.
 *
 * The table of capacity c is one solid with c edges in use: k = c / 2 parallel edges from vertex 1 to vertex 2, and a
 * path from 2 over 3, 4, .. back to 1. Its faces are the k - 1 gaps between parallel edges and the two sides of the
 * path. So there are many small loops, two long ones, and a long chain of neighbouring faces. */
#include <stdio.h>

#include "table.h"
#include "timing.h"
#include "twin.h"
#include "zoghvari.h"

/* The parallel edges from 1 to 2, then the path. */
static void put_edges(Table *t, unsigned k) {
    for (unsigned e = 1; e <= k; e++) put_edge(t, e, 1, 2);
    for (unsigned e = k + 1; e <= t->cap; e++) put_edge(t, e, e - k + 1, e == t->cap ? 1 : e - k + 2);
}

static Table full_table(uint16_t c) {
    Table t = empty_table(c);
    static unsigned ahead[4096], back[4096];
    unsigned k = c / 2, n = 0;
    put_edges(&t, k);
    for (unsigned e = 1; e < k; e++) put_loop(&t, e, e, (unsigned[]){2 * e - 1, 2 * e + 2}, 2);
    for (unsigned e = k; e <= c; e++, n++) {
        ahead[n] = 2 * e - 1;
        back[n] = n == 0 ? 2 : 2 * (c + 1 - n);
    }
    put_loop(&t, k, k, ahead, n);
    put_loop(&t, k + 1, k + 1, back, n);
    for (unsigned f = 1; f <= k + 1; f++) put_face(&t, 1, f, f);
    return t;
}

typedef struct {
    Table t;
    Sample library, twin;
} Bench;

static unsigned library_rule(Table *t) { return zoghvari_check(t->links, t->links_n, t->points, t->points_n).rule; }
static unsigned twin_rule(Table *t) { return twin_check(records_of(t->links, t->points)); }

static void verify_rule(Table *t) {
    must(library_rule(t) == twin_rule(t), "check, capacity", t->cap, "the twin names another rule");
}

/* Library and twin name the same rule for a sound table, and for many that differ from it in one word. */
static void verify(Table *t) {
    must(library_rule(t) == 0 && twin_rule(t) == 0, "check, capacity", t->cap, "the table is not sound");
    uint32_t chance = 1;
    for (int i = 0; i < 2000; i++) {
        chance = chance * 1664525 + 1013904223;
        uint16_t *word = t->links + 5 + (chance >> 8) % (t->links_n - 5), old = *word;
        *word = (uint16_t)(i % 2 ? old + 1u : (chance >> 16) % (2u * t->cap + 2));
        verify_rule(t);
        *word = old;
    }
}

/* Rule 6, which no single word breaks: two faces of one solid that nothing links, and an edge between two solids. */
static void verify_linking(void) {
    Table apart = empty_table(64), across = full_table(64);
    for (unsigned i = 1; i <= 2; i++) {
        put_lone_loop(&apart, i, i, i);
        put_face(&apart, 1, i, i);
    }
    put_face(&across, 2, 1, 1);
    must(library_rule(&apart) == 6 && library_rule(&across) == 6, "check, capacity", 64, "rule 6 is not broken");
    verify_rule(&apart);
    verify_rule(&across);
    free_table(apart);
    free_table(across);
}

static void library_pass(void *b) { library_rule(&((Bench *)b)->t); }
static void twin_pass(void *b) { twin_rule(&((Bench *)b)->t); }
static void nothing(void *b) { (void)b; }

static void round_of(Bench *b) {
    Pass *const body[] = {library_pass, twin_pass};
    double took[2];
    shortest_passes(nothing, body, 2, b, took);
    add(&b->library, took[0]);
    add(&b->twin, took[1]);
}

int main(void) {
    const uint16_t caps[3] = {64, 512, 4096};
    Bench b[3] = {0};
    for (int i = 0; i < 3; i++) b[i].t = full_table(caps[i]);
    verify(&b[0].t); /* the smallest: in a larger one most words are alike */
    verify_linking();
    for (int i = 0; i < 3 * ROUNDS; i++) round_of(&b[i % 3]);
    printf("check of a full table; growth: exponent of its time against the capacity; /twin: times the twin's\n"
           "%8s %8s %8s %7s %6s\n", "capacity", "us", "ns/word", "growth", "/twin");
    for (int i = 0; i < 3; i++) {
        double took = median(&b[i].library);
        printf("%8u %8.1f %8.2f ", caps[i], 1e6 * took, 1e9 * took / (double)b[i].t.links_n);
        if (i == 0) printf("%7s", "-");
        else printf("%7.2f", growth(median(&b[i - 1].library), took, caps[i - 1], caps[i]));
        printf(" %6.1f\n", took / median(&b[i].twin));
    }
    for (int i = 0; i < 3; i++) free_table(b[i].t);
    return 0;
}
