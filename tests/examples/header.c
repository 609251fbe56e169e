/* What the header says besides the functions: its macros, and that a slice of no elements may have a null pointer. Each
 * function is called with null in every place that may have it, and has to answer what the guide says of no elements.
 *
 * Built as C and as C++, with the header in front: each of the two must take it by itself, and the archive's functions
 * must be found from both. */
#include "zoghvari.h"

#include <stdio.h>
#include <string.h>

enum { LINKS = ZOGHVARI_LINKS_LENGTH(1, 2, 2, 2, 2), POINTS = ZOGHVARI_POINTS_LENGTH(2), LOG = 64 };

static uint16_t links[LINKS];
static int32_t points[POINTS];
static uint8_t log_bytes[LOG], redo_bytes[LOG];
static ZoghvariSession session;
static const uint8_t solid[] = {1, 1, 1, 1, 1, 0, 0, 0}; /* mvsf 1 1 1 1 0 0 0 */
static int wrong;

static void equal(const char *what, size_t got, size_t wanted) {
    if (got == wanted) return;
    printf("%s: %lu, not %lu\n", what, (unsigned long)got, (unsigned long)wanted);
    wrong = 1;
}

static void ran(const char *what, ZoghvariRan r, unsigned refusal, size_t done, size_t start) {
    equal(what, r.refusal, refusal);
    equal(what, r.done, done);
    equal(what, r.start, start);
}

/* The session is there before a call, and is this behind it. */
static void start_at(size_t log, size_t redo) {
    session.log = log;
    session.redo = redo;
}
static void left(const char *what, size_t log, size_t redo) {
    equal(what, session.log, log);
    equal(what, session.redo, redo);
}

/* Each is refused with 1, and leaves the session. */
static void no_table(void) {
    ZoghvariSession *s = &session;
    start_at(0, 0);
    equal("clear without links", zoghvari_clear(NULL, 0, points, POINTS, LOG, 7, s, 1, 2, 2, 2, 2).refusal, 1);
    equal("clear without points", zoghvari_clear(links, LINKS, NULL, 0, LOG, 7, s, 1, 2, 2, 2, 2).refusal, 1);
    equal("check", zoghvari_check(NULL, 0, NULL, 0).refusal, 1);
    equal("count", zoghvari_count(NULL, 0, NULL, 0).refusal, 1);
    ran("run", zoghvari_run(NULL, 0, NULL, 0, NULL, 0, 7, s, solid, sizeof solid), 1, 0, 0);
    equal("undo", zoghvari_undo(NULL, 0, NULL, 0, NULL, 0, NULL, 0, s, 1).refusal, 1);
    equal("redo", zoghvari_redo(NULL, 0, NULL, 0, NULL, 0, NULL, 0, s, 1).refusal, 1);
    equal("invert", zoghvari_invert(NULL, 0, NULL, 0, NULL, 0, 7, s).refusal, 1);
    equal("obj", zoghvari_obj(NULL, 0, NULL, 0, 1, NULL, 0).refusal, 1);
    left("the session behind refusals", 0, 0);
}

static void no_bytes(void) {
    const ZoghvariOperator kvsf = {2, 1, {1}};
    equal("read", zoghvari_read(NULL, 0, 0).refusal, 3);
    equal("write", zoghvari_write(kvsf, NULL, 0).refusal, 9);
}

/* A table is there; log and script are not. */
static void no_log(void) {
    ZoghvariSession *s = &session;
    start_at(99, 99); /* clearing does not look */
    equal("clear", zoghvari_clear(links, LINKS, points, POINTS, LOG, 7, s, 1, 2, 2, 2, 2).refusal, 0);
    left("the session behind clearing", LOG, 7);
    start_at(0, 0);
    ran("run of nothing", zoghvari_run(links, LINKS, points, POINTS, NULL, 0, 0, s, NULL, 0), 0, 0, 0);
    ran("run without a log", zoghvari_run(links, LINKS, points, POINTS, NULL, 0, 0, s, solid, sizeof solid), 9, 0, 0);
    equal("invert of an empty table", zoghvari_invert(links, LINKS, points, POINTS, NULL, 0, 0, s).refusal, 0);
    start_at(LOG, 0);
    ran("run", zoghvari_run(links, LINKS, points, POINTS, log_bytes, LOG, 0, s, solid, sizeof solid), 0, 1, LOG - 2);
    ran("run of no script", zoghvari_run(links, LINKS, points, POINTS, log_bytes, LOG, 0, s, NULL, 0), 0, 0, LOG - 2);
    start_at(0, 0);
    equal("undo of none", zoghvari_undo(links, LINKS, points, POINTS, NULL, 0, NULL, 0, s, 0).refusal, 0);
    equal("undo of one", zoghvari_undo(links, LINKS, points, POINTS, NULL, 0, NULL, 0, s, 1).refusal, 11);
    equal("redo of none", zoghvari_redo(links, LINKS, points, POINTS, NULL, 0, NULL, 0, s, 0).refusal, 0);
    equal("redo of one", zoghvari_redo(links, LINKS, points, POINTS, NULL, 0, NULL, 0, s, 1).refusal, 11);
    equal("invert without a log", zoghvari_invert(links, LINKS, points, POINTS, NULL, 0, 0, s).refusal, 9);
    equal("the solid stands", zoghvari_count(links, LINKS, points, POINTS).solids, 1);
}

/* The log is there and its live part is the inverse of the table's only operator: no redo log, then one, and no log for
 * the way back. */
static void no_redo_log(void) {
    ZoghvariSession *s = &session;
    start_at(LOG - 2, 0);
    equal("no redo log", zoghvari_undo(links, LINKS, points, POINTS, log_bytes, LOG, NULL, 0, s, 1).refusal, 9);
    left("the session behind it", LOG - 2, 0);
    start_at(LOG - 2, LOG);
    equal("undo", zoghvari_undo(links, LINKS, points, POINTS, log_bytes, LOG, redo_bytes, LOG, s, 1).undone, 1);
    left("the session behind undo", LOG, LOG - sizeof solid);
    equal("the redo log", memcmp(redo_bytes + session.redo, solid, sizeof solid) == 0, 1);
    start_at(0, LOG - sizeof solid);
    equal("redo without a log", zoghvari_redo(links, LINKS, points, POINTS, NULL, 0, redo_bytes, LOG, s, 1).refusal, 9);
    left("the session behind it", 0, LOG - sizeof solid);
    start_at(LOG, LOG - sizeof solid);
    equal("redo", zoghvari_redo(links, LINKS, points, POINTS, log_bytes, LOG, redo_bytes, LOG, s, 1).done, 1);
    left("the session behind redo", LOG - 2, LOG);
}

/* A triangle, which has a text, and no buffer for it: the length is told. */
static void no_buffer(void) {
    enum { WORDS = ZOGHVARI_LINKS_LENGTH(1, 2, 2, 3, 3), NUMBERS = ZOGHVARI_POINTS_LENGTH(3) };
    uint16_t words[WORDS];
    int32_t numbers[NUMBERS];
    const uint8_t sides[] = {3, 1, 0, 1, 2, 0, 2, 0, 0,  /* mev 1 0 1 2 0 1 0 0 */
                             3, 1, 2, 2, 3, 0, 2, 2, 0,  /* mev 1 2 2 3 0 1 1 0 */
                             5, 1, 1, 4, 3, 2, 2, 0};    /* mef 1 1 4 3 2 2 0 */
    ZoghvariSession *s = &session;
    equal("clear", zoghvari_clear(words, WORDS, numbers, NUMBERS, LOG, 0, s, 1, 2, 2, 3, 3).refusal, 0);
    equal("obj of a free solid", zoghvari_obj(words, WORDS, numbers, NUMBERS, 1, NULL, 0).refusal, 6);
    ran("solid", zoghvari_run(words, WORDS, numbers, NUMBERS, log_bytes, LOG, 0, s, solid, sizeof solid), 0, 1, 62);
    equal("obj of a lone loop", zoghvari_obj(words, WORDS, numbers, NUMBERS, 1, NULL, 0).refusal, 12);
    ran("sides", zoghvari_run(words, WORDS, numbers, NUMBERS, log_bytes, LOG, 0, s, sides, sizeof sides), 0, 3, 56);
    for (int v = 1; v <= 3; v++) /* two sides meet at each corner; the place as the header says it, s, f, l, e in turn */
        equal("the word of a vertex", words[5 + 1 + 2 * 2 + 3 * 2 + 8 * 3 + (v - 1)], 1 + 2);
    equal("obj of no solid", zoghvari_obj(words, WORDS, numbers, NUMBERS, 0, NULL, 0).refusal, 5);
    ZoghvariText asked = zoghvari_obj(words, WORDS, numbers, NUMBERS, 1, NULL, 0);
    equal("obj without a buffer", asked.refusal, 13);
    /* sizeof counts the byte behind a string, as the length counts the line feed */
    equal("the length of the text", asked.length, 3 * sizeof "v 0.00 0.00 0.00" + 2 * sizeof "f 1 2 3");
}

/* The version in parts and in whole, and the lengths of a table of the largest capacities, from words too. */
static void macros(void) {
    char version[32];
    const uint16_t most = 4096;
    sprintf(version, "%d.%d.%d", ZOGHVARI_VERSION_MAJOR, ZOGHVARI_VERSION_MINOR, ZOGHVARI_VERSION_PATCH);
    equal("the version's parts", strcmp(version, ZOGHVARI_VERSION) == 0, 1);
    equal("words of links", ZOGHVARI_LINKS_LENGTH(most, most, most, most, most), 61445);
    equal("words of links, none alike", ZOGHVARI_LINKS_LENGTH(1, 10, 100, 1000, 1 + 1), 8328);
    equal("numbers of points", ZOGHVARI_POINTS_LENGTH(most - 1), 12285);
}

int main(void) {
    no_table();
    no_bytes();
    no_log();
    no_redo_log();
    no_buffer();
    macros();
    return wrong;
}
