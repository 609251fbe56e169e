/* The twin: the kernel's work written by hand in C on the same records, as the measure of what it could cost. Nothing
 * of it is proved; it is compared to the byte with the library before anything is timed.
 *
 * It does all that the library does behind the check at the head of a call: it reads the script, refuses by the same
 * numbers, finds the inverse and logs it. Loops of a face and faces of a solid are counted once, at the head of a call,
 * and kept up; where an operator takes a loop's first away, the search for the next one does not begin anew. */
#ifndef BENCH_TWIN_H
#define BENCH_TWIN_H

#include <stddef.h>
#include <stdint.h>

#include "records.h"

typedef struct {
    unsigned refusal;
    size_t done, used, start;
} TwinRan;

/* Of operators moved from one log to another: where the live parts of both start then. */
typedef struct {
    unsigned refusal;
    size_t done, from, to;
} TwinMoved;

typedef struct {
    unsigned refusal;
    size_t length;
} TwinText;

/* How many operands an operator has, by its code. */
uint8_t twin_operands(unsigned code);

/* The effect of an operator that is known to be good: nothing is asked, nothing is logged. */
void twin_effect(const Records *t, unsigned code, const int32_t *args);

/* As zoghvari_run, for a table that is known to be sound. */
TwinRan twin_run(Records t, uint8_t *log, size_t start, const uint8_t *script, size_t script_n);
/* As zoghvari_undo and zoghvari_redo: n operators out of one log, from its start on, each with its inverse below the
 * start of the other. */
TwinMoved twin_move(Records t, const uint8_t *log, size_t log_n, size_t from, uint8_t *other, size_t to, size_t n);
/* Undo as it is without a redo log: what writing one costs is measured by it. */
TwinMoved twin_undo_only(Records t, const uint8_t *log, size_t log_n, size_t from, size_t n);

/* The lowest rule that a table of good lengths breaks, 0 where it is sound. */
unsigned twin_check(Records t);

/* As zoghvari_obj, for a table that is known to be sound. */
TwinText twin_obj(Records t, size_t solid, uint8_t *out, size_t out_n);

#endif
