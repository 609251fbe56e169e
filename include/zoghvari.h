/* The kernel for C and C++: link libkernel.a (made by `tools/build`).
 * Every function takes any bytes whatever: it checks for itself and answers a refusal instead of asking for good input.
 *
 * A slice is a pointer and a count of elements; the pointer may be null where the count is 0. The slices of one call
 * and the session must not overlap: each function is proved for memory that shares no byte; on other it may go wrong
 * without telling. So the log and the redo log are two buffers, and a script that lies in a log is copied out before it
 * is run with that log. A session pointer is never null. */
#ifndef ZOGHVARI_H
#define ZOGHVARI_H

#include <stddef.h>
#include <stdint.h>

/* The version of this header, the library and the Rust wrapper, which are always the same (CHANGELOG.md). */
#define ZOGHVARI_VERSION_MAJOR 0
#define ZOGHVARI_VERSION_MINOR 2
#define ZOGHVARI_VERSION_PATCH 0
#define ZOGHVARI_VERSION "0.2.0"

/* How many words links has, and how many numbers points has, by the capacities s, f, l, e, v (solids, faces, loops,
 * edges, vertices). Constant where the capacities are, so that an array can be given its length by them. */
#define ZOGHVARI_LINKS_LENGTH(s, f, l, e, v) \
    ((size_t)5 + (size_t)(s) + 2 * (size_t)(f) + 3 * (size_t)(l) + 8 * (size_t)(e) + (size_t)(v))
#define ZOGHVARI_POINTS_LENGTH(v) (3 * (size_t)(v))

/* The word of a vertex: 0 where it is free, else 1 plus the number of half-edges that start there, so 1 where it is the
 * lone vertex of a loop. Of a table that is sound one read tells how many edges meet at a corner; an edge from a vertex
 * to itself counts twice. The words of the vertices are the last ones of links: that of vertex v stands 5 + s + 2f + 3l
 * + 8e + (v - 1) words into links, s, f, l, e being the capacities. All operators keep it. Another word than 0 that
 * is not this number breaks rule 5; 0 for a vertex in use breaks rule 1, or 2 where its point is zero. */

#ifdef __cplusplus
extern "C" {
#endif

/* An operator: code 1 to 13, how many operands it has, and these; coordinates are signed, unused operands are 0. */
typedef struct {
    uint8_t code;
    uint8_t count;
    int32_t args[8];
} ZoghvariOperator;

/* What you keep between calls, one for each table: where the live parts of its two logs start. Both logs fill from
 * their ends downward. The calls that are lent it change it as they say; your part is to hand in what the last one
 * left. */
typedef struct {
    size_t log;  /* from there on the log is a script that takes back what was done, the last operator first */
    size_t redo; /* from there on the redo log is a script that does again what was undone, the last undone first */
} ZoghvariSession;

typedef struct {
    uint8_t refusal; /* 0 or 1 */
} ZoghvariCleared;

typedef struct {
    uint8_t refusal; /* 0, 1 or 2 */
    uint8_t rule;    /* with 2: the lowest broken rule, 1 to 6 */
} ZoghvariChecked;

typedef struct {
    uint8_t refusal; /* 0, 1 or 2 */
    uint8_t rule;    /* with 2: the lowest broken rule, 1 to 6 */
    size_t solids, faces, loops, edges, vertices, rings, holes;
} ZoghvariCounted;

typedef struct {
    uint8_t refusal; /* 0, 3, 4 or 5 */
    size_t next;     /* the place after the operator */
    ZoghvariOperator op;
} ZoghvariRead;

typedef struct {
    uint8_t refusal; /* 0, 4, 5 or 9 */
    size_t length;   /* bytes written */
} ZoghvariWritten;

typedef struct {
    uint8_t refusal;    /* 0 to 9 */
    uint8_t rule;       /* with 2: the lowest broken rule, 1 to 6 */
    size_t done, used;  /* operators carried out, and the script bytes they took; 0 with 1 and 2 */
    size_t start;       /* where the log's live part starts now, which is the session's `log` */
} ZoghvariRan;

typedef struct {
    uint8_t refusal; /* 0 to 9, or 11: the log ended before n operators */
    uint8_t rule;    /* with 2: the lowest broken rule, 1 to 6 */
    size_t undone;   /* operators undone; 0 with 1 and 2 */
    size_t start;    /* where the log's live part starts now, which is the session's `log` */
} ZoghvariUndone;

typedef struct {
    uint8_t refusal; /* 0 to 9, or 11: the redo log ended before n operators */
    uint8_t rule;    /* with 2: the lowest broken rule, 1 to 6 */
    size_t done;     /* operators done again; 0 with 1 and 2 */
} ZoghvariRedone;

typedef struct {
    uint8_t refusal; /* 0, 1, 2, 9 or 10 */
    uint8_t rule;    /* with 2: the lowest broken rule, 1 to 6 */
    size_t done;     /* operators carried out, as many as the logged script holds; 0 with a refusal */
    size_t start;    /* where the script in the log, and so the live part, starts: the session's `log`. With a refusal
                      * the start handed in */
} ZoghvariInverted;

typedef struct {
    uint8_t refusal; /* 0, 1, 2, 5, 6, 12 or 13 */
    uint8_t rule;    /* with 2: the lowest broken rule, 1 to 6 */
    size_t length;   /* the text's bytes; with 13 those that it would have, with other refusals 0 */
} ZoghvariText;

/* Makes an empty table of the capacities s, f, l, e, v (solids, faces, loops, edges, vertices), each 1 to 4,096.
 * links has ZOGHVARI_LINKS_LENGTH(s, f, l, e, v) words, points ZOGHVARI_POINTS_LENGTH(v) numbers. Only the
 * lengths of the two logs are passed: their bytes stay, and both are empty afterwards, the session being {log_n,
 * redo_n}. What the session holds before is ignored. Refusal 1 leaves it, and every word of links and points. */
ZoghvariCleared zoghvari_clear(uint16_t *links, size_t links_n, int32_t *points, size_t points_n, size_t log_n,
                               size_t redo_n, ZoghvariSession *session, uint16_t s, uint16_t f, uint16_t l, uint16_t e,
                               uint16_t v);

/* Whether the table is sound, and the lowest rule that it breaks. */
ZoghvariChecked zoghvari_check(const uint16_t *links, size_t links_n, const int32_t *points, size_t points_n);

/* How many items a sound table has in use. */
ZoghvariCounted zoghvari_count(const uint16_t *links, size_t links_n, const int32_t *points, size_t points_n);

/* The operator that stands at `at` in a script, 27 bytes at most. A number is one, two or three groups of seven bits,
 * lowest first, with the high bit set on all but the last. Any such form is taken, also where the last groups add
 * nothing: 1 may come as 01, 81 00 or 81 80 00 (hexadecimal).
 * Refusals: 3 number cut off or too long, 4 code not 1 to 13, 5 operand out of range. */
ZoghvariRead zoghvari_read(const uint8_t *script, size_t script_n, size_t at);

/* Writes an operator at the front of out, each number in its fewest groups: 19 bytes at most. There are always eight
 * args; those after count are 0. */
ZoghvariWritten zoghvari_write(ZoghvariOperator op, uint8_t *out, size_t out_n);

/* Carries out a script, operator by operator, up to its end or the first refusal; what was done before that stands.
 * Each operator's inverse is put into the log just below the session's `log`, which moves down; no other log byte
 * changes. The script's numbers may come in any form, as in zoghvari_read: of what is answered and left only `used`
 * differs by it. What is logged is in fewest groups.
 * Once an operator is done, what was undone before cannot be done again: the redo log is emptied, the session's `redo`
 * being redo_n then, and its bytes stay. Where none is done `redo` stays. A run does not look at it, and so refuses
 * none.
 * Refusals: 1 and 2 of the table and the session's `log`, 3 to 8 of the operator at script[used], 9 where the log has
 * no room for its inverse. 1 and 2 leave the session. */
ZoghvariRan zoghvari_run(uint16_t *links, size_t links_n, int32_t *points, size_t points_n, uint8_t *log, size_t log_n,
                         size_t redo_n, ZoghvariSession *session, const uint8_t *script, size_t script_n);

/* Takes back n operators: carries out the first n of the live log and moves the session's `log` up past them. The log
 * is only read, and its numbers may come in any form too. For each of them the inverse, in fewest groups, is put into
 * the redo log just below the session's `redo`, which moves down; no other byte of the redo log changes.
 * Handed what the last run left and the sum of the done counts, it gives back every byte of links and points, where the
 * redo log has room for what is undone: as many bytes as the sum of the runs' `used` are enough, and so are 19 for each
 * operator. One as long as the log need not be enough, since an inverse is often shorter than its operator. It must not
 * share memory with the log. With one of no bytes nothing can be undone.
 * Refusals: 1 of the table and of either start, 2, then of each operator 11 where the log has ended, 3 to 8 where it
 * does not fit the table, 9 where the redo log has no room for its inverse. What was undone before that stands, and the
 * operator refused has changed nothing. 1 and 2 leave the session. */
ZoghvariUndone zoghvari_undo(uint16_t *links, size_t links_n, int32_t *points, size_t points_n, const uint8_t *log,
                             size_t log_n, uint8_t *redo, size_t redo_n, ZoghvariSession *session, size_t n);

/* Does again n operators that were undone, the last undone first: undo with the two logs exchanged. It carries out the
 * first n of the live redo log and moves the session's `redo` up past them; each one's inverse is put into the log
 * just below the session's `log`, as in a run. The redo log is only read.
 * Undo and then redo by the number undone leave links, points, the session and the live log as they were, to the byte,
 * where no other call comes between and the log is in fewest groups, as what runs have logged always is.
 * Refusals as undo's: 11 where the redo log has ended, 9 where the log has no room. */
ZoghvariRedone zoghvari_redo(uint16_t *links, size_t links_n, int32_t *points, size_t points_n, uint8_t *log,
                             size_t log_n, const uint8_t *redo, size_t redo_n, ZoghvariSession *session, size_t n);

/* Takes a sound table down to nothing; links and points are then as clearing leaves them. Each operator's inverse is
 * put into the log just below the session's `log`, which moves down; no other log byte changes. The bytes from the
 * start answered up to the one before are a script of `done` operators: run from a cleared table of the same
 * capacities, it builds the table again, every byte of links and points. Where it does an operator it empties the redo
 * log, as a run; on an empty table it does none. It does not look at the session's `redo`.
 * Refusals, in this order: 1 and 2 of the table and the session's `log`; 9 where fewer than 19 (v + 2f + 2r + 3h - 2s)
 * bytes lie below the session's `log`, by the numbers that zoghvari_count answers; 10 where a step lacked a free face,
 * loop or edge number. Some steps make a face, a ring or an edge on the way, so a full table is refused only where one
 * of them calls for a number and none of its kind is left by then; where a face, a loop and an edge number are free,
 * none ever lacks. There is no half-way: 1, 2 and 9 change no byte. By 10 the steps done are taken back: links, points,
 * the session, the log from the session's `log` on and the redo log are as they were; just below the session's `log`
 * stand the inverses that the steps logged, never more bytes than 9 asks for, and in front of them all is as it was. */
ZoghvariInverted zoghvari_invert(uint16_t *links, size_t links_n, int32_t *points, size_t points_n, uint8_t *log,
                                 size_t log_n, size_t redo_n, ZoghvariSession *session);

/* Writes one solid of a sound table as Wavefront OBJ text, for a viewer, at the front of out; the bytes after it stay.
 * A line ends with a line feed, one space parts its words. First come lines "v x y z", one for each vertex of the solid
 * by number, in millimetres with two decimals; then lines "f a b c ..", one for each face by number: its corners, by
 * their places among the v lines, counted from 1. A loop is written from the start of its first half-edge and then
 * backwards: where loops run clockwise seen from outside, OBJ gets the counterclockwise ones that it wants.
 * Refusals, in this order: 1 and 2 of the table, 5 where `solid` is 0 or above the capacity, 6 where it is free, 12
 * where a face of it has a ring, a lone loop or under three sides, 13 where the text is longer than out. A refusal
 * writes no byte. 13 tells the length, so a call with out_n 0 asks for it; no text is longer than 155,648 bytes. */
ZoghvariText zoghvari_obj(const uint16_t *links, size_t links_n, const int32_t *points, size_t points_n, size_t solid,
                          uint8_t *out, size_t out_n);

#ifdef __cplusplus
}
#endif

#endif
