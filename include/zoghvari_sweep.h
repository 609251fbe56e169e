/* The sweep for C and C++, a product above the kernel: link libsweep.a (made by `tools/build`), which has this
 * function alone, and libkernel.a for those of zoghvari.h. What zoghvari.h says of slices, of memory that overlaps and
 * of the session holds here. */
#ifndef ZOGHVARI_SWEEP_H
#define ZOGHVARI_SWEEP_H

#include "zoghvari.h"

#ifdef __cplusplus
extern "C" {
#endif

/* What a call answers that does a list of operators whole or not at all. */
typedef struct {
    uint8_t refusal; /* 0, 1, 2, 5, 6, 9, 10 or 14 */
    uint8_t rule;    /* with 2: the lowest broken rule, 1 to 6 */
    size_t done;     /* operators done, the number to undo; 0 with a refusal */
} ZoghvariDone;

/* Lifts a face of a sound table by the vector (dx, dy, dz), in hundredths of a millimetre. Each corner of the face
 * gets a new vertex at its point plus the vector and an edge to it, the riser; each side of the face gets a new edge
 * between the risers at its ends (one riser where the loop has one corner), and the new face that this closes. The
 * lifted face keeps its number and its loops keep theirs; all its loops are lifted, rings too. A loop of n corners
 * adds n vertices, 2n edges, n faces and n loops; solids, rings and holes stay. A vertex that the loop meets twice is
 * two corners. No vector is refused for itself, not even 0 0 0.
 *
 * From here on n is the number of corners in all loops of the face. The sweep is a run of 2n operators: the loops by
 * number; in each, from its first half-edge on, a mev at every corner and then a mef over every side; every way 0, but
 * 2 in the mef of a loop of one corner; new numbers the least free. `done` is 2n; undo by it gives back every byte of
 * links and points where the redo log has room: 19 bytes for each operator are enough.
 *
 * Refusals, in this order: 1 and 2 of the table and the session's `log`, as in a run; 5 where `face` is 0 or above the
 * capacity; 6 where it is free; 14 where a loop of it is lone; 5 where a corner's point plus the vector leaves the
 * range of a coordinate; 10 where fewer than n vertices, 2n edges, n faces or n loops are free; 9 where the inverses do
 * not fit below the session's `log`: 2 bytes for each operator, 3 where the half-edge that its inverse names is above
 * 127.
 * The call is atomic: a refusal changes no byte, not even the session. Otherwise the log holds the inverses just below
 * where its live part began, as after a run, and the redo log is emptied: the session's `redo` is redo_n then. What it
 * was before is ignored. redo_n is the redo log's true length, which the call cannot check. It takes more stack than
 * other calls: allow 256 KB. */
ZoghvariDone zoghvari_sweep(uint16_t *links, size_t links_n, int32_t *points, size_t points_n, uint8_t *log,
                            size_t log_n, size_t redo_n, ZoghvariSession *session, size_t face, int32_t dx, int32_t dy,
                            int32_t dz);

#ifdef __cplusplus
}
#endif

#endif
