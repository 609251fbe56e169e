/* The memory that an example lends: a table with 64 numbers of each kind, its log, and the session. */
#ifndef LENT_H
#define LENT_H

#include <stddef.h>
#include <stdint.h>

#include "zoghvari.h"

/* The log has room for the inverses of whatever SCRIPT bytes can hold, 19 for each two of them, and for what an example
 * does behind them. Who never undoes needs no redo log: its length is 0, and nothing else is told of it. */
enum { N = 64, LOG = 65536, REDO = 0, SCRIPT = 4096 };
enum { LINKS = ZOGHVARI_LINKS_LENGTH(N, N, N, N, N), POINTS = ZOGHVARI_POINTS_LENGTH(N) };

typedef struct {
    uint16_t links[LINKS];
    int32_t points[POINTS];
    uint8_t log[LOG];
    ZoghvariSession session; /* where the log's live part starts, and the redo log's */
} Table;

#endif
