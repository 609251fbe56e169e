/* The workloads that the operators are measured by: each a script, the table that it begins with and the table that it
 * leaves. */
#ifndef BENCH_WORKLOADS_H
#define BENCH_WORKLOADS_H

#include <stddef.h>
#include <stdint.h>

#include "peers.h"
#include "table.h"

typedef struct {
    const char *name, *unit; /* what is counted by its size */
    unsigned size;
    size_t operators;
    uint8_t *script;
    size_t script_n;
    Table before, after;
} Workload;

enum { SIZES = 3 };
typedef struct Maker Maker;
typedef struct {
    const char *name, *unit;
    void (*make)(Maker *m, unsigned size);
    unsigned size[SIZES]; /* for capacities 64, 512 and 4,096 */
    Peer *cgal, *openmesh;
} WorkloadKind;

extern const WorkloadKind workload_kinds[];
extern const size_t workload_kinds_n;

/* The table that it leaves is what the twin's effects make of the first one, step by step. */
Workload make_workload(const WorkloadKind *kind, int i);
void free_workload(Workload w);

#endif
