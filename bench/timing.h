/* What the benchmarks share about time. */
#ifndef BENCH_TIMING_H
#define BENCH_TIMING_H

#ifdef __cplusplus
extern "C" {
#endif

/* The processor's time: nothing that is measured waits, and while others have the processor nothing is counted. */
double seconds(void);
/* What two readings of the clock lie apart with nothing between them. */
double clock_cost(void);

/* The seconds that each of n bodies takes: the shortest of its passes, so that what others do on the machine drops out.
 * The bodies come in turn, so that a slow moment falls on all of them, for a millisecond each and three passes at
 * least. `prepare` comes before each pass and is not timed. */
typedef void Pass(void *with);
void shortest_passes(Pass *prepare, Pass *const *body, int n, void *with, double *shortest);

/* Several rounds of one figure. */
enum { ROUNDS = 9 };
typedef struct {
    double value[ROUNDS];
    int n;
} Sample;

void add(Sample *s, double value);
double median(const Sample *s); /* NAN where nothing was added */

/* The exponent of a figure against the size: 0 where it does not grow, 1 where it grows as the size does. */
double growth(double from, double to, double from_size, double to_size);

#ifdef __cplusplus
}
#endif
#endif
