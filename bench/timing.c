#include "timing.h"

#include <math.h>
#include <stdlib.h>
#include <time.h>

double seconds(void) {
    struct timespec now;
    clock_gettime(CLOCK_PROCESS_CPUTIME_ID, &now);
    return (double)now.tv_sec + 1e-9 * (double)now.tv_nsec;
}

double clock_cost(void) {
    static double cost; /* 0 until the first call has measured it */
    if (cost > 0) return cost;
    cost = INFINITY;
    for (int i = 0; i < 100; i++) {
        double began = seconds();
        cost = fmin(cost, seconds() - began);
    }
    return cost;
}

void shortest_passes(Pass *prepare, Pass *const *body, int n, void *with, double *shortest) {
    double total = 0;
    for (int i = 0; i < n; i++) shortest[i] = INFINITY;
    for (int pass = 0; pass < 3 || (total < 1e-3 * n && pass < 2000); pass++)
        for (int i = 0; i < n; i++) {
            prepare(with);
            double began = seconds();
            body[i](with);
            double took = seconds() - began;
            total += took;
            shortest[i] = fmin(shortest[i], took - clock_cost());
        }
}

void add(Sample *s, double value) { s->value[s->n++] = value; }

static int by_value(const void *a, const void *b) {
    double x = *(const double *)a, y = *(const double *)b;
    return (x > y) - (x < y);
}

double median(const Sample *s) {
    if (s->n == 0) return NAN;
    Sample sorted = *s;
    qsort(sorted.value, (size_t)sorted.n, sizeof *sorted.value, by_value);
    return sorted.value[sorted.n / 2];
}

double growth(double from, double to, double from_size, double to_size) {
    return log(to / from) / log(to_size / from_size);
}
