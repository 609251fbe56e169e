/* What the benchmarks that have no other option are told: which rows. */
#ifndef BENCH_OPTIONS_H
#define BENCH_OPTIONS_H

#include <stdio.h>
#include <stdlib.h>
#include <unistd.h>

/* The word behind -w, which a row's name has to hold; without it the empty word, which every name does. */
static const char *wanted_word(int argc, char **argv, const char *program) {
    const char *word = "";
    int c;
    while ((c = getopt(argc, argv, "w:")) == 'w') word = optarg;
    if (c == -1 && optind == argc) return word;
    fprintf(stderr, "usage: %s [-w WORD]\n", program);
    exit(2);
}

#endif
