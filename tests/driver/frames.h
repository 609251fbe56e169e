/* Frames as tests/model/wire.py describes them: read from standard input, written to standard output. */
#ifndef FRAMES_H
#define FRAMES_H

#include <stdint.h>

/* So many elements; memory is what to give back when done with them. */
typedef struct {
    uint32_t n;
    void *data;
    void *memory;
    unsigned long pages;
} Block;

typedef struct {
    uint8_t kind;
    Block numbers, links, points, log, script, redo, session;
} Frame;

/* Ends the driver with a line that says why. */
void fail(const char *why);

/* 0 at the end of the input, else the next frame. */
int read_frame(Frame *f);

/* The frame with these numbers in the place of its own. */
void write_frame(Frame *f, uint64_t *numbers, uint32_t n);

void free_frame(Frame *f);

#endif
