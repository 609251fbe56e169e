/* Answers test cases by the compiled kernel: frames in on standard input, frames out on standard output. */
#include "calls.h"

int main(void) {
    Frame f;
    while (read_frame(&f)) {
        uint64_t out[MOST_NUMBERS];
        uint32_t n = call(&f, out);
        write_frame(&f, out, n);
        free_frame(&f);
    }
    return 0;
}
