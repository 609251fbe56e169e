#include "frames.h"

#include <stdio.h>
#include <stdlib.h>
#include <sys/mman.h>
#include <unistd.h>

void fail(const char *why) {
    fprintf(stderr, "driver: %s\n", why);
    exit(2);
}

/* Memory that ends where a page begins that nobody may touch: a kernel that reads or writes one element too far crashes,
 * and a crash is seen. */
static Block lend(uint32_t n, unsigned long size) {
    Block b = {n, NULL, NULL, 0};
    unsigned long page = (unsigned long)sysconf(_SC_PAGESIZE), bytes = n * size;
    unsigned long whole = (bytes + page - 1) / page * page;
    b.pages = whole + page;
    b.memory = mmap(NULL, b.pages, PROT_READ | PROT_WRITE, MAP_PRIVATE | MAP_ANONYMOUS, -1, 0);
    if (b.memory == MAP_FAILED) fail("out of memory");
    if (mprotect((char *)b.memory + whole, page, PROT_NONE)) fail("no guard page");
    b.data = (char *)b.memory + whole - bytes;
    return b;
}

static Block read_block(unsigned long size) {
    uint32_t n;
    if (fread(&n, 4, 1, stdin) != 1) fail("a frame is cut off");
    Block b = lend(n, size);
    if (fread(b.data, size, n, stdin) != n) fail("a frame is cut off");
    return b;
}

static void write_block(Block b, unsigned long size) {
    fwrite(&b.n, 4, 1, stdout);
    fwrite(b.data, size, b.n, stdout);
}

int read_frame(Frame *f) {
    int kind = getchar();
    if (kind == EOF) return 0;
    f->kind = (uint8_t)kind;
    f->numbers = read_block(8);
    f->links = read_block(2);
    f->points = read_block(4);
    f->log = read_block(1);
    f->script = read_block(1);
    f->redo = read_block(1);
    f->session = read_block(8);
    return 1;
}

/* Each answer leaves at once, so that after a crash the case that caused it is known. */
void write_frame(Frame *f, uint64_t *numbers, uint32_t n) {
    Block answer = {n, numbers, NULL, 0};
    putchar(f->kind);
    write_block(answer, 8);
    write_block(f->links, 2);
    write_block(f->points, 4);
    write_block(f->log, 1);
    write_block(f->script, 1);
    write_block(f->redo, 1);
    write_block(f->session, 8);
    fflush(stdout);
}

void free_frame(Frame *f) {
    Block blocks[7] = {f->numbers, f->links, f->points, f->log, f->script, f->redo, f->session};
    for (int i = 0; i < 7; i++) munmap(blocks[i].memory, blocks[i].pages);
}
