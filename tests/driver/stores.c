/* Answers test cases as driver.c does, and tells each store that the call made to links and points, in their order.
 *
 * Behind the numbers of the usual answer come 1 where stores are watched and 0 where they cannot be, and then four
 * numbers for each word stored to: which instruction (from 0 on; one instruction may store to several words), which
 * word (those of points are counted on behind those of links), the value before and the value after. Where a word is
 * left as it was, the store is told for the word alone at which the instruction began to store.
 *
 * The pages of links and points are closed to writing. An instruction that stores there is caught; they are opened for
 * it alone, by the processor's trap flag, and behind it the words are compared with a copy. */
#define _GNU_SOURCE
#include "calls.h"

#include <signal.h>
#include <stdlib.h>
#include <string.h>
#include <sys/mman.h>
#include <unistd.h>

enum { MOST_STORES = 1 << 16 };

typedef struct {
    uint64_t moment, place, before, after;
} Store;

static Store stores[MOST_STORES];
static uint32_t noted;

#if defined(__x86_64__) && defined(__linux__)
#include <ucontext.h>

enum { WATCHES = 1, TRAP_FLAG = 0x100 };

/* Memory that is watched: its words as they were behind the last store, and the number of its first word. */
typedef struct {
    Block block;
    unsigned long size;
    char *copy;
    uint64_t first;
} Watched;

static Watched watched[2];
static uint64_t moment;
static char *touched;

static void allow(int way) {
    unsigned long guard = (unsigned long)sysconf(_SC_PAGESIZE);
    for (int i = 0; i < 2; i++) {
        Block b = watched[i].block;
        if (mprotect(b.memory, b.pages - guard, way)) fail("pages cannot be opened or closed");
    }
}

static uint64_t word_at(const char *place, unsigned long size) {
    uint64_t word = 0;
    memcpy(&word, place, size);
    return word;
}

/* The words that differ from the copy, and the one at which the store began. */
static void note_words(Watched *w) {
    char *data = w->block.data;
    for (uint32_t i = 0; i < w->block.n; i++) {
        unsigned long at = i * w->size;
        uint64_t before = word_at(w->copy + at, w->size), after = word_at(data + at, w->size);
        if (before == after && !(data + at <= touched && touched < data + at + w->size)) continue;
        if (noted == MOST_STORES) fail("more stores than can be told");
        stores[noted++] = (Store){moment, w->first + i, before, after};
        memcpy(w->copy + at, data + at, w->size);
    }
}

static int is_watched(const char *place) {
    for (int i = 0; i < 2; i++) {
        char *data = watched[i].block.data;
        if (data <= place && place < data + watched[i].block.n * watched[i].size) return 1;
    }
    return 0;
}

/* Any other fault is a crash of the call, and has to end as one. */
static void before_store(int number, siginfo_t *info, void *context) {
    if (!is_watched(info->si_addr)) {
        signal(number, SIG_DFL);
        return;
    }
    touched = info->si_addr;
    allow(PROT_READ | PROT_WRITE);
    ((ucontext_t *)context)->uc_mcontext.gregs[REG_EFL] |= TRAP_FLAG;
}

static void behind_store(int number, siginfo_t *info, void *context) {
    (void)number, (void)info;
    for (int i = 0; i < 2; i++) note_words(&watched[i]);
    moment++;
    allow(PROT_READ);
    ((ucontext_t *)context)->uc_mcontext.gregs[REG_EFL] &= ~TRAP_FLAG;
}

static void handle(int number, void (*handler)(int, siginfo_t *, void *)) {
    struct sigaction action = {.sa_sigaction = handler, .sa_flags = SA_SIGINFO};
    if (sigaction(number, &action, NULL)) fail("a signal cannot be handled");
}

static Watched copied(Block block, unsigned long size, uint64_t first) {
    Watched w = {block, size, malloc(block.n * size + 1), first};
    if (!w.copy) fail("out of memory");
    memcpy(w.copy, block.data, block.n * size);
    return w;
}

static void watch(const Frame *f) {
    watched[0] = copied(f->links, 2, 0);
    watched[1] = copied(f->points, 4, f->links.n);
    noted = 0;
    moment = 0;
    handle(SIGSEGV, before_store);
    handle(SIGTRAP, behind_store);
    allow(PROT_READ);
}

static void end_watch(void) {
    allow(PROT_READ | PROT_WRITE);
    for (int i = 0; i < 2; i++) free(watched[i].copy);
}

#else

enum { WATCHES = 0 };

static void watch(const Frame *f) { (void)f; }

static void end_watch(void) {}

#endif

int main(void) {
    static uint64_t out[MOST_NUMBERS + 1 + 4 * MOST_STORES];
    Frame f;
    while (read_frame(&f)) {
        watch(&f);
        uint32_t n = call(&f, out);
        end_watch();
        out[n++] = WATCHES;
        memcpy(out + n, stores, noted * sizeof(Store));
        write_frame(&f, out, n + 4 * noted);
        free_frame(&f);
    }
    return 0;
}
