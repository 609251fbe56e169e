/* Answers test cases as driver.c does, and tells how much stack the call took, by three numbers behind the usual ones:
 * how many bytes it reached down to on a stack of its own, of which a few hundred are this program's; 1 where the last
 * number is measured, 0 where it cannot be; and how many bytes the call wrote to behind its first store to the log,
 * below the frame that it made that store in.
 *
 * The first is that of the check at the head of a call, which hides what comes later. In a run the first store to the
 * log ends the first operator, so the last number is what all later operators wrote to. It is 0 for a call that stores
 * nothing there. It is measured on Linux on x86-64 alone, where we know how to ask for the stack pointer. */
#define _GNU_SOURCE
#include "calls.h"

#include <signal.h>
#include <sys/mman.h>
#include <ucontext.h>
#include <unistd.h>

enum { WORDS = 1 << 17, BYTES = 8 * WORDS, RED_ZONE = 128 };
/* No word that a call writes is this one; a single byte could be. */
static const uint64_t UNTOUCHED = 0xA5A5A5A5A5A5A5A5;

static uint64_t *stack, out[MOST_NUMBERS + 3];
static uint32_t lowest, painted, answered;
static Frame frame;
static ucontext_t here, there;

static void call_there(void) { answered = call(&frame, out); }

static void paint(uint32_t words) {
    for (uint32_t i = 0; i < words; i++) stack[i] = UNTOUCHED;
    painted = words;
}

/* Keeps the lowest word ever written to. */
static void look(void) {
    uint32_t i = 0;
    while (i < lowest && stack[i] == UNTOUCHED) i++;
    if (i == 0) fail("a call took the whole stack");
    lowest = i;
}

static uint64_t touched(void) {
    uint64_t words = 0;
    for (uint32_t i = 0; i < painted; i++) words += stack[i] != UNTOUCHED;
    return 8 * words;
}

#if defined(__x86_64__) && defined(__linux__)

enum { MEASURES = 1 };

static void allow_log(int way) {
    unsigned long guard = (unsigned long)sysconf(_SC_PAGESIZE);
    if (mprotect(frame.log.memory, frame.log.pages - guard, way)) fail("the log cannot be opened or closed");
}

/* The first store to the log: what lies below the stack pointer is of no use any more, and is painted anew. Any other
 * fault is a crash of the call, and has to end as one. */
static void at_log(int number, siginfo_t *info, void *context) {
    char *place = info->si_addr, *data = frame.log.data;
    if (place < data || place >= data + frame.log.n) {
        signal(number, SIG_DFL);
        return;
    }
    allow_log(PROT_READ | PROT_WRITE);
    look();
    char *pointer = (char *)((ucontext_t *)context)->uc_mcontext.gregs[REG_RSP];
    paint((uint32_t)((pointer - RED_ZONE - (char *)stack) / 8));
}

/* The handler has a stack apart, so as not to write to the one that is measured. */
static void watch_log(void) {
    static char apart[1 << 16];
    stack_t own = {.ss_sp = apart, .ss_size = sizeof apart};
    struct sigaction action = {.sa_sigaction = at_log, .sa_flags = SA_SIGINFO | SA_ONSTACK};
    if (sigaltstack(&own, NULL) || sigaction(SIGSEGV, &action, NULL)) fail("a signal cannot be handled");
    allow_log(PROT_READ);
}

#else

enum { MEASURES = 0 };

static void watch_log(void) {}

#endif

static void call_on_own_stack(void) {
    paint(WORDS);
    painted = 0;
    lowest = WORDS;
    if (getcontext(&there)) fail("no stack of its own");
    there.uc_stack.ss_sp = stack;
    there.uc_stack.ss_size = BYTES;
    there.uc_link = &here;
    makecontext(&there, call_there, 0);
    watch_log();
    if (swapcontext(&here, &there)) fail("no stack of its own");
    look();
}

int main(void) {
    stack = mmap(NULL, BYTES, PROT_READ | PROT_WRITE, MAP_PRIVATE | MAP_ANONYMOUS, -1, 0);
    if (stack == MAP_FAILED) fail("out of memory");
    while (read_frame(&frame)) {
        call_on_own_stack();
        out[answered++] = 8 * (uint64_t)(WORDS - lowest);
        out[answered++] = MEASURES;
        out[answered++] = touched();
        write_frame(&frame, out, answered);
        free_frame(&frame);
    }
    return 0;
}
