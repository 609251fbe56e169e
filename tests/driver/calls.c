#include "calls.h"

#include "zoghvari_sweep.h"

enum { CLEAR = 1, CHECK, COUNT, READ, WRITE, RUN, UNDO, TAKEDOWN, OBJ, REDO, SWEEP };

/* A session is lent as the frame has it: two numbers of u64. */
_Static_assert(sizeof(ZoghvariSession) == 16, "a session is two numbers of u64");

static uint32_t answer_clear(const Frame *f, uint64_t *out) {
    const uint64_t *a = f->numbers.data;
    ZoghvariCleared r = zoghvari_clear(f->links.data, f->links.n, f->points.data, f->points.n, f->log.n, f->redo.n,
                                       f->session.data, (uint16_t)a[0], (uint16_t)a[1], (uint16_t)a[2],
                                       (uint16_t)a[3], (uint16_t)a[4]);
    out[0] = r.refusal;
    return 1;
}

static uint32_t answer_check(const Frame *f, uint64_t *out) {
    ZoghvariChecked r = zoghvari_check(f->links.data, f->links.n, f->points.data, f->points.n);
    out[0] = r.refusal;
    out[1] = r.rule;
    return 2;
}

static uint32_t answer_count(const Frame *f, uint64_t *out) {
    ZoghvariCounted r = zoghvari_count(f->links.data, f->links.n, f->points.data, f->points.n);
    const uint64_t all[9] = {r.refusal, r.rule, r.solids, r.faces, r.loops, r.edges, r.vertices, r.rings, r.holes};
    for (int i = 0; i < 9; i++) out[i] = all[i];
    return 9;
}

static uint32_t answer_read(const Frame *f, uint64_t *out) {
    uint64_t at = ((uint64_t *)f->numbers.data)[0];
    ZoghvariRead r = zoghvari_read(f->script.data, f->script.n, at);
    out[0] = r.refusal;
    out[1] = r.next - at;
    out[2] = r.op.code;
    out[3] = r.op.count;
    for (int i = 0; i < 8; i++) out[4 + i] = (uint64_t)(int64_t)r.op.args[i];
    return 12;
}

/* A place beyond the destination has no room behind it. */
static uint32_t answer_write(const Frame *f, uint64_t *out) {
    const uint64_t *a = f->numbers.data;
    ZoghvariOperator op = {(uint8_t)a[0], (uint8_t)a[1], {0}};
    for (int i = 0; i < 8; i++) op.args[i] = (int32_t)a[2 + i];
    uint64_t at = a[10] < f->script.n ? a[10] : f->script.n;
    ZoghvariWritten r = zoghvari_write(op, (uint8_t *)f->script.data + at, f->script.n - at);
    out[0] = r.refusal;
    out[1] = r.length;
    return 2;
}

static uint32_t answer_run(const Frame *f, uint64_t *out) {
    ZoghvariRan r = zoghvari_run(f->links.data, f->links.n, f->points.data, f->points.n, f->log.data, f->log.n,
                                 f->redo.n, f->session.data, f->script.data, f->script.n);
    const uint64_t all[5] = {r.refusal, r.rule, r.done, r.used, r.start};
    for (int i = 0; i < 5; i++) out[i] = all[i];
    return 5;
}

static uint32_t answer_undo(const Frame *f, uint64_t *out) {
    const uint64_t *a = f->numbers.data;
    ZoghvariUndone r = zoghvari_undo(f->links.data, f->links.n, f->points.data, f->points.n, f->log.data, f->log.n,
                                     f->redo.data, f->redo.n, f->session.data, a[0]);
    const uint64_t all[4] = {r.refusal, r.rule, r.undone, r.start};
    for (int i = 0; i < 4; i++) out[i] = all[i];
    return 4;
}

static uint32_t answer_redo(const Frame *f, uint64_t *out) {
    const uint64_t *a = f->numbers.data;
    ZoghvariRedone r = zoghvari_redo(f->links.data, f->links.n, f->points.data, f->points.n, f->log.data, f->log.n,
                                     f->redo.data, f->redo.n, f->session.data, a[0]);
    const uint64_t all[3] = {r.refusal, r.rule, r.done};
    for (int i = 0; i < 3; i++) out[i] = all[i];
    return 3;
}

static uint32_t answer_takedown(const Frame *f, uint64_t *out) {
    ZoghvariInverted r = zoghvari_invert(f->links.data, f->links.n, f->points.data, f->points.n, f->log.data, f->log.n,
                                         f->redo.n, f->session.data);
    const uint64_t all[4] = {r.refusal, r.rule, r.done, r.start};
    for (int i = 0; i < 4; i++) out[i] = all[i];
    return 4;
}

/* A buffer of no bytes is handed over as a caller does who only asks how long the text is. */
static uint32_t answer_obj(const Frame *f, uint64_t *out) {
    const uint64_t *a = f->numbers.data;
    ZoghvariText r = zoghvari_obj(f->links.data, f->links.n, f->points.data, f->points.n, a[0],
                                  f->script.n ? f->script.data : NULL, f->script.n);
    const uint64_t all[3] = {r.refusal, r.rule, r.length};
    for (int i = 0; i < 3; i++) out[i] = all[i];
    return 3;
}

/* The vector's numbers come as two's complements of 64 bits, and are in the range of 32. */
static uint32_t answer_sweep(const Frame *f, uint64_t *out) {
    const uint64_t *a = f->numbers.data;
    ZoghvariDone r = zoghvari_sweep(f->links.data, f->links.n, f->points.data, f->points.n, f->log.data, f->log.n,
                                    f->redo.n, f->session.data, a[0], (int32_t)a[1], (int32_t)a[2], (int32_t)a[3]);
    const uint64_t all[3] = {r.refusal, r.rule, r.done};
    for (int i = 0; i < 3; i++) out[i] = all[i];
    return 3;
}

typedef struct {
    uint32_t numbers; /* how many numbers the case has to hold */
    uint32_t session; /* and its session: 2 where the call is lent one */
    uint32_t (*answer)(const Frame *f, uint64_t *out);
} Kind;

static const Kind KINDS[] = {[CLEAR] = {5, 2, answer_clear}, [CHECK] = {0, 0, answer_check},
                             [COUNT] = {0, 0, answer_count}, [READ] = {1, 0, answer_read},
                             [WRITE] = {11, 0, answer_write}, [RUN] = {0, 2, answer_run},
                             [UNDO] = {1, 2, answer_undo},   [TAKEDOWN] = {0, 2, answer_takedown},
                             [OBJ] = {1, 0, answer_obj},     [REDO] = {1, 2, answer_redo},
                             [SWEEP] = {4, 2, answer_sweep}};

uint32_t call(const Frame *f, uint64_t *out) {
    if (f->kind < CLEAR || f->kind > SWEEP) fail("a kind that the library does not have");
    if (f->numbers.n < KINDS[f->kind].numbers) fail("a case with too few numbers");
    if (f->session.n < KINDS[f->kind].session) fail("a case without its session");
    return KINDS[f->kind].answer(f, out);
}
