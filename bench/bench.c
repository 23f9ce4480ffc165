/* Times the verified library beside the plain C of sheet.c: the same programs, the same calls, one process.
   bench [MILLISECONDS [ROUNDS]]: how long one timing of the C side should take, and how many timings are made
   of each side; the least counts. Many short ones see through a machine that others use too. */
#define _POSIX_C_SOURCE 199309L
#include "bench.h"
#include "kldemuvash.h"
#include "sheet.h"
#include "words.h"

#include <stdio.h>
#include <stdlib.h>
#include <string.h>
#include <time.h>

enum { PLACES = 2048, IMAGE_MOST = 8272 };

/* Both sides' memories begin a page, and the image stands half a page from where the words do: a processor may take an address
   for another that agrees with it below the page, and would then slow one side down by chance. */
#define PAGE _Alignas(4096)
#define HALF_A_PAGE _Alignas(2048)

/* A processor record with the memories that are lent beside it, and what the last call told. */
typedef struct machine {
    kl_processor cpu;
    uint32_t words[PLACES], owners[PLACES];
    uint64_t jumpers[PLACES], writers[PLACES], readers[PLACES];
    kl_row rows[KL_ROWS];
    uint32_t answer, count;
} machine;

typedef uint32_t load_call(kl_processor *, bool, const uint8_t *, size_t, uint32_t *, size_t, uint32_t *, size_t,
                           uint64_t *, size_t, uint64_t *, size_t, uint64_t *, size_t, kl_row *, size_t);
typedef uint32_t run_call(kl_processor *, uint32_t *, size_t, uint32_t *, size_t, uint64_t *, size_t, uint64_t *,
                          size_t, uint64_t *, size_t, kl_row *, size_t, uint32_t, uint32_t *);

/* The two sides that are timed. */
typedef struct side {
    const char *name;
    load_call *load;
    run_call *run;
} side;

static const side C_SIDE = {"C", sheet_load, sheet_run}, OURS = {"ours", kl_load, kl_run};

/* A workload: runs with a budget, each from the loaded image again; or, with budget 0, loads of the image. */
typedef struct workload {
    const char *name;
    bool strict; /* the mode that it is loaded for */
    uint32_t budget;
    uint32_t answer; /* what each run must answer, so that a program that goes astray is noticed */
    HALF_A_PAGE uint8_t image[IMAGE_MOST];
    size_t image_len;
    machine start;
} workload;

/* What timing a workload on both sides gave. */
typedef struct times {
    uint64_t steps;
    double c_ms, ours_ms;
} times;

void fail(const char *name, const char *what)
{
    fprintf(stderr, "bench: FAILED: %s: %s\n", name, what);
    exit(1);
}

double now_ms(void)
{
    struct timespec t;
    clock_gettime(CLOCK_PROCESS_CPUTIME_ID, &t);
    return (double)t.tv_sec * 1e3 + (double)t.tv_nsec / 1e6;
}

static void load(const side *s, const workload *w, machine *m)
{
    m->answer = s->load(&m->cpu, w->strict, w->image, w->image_len, m->words, PLACES, m->owners, PLACES, m->jumpers,
                        PLACES, m->writers, PLACES, m->readers, PLACES, m->rows, KL_ROWS);
}

/* Puts the loaded state back: the same copy on both sides. */
static void reload(machine *m, const machine *start)
{
    const size_t n = start->cpu.n;
    m->cpu = start->cpu;
    memcpy(m->words, start->words, n * sizeof m->words[0]);
    memcpy(m->owners, start->owners, n * sizeof m->owners[0]);
    memcpy(m->jumpers, start->jumpers, n * sizeof m->jumpers[0]);
    memcpy(m->writers, start->writers, n * sizeof m->writers[0]);
    memcpy(m->readers, start->readers, n * sizeof m->readers[0]);
    memcpy(m->rows, start->rows, sizeof m->rows);
}

/* Does the workload `repeats` times on one side; gives the steps that ran (or the loads). */
static uint64_t repeat(const side *s, const workload *w, uint32_t repeats, machine *m)
{
    uint64_t steps = 0;
    for (uint32_t i = 0; i < repeats; i++) {
        if (w->budget == 0) {
            load(s, w, m);
            steps++;
        } else {
            reload(m, &w->start);
            m->answer = s->run(&m->cpu, m->words, PLACES, m->owners, PLACES, m->jumpers, PLACES, m->writers, PLACES,
                               m->readers, PLACES, m->rows, KL_ROWS, w->budget, &m->count);
            steps += m->count;
        }
    }
    return steps;
}

static double timed(const side *s, const workload *w, uint32_t repeats, machine *m, uint64_t *steps)
{
    const double began = now_ms();
    *steps = repeat(s, w, repeats, m);
    return now_ms() - began;
}

/* The number of repeats that takes the C side about `ms` milliseconds. */
static uint32_t calibrate(const workload *w, double ms, machine *m)
{
    uint64_t steps;
    for (uint32_t repeats = 1;; repeats *= 2) {
        const double took = timed(&C_SIDE, w, repeats, m, &steps);
        if (took >= ms / 8) return (uint32_t)(repeats * ms / took) + 1;
    }
}

/* Both sides must end in the same record, memories and rows, with the same answer and the same count. */
static void check_same(const workload *w, const machine *c, const machine *ours)
{
    const kl_processor *a = &c->cpu, *b = &ours->cpu;
    if (c->answer != w->answer) fail(w->name, "the C side did not answer as the workload should");
    if (ours->answer != c->answer) fail(w->name, "the answers differ");
    if (ours->count != c->count) fail(w->name, "the counts differ");
    if (a->n != b->n || a->pc != b->pc || a->prev != b->prev || a->jumped != b->jumped ||
        a->strict != b->strict || a->next != b->next ||
        memcmp(a->regs, b->regs, sizeof a->regs) != 0 || memcmp(a->services, b->services, sizeof a->services) != 0)
        fail(w->name, "the records differ");
    if (memcmp(c->words, ours->words, sizeof c->words) != 0) fail(w->name, "the words differ");
    if (memcmp(c->owners, ours->owners, sizeof c->owners) != 0) fail(w->name, "the owners differ");
    if (memcmp(c->jumpers, ours->jumpers, sizeof c->jumpers) != 0) fail(w->name, "the jumpers differ");
    if (memcmp(c->writers, ours->writers, sizeof c->writers) != 0) fail(w->name, "the writers differ");
    if (memcmp(c->readers, ours->readers, sizeof c->readers) != 0) fail(w->name, "the readers differ");
    if (memcmp(c->rows, ours->rows, sizeof c->rows) != 0) fail(w->name, "the rows differ");
}

double least(double a, double b) { return a < b ? a : b; }

/* Times both sides in turn, the first of each round in turn too, and keeps the least of each. */
static times measure(const workload *w, double ms, int rounds)
{
    static PAGE machine c;
    static PAGE machine ours;
    memset(&c, 0, sizeof c);
    memset(&ours, 0, sizeof ours);
    fprintf(stderr, "bench: %s: calibrating\n", w->name);
    const uint32_t repeats = calibrate(w, ms, &c);
    times t = {0, 1e300, 1e300};
    for (int round = 0; round < rounds; round++) {
        uint64_t steps = 0, ours_steps = 0;
        for (int turn = 0; turn < 2; turn++) {
            if ((turn + round) % 2 == 0) t.c_ms = least(t.c_ms, timed(&C_SIDE, w, repeats, &c, &steps));
            else t.ours_ms = least(t.ours_ms, timed(&OURS, w, repeats, &ours, &ours_steps));
        }
        if (steps != ours_steps) fail(w->name, "the sides made different numbers of steps");
        check_same(w, &c, &ours);
        t.steps = steps;
        fprintf(stderr, "bench: %s: round %d of %d, least so far: C %.1f ms, ours %.1f ms\n", w->name, round + 1,
                rounds, t.c_ms, t.ours_ms);
    }
    return t;
}

/* Makes the workload's image of n words (the rest of them 0) and loads it with the C side. One workload is there at a
   time. */
static const workload *make(const char *name, bool strict, const uint32_t *program, size_t length, uint32_t n,
                            uint32_t budget, uint32_t answer)
{
    static uint32_t words[PLACES];
    static PAGE workload w;
    const uint32_t regs[16] = {0};
    memset(words, 0, sizeof words);
    memcpy(words, program, length * sizeof words[0]);
    w.name = name;
    w.strict = strict;
    w.budget = budget;
    w.answer = answer;
    if (sheet_write(words, n, regs, 0, w.image, sizeof w.image, &w.image_len) != 0) fail(name, "no image");
    load(&C_SIDE, &w, &w.start);
    if (w.start.answer != 0) fail(name, "the image was refused");
    return &w;
}

#define MAKE(name, strict, program, n, budget, answer) \
    make(name, strict, program, sizeof(program) / sizeof((program)[0]), n, budget, answer)

/* Every arithmetic instruction, a loop of a thousand turns in a loop without end. */
static const workload *arithmetic(void)
{
    const uint32_t program[] = {
        CONST_(1, 1), CONST_(1000, 2), CONST_(3, 3), CONST_(0, 4), /* 3: the outer loop begins at Const 0 r4 */
        ADD_(4, 1, 4), MUL_(5, 3, 5), ADD_(5, 4, 5), SUB_(6, 5, 6), EQ_(6, 5, 7), MOV_(6, 8), LEQ_(4, 2, 9),
        BNZ_(9, -7), BNZ_(1, -9),
    };
    return MAKE("arithmetic loop", false, program, 16, 1000000, 0);
}

/* Adds its own address to each word from 16 to 2047, over and over. They are all its own, so strict mode allows it. */
static const workload *load_and_store(const char *name, bool strict)
{
    const uint32_t program[] = {
        CONST_(1, 1), CONST_(PLACES - 1, 2), CONST_(16, 3), /* 2: the outer loop begins at Const 16 r3 */
        LOAD_(3, 4), ADD_(4, 3, 4), STORE_(3, 4), ADD_(3, 1, 3), LEQ_(3, 2, 5), BNZ_(5, -5), BNZ_(1, -7),
    };
    return MAKE(name, strict, program, PLACES, 1000000, 0);
}

/* Adds 64 words as jump and as store targets, then isolates one word, with 256 jump targets, the services and 256
   store targets; again and again, until the 61st isolate answers 13. */
static const workload *services(void)
{
    enum { A_SET = 32, J_SET = 36, S_SET = 42, TARGETS = 256, GIVEN = 1024, N = 1100 };
    const uint32_t program[] = {
        CONST_(4096, 4), CONST_(4097, 5), CONST_(4098, 6), CONST_(1, 7), CONST_(J_SET, 2), CONST_(S_SET, 3),
        CONST_(GIVEN, 9), CONST_(A_SET + 1, 12), CONST_(A_SET + 2, 13), CONST_(TARGETS + 63, 10),
        CONST_(TARGETS, 1), /* 10: the outer loop */
        JAL_(5), JAL_(6), ADD_(1, 7, 1), LEQ_(1, 10, 11), BNZ_(11, -4), /* 11: the inner loop */
        STORE_(12, 9), ADD_(9, 7, 9), STORE_(13, 9), CONST_(A_SET, 1), JAL_(4), BNZ_(7, -11),
        0, 0, 0, 0, 0, 0, 0, 0, 0, 0,
        1, 0, 0, 0,                                    /* A': the pair is stored above */
        2, TARGETS, TARGETS + 256, 4096, 4099, 0,      /* J' */
        1, TARGETS + 128, TARGETS + 384,               /* S' */
    };
    return MAKE("service calls and isolates", false, program, N, UINT32_MAX, 13);
}

static const workload *loading(void)
{
    const uint32_t program[] = {HALT_};
    return MAKE("loads of a 2,048-word image", false, program, PLACES, 0, 0);
}

/* Measures a workload and prints its row; gives its ratio. */
static double row(const workload *w, double ms, int rounds)
{
    const times t = measure(w, ms, rounds);
    const double ratio = t.c_ms / t.ours_ms;
    printf("%-30s %12llu %10.2f %10.2f %8.2f\n", w->name, (unsigned long long)t.steps, t.c_ms, t.ours_ms, ratio);
    fflush(stdout);
    return ratio;
}

int main(int argc, char **argv)
{
    const double ms = argc > 1 ? atof(argv[1]) : 100;
    const int rounds = argc > 2 ? atoi(argv[2]) : 21;
    if (argc > 3 || ms < 1 || rounds < 1) {
        fprintf(stderr, "usage: bench [MILLISECONDS [ROUNDS]]\n");
        return 4;
    }
    printf("%-30s %12s %10s %10s %8s\n", "workload", "steps", "C ms", "ours ms", "ratio");
    double ratio = row(arithmetic(), ms, rounds);
    ratio = least(ratio, row(load_and_store("load and store, 2,048 words", false), ms, rounds));
    ratio = least(ratio, row(services(), ms, rounds));
    row(load_and_store("load and store, strict", true), ms, rounds);
    row(loading(), ms, rounds);
    printf("(the last row counts loads, not steps; the strict row, it and what follows are outside the ratio)\n");
    sources_row(ms, rounds);
    hex_rows(ms, rounds);
    printf("ratio %.2f\n", ratio);
    return 0;
}
