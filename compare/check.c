/* The checker of the host test: makes a call on both sides, compares every field and every place, keeps counts, and
   reports the first difference in full. */
#define _POSIX_C_SOURCE 199309L
#include "compare.h"

#include <inttypes.h>
#include <stdio.h>
#include <stdlib.h>
#include <string.h>
#include <time.h>

enum { ANSWERS = 80, LISTED = 40, COUNTED = 8 }; /* COUNTED: one in so many states has its counts compared */

/* No step may take longer. 1,023 pairs over 2,048 words took 2 ms, and 15 in an emulator; a library that walks all of
   (0, 4294967295) before it answers took 3,500. */
enum { STEP_LIMIT_MS = 250 };

static struct {
    const char *kind;
    uint64_t seed, kind_number, number; /* of the case under way */
    uint64_t cases, all_cases;
    uint64_t by_answer[ANSWERS];
} now;

void begin_kind(const char *name, uint64_t seed)
{
    now.kind = name;
    now.seed = seed;
    now.kind_number++;
    now.cases = 0;
    memset(now.by_answer, 0, sizeof now.by_answer);
    begin_case(0);
}

void begin_case(uint64_t number)
{
    now.number = number;
    throw_dice(now.seed, now.kind_number, number);
}

uint64_t end_kind(void)
{
    const char *lead = "; answers ";
    printf("%-9s %10" PRIu64 " cases", now.kind, now.cases);
    for (int a = 0; a < ANSWERS; a++) {
        if (now.by_answer[a] == 0) continue;
        printf("%s%d:%" PRIu64, lead, a, now.by_answer[a]);
        lead = " ";
    }
    printf("\n");
    fflush(stdout);
    return now.cases;
}

void count_case(uint32_t answer)
{
    now.cases++;
    now.all_cases++;
    if (answer < ANSWERS) now.by_answer[answer]++;
}

/* ---- the report ---- */

void begin_report(const char *call)
{
    fflush(stdout);
    printf("\ncompare: DIFFERENCE in kind '%s', case %" PRIu64 ", in the call %s\n", now.kind, now.number, call);
}

void end_report(void)
{
    printf("to repeat: compare/run.sh %" PRIu64 " %" PRIu64 " (a larger count meets it too)\n", now.seed,
           now.number + 1);
    printf("compare: %" PRIu64 " cases, 1 difference\n", now.all_cases);
    exit(1);
}

/* Prints one value where the sides differ, with its place where it has one; only the first LISTED of a report. */
void show(const char *what, size_t place, uint64_t ours, uint64_t sheet)
{
    static unsigned shown;
    if (ours == sheet || shown++ >= LISTED) return;
    printf("  %s", what);
    if (place != ALONE) printf(" %zu", place);
    printf(": library %" PRIu64 " (0x%" PRIX64 "), sheet %" PRIu64 " (0x%" PRIX64 ")\n", ours, ours, sheet, sheet);
}

static void show_record(const char *title, const kl_processor *p)
{
    printf("%s: n %" PRIu32 " pc %" PRIu32 " prev %" PRIu32 " jumped %d strict %d next %" PRIu32 "\n  services",
           title, p->n, p->pc, p->prev, p->jumped, p->strict, p->next);
    for (int i = 0; i < 4; i++) printf(" %016" PRIX64, p->services[i]);
    printf("\n  registers");
    for (int i = 0; i < 16; i++) printf(" %" PRIX32, p->regs[i]);
    printf("\n");
}

static void show_state(const state *s)
{
    show_record("before", &s->cpu);
    printf("lent lengths: words %zu owners %zu jumpers %zu writers %zu readers %zu\n", s->lent[WORDS], s->lent[OWNERS],
           s->lent[JUMPERS], s->lent[WRITERS], s->lent[READERS]);
    printf("place: word owner jumpers writers readers (hexadecimal; the guards past the lent lengths too)\n");
    for (size_t i = 0; i < s->kept; i++)
        printf("%zu: %08" PRIX32 " %" PRIX32 " %016" PRIX64 " %016" PRIX64 " %016" PRIX64 "\n", i, s->words[i],
               s->owners[i], s->jumpers[i], s->writers[i], s->readers[i]);
    printf("rows lent: %zu\nrow: owned jump store (decimal; the guards too)\n", s->rows_lent);
    for (size_t c = 0; c < ROWS_ROOM; c++)
        printf("%zu: %" PRIu32 " %" PRIu32 " %" PRIu32 "\n", c, s->rows[c].owned, s->rows[c].jump, s->rows[c].store);
}

static void show_differences(const state *ours, const state *sheet)
{
    const kl_processor *a = &ours->cpu, *b = &sheet->cpu;
    show("n", ALONE, a->n, b->n);
    show("pc", ALONE, a->pc, b->pc);
    show("prev", ALONE, a->prev, b->prev);
    show("jumped", ALONE, a->jumped, b->jumped);
    show("strict", ALONE, a->strict, b->strict);
    show("next", ALONE, a->next, b->next);
    for (size_t i = 0; i < 16; i++) show("register", i, a->regs[i], b->regs[i]);
    for (size_t i = 0; i < 4; i++) show("set of service", i, a->services[i], b->services[i]);
    for (size_t i = 0; i < sheet->kept; i++) {
        show("word at", i, ours->words[i], sheet->words[i]);
        show("owner at", i, ours->owners[i], sheet->owners[i]);
        show("jumpers at", i, ours->jumpers[i], sheet->jumpers[i]);
        show("writers at", i, ours->writers[i], sheet->writers[i]);
        show("readers at", i, ours->readers[i], sheet->readers[i]);
    }
    for (size_t c = 0; c < ROWS_ROOM; c++) {
        show("owned in row", c, ours->rows[c].owned, sheet->rows[c].owned);
        show("jump in row", c, ours->rows[c].jump, sheet->rows[c].jump);
        show("store in row", c, ours->rows[c].store, sheet->rows[c].store);
    }
}

/* ---- states ---- */

void copy_state(state *to, const state *from)
{
    to->cpu = from->cpu;
    memcpy(to->lent, from->lent, sizeof to->lent);
    to->kept = from->kept;
    to->rows_lent = from->rows_lent;
    memcpy(to->rows, from->rows, sizeof to->rows);
    memcpy(to->words, from->words, from->kept * sizeof to->words[0]);
    memcpy(to->owners, from->owners, from->kept * sizeof to->owners[0]);
    memcpy(to->jumpers, from->jumpers, from->kept * sizeof to->jumpers[0]);
    memcpy(to->writers, from->writers, from->kept * sizeof to->writers[0]);
    memcpy(to->readers, from->readers, from->kept * sizeof to->readers[0]);
}

static bool same_record(const kl_processor *a, const kl_processor *b)
{
    return a->n == b->n && a->pc == b->pc && a->prev == b->prev && a->jumped == b->jumped && a->strict == b->strict &&
           a->next == b->next &&
           memcmp(a->regs, b->regs, sizeof a->regs) == 0 && memcmp(a->services, b->services, sizeof a->services) == 0;
}

/* Whether the memories are equal from the given place of each on, up to the last guard. */
static bool same_from(const state *a, const state *b, const size_t from[MEMORIES])
{
    const size_t w = from[WORDS], o = from[OWNERS], j = from[JUMPERS], s = from[WRITERS], r = from[READERS];
    const size_t kept = b->kept;
    return memcmp(a->words + w, b->words + w, (kept - w) * sizeof a->words[0]) == 0 &&
           memcmp(a->owners + o, b->owners + o, (kept - o) * sizeof a->owners[0]) == 0 &&
           memcmp(a->jumpers + j, b->jumpers + j, (kept - j) * sizeof a->jumpers[0]) == 0 &&
           memcmp(a->writers + s, b->writers + s, (kept - s) * sizeof a->writers[0]) == 0 &&
           memcmp(a->readers + r, b->readers + r, (kept - r) * sizeof a->readers[0]) == 0;
}

static const size_t WHOLE[MEMORIES] = {0};

/* Whether the rows are equal from the given one on, the guards too. */
static bool same_rows(const state *a, const state *b, size_t from)
{
    return memcmp(a->rows + from, b->rows + from, (ROWS_ROOM - from) * sizeof a->rows[0]) == 0;
}

/* ---- the counts ---- */

static counted counted_of(const state *s)
{
    counted c = {&s->cpu, s->owners, s->jumpers, s->writers, {0}};
    memcpy(c.lent, s->lent, sizeof c.lent);
    return c;
}

static void settle_count(const char *call, const counted *c, size_t number, uint32_t ours, uint32_t sheet)
{
    if (ours == sheet) return;
    begin_report(call);
    if (number != ALONE) printf("  of compartment %zu\n", number);
    show("count", ALONE, ours, sheet);
    show_record("record", c->cpu);
    printf("lent lengths: owners %zu jumpers %zu writers %zu\n", c->lent[OWNERS], c->lent[JUMPERS], c->lent[WRITERS]);
    for (size_t x = 0; x < c->lent[OWNERS]; x++) printf("%zu: owner %" PRIX32 "\n", x, c->owners[x]);
    for (size_t x = 0; x < c->lent[JUMPERS]; x++) printf("%zu: jumpers %016" PRIX64 "\n", x, c->jumpers[x]);
    for (size_t x = 0; x < c->lent[WRITERS]; x++) printf("%zu: writers %016" PRIX64 "\n", x, c->writers[x]);
    end_report();
}

static void compare_number(const counted *a, const counted *b, uint32_t number)
{
    settle_count("kl_owned", b, number, kl_owned(a->cpu, a->owners, a->lent[OWNERS], number),
                 sheet_owned(b->cpu, b->owners, b->lent[OWNERS], number));
    settle_count("kl_jumps", b, number, kl_jumps(a->cpu, a->jumpers, a->lent[JUMPERS], number),
                 sheet_jumps(b->cpu, b->jumpers, b->lent[JUMPERS], number));
    settle_count("kl_stores", b, number, kl_stores(a->cpu, a->writers, a->lent[WRITERS], number),
                 sheet_stores(b->cpu, b->writers, b->lent[WRITERS], number));
}

/* For every compartment, for numbers that are none, and for the first owner, which may be none either. */
static void compare_counted(const counted *a, const counted *b)
{
    for (uint32_t c = 0; c < 66; c++) compare_number(a, b, c);
    compare_number(a, b, UINT32_MAX);
    if (b->lent[OWNERS] > 0) compare_number(a, b, b->owners[0]);
    settle_count("kl_widest", b, ALONE,
                 kl_widest(a->cpu, a->owners, a->lent[OWNERS], a->writers, a->lent[WRITERS]),
                 sheet_widest(b->cpu, b->owners, b->lent[OWNERS], b->writers, b->lent[WRITERS]));
}

/* The states are equal before, and must be after. */
static void compare_counts(const state *ours, const state *sheet)
{
    const counted a = counted_of(ours), b = counted_of(sheet);
    compare_counted(&a, &b);
    if (same_record(&ours->cpu, &sheet->cpu) && same_from(ours, sheet, WHOLE)) return;
    begin_report("a count, which must change nothing");
    show_differences(ours, sheet);
    show_state(sheet);
    end_report();
}

void check_counts(const state *ours, const state *sheet)
{
    count_case(ANSWERS);
    compare_counts(ours, sheet);
}

void check_counted(const counted *lent)
{
    count_case(ANSWERS);
    compare_counted(lent, lent);
}

/* ---- what is left ---- */

/* Compares what the two sides told and left. On the sheet's side it looks, too, that no guard moved and that what
   the sheet says is kept was kept: the memories and the rows by `keeps_memories`, the record by `keeps_record`, and the
   readers in 01's mode always. */
static void settle(const char *call, const state *before, const state *ours, const state *sheet, told a, told b,
                   bool keeps_memories, bool keeps_record)
{
    size_t guarded[MEMORIES];
    memcpy(guarded, sheet->lent, sizeof guarded);
    if (!sheet->cpu.strict) guarded[READERS] = 0;
    count_case(b.answer);
    const bool same = a.answer == b.answer && a.count == b.count && same_record(&ours->cpu, &sheet->cpu) &&
                      same_from(ours, sheet, WHOLE) && same_rows(ours, sheet, 0);
    const bool sound = same_from(sheet, before, keeps_memories ? WHOLE : guarded) &&
                       same_rows(sheet, before, keeps_memories ? 0 : sheet->rows_lent) &&
                       (!keeps_record || same_record(&sheet->cpu, &before->cpu));
    if (same && sound) {
        if (now.cases % COUNTED == 0) compare_counts(ours, sheet);
        return;
    }
    begin_report(call);
    if (!sound) printf("  the C side of the comparison changed what it must keep: the fault is in sheet.c\n");
    show("answer", ALONE, a.answer, b.answer);
    show("count", ALONE, a.count, b.count);
    show_differences(ours, sheet);
    printf("  the sheet's side told answer %" PRIu32 ", count %" PRIu32 "\n", b.answer, b.count);
    show_state(before);
    end_report();
}

/* ---- the calls ---- */

/* The five memories and the rows of a state as a call takes them: pointer, then length. */
#define MEMORIES_OF(s)                                                                                         \
    (s)->words, (s)->lent[WORDS], (s)->owners, (s)->lent[OWNERS], (s)->jumpers, (s)->lent[JUMPERS], (s)->writers, \
        (s)->lent[WRITERS], (s)->readers, (s)->lent[READERS]
#define LENT(s) MEMORIES_OF(s), (s)->rows, (s)->rows_lent

static state before;

static double slowest_ms;

double slowest_step(void) { return slowest_ms; }

static double now_ms(void)
{
    struct timespec t;
    clock_gettime(CLOCK_PROCESS_CPUTIME_ID, &t);
    return (double)t.tv_sec * 1e3 + (double)t.tv_nsec / 1e6;
}

/* A step of our side, within the limit. */
static uint32_t timed_step(state *ours)
{
    const double began = now_ms();
    const uint32_t answer = kl_step(&ours->cpu, LENT(ours));
    const double took = now_ms() - began;
    if (took > slowest_ms) slowest_ms = took;
    if (took > STEP_LIMIT_MS) {
        begin_report("kl_step");
        printf("  it took %.0f ms, and no step may take more than %d\n", took, STEP_LIMIT_MS);
        show_state(&before);
        end_report();
    }
    return answer;
}

/* What kl_why told of the state before the step, against plain C's witness of the answer. */
static void compare_reasons(const kl_reason *a, const kl_reason *b)
{
    if (memcmp(a, b, sizeof *a) == 0) return;
    begin_report("kl_why");
    show("answer", ALONE, a->answer, b->answer);
    show("set", ALONE, a->set, b->set);
    show("fault", ALONE, a->fault, b->fault);
    show("place", ALONE, a->place, b->place);
    show("owner", ALONE, a->owner, b->owner);
    show("value", ALONE, a->value, b->value);
    show("bits", ALONE, a->bits, b->bits);
    show_state(&before);
    end_report();
}

/* What plain C answers of the state before the step with a table of 64 rows: kl_why looks at none. */
static uint32_t without_table(void)
{
    static state alone;
    copy_state(&alone, &before);
    alone.rows_lent = KL_ROWS;
    return sheet_step(&alone.cpu, LENT(&alone));
}

uint32_t check_step(state *ours, state *sheet)
{
    kl_reason why, wanted;
    copy_state(&before, sheet);
    kl_why(&ours->cpu, MEMORIES_OF(ours), &why);
    const told a = {timed_step(ours), 0};
    const told b = {sheet_step(&sheet->cpu, LENT(sheet)), 0};
    settle("kl_step", &before, ours, sheet, a, b, b.answer != 0, b.answer != 0);
    sheet_why(&before.cpu, MEMORIES_OF(&before), b.answer == KL_BAD_ROWS ? without_table() : b.answer, &wanted);
    compare_reasons(&why, &wanted);
    if (b.answer == 0) check_moved("kl_step", &before, sheet);
    return b.answer;
}

told check_run(state *ours, state *sheet, uint32_t budget)
{
    char call[64];
    snprintf(call, sizeof call, "kl_run with budget %" PRIu32, budget);
    copy_state(&before, sheet);
    told a = {0, any_number()}, b = {0, any_number()};
    a.answer = kl_run(&ours->cpu, LENT(ours), budget, &a.count);
    b.answer = sheet_run(&sheet->cpu, LENT(sheet), budget, &b.count);
    settle(call, &before, ours, sheet, a, b, b.count == 0, b.count == 0);
    if (b.count > 0) check_moved(call, &before, sheet);
    return b;
}

uint32_t check_load(state *ours, state *sheet, bool strict, const uint8_t *bytes, size_t length)
{
    static char call[64 + 3 * BYTES_ROOM];
    size_t at = (size_t)snprintf(call, 64, "kl_load of %zu bytes, strict %d:", length, strict);
    copy_state(&before, sheet);
    const told a = {kl_load(&ours->cpu, strict, bytes, length, LENT(ours)), 0};
    const told b = {sheet_load(&sheet->cpu, strict, bytes, length, LENT(sheet)), 0};
    if (a.answer != b.answer || !same_record(&ours->cpu, &sheet->cpu) || !same_from(ours, sheet, WHOLE) ||
        !same_rows(ours, sheet, 0))
        for (size_t i = 0; i < length; i++) at += (size_t)snprintf(call + at, 4, " %02X", bytes[i]);
    settle(call, &before, ours, sheet, a, b, b.answer != 0, false);
    if (b.answer == 0) check_filled(sheet);
    return b.answer;
}

void expect(const char *what, uint64_t ours, uint64_t sheet, uint64_t wanted)
{
    count_case(ANSWERS);
    if (ours == wanted && sheet == wanted) return;
    begin_report(what);
    printf("  the sheet's line wants %" PRIu64 "; the library gives %" PRIu64 ", sheet.c %" PRIu64 "\n", wanted, ours,
           sheet);
    end_report();
}
