/* The lines of the request for rows, in both modes: on either side of 18, what a load fills and what a service moves. The rows
   hold anything before, and a line says by how much they move. */
#include "compare.h"
#include "words.h"

#include <string.h>

#define HAS(c) (UINT64_C(1) << (c))

static state *const at = &line_sheet; /* the side that is changed; the other becomes alike before the call */

static const size_t LENGTHS[] = {0, ROWS - 1, ROWS, ROWS + 1};
enum { LENGTHS_COUNT = sizeof LENGTHS / sizeof LENGTHS[0] };

/* ---- 18 ---- */

static void nothing(void) {}
static void other_length(void) { at->lent[OWNERS]++; }
static void bad_number(void) { at->cpu.prev = at->cpu.next; }
static void no_place(void) { at->cpu.pc = 2; }
static void bad_owner(void) { at->owners[0] = 1; }
static void no_arrival(void) { at->owners[0] = 5, at->cpu.next = 6; }
static void at_halt(void) { at->cpu.pc = 1; }

/* A step from the loaded image, changed so: "18 when the table does not have 64 rows, after 14 in a step"; a run with budget 0
   before it looks at nothing. */
static void step_line(bool strict, void (*change)(void), uint32_t wanted, size_t rows)
{
    const uint32_t words[] = {NOP_, HALT_};
    LOAD(words, strict);
    change();
    at->rows_lent = rows;
    set_both();
    runs("budget 0 with any table", 0, 0, 0, at->cpu.pc);
    const uint32_t refusal = wanted == 14 || rows == ROWS ? wanted : 18;
    const uint32_t answer = check_step(&line_ours, &line_sheet); /* both sides gave the same */
    expect("a step with this table", answer, answer, refusal);
}

static void step_lines(bool strict, size_t rows)
{
    step_line(strict, nothing, 0, rows);
    step_line(strict, other_length, 14, rows);
    step_line(strict, bad_number, 14, rows);
    step_line(strict, no_place, 2, rows);
    step_line(strict, bad_owner, 15, rows);
    step_line(strict, no_arrival, 4, rows);
    step_line(strict, at_halt, 1, rows);
}

/* The shortest image, or its first bytes: "after 27 in a load". */
static void load_line(bool strict, size_t length, size_t owners, size_t rows, uint32_t wanted)
{
    const uint8_t bytes[20] = {1, [12] = 1};
    noise(at, 8);
    lend(at, 4);
    at->lent[OWNERS] = owners;
    at->rows_lent = rows;
    set_both();
    const uint32_t answer = check_load(&line_ours, &line_sheet, strict, bytes, length);
    expect("a load with this table", answer, answer, wanted);
    check_image(bytes, length); /* the check takes no table */
}

static void load_lines(bool strict, size_t rows)
{
    for (size_t length = 19; length <= 20; length++) {
        load_line(strict, length, 5, rows, 27);
        load_line(strict, length, 4, rows, rows != ROWS ? 18 : length == 20 ? 0 : 20);
    }
}

/* ---- what moves ---- */

static kl_row old[ROWS];

static void expect_row(const char *line, uint32_t c, kl_row wanted)
{
    expect(line, line_ours.rows[c].owned, line_sheet.rows[c].owned, wanted.owned);
    expect(line, line_ours.rows[c].jump, line_sheet.rows[c].jump, wanted.jump);
    expect(line, line_ours.rows[c].store, line_sheet.rows[c].store, wanted.store);
}

static kl_row sum(kl_row a, kl_row b) { return (kl_row){a.owned + b.owned, a.jump + b.jump, a.store + b.store}; }

/* The step answers so; the caller's row loses `given` owned addresses, the row of `who` moves by `by`, and no other does. Row 0
   is at 0 before and row 63 full, so that columns run over on either side. */
static void moves(const char *line, uint32_t wanted, uint32_t caller, uint32_t given, uint32_t who, kl_row by)
{
    at->rows[0] = (kl_row){0, 0, 0};
    at->rows[ROWS - 1] = (kl_row){UINT32_MAX, UINT32_MAX, UINT32_MAX};
    memcpy(old, at->rows, sizeof old);
    set_both();
    const uint32_t answer = check_step(&line_ours, &line_sheet);
    expect(line, answer, answer, wanted);
    old[caller] = sum(old[caller], (kl_row){-given, 0, 0});
    old[who] = sum(old[who], by);
    for (uint32_t c = 0; c < ROWS; c++) expect_row(line, c, old[c]);
}

static const kl_row NONE = {0, 0, 0};

enum { EMPTY_AT = 1, A_AT = 2, J_AT = 9, S_AT = 18, N = 40 };

/* `who` isolates 30 to 33 as compartment `next`, with the jump targets 20 to 24, 4096 and 4097 and the store targets 26 and 27;
   pairs overlap in each set. */
static void make_isolate(bool strict, uint32_t who, uint32_t next)
{
    const uint32_t words[N] = {HALT_, 0, 3, 30, 33, 31, 34, 30, 31, 4, 20, 23, 22, 25, 4096, 4098, 4097, 4098, 2, 26, 28, 26, 28};
    LOAD(words, strict);
    at->cpu.pc = 4096, at->cpu.jumped = true, at->cpu.prev = who, at->cpu.next = next;
    at->cpu.regs[1] = A_AT, at->cpu.regs[2] = J_AT, at->cpu.regs[3] = S_AT, at->cpu.regs[4] = EMPTY_AT;
    for (int i = 0; i < 4; i++) at->cpu.services[i] = HAS(who);
    for (uint32_t x = 0; x < N; x++) at->owners[x] = who;
}

static void isolate_lines(bool strict)
{
    static const uint32_t callers[][2] = {{0, 5}, {0, 63}, {7, 8}, {62, 63}};
    for (size_t i = 0; i < sizeof callers / sizeof callers[0]; i++) {
        const uint32_t who = callers[i][0], next = callers[i][1];
        make_isolate(strict, who, next);
        moves("isolate", 0, who, 4, next, (kl_row){4, 7, 2});
        make_isolate(strict, who, next);
        at->jumpers[20] |= HAS(next), at->jumpers[22] |= HAS(next), at->writers[26] |= HAS(next), at->cpu.services[1] |= HAS(next);
        moves("isolate where bits were set", 0, who, 4, next, (kl_row){4, 4, 1});
        make_isolate(strict, who, next);
        at->owners[39] = next, at->owners[38] = 64, at->owners[37] = UINT32_MAX;
        moves("isolate beside owners without a row", 0, who, 4, next, (kl_row){4, 7, 2});
    }
}

static void stop_lines(bool strict)
{
    make_isolate(strict, 0, 5);
    at->cpu.regs[3] = N;
    moves("isolate with a set outside memory", 8, 0, 0, 0, NONE);
    make_isolate(strict, 0, 5);
    at->cpu.regs[1] = EMPTY_AT;
    moves("isolate of nothing", 9, 0, 0, 0, NONE);
    make_isolate(strict, 0, 5);
    at->owners[33] = 4;
    moves("isolate of another's word", 10, 0, 0, 0, NONE);
    make_isolate(strict, 0, 5);
    at->cpu.regs[15] = 30;
    moves("isolate of the return address", 12, 0, 0, 0, NONE);
    make_isolate(strict, 0, 64);
    moves("isolate with no number left", 13, 0, 0, 0, NONE);
}

/* The caller becomes a target of word 30, and once more: what is there already adds nothing. Readers are in no row. */
static void add_lines(bool strict)
{
    static const kl_row by[] = {{0, 1, 0}, {0, 0, 1}, {0, 0, 0}};
    for (uint32_t who = 0; who < 64; who += 63)
        for (uint32_t i = 0; i + 1 < service_count(strict); i++)
            for (int twice = 0; twice < 2; twice++) {
                if (!twice) make_isolate(strict, who, 64);
                at->cpu.pc = 4097 + i, at->cpu.prev = who, at->cpu.jumped = true, at->cpu.regs[1] = 30;
                moves("an add", 0, who, 0, who, twice ? NONE : by[i]);
            }
}

/* Of any size, over any table: "Loading fills it". */
static void fill_lines(bool strict)
{
    static const uint32_t words[ROOM], sizes[] = {1, 2, 64, 2047, 2048};
    const uint32_t services = service_count(strict);
    for (size_t i = 0; i < sizeof sizes / sizeof sizes[0]; i++) {
        const uint32_t n = sizes[i];
        load_words(words, n, strict);
        for (uint32_t c = 0; c < ROWS; c++)
            expect_row("a row after loading", c, c == 0 ? (kl_row){n, services, 0} : c <= services ? (kl_row){1, n, 0} : NONE);
    }
}

void rows_lines(void)
{
    for (int strict = 0; strict < 2; strict++) {
        for (int i = 0; i < LENGTHS_COUNT; i++) {
            step_lines(strict, LENGTHS[i]);
            load_lines(strict, LENGTHS[i]);
        }
        isolate_lines(strict);
        stop_lines(strict);
        add_lines(strict);
        fill_lines(strict);
    }
}
