/* The lines of the request for strict mode, on either side of each number that it adds or moves, in both modes: what is
   refused in strict mode runs in 01's, where reading is free, 4099 is no place and 4 is a number like any other. */
#include "compare.h"
#include "words.h"

#include <string.h>

#define HAS(c) (UINT64_C(1) << (c))

static state *const at = &line_sheet; /* the side that is changed; the other becomes alike before the step */

static void answers(const char *line, uint32_t wanted)
{
    set_both();
    const uint32_t answer = check_step(&line_ours, &line_sheet); /* both sides gave the same */
    expect(line, answer, answer, wanted);
}

static void readers(uint32_t x, uint64_t wanted)
{
    expect("the readers after it", line_ours.readers[x], line_sheet.readers[x], wanted);
}

/* ---- Load ---- */

/* A Load of word 2, which `owner` owns and `granted` may read; the Load is main's. */
static void make_load(bool strict, uint32_t owner, uint64_t granted)
{
    const uint32_t words[] = {LOAD_(1, 2), HALT_, 77};
    LOAD(words, strict);
    at->cpu.regs[1] = 2, at->cpu.next = 6;
    at->owners[2] = owner, at->readers[2] = granted;
}

static void load_lines(bool strict)
{
    make_load(strict, 0, 0);
    answers("Load of an own word", 0);
    expect("r2", line_ours.cpu.regs[2], line_sheet.cpu.regs[2], 77);
    make_load(strict, 5, 0);
    answers("Load of another's word", strict ? 17 : 0);
    make_load(strict, 5, HAS(0));
    answers("Load by a reader", 0);
    make_load(strict, 5, ~HAS(0));
    answers("Load of a word that all others may read", strict ? 17 : 0);
    make_load(strict, 5, 0);
    at->writers[2] = HAS(0);
    answers("Load by a writer", strict ? 17 : 0);
    make_load(strict, 5, 0);
    at->cpu.regs[1] = 3;
    answers("Load from N on", 5);
}

/* 5 jumps to main's Load: main must be able to read the word, and 5 need not be able to read the Load. */
static void arrived_lines(bool strict)
{
    for (uint32_t owner = 0; owner <= 5; owner += 5) {
        make_load(strict, owner, 0);
        at->cpu.prev = 5, at->cpu.jumped = true, at->jumpers[0] |= HAS(5);
        answers("Load after a jump from 5", strict && owner == 5 ? 17 : 0);
    }
}

/* ---- 4099 ---- */

/* Main at 4099 with r1 = 1. */
static void make_add(bool strict)
{
    const uint32_t words[] = {HALT_, 0};
    LOAD(words, strict);
    at->cpu.pc = 4099, at->cpu.jumped = true, at->cpu.regs[1] = 1, at->cpu.next = 6;
    at->cpu.services[3] = HAS(0) | HAS(4);
}

static void add_lines(bool strict)
{
    make_add(strict);
    const uint64_t before = at->readers[1];
    answers("add read target", strict ? 0 : 2);
    readers(1, strict ? HAS(0) : before);
    expect("prev", line_ours.cpu.prev, line_sheet.cpu.prev, strict ? 4 : 0);
    make_add(strict);
    at->cpu.regs[1] = 2;
    answers("add read target at N", strict ? 11 : 2);
    make_add(strict);
    at->owners[1] = 5;
    answers("add read target at another's word", strict ? 11 : 2);
    make_add(strict);
    at->cpu.regs[15] = 2;
    answers("add read target with r15 at N", strict ? 12 : 2);
    make_add(strict);
    at->cpu.services[3] = ~HAS(0);
    answers("4099 for one who may not jump there", strict ? 4 : 2);
    make_add(strict);
    at->cpu.jumped = false;
    answers("4099 without a jump", strict ? 4 : 2);
    make_add(strict);
    at->cpu.prev = 4;
    answers("4 at 4099", strict ? 14 : 2);
}

/* ---- isolate ---- */

enum { EMPTY_AT = 1, A_AT = 2, R_AT = 5, J_AT = 8, N = 16 };

/* Main isolates {12}, with R' of one pair and no more; 14 is another's, and 15 too, but main may read it. */
static void make_isolate(bool strict, uint32_t first, uint32_t past)
{
    const uint32_t words[N] = {HALT_, 0, 1, 12, 13, 1, first, past, 1, 4099, 4100};
    LOAD(words, strict);
    at->cpu.pc = 4096, at->cpu.jumped = true, at->cpu.next = 6;
    at->cpu.regs[1] = A_AT, at->cpu.regs[2] = at->cpu.regs[3] = EMPTY_AT, at->cpu.regs[4] = R_AT;
    at->owners[14] = at->owners[15] = 5;
    at->readers[15] = HAS(0);
}

static void reach_lines(bool strict)
{
    static const uint32_t tries[][3] = {{12, 14, 0},     {15, 16, 0},     {13, 15, 10},       {15, 17, 10},
                                        {4096, 4097, 10}, {4099, 4100, 10}, {0, UINT32_MAX, 10}, {13, 13, 8},
                                        {14, 13, 8}};
    for (size_t i = 0; i < sizeof tries / sizeof tries[0]; i++) {
        make_isolate(strict, tries[i][0], tries[i][1]);
        answers("isolate with this R'", strict ? tries[i][2] : 0);
    }
    make_isolate(strict, 13, 14);
    const uint64_t before = at->readers[13];
    answers("isolate that grants 13", 0);
    readers(13, strict ? HAS(6) : before);
    readers(15, HAS(0));
}

/* r4 where it points outside memory, and R' before the numbers that follow its own. */
static void order_lines(bool strict)
{
    make_isolate(strict, 13, 14);
    at->cpu.regs[4] = N;
    answers("R' outside memory", strict ? 8 : 0);
    make_isolate(strict, 13, 13);
    at->cpu.regs[1] = EMPTY_AT;
    answers("R' bad and A' empty", strict ? 8 : 9);
    make_isolate(strict, 14, 15);
    at->cpu.regs[1] = EMPTY_AT;
    answers("R' beyond the caller's and A' empty", 9);
    make_isolate(strict, 14, 15);
    at->cpu.regs[15] = 12;
    answers("R' beyond the caller's and r15 in A'", strict ? 10 : 12);
    make_isolate(strict, 14, 15);
    at->cpu.next = 64;
    answers("R' beyond the caller's and no number left", strict ? 10 : 13);
}

/* Every word of the four sets in turn, another's, without and with the caller among its readers. */
static void set_word_lines(bool strict)
{
    for (uint32_t x = EMPTY_AT; x < J_AT; x++)
        for (int granted = 0; granted < 2; granted++) {
            make_isolate(strict, 13, 14);
            at->owners[x] = 5, at->readers[x] = granted ? HAS(0) : ~HAS(0), at->writers[x] = HAS(0);
            answers("isolate with a set word of another", strict && !granted ? 8 : 0);
        }
}

/* J' with 4099. */
static void jump_set_lines(bool strict)
{
    make_isolate(strict, 13, 14);
    at->cpu.regs[2] = J_AT;
    answers("J' with 4099", strict ? 0 : 10);
    expect("I of 4099", line_ours.cpu.services[3], line_sheet.cpu.services[3], strict ? HAS(0) | HAS(6) : HAS(0));
}

/* ---- 14, 15 and 27 ---- */

static void form_lines(bool strict)
{
    const uint32_t words[] = {HALT_, NOP_};
    for (uint32_t next = 3; next <= 6; next++) {
        LOAD(words, strict);
        at->cpu.pc = 1, at->cpu.next = next;
        answers("a step with this next", next < first_unused(strict) ? 14 : 0);
    }
    for (uint32_t number = 0; number < 6; number++) {
        const bool refused = is_service_number(strict, number);
        LOAD(words, strict);
        at->cpu.pc = 4097, at->cpu.prev = number, at->cpu.jumped = true, at->cpu.next = 6;
        at->cpu.services[1] = at->cpu.regs[1] = at->cpu.regs[15] = 0;
        answers("this number at a service", refused ? 14 : 4);
        LOAD(words, strict);
        at->cpu.pc = 1, at->owners[1] = at->cpu.prev = number, at->cpu.next = 6;
        answers("a word of this owner", refused ? 15 : 0);
    }
}

/* Readers of another length, and the mode changed in a loaded record. */
static void length_lines(bool strict)
{
    const uint32_t words[] = {NOP_, HALT_};
    for (uint32_t lent = 0; lent <= 8; lent++) {
        LOAD(words, strict);
        const bool other = lent != at->lent[READERS];
        at->lent[READERS] = lent;
        answers("a step with readers of this length", strict && other ? 14 : 0);
    }
    LOAD(words, strict);
    at->cpu.strict = !strict;
    answers("a step in the other mode", strict ? 0 : 14); /* next is 4 or 5 */
}

/* The shortest image, or its first bytes, over a record of the other mode; the readers may have another length. */
static void loads(bool strict, size_t length, size_t lent, uint32_t wanted)
{
    const uint8_t bytes[20] = {1, [12] = 1};
    noise(&line_sheet, 8);
    lend(&line_sheet, 4);
    line_sheet.lent[READERS] = lent;
    line_sheet.cpu.strict = !strict;
    set_both();
    const uint32_t answer = check_load(&line_ours, &line_sheet, strict, bytes, length);
    expect("a load with readers of this length", answer, answer, wanted);
    expect("the mode after it", line_ours.cpu.strict, line_sheet.cpu.strict, strict);
    expect("next after it", line_ours.cpu.next, line_sheet.cpu.next, strict ? 5 : 4);
}

static void image_lines(bool strict)
{
    for (size_t lent = 0; lent <= 8; lent++) {
        const uint32_t refusal = strict && lent != 4 ? 27 : 0;
        loads(strict, 20, lent, refusal);
        loads(strict, 19, lent, refusal != 0 ? refusal : 20);
    }
}

void strict_lines(void)
{
    for (int strict = 0; strict < 2; strict++) {
        load_lines(strict);
        arrived_lines(strict);
        add_lines(strict);
        reach_lines(strict);
        order_lines(strict);
        set_word_lines(strict);
        jump_set_lines(strict);
        form_lines(strict);
        length_lines(strict);
        image_lines(strict);
    }
}
