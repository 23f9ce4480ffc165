/* The sheet's own lines, most in either mode, with the outcomes that the sheet and the request for strict mode give:
   the library and sheet.c must both have them, so that an error that both share is met too. */
#include "compare.h"
#include "words.h"

#include <string.h>

state line_ours, line_sheet;

/* Loads an image of these words, all registers 0, entry 0, over memories of n + 3 places. */
void load_words(const uint32_t *words, uint32_t n, bool strict)
{
    static uint8_t bytes[BYTES_ROOM];
    const uint32_t regs[16] = {0};
    size_t length;
    sheet_write(words, n, regs, 0, bytes, sizeof bytes, &length);
    noise(&line_sheet, n + 3);
    lend(&line_sheet, n + 3);
    copy_state(&line_ours, &line_sheet);
    expect("load", check_load(&line_ours, &line_sheet, strict, bytes, length), 0, 0);
}

void set_both(void) { copy_state(&line_ours, &line_sheet); }

/* A run ends with this answer, count and pc. */
void runs(const char *line, uint32_t budget, uint32_t answer, uint32_t count, uint32_t pc)
{
    const told t = check_run(&line_ours, &line_sheet, budget); /* both sides told the same */
    expect(line, t.answer, t.answer, answer);
    expect(line, t.count, t.count, count);
    expect(line, line_ours.cpu.pc, line_sheet.cpu.pc, pc);
}

/* A line of the run program: number, addresses owned, in J, in S; as counted, and as the row has it. */
void row(uint32_t c, uint32_t owned, uint32_t jump, uint32_t store)
{
    const state *a = &line_ours, *b = &line_sheet;
    expect("owned in its row", a->rows[c].owned, b->rows[c].owned, owned);
    expect("jump in its row", a->rows[c].jump, b->rows[c].jump, jump);
    expect("store in its row", a->rows[c].store, b->rows[c].store, store);
    expect("addresses owned", kl_owned(&a->cpu, a->owners, a->lent[OWNERS], c),
           sheet_owned(&b->cpu, b->owners, b->lent[OWNERS], c), owned);
    expect("addresses in J", kl_jumps(&a->cpu, a->jumpers, a->lent[JUMPERS], c),
           sheet_jumps(&b->cpu, b->jumpers, b->lent[JUMPERS], c), jump);
    expect("addresses in S", kl_stores(&a->cpu, a->writers, a->lent[WRITERS], c),
           sheet_stores(&b->cpu, b->writers, b->lent[WRITERS], c), store);
}

static void widest(uint32_t wanted)
{
    const state *a = &line_ours, *b = &line_sheet;
    expect("widest", kl_widest(&a->cpu, a->owners, a->lent[OWNERS], a->writers, a->lent[WRITERS]),
           sheet_widest(&b->cpu, b->owners, b->lent[OWNERS], b->writers, b->lent[WRITERS]), wanted);
}

static void decodes(uint32_t word, uint32_t answer, uint32_t op, uint32_t a, uint32_t b, uint32_t low)
{
    const uint32_t wanted[4] = {op, a, b, low};
    uint32_t f[4], g[4];
    expect("decode", kl_decode(word, f), sheet_decode(word, g), answer);
    for (int i = 0; i < 4; i++) expect("decode", f[i], g[i], wanted[i]);
}

static void word_lines(void)
{
    decodes(0x01200007, 0, 1, 2, 0, 7);
    decodes(0x00000007, KL_STRAY_BIT, 0, 0, 0, 0);
    decodes(0x0C10FFFF, 0, 12, 1, 0, 0xFFFF);
    decodes(0x0D000000, 0, 13, 0, 0, 0);
    decodes(0x0E000000, KL_NO_INSTRUCTION, 0, 0, 0, 0);
    decodes(0xFFFFFFFF, KL_NO_INSTRUCTION, 0, 0, 0, 0);
    decodes(0x03120003, 0, 3, 1, 2, 3);
    decodes(0x03120013, KL_STRAY_BIT, 0, 0, 0, 0);
}

/* Sums are modulo 2^32, Leq is unsigned, and Bnz goes from pc 0 to -1, 32,767 and -32,768. */
static void number_lines(void)
{
    static const uint32_t both[] = {0x03120003, 0x07120003};
    static const uint32_t branches[][2] = {{0x0C10FFFF, UINT32_MAX}, {0x0C107FFF, 32767}, {0x0C108000, 0xFFFF8000}};
    for (int i = 0; i < 2; i++) {
        load_words(&both[i], 1, false);
        line_sheet.cpu.regs[1] = UINT32_MAX, line_sheet.cpu.regs[2] = 1, line_sheet.cpu.regs[3] = 9;
        set_both();
        runs("a sum or Leq of 4294967295 and 1", 1, 0, 1, 1);
        expect("r3", line_ours.cpu.regs[3], line_sheet.cpu.regs[3], 0);
    }
    for (int i = 0; i < 3; i++) {
        load_words(&branches[i][0], 1, false);
        line_sheet.cpu.regs[1] = 5;
        set_both();
        runs("Bnz from pc 0", 1, 0, 1, branches[i][1]);
        runs("the step after it", 1, 2, 0, branches[i][1]);
    }
}

/* In strict mode there is a service more to own and to jump to. */
static void image_one(bool strict)
{
    const uint32_t words[] = {0x01100003, 0x01200007, 0x09120000, 0x0D000000}, services = service_count(strict);
    LOAD(words, strict);
    runs("image one", 100000, KL_STRAY_BIT, 3, 3);
    row(0, 4, services, 0);
    for (uint32_t c = 1; c <= services; c++) row(c, 1, 4, 0);
    row(services + 1, 0, 0, 0);
    widest(1);
    expect("prev", line_ours.cpu.prev, line_sheet.cpu.prev, 0);
    expect("jumped", line_ours.cpu.jumped, line_sheet.cpu.jumped, 0);
    expect("strict", line_ours.cpu.strict, line_sheet.cpu.strict, strict);
    expect("next", line_ours.cpu.next, line_sheet.cpu.next, strict ? 5 : 4);
}

/* Image two with another word at 6, after 12 was added as a target by the service at `add` (0: it was not). */
static void image_two(uint32_t at_6, uint32_t add)
{
    const uint32_t words[] = {CONST_(9, 1), CONST_(8, 2), CONST_(8, 3), CONST_(4096, 4), JAL_(4), CONST_(12, 5),
                              at_6, HALT_, 0, 1, 12, 13, HALT_};
    LOAD(words, false);
    if (add == 0) return;
    line_sheet.cpu.pc = add, line_sheet.cpu.jumped = true, line_sheet.cpu.regs[1] = 12;
    set_both();
    runs("12 added as a target, back at 0", 1, 0, 1, 0);
}

static void image_two_lines(void)
{
    image_two(STORE_(5, 1), 0);
    runs("image two", 100000, 7, 7, 6);
    expect("next", line_ours.cpu.next, line_sheet.cpu.next, 5);
    row(0, 12, 3, 0);
    for (uint32_t c = 1; c < 4; c++) row(c, 1, 13, 0);
    row(4, 1, 0, 0);
    widest(1);
    image_two(STORE_(5, 1), 4098);
    runs("image two after 12 was added as a store target", 100000, 1, 8, 7);
    row(0, 12, 3, 1);
    widest(2);
    image_two(BNZ_(5, 6), 0);
    runs("Bnz to 12", 100000, 4, 8, 12);
    image_two(BNZ_(5, 6), 4097);
    runs("Bnz to 12, a jump target", 100000, 4, 8, 12);
    image_two(JUMP_(5), 0);
    runs("Jump to 12", 100000, 4, 8, 12);
    image_two(JUMP_(5), 4097);
    runs("Jump to 12, a jump target", 100000, 1, 8, 12);
}

/* A loop that isolates a word a turn: eight steps, then seven a turn. 60 isolates run, in strict mode 59; the next
   stops at its service. */
static void all_isolates(bool strict)
{
    const uint32_t words[100] = {CONST_(1, 7), CONST_(4096, 6), CONST_(18, 2), CONST_(18, 3), CONST_(18, 4),
                                 CONST_(30, 9), CONST_(20, 12), CONST_(21, 13), STORE_(12, 9), ADD_(9, 7, 9),
                                 STORE_(13, 9), CONST_(19, 1), JAL_(6), BNZ_(7, -5), [19] = 1};
    const uint32_t most = strict ? 59 : 60, first = strict ? 5 : 4;
    LOAD(words, strict);
    runs("as many isolates as there are numbers, then 13", 100000, 13, 8 + most * 7 + 5, 4096);
    expect("next", line_ours.cpu.next, line_sheet.cpu.next, 64);
    for (uint32_t c = first; c < 64; c++) row(c, 1, 0, 0);
}

/* Jump to 4096: r15 = 0 returns to 0, r15 = 4096 answers 12; next 63 runs, next 64 answers 13. But for strict mode r4
   is not looked at. */
static void isolate_lines(bool strict)
{
    const uint32_t first = strict ? 5 : 4;
    const uint32_t tries[][4] = {{0, first, 0, first + 1}, {4096, first, 12, first}, {0, 63, 0, 64}, {0, 64, 13, 64}};
    const uint32_t words[] = {HALT_, JUMP_(6), 0, 1, 5, 6};
    for (int i = 0; i < 4; i++) {
        LOAD(words, strict);
        const uint32_t regs[16] = {0, 3, 2, 2, strict ? 2 : UINT32_MAX, 0, 4096, [15] = tries[i][0]};
        memcpy(line_sheet.cpu.regs, regs, sizeof regs);
        line_sheet.cpu.pc = 1, line_sheet.cpu.next = tries[i][1];
        set_both();
        const uint32_t ran = tries[i][2] == 0;
        runs("Jump to 4096", 2, tries[i][2], 1 + ran, ran ? tries[i][0] : 4096);
        expect("next", line_ours.cpu.next, line_sheet.cpu.next, tries[i][3]);
        if (ran) runs("the return to 0", 1, 1, 0, 0);
    }
}

/* Jal to each service from word N-1. */
static void last_word_lines(bool strict)
{
    const uint32_t words[] = {0, 1, 1, 2, JAL_(6)};
    for (uint32_t service = 4096; service < 4096 + service_count(strict); service++) {
        LOAD(words, strict);
        line_sheet.cpu.pc = 4, line_sheet.cpu.regs[1] = 1, line_sheet.cpu.regs[6] = service;
        set_both();
        runs("Jal to a service from word N-1", 10, 12, 1, service);
        expect("r15", line_ours.cpu.regs[15], line_sheet.cpu.regs[15], 5);
    }
}

/* A child that jumps to 4096: 4 where J' did not give it. Where it did, the service's own checks: 12, and in strict
   mode 8 before it, for the child may not read the sets. */
static void child_lines(bool strict)
{
    const uint32_t child = strict ? 5 : 4;
    for (uint32_t given = 0; given < 2; given++) {
        const uint32_t words[] = {CONST_(18, 1), CONST_(4097, 6), JAL_(6), CONST_(12, 1), CONST_(15, 2), CONST_(11, 3),
                                  CONST_(4096, 6), JAL_(6), CONST_(18, 5), JUMP_(5), HALT_, 0, 1, 18, 20, given, 4096,
                                  4097, CONST_(4096, 6), JUMP_(6)};
        LOAD(words, strict);
        line_sheet.cpu.regs[4] = 11;
        set_both();
        runs("a child at 4096", 100, !given ? 4 : strict ? 8 : 12, 14, 4096);
        expect("prev", line_ours.cpu.prev, line_sheet.cpu.prev, child);
        row(child, 2, given, 0);
    }
}

void sheet_lines(void)
{
    word_lines();
    number_lines();
    image_two_lines();
    for (int strict = 0; strict < 2; strict++) {
        image_one(strict);
        all_isolates(strict);
        isolate_lines(strict);
        last_word_lines(strict);
        child_lines(strict);
    }
}
