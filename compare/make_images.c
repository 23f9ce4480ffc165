/* Random images for the host test: valid ones, damaged ones, and programs that run for a while. */
#include "compare.h"
#include "words.h"

#include <string.h>

static void put_number(uint8_t *bytes, size_t i, uint32_t number)
{
    for (unsigned k = 0; k < 4; k++) bytes[4 * i + k] = (uint8_t)(number >> 8 * k);
}

/* Written apart from sheet.c's writer: the words, `listed` registers, the entry. */
static size_t put_image(uint8_t *bytes, const uint32_t *words, uint32_t n, const uint32_t *regs, uint32_t listed,
                        uint32_t entry)
{
    size_t at = 0;
    put_number(bytes, at++, n);
    for (uint32_t i = 0; i < n; i++) put_number(bytes, at++, words[i]);
    put_number(bytes, at++, listed);
    for (uint32_t i = 0; i < listed; i++) put_number(bytes, at++, regs[i]);
    put_number(bytes, at++, 1);
    put_number(bytes, at++, entry);
    return 4 * at;
}

static uint32_t words[2048], regs[16];

size_t make_image(uint8_t *bytes, uint32_t n)
{
    const uint32_t listed = below(17);
    for (uint32_t i = 0; i < n; i++) words[i] = one_in(2) ? any_number() : any_instruction();
    for (uint32_t i = 0; i < listed; i++) regs[i] = any_number();
    if (listed > 0 && regs[listed - 1] == 0) regs[listed - 1] = 1;
    return put_image(bytes, words, n, regs, listed, below(n));
}

void spoil_image(uint8_t *bytes, size_t *length)
{
    const size_t numbers = *length / 4;
    if (numbers < 5) return;
    const uint32_t kind = below(8), byte = below((uint32_t)*length), few = below(20), number = any_number();
    switch (kind) {
    case 0: *length = byte; break;
    case 1: *length += 1 + below(8); break;
    case 2: bytes[byte] ^= (uint8_t)(1 << few % 8); break;
    case 3: put_number(bytes, 0, number); break;
    case 4: put_number(bytes, numbers - 1 - few % 2, number); break;
    case 5: put_number(bytes, numbers - 3, one_in(2) ? 0 : number); break;
    case 6: put_number(bytes, numbers > 20 ? numbers - 3 - below(17) : 1, few); break;
    case 7: put_number(bytes, byte / 4, number); break;
    }
}

/* ---- programs ---- */

/* In every program: r1, r2, r3, r4 point at A', J', S', R'; r0, r5, r6, r8 are the services; r7 is 1; r9 to r14 are
   addresses. */
enum { A_AT = 40, J_AT = 44, S_AT = 50, R_AT = 53, CHILD = 56, DATA = 72, SIZE = PROGRAM_SIZE };

/* Whether the program is meant for strict mode; else it calls 4099 seldom, for it stops there. */
static bool fenced;

/* A set of one pair. */
static void put_set(uint32_t at, uint32_t first, uint32_t past)
{
    words[at] = 1, words[at + 1] = first, words[at + 2] = past;
}

/* Adds a pair to the set at `at`. */
static void put_pair(uint32_t at, uint32_t first, uint32_t past)
{
    const uint32_t count = words[at]++;
    words[at + 1 + 2 * count] = first, words[at + 2 + 2 * count] = past;
}

static void usual_registers(void)
{
    const uint32_t usual[] = {ISOLATE, A_AT, J_AT, S_AT, R_AT, ADD_JUMP, ADD_STORE, 1, ADD_READ};
    memcpy(regs, usual, sizeof usual);
    for (int i = 9; i < 16; i++) regs[i] = between(1, SIZE - 1);
    for (uint32_t i = 0; i < SIZE; i++) words[i] = below(SIZE);
    const uint32_t low = between(0, 8), middle = between(4, 12), high = between(14, 40);
    const uint32_t past_services = ISOLATE + service_count(fenced), service = between(ISOLATE, past_services - 1);
    const uint32_t child = between(CHILD, DATA), past = between(DATA + 5, SIZE);
    put_set(A_AT, child, past);
    put_set(J_AT, low, high);
    if (one_in(4)) put_pair(J_AT, middle, high - 1); /* pairs that overlap */
    else put_pair(J_AT, service, past_services);
    put_set(S_AT, DATA + 4, past);
    put_set(R_AT, between(0, DATA + 4), past);
}

static uint32_t own_register(void) { return between(9, 14); }

/* An instruction of a random program, mostly one that leaves the registers useful. */
static uint32_t program_word(void)
{
    const uint32_t kind = below(18), r = own_register(), s = own_register(), d = own_register(), at = below(SIZE);
    switch (kind) {
    case 0: return instruction(3 + at % 5, r, 7, d);
    case 1: return instruction(3 + at % 5, r, s, d);
    case 2: return MOV_(r, d);
    case 3: return LOAD_(r, d);
    case 4:
    case 5: return STORE_(r, s);
    case 6: return BNZ_(r, (int)(at % 13) - 6);
    case 7: return JUMP_(one_in(2) ? 15 : r);
    case 8: return JAL_(r);
    case 9: return JAL_(0);
    case 10: return JAL_(5);
    case 11: return JAL_(6);
    case 12: return CONST_(at, 1);
    case 13: return CONST_(A_AT, 1);
    case 14: return one_in(4) ? any_instruction() : CONST_(CHILD + at % (DATA - CHILD), d);
    case 15: return JAL_(fenced || one_in(8) ? 8 : 6);
    case 16: return LOAD_(r, d);
    default: return CONST_(at, d);
    }
}

/* The instruction, or a Nop once in `odds` times. */
static uint32_t mostly(uint32_t odds, uint32_t word) { return one_in(odds) ? NOP_ : word; }

/* Random instructions where the sets are not. */
static void random_program(void)
{
    for (uint32_t i = 0; i < A_AT; i++) words[i] = program_word();
    for (uint32_t i = CHILD; i < DATA; i++) words[i] = program_word();
    words[A_AT - 1] = BNZ_(7, -(int)between(1, A_AT - 1));
    if (one_in(2)) words[DATA - 1] = BNZ_(7, -(int)between(1, DATA - 1 - CHILD));
}

/* Isolates a word after the other, with other calls between, until no compartment is left: 13. */
static void isolate_loop(void)
{
    const uint32_t target = below(DATA), odd = below(64), jump = mostly(2, JAL_(5)), store = mostly(2, JAL_(6));
    const uint32_t read = fenced ? mostly(2, JAL_(8)) : NOP_;
    const uint32_t loop[] = {CONST_(DATA, 9), CONST_(A_AT + 1, 12), CONST_(A_AT + 2, 13), STORE_(12, 9),
                             ADD_(9, 7, 10), STORE_(13, 10), CONST_(A_AT, 1), JAL_(0), CONST_(target, 1),
                             jump, store, read, ADD_(9, 7, 9), BNZ_(7, -10)};
    memcpy(words, loop, sizeof loop);
    put_set(S_AT, target, DATA);
    put_set(R_AT, target, DATA);
    if (odd < 16) words[odd] = program_word();
}

/* A parent that adds a jump target, gives it to a child with some grants, and calls it again and again. */
static void parent_and_child(void)
{
    const uint32_t jump = mostly(8, JAL_(5)), store = mostly(2, JAL_(6)), change = mostly(2, STORE_(9, 10));
    const uint32_t read = fenced ? mostly(2, JAL_(8)) : NOP_;
    const uint32_t parent[] = {CONST_(CHILD, 1), jump, CONST_(DATA + 4, 1), store, read, CONST_(A_AT, 1), JAL_(0),
                               CONST_(DATA + 4, 9), CONST_(CHILD, 11), JAL_(11), LOAD_(9, 10), ADD_(10, 7, 10), change,
                               BNZ_(7, -4)};
    memcpy(words, parent, sizeof parent);
    put_set(A_AT, CHILD, one_in(2) ? DATA : DATA + 8);
    for (uint32_t i = CHILD; i < CHILD + 8; i++)
        words[i] = one_in(3) ? program_word() : one_in(3) ? LOAD_(9, 10) : one_in(2) ? STORE_(9, 10) : ADD_(10, 7, 10);
    words[CHILD + below(8)] = JUMP_(15);
    words[CHILD + 8] = JUMP_(15);
}

size_t make_program(uint8_t *bytes, bool strict)
{
    fenced = strict;
    usual_registers();
    const uint32_t which = below(8);
    if (which < 4) random_program();
    else if (which < 6) isolate_loop();
    else parent_and_child();
    return put_image(bytes, words, SIZE, regs, 16, which < 4 ? below(SIZE) : 0);
}
