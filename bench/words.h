/* Instruction words for test programs, by the names and the column order of the sheet's table. */
#ifndef WORDS_H
#define WORDS_H

#include <stdint.h>

static inline uint32_t instruction(uint32_t op, uint32_t a, uint32_t b, uint32_t low)
{
    return op << 24 | a << 20 | b << 16 | (low & 0xFFFF);
}

#define NOP_ instruction(0, 0, 0, 0)
#define CONST_(i, rd) instruction(1, rd, 0, i)
#define MOV_(rs, rd) instruction(2, rs, rd, 0)
#define ADD_(r1, r2, rd) instruction(3, r1, r2, rd)
#define SUB_(r1, r2, rd) instruction(4, r1, r2, rd)
#define MUL_(r1, r2, rd) instruction(5, r1, r2, rd)
#define EQ_(r1, r2, rd) instruction(6, r1, r2, rd)
#define LEQ_(r1, r2, rd) instruction(7, r1, r2, rd)
#define LOAD_(rp, rd) instruction(8, rp, rd, 0)
#define STORE_(rp, rs) instruction(9, rp, rs, 0)
#define JUMP_(r) instruction(10, r, 0, 0)
#define JAL_(r) instruction(11, r, 0, 0)
#define BNZ_(r, offset) instruction(12, r, 0, (uint32_t)(offset))
#define HALT_ instruction(13, 0, 0, 0)

#endif
