/* Random numbers for the host test, the same for the same seed, kind and case, and biased towards the edges. */
#include "compare.h"

static uint64_t dice;

/* One turn of splitmix64. */
uint64_t roll(void)
{
    uint64_t z = dice += UINT64_C(0x9E3779B97F4A7C15);
    z = (z ^ z >> 30) * UINT64_C(0xBF58476D1CE4E5B9);
    z = (z ^ z >> 27) * UINT64_C(0x94D049BB133111EB);
    return z ^ z >> 31;
}

void throw_dice(uint64_t seed, uint64_t kind, uint64_t number)
{
    dice = seed;
    dice = roll() ^ kind;
    dice = roll() ^ number;
}

uint32_t below(uint32_t n) { return (uint32_t)((roll() >> 32) * n >> 32); }

uint32_t between(uint32_t least, uint32_t most) { return least + below(most - least + 1); }

bool one_in(uint32_t n) { return below(n) == 0; }

uint32_t any_number(void)
{
    static const uint32_t edges[] = {0,          1,          2,          3,    4,    5,    16,   63,   64,
                                     65,         15,         0x7FFF,     0x8000,     0xFFFF, 2047, 2048, 2049, 4095, 4096,
                                     4097,       4098,       4099,       4100, 0x10000, 0x7FFFFFFF, 0x80000000,
                                     0xFFFFFFFE, 0xFFFFFFFF};
    switch (below(4)) {
    case 0: return below(16);
    case 1: return (uint32_t)roll();
    default: return edges[below(sizeof edges / sizeof edges[0])];
    }
}

uint32_t near_address(uint32_t n)
{
    switch (below(12)) {
    case 0: return n - 1 + below(3);
    case 1: return ISOLATE - 1 + below(6);
    case 2: return any_number();
    default: return n > 0 ? below(n) : 0;
    }
}

/* The encoder of the sheet's side says which fields an opcode has: those that it lets pass. */
uint32_t any_instruction(void)
{
    const uint32_t op = below(14), a = below(16), b = below(16), low = below(0x10000);
    const uint32_t offset = one_in(2) ? below(12) : 0xFFFF - below(12);
    uint32_t word;
    if (sheet_encode(op, a, b, low & 15, &word) == 0) return word;
    if (sheet_encode(op, a, 0, one_in(4) ? low : offset, &word) == 0) return word;
    if (sheet_encode(op, a, b, 0, &word) == 0) return word;
    if (sheet_encode(op, a, 0, 0, &word) == 0) return word;
    return op << 24;
}
