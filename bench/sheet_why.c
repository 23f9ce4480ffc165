/* Why a step answers its number, in plain C: the seven numbers of kl_reason, by the table in docs/REFERENCE.md. It is given the answer,
   and looks for the witness alone. */
#include "sheet.h"
#include "sheet_sizes.h"

#include <string.h>

static bool holds(uint64_t set, uint32_t who) { return who < 64 && (set >> who & 1) != 0; }

/* The owner of a word, a service's own number, or 64. */
static uint32_t owner_of(const kl_processor *cpu, const uint32_t *owners, uint32_t x)
{
    if (x < cpu->n) return owners[x];
    return is_service(cpu->strict, x) ? x - ISOLATE + 1 : 64;
}

/* The bits below the opcode that its row leaves unused: for each opcode those in use. */
static uint32_t stray(uint32_t word)
{
    static const uint32_t used[14] = {0x000000, 0xF0FFFF, 0xFF0000, 0xFF000F, 0xFF000F, 0xFF000F, 0xFF000F,
                                      0xFF000F, 0xFF0000, 0xFF0000, 0xF00000, 0xF00000, 0xF0FFFF, 0x000000};
    return word >> 24 < 14 ? word & 0xFFFFFF & ~used[word >> 24] : 0;
}

/* 8: the first word of the set at `pointer` that is outside memory, begins a pair with first >= past, or may not be read; in *fault
   which of these it is, or 0. */
static uint32_t faulty_word(const kl_processor *cpu, const uint32_t *words, const uint32_t *owners, const uint64_t *readers,
                            uint32_t pointer, uint32_t *fault)
{
    *fault = 1;
    if (pointer >= cpu->n) return pointer;
    const uint64_t past = (uint64_t)pointer + 1 + 2 * (uint64_t)words[pointer];
    if (past > cpu->n) return cpu->n;
    *fault = 2;
    for (uint32_t x = pointer + 1; x < past; x += 2)
        if (words[x] >= words[x + 1]) return x;
    *fault = 3;
    for (uint32_t x = pointer; cpu->strict && x < past; x++)
        if (owners[x] != cpu->prev && !holds(readers[x], cpu->prev)) return x;
    *fault = 0;
    return 0;
}

/* 10: whether the caller may give x in set number `set`. */
static bool may_give(const kl_processor *cpu, const uint32_t *owners, const uint64_t *granted, uint32_t set, uint32_t x)
{
    if (owner_of(cpu, owners, x) == cpu->prev) return true;
    if (x < cpu->n) return granted != NULL && holds(granted[x], cpu->prev);
    return set == 2 && is_service(cpu->strict, x) && holds(cpu->services[x - ISOLATE], cpu->prev);
}

uint32_t sheet_why(const kl_processor *cpu, const uint32_t *words, size_t words_len, const uint32_t *owners, size_t owners_len,
                   const uint64_t *jumpers, size_t jumpers_len, const uint64_t *writers, size_t writers_len,
                   const uint64_t *readers, size_t readers_len, uint32_t answer, kl_reason *told)
{
    memset(told, 0, sizeof *told);
    told->answer = answer;
    if (answer == 14) {
        const bool alike = owners_len == words_len && jumpers_len == words_len && writers_len == words_len &&
                           (!cpu->strict || readers_len == words_len);
        if (!alike) told->fault = 1;
        else if (cpu->n < 1 || cpu->n > 2048 || cpu->n > words_len) told->fault = 2;
        else if (cpu->next < (cpu->strict ? 5u : 4u) || cpu->next > 64) told->fault = 3;
        else told->fault = cpu->prev >= cpu->next ? 4 : 5;
        return answer;
    }
    const uint32_t word = cpu->pc < cpu->n ? words[cpu->pc] : 0;
    const uint64_t *const granted[5] = {NULL, NULL, jumpers, writers, readers};
    switch (answer) {
    case 2: told->place = cpu->pc; break;
    case 3:
    case 16:
        told->place = cpu->pc;
        told->value = word;
        told->bits = stray(word);
        break;
    case 4:
    case 15:
        told->place = cpu->pc;
        told->owner = owner_of(cpu, owners, cpu->pc);
        break;
    case 5:
    case 6:
        told->place = cpu->regs[word >> 20 & 15];
        told->value = cpu->n;
        break;
    case 7:
    case 17:
        told->place = cpu->regs[word >> 20 & 15];
        told->owner = owners[told->place];
        break;
    case 8:
        while (told->fault == 0) {
            told->set++;
            told->place = faulty_word(cpu, words, owners, readers, cpu->regs[told->set], &told->fault);
        }
        told->value = told->place < words_len ? words[told->place] : 0;
        break;
    case 9:
        told->set = 1;
        told->place = cpu->regs[1];
        break;
    case 10:
        for (uint32_t set = 1; set <= 4; set++) {
            const uint32_t *at = words + cpu->regs[set];
            for (uint32_t i = 0; i < at[0]; i++)
                for (uint32_t x = at[1 + 2 * i]; x < at[2 + 2 * i]; x++)
                    if (!may_give(cpu, owners, granted[set], set, x)) {
                        told->set = set;
                        told->place = x;
                        told->owner = owner_of(cpu, owners, x);
                        return answer;
                    }
        }
        break;
    case 11:
        told->place = cpu->regs[1];
        told->owner = owner_of(cpu, owners, told->place);
        break;
    case 12:
        told->place = cpu->regs[15];
        told->owner = owner_of(cpu, owners, told->place);
        told->fault = told->place < cpu->n && told->owner == cpu->prev ? 2 : 1;
        break;
    case 13: told->value = 64; break;
    default: break;
    }
    return answer;
}
