/* The sheet's rules in plain C: instruction words, one step, the services and a run, in either mode.
   Each function names the sentence of the sheet, or of the request for strict mode, that it follows. */
#include "sheet.h"
#include "sheet_sizes.h"

#include <string.h>

enum { NOP, CONST, MOV, ADD, SUB, MUL, EQ, LEQ, LOAD, STORE, JUMP, JAL, BNZ, HALT, OPCODES };

/* The five lent memories, once 14 has found them alike, and the rows, once 18 has found 64; but for strict mode the readers
   may have any length. */
typedef struct memories {
    uint32_t *words, *owners;
    uint64_t *jumpers, *writers, *readers;
    kl_row *rows;
} memories;

/* "each set one 64-bit number with a bit per compartment"; who is below 64. */
static inline bool holds(uint64_t set, uint32_t who) { return (set >> who & 1) != 0; }

static inline uint64_t with(uint64_t set, uint32_t who) { return set | UINT64_C(1) << who; }

/* ---- Instruction words ---- */

/* "Which fields each opcode uses is one constant table of fourteen rows": the bits in use below the opcode. */
static const uint32_t USED[OPCODES] = {
    [NOP] = 0x000000, [CONST] = 0xF0FFFF, [MOV] = 0xFF0000, [ADD] = 0xFF000F, [SUB] = 0xFF000F,
    [MUL] = 0xFF000F, [EQ] = 0xFF000F,    [LEQ] = 0xFF000F, [LOAD] = 0xFF0000, [STORE] = 0xFF0000,
    [JUMP] = 0xF00000, [JAL] = 0xF00000,  [BNZ] = 0xF0FFFF, [HALT] = 0x000000,
};

/* "An unused bit must be 0, so each instruction has one word." */
static inline bool is_instruction(uint32_t word)
{
    return word >> 24 < OPCODES && (word & 0xFFFFFF & ~USED[word >> 24]) == 0;
}

/* "3 is the unknown opcode, 16 the stray bit": why a word is no instruction. */
static inline uint32_t fault(uint32_t word)
{
    return word >> 24 < OPCODES ? 16 : 3;
}

/* "From the top: opcode 8 bits, field a 4 bits, field b 4 bits, low 16 bits"; "decoder alone: no instruction;
   opcode and every field 0". */
uint32_t sheet_decode(uint32_t word, uint32_t fields[4])
{
    if (!is_instruction(word)) {
        memset(fields, 0, 4 * sizeof fields[0]);
        return fault(word);
    }
    fields[0] = word >> 24;
    fields[1] = word >> 20 & 15;
    fields[2] = word >> 16 & 15;
    fields[3] = word & 0xFFFF;
    return 0;
}

/* "encoder: opcode above 13, a field out of range, or an unused field not 0; word 0". */
uint32_t sheet_encode(uint32_t op, uint32_t a, uint32_t b, uint32_t low, uint32_t *word)
{
    *word = 0;
    if (op >= OPCODES || a > 15 || b > 15 || low > 0xFFFF) return 30;
    const uint32_t made = op << 24 | a << 20 | b << 16 | low;
    if (!is_instruction(made)) return 30;
    *word = made;
    return 0;
}

/* ---- Services ---- */

/* "A set is a count k, then k pairs (first, past)": where its pairs are, and how many. */
typedef struct pairs {
    const uint32_t *at;
    uint32_t count;
} pairs;

/* "Reading is free to all", but in strict mode it "needs the owner or a reader"; x is in memory. */
static inline bool readable(bool strict, const memories *m, uint32_t who, uint32_t x)
{
    return !strict || m->owners[x] == who || holds(m->readers[x], who);
}

/* "8 if .. a set is not wholly inside memory or has first >= past"; "counted on from the pointer without wrapping";
   "in strict mode an unreadable set word answers 8". */
static bool read_set(const kl_processor *cpu, const memories *m, uint32_t pointer, pairs *set)
{
    if (pointer >= cpu->n || m->words[pointer] > (cpu->n - 1 - pointer) / 2) return false;
    set->at = m->words + pointer + 1;
    set->count = m->words[pointer];
    for (uint32_t i = 0; i < set->count; i++)
        if (set->at[2 * i] >= set->at[2 * i + 1]) return false;
    for (uint32_t i = 0; cpu->strict && i <= 2 * set->count; i++)
        if (!readable(cpu->strict, m, cpu->prev, pointer + i)) return false;
    return true;
}

/* "10 unless A' is within A", "S' within A or S of the caller", R' "within A or R of the caller": every address is in
   memory, and owned by the caller or, where there are such sets, granted to it there. Services have no W and no R. */
static bool all_usable(const kl_processor *cpu, const memories *m, pairs set, const uint64_t *granted)
{
    for (uint32_t i = 0; i < set.count; i++) {
        const uint32_t first = set.at[2 * i], past = set.at[2 * i + 1];
        if (past > cpu->n) return false;
        for (uint32_t x = first; x < past; x++)
            if (m->owners[x] != cpu->prev && !(granted != NULL && holds(granted[x], cpu->prev))) return false;
    }
    return true;
}

/* "J' within A or J": what lies beyond memory must be services that the caller may jump to. */
static bool all_jumpable(const kl_processor *cpu, const memories *m, pairs set)
{
    for (uint32_t i = 0; i < set.count; i++) {
        uint32_t x = set.at[2 * i];
        const uint32_t past = set.at[2 * i + 1];
        for (; x < past && x < cpu->n; x++)
            if (m->owners[x] != cpu->prev && !holds(m->jumpers[x], cpu->prev)) return false;
        for (; x < past; x++)
            if (!is_service(cpu->strict, x) || !holds(cpu->services[x - ISOLATE], cpu->prev)) return false;
    }
    return true;
}

static bool in_set(pairs set, uint32_t x)
{
    for (uint32_t i = 0; i < set.count; i++)
        if (set.at[2 * i] <= x && x < set.at[2 * i + 1]) return true;
    return false;
}

/* "12 unless r15 is in memory, owned by the caller": the caller is no service's number, so it owns memory only. */
static bool owned_by_caller(const kl_processor *cpu, const memories *m, uint32_t x)
{
    return x < cpu->n && m->owners[x] == cpu->prev;
}

/* "A' gets owner next": the place leaves its owner's row for that of who, at each write, so that a place which two pairs name
   moves from who to who the second time. "An owner from 64 on is in no row." */
static void own(memories *m, uint32_t x, uint32_t who)
{
    if (m->owners[x] < ROWS) m->rows[m->owners[x]].owned--;
    m->rows[who].owned++;
    m->owners[x] = who;
}

/* "J' gets next in I", "S' gets next in W": who joins the sets of the places first to past-1. The count of its row, where
   these sets have one, grows by "what its tag changes add": 1 where it was not there. */
static void join(uint64_t *sets, uint32_t first, uint32_t past, uint32_t who, uint32_t *count)
{
    for (uint32_t x = first; x < past; x++) {
        if (count != NULL) *count += !holds(sets[x], who);
        sets[x] = with(sets[x], who);
    }
}

/* The four sets of an isolate; in 01's mode the last is empty. */
typedef struct request {
    pairs own, jump, store, read;
} request;

/* "A' gets owner next, J' gets next in I, S' gets next in W, and next grows by 1"; isolate "puts next in the readers"
   on R'. A pair of J' lies in memory or among the services, for no address between them passes 10. */
static void grant(kl_processor *cpu, memories *m, const request *q)
{
    const uint32_t child = cpu->next++;
    kl_row *const row = &m->rows[child];
    for (uint32_t i = 0; i < q->own.count; i++) {
        const uint32_t first = q->own.at[2 * i], past = q->own.at[2 * i + 1];
        for (uint32_t x = first; x < past; x++) own(m, x, child);
    }
    for (uint32_t i = 0; i < q->jump.count; i++) {
        const uint32_t first = q->jump.at[2 * i], past = q->jump.at[2 * i + 1];
        if (first < cpu->n) join(m->jumpers, first, past, child, &row->jump);
        else join(cpu->services, first - ISOLATE, past - ISOLATE, child, &row->jump);
    }
    for (uint32_t i = 0; i < q->store.count; i++)
        join(m->writers, q->store.at[2 * i], q->store.at[2 * i + 1], child, &row->store);
    for (uint32_t i = 0; i < q->read.count; i++) join(m->readers, q->read.at[2 * i], q->read.at[2 * i + 1], child, NULL);
}

/* "isolate: r1, r2, r3 point at the sets A', J', S' in memory": 8, 9, 10, 12, 13 in this order. In strict mode
   "isolate takes a fourth set R' from r4", "R' is read after S', and 10 covers R'". */
static uint32_t isolate(kl_processor *cpu, memories *m)
{
    request q = {.read = {NULL, 0}};
    if (!read_set(cpu, m, cpu->regs[1], &q.own)) return 8;
    if (!read_set(cpu, m, cpu->regs[2], &q.jump)) return 8;
    if (!read_set(cpu, m, cpu->regs[3], &q.store)) return 8;
    if (cpu->strict && !read_set(cpu, m, cpu->regs[4], &q.read)) return 8;
    if (q.own.count == 0) return 9;
    if (!all_usable(cpu, m, q.own, NULL) || !all_jumpable(cpu, m, q.jump)) return 10;
    if (!all_usable(cpu, m, q.store, m->writers) || !all_usable(cpu, m, q.read, m->readers)) return 10;
    if (!owned_by_caller(cpu, m, cpu->regs[RETURN]) || in_set(q.own, cpu->regs[RETURN])) return 12;
    if (cpu->next == MOST_COMPARTMENTS) return 13;
    grant(cpu, m, &q);
    return 0;
}

/* "r1 is the address. 11 unless the caller owns it, then 12 unless the caller owns r15. Otherwise the caller's
   number joins I or W there"; the fourth service "adds a read target by the rules of the other two". */
static uint32_t add_target(kl_processor *cpu, memories *m, uint64_t *sets, uint32_t *count)
{
    if (!owned_by_caller(cpu, m, cpu->regs[1])) return 11;
    if (!owned_by_caller(cpu, m, cpu->regs[RETURN])) return 12;
    join(sets, cpu->regs[1], cpu->regs[1] + 1, cpu->prev, count);
    return 0;
}

static uint32_t call(kl_processor *cpu, memories *m)
{
    kl_row *const row = &m->rows[cpu->prev];
    switch (cpu->pc) {
    case ISOLATE: return isolate(cpu, m);
    case ADD_JUMP: return add_target(cpu, m, m->jumpers, &row->jump);
    case ADD_STORE: return add_target(cpu, m, m->writers, &row->store);
    default: return add_target(cpu, m, m->readers, NULL);
    }
}

/* A step where pc is not below N: 2, then 4 (14 has made sure that the caller owns no service), then the service.
   "After any service: pc = r15, pc number is the service's, flag jumped, registers unchanged." */
static uint32_t service(kl_processor *cpu, memories *m)
{
    if (!is_service(cpu->strict, cpu->pc)) return 2;
    const uint32_t which = cpu->pc - ISOLATE;
    if (!cpu->jumped || !holds(cpu->services[which], cpu->prev)) return 4;
    const uint32_t answer = call(cpu, m);
    if (answer != 0) return answer;
    cpu->pc = cpu->regs[RETURN];
    cpu->prev = which + 1;
    cpu->jumped = true;
    return 0;
}

/* ---- One step, and a run ---- */

/* "1. 14: the four lent memories differ in length, or N is not 1 to 2,048 or is above that length; or next is not
   4 to 64; or the pc number is not below next; or it is 1, 2 or 3 while pc is a service address." In strict mode "14
   wants next from 5 to 64", "and 14 and 15 treat 4 as they treat 1 to 3". `lent` is the length that all have. */
static bool is_formed(const kl_processor *cpu, size_t lent)
{
    return cpu->n >= 1 && cpu->n <= MOST_WORDS && cpu->n <= lent && cpu->next >= first_unused(cpu->strict) &&
           cpu->next <= MOST_COMPARTMENTS && cpu->prev < cpu->next &&
           !(is_service(cpu->strict, cpu->pc) && is_service_number(cpu->strict, cpu->prev));
}

/* "Bnz goes to pc plus an offset from -32,768 to 32,767", modulo 2^32. */
static inline uint32_t branch(uint32_t pc, uint32_t low) { return pc + low - ((low & 0x8000) << 1); }

/* "One step, checks in this order", from 2 on, until a step does not answer 0 or the budget is used. 14 is looked
   at once, before: a step that runs leaves an owner that passed 15, or a service's number with pc in memory. */
static uint32_t steps(kl_processor *cpu, memories m, uint32_t budget, uint32_t *count)
{
    const uint32_t n = cpu->n;
    const bool strict = cpu->strict;
    uint32_t *const r = cpu->regs;
    uint32_t pc = cpu->pc, prev = cpu->prev, next = cpu->next, done = 0, answer = 0;
    bool jumped = cpu->jumped;

    for (; done < budget; done++) {
        if (pc >= n) {
            cpu->pc = pc, cpu->prev = prev, cpu->jumped = jumped;
            if ((answer = service(cpu, &m)) != 0) break;
            pc = cpu->pc, prev = cpu->prev, jumped = cpu->jumped, next = cpu->next;
            continue;
        }
        const uint32_t owner = m.owners[pc], word = m.words[pc];
        if (is_service_number(strict, owner) || owner >= next) { answer = 15; break; }
        if (owner != prev && !(jumped && holds(m.jumpers[pc], prev))) { answer = 4; break; }
        if (!is_instruction(word)) { answer = fault(word); break; }

        const uint32_t a = word >> 20 & 15, b = word >> 16 & 15, low = word & 0xFFFF;
        uint32_t to = pc + 1;
        bool jumps = false;
        switch (word >> 24) {
        case NOP: break;
        case CONST: r[a] = low; break;
        case MOV: r[b] = r[a]; break;
        case ADD: r[low] = r[a] + r[b]; break;
        case SUB: r[low] = r[a] - r[b]; break;
        case MUL: r[low] = r[a] * r[b]; break;
        case EQ: r[low] = r[a] == r[b]; break;
        case LEQ: r[low] = r[a] <= r[b]; break;
        case LOAD:
            if (r[a] >= n) { answer = 5; goto stop; }
            if (!readable(strict, &m, owner, r[a])) { answer = 17; goto stop; }
            r[b] = m.words[r[a]];
            break;
        case STORE:
            if (r[a] >= n) { answer = 6; goto stop; }
            if (m.owners[r[a]] != owner && !holds(m.writers[r[a]], owner)) { answer = 7; goto stop; }
            m.words[r[a]] = r[b];
            break;
        case JUMP: to = r[a]; jumps = true; break;
        case JAL: to = r[a]; r[RETURN] = pc + 1; jumps = true; break;
        case BNZ: if (r[a] != 0) to = branch(pc, low); break;
        case HALT: answer = 1; goto stop;
        }
        pc = to, prev = owner, jumped = jumps;
    }
stop:
    cpu->pc = pc, cpu->prev = prev, cpu->jumped = jumped;
    *count = done;
    return answer;
}

/* "A run with a budget steps until the first nonzero answer or the budget is used, and tells how many steps
   answered 0. Budget 0 looks at nothing and answers 0 with count 0." "18 when the table does not have 64 rows, after 14 in
   a step". */
uint32_t sheet_run(kl_processor *cpu,
                   uint32_t *words, size_t words_len, uint32_t *owners, size_t owners_len,
                   uint64_t *jumpers, size_t jumpers_len, uint64_t *writers, size_t writers_len,
                   uint64_t *readers, size_t readers_len, kl_row *rows, size_t rows_len, uint32_t budget, uint32_t *count)
{
    *count = 0;
    if (budget == 0) return 0;
    if (!same_lengths(cpu->strict, words_len, owners_len, jumpers_len, writers_len, readers_len)) return 14;
    if (!is_formed(cpu, words_len)) return 14;
    if (rows_len != ROWS) return 18;
    return steps(cpu, (memories){words, owners, jumpers, writers, readers, rows}, budget, count);
}

/* "One step, checks in this order": a run with budget 1. */
uint32_t sheet_step(kl_processor *cpu,
                    uint32_t *words, size_t words_len, uint32_t *owners, size_t owners_len,
                    uint64_t *jumpers, size_t jumpers_len, uint64_t *writers, size_t writers_len,
                    uint64_t *readers, size_t readers_len, kl_row *rows, size_t rows_len)
{
    uint32_t count;
    return sheet_run(cpu, words, words_len, owners, owners_len, jumpers, jumpers_len, writers, writers_len, readers,
                     readers_len, rows, rows_len, 1, &count);
}
