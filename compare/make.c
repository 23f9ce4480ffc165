/* Random states and service calls for the host test: well formed more often than not, and often near an edge. */
#include "compare.h"

uint32_t some_size(void)
{
    if (one_in(500)) return one_in(2) ? 2048 : between(65, 2047);
    return one_in(4) ? between(25, 64) : between(1, 24);
}

void lend(state *s, size_t length)
{
    for (int m = 0; m < MEMORIES; m++) s->lent[m] = length;
}

size_t odd_length(void)
{
    static const size_t lengths[] = {0, 1, ROWS - 1, ROWS - 1, ROWS + 1, ROWS + 1, ROWS_MOST};
    if (!one_in(4)) return lengths[below(sizeof lengths / sizeof lengths[0])];
    const size_t any = below(ROWS_MOST);
    return any == ROWS ? 0 : any;
}

/* Rows of any contents: zeros, numbers at the edges, or any. */
static void noise_rows(state *s)
{
    const uint32_t kind = below(3);
    s->rows_lent = ROWS;
    for (size_t c = 0; c < ROWS_ROOM; c++) {
        const uint64_t any = roll();
        s->rows[c] = kind == 0   ? (kl_row){0, 0, 0}
                     : kind == 1 ? (kl_row){any_number(), any_number(), any_number()}
                                 : (kl_row){(uint32_t)any, (uint32_t)(any >> 32), (uint32_t)(any >> 16)};
    }
}

void noise(state *s, size_t longest)
{
    s->kept = longest + GUARD;
    noise_rows(s);
    for (size_t i = 0; i < s->kept; i++) {
        s->words[i] = (uint32_t)roll();
        s->owners[i] = below(80);
        s->jumpers[i] = roll();
        s->writers[i] = roll();
        s->readers[i] = roll();
    }
    for (int i = 0; i < 16; i++) s->cpu.regs[i] = (uint32_t)roll();
    for (int i = 0; i < 4; i++) s->cpu.services[i] = roll();
    s->cpu.n = any_number();
    s->cpu.pc = any_number();
    s->cpu.prev = any_number();
    s->cpu.next = any_number();
    s->cpu.jumped = one_in(2);
    s->cpu.strict = one_in(2);
}

/* A few compartment numbers that a state's tags are drawn from, so that they meet. */
static struct {
    uint32_t numbers[4], next;
    bool odd; /* whether numbers that 15 turns away, and stray bits, are among the tags */
} few;

static void choose_few(bool strict)
{
    const uint32_t first = first_unused(strict);
    few.next = one_in(6) ? between(63, 64) : one_in(12) ? between(first, 64) : between(first, 9);
    few.odd = one_in(4);
    for (int i = 0; i < 4; i++) few.numbers[i] = few.next > first && !one_in(3) ? between(first, few.next - 1) : 0;
}

static uint32_t some_owner(void)
{
    if (few.odd && one_in(6)) return one_in(3) ? any_number() : one_in(2) ? between(1, 4) : few.next + below(2);
    return few.numbers[below(4)];
}

/* A set over the few numbers; `always` are bits that it has in any case, most often. */
static uint64_t some_set(uint64_t always)
{
    uint64_t set = one_in(16) ? 0 : always;
    for (int i = 0; i < 4; i++)
        if (one_in(3)) set |= UINT64_C(1) << few.numbers[i];
    if (one_in(8)) set |= UINT64_C(2) << below(4);
    if (few.odd && one_in(8)) set |= one_in(2) ? roll() : UINT64_C(1) << below(64);
    return set;
}

static uint32_t some_word(void)
{
    const uint32_t kind = below(16), word = any_instruction();
    switch (kind) {
    case 0: return any_number();
    case 1: return below(6);
    case 2: return word | UINT32_C(1) << below(32);
    default: return word;
    }
}

static void choose_position(state *s)
{
    kl_processor *p = &s->cpu;
    const uint32_t where = below(8);
    p->pc = where < 6 ? below(p->n) : where == 6 ? between(ISOLATE, ADD_READ) : near_address(p->n);
    p->prev = few.numbers[below(4)];
    if (p->pc < p->n && !one_in(3)) p->prev = s->owners[p->pc];
    if (p->pc < p->n && one_in(8)) p->prev = between(1, 4);
    if (p->prev >= p->next && !one_in(16)) p->prev = 0;
    p->jumped = one_in(2);
}

void make_state(state *s, uint32_t n, bool strict)
{
    const size_t length = n + (one_in(2) ? 0 : below(6));
    choose_few(strict);
    noise(s, length);
    lend(s, length);
    if (!strict && one_in(2)) s->lent[READERS] = below((uint32_t)length + 5); /* any length will do */
    if (one_in(24)) s->rows_lent = odd_length();
    s->cpu.n = n;
    s->cpu.strict = strict;
    s->cpu.next = few.next;
    for (uint32_t x = 0; x < n; x++) {
        s->words[x] = some_word();
        s->owners[x] = x > 0 && !one_in(4) ? s->owners[x - 1] : some_owner();
        s->jumpers[x] = some_set(services_set(strict));
        s->writers[x] = some_set(0);
        s->readers[x] = some_set(0);
    }
    for (size_t x = n; x < s->kept; x++) { /* what lies beyond N tempts, too */
        s->words[x] = one_in(2) ? near_address(n) : any_number();
        s->owners[x] = some_owner();
    }
    for (int i = 0; i < 16; i++) s->cpu.regs[i] = one_in(8) ? any_number() : near_address(n);
    for (int i = 0; i < 4; i++) s->cpu.services[i] = some_set(1);
    choose_position(s);
}

/* ---- states to be turned away ---- */

static void spoil_once(state *s)
{
    kl_processor *p = &s->cpu;
    const size_t other = below(MEMORIES);
    switch (below(14)) {
    case 0: s->lent[other] += 1 + below(3); break;
    case 1: if (s->lent[other] > 0) s->lent[other]--; break;
    case 2: p->n = 0; break;
    case 3: p->n = (uint32_t)s->lent[WORDS] + below(3); break;
    case 4: p->n = any_number(); break;
    case 5: p->next = one_in(2) ? between(0, 5) : between(63, 66); break;
    case 6: p->next = any_number(); break;
    case 7: p->prev = p->next - 1 + below(3); break;
    case 8: p->prev = any_number(); break;
    case 9: p->pc = between(ISOLATE, ADD_READ), p->prev = between(0, 5), p->jumped = true; break;
    case 10: if (p->pc < s->kept) s->owners[p->pc] = between(0, 5); break;
    case 11: if (p->pc < s->kept) s->owners[p->pc] = one_in(2) ? any_number() : p->next - 1 + below(3); break;
    case 12: p->strict = !p->strict; break;
    case 13: s->rows_lent = odd_length(); break;
    }
}

void spoil_state(state *s)
{
    s->kept += 4; /* room for a longer lent length before the guards */
    for (size_t i = s->kept - 4; i < s->kept; i++) {
        s->words[i] = s->owners[i] = (uint32_t)roll();
        s->jumpers[i] = s->writers[i] = s->readers[i] = roll();
    }
    do spoil_once(s);
    while (one_in(5));
    for (int m = 0; m < MEMORIES; m++) /* keep a guard past each */
        if (s->lent[m] + 4 > s->kept) s->lent[m] = s->kept - 4;
}

/* ---- service calls ---- */

/* An address that the caller may use for this set: its own, or one whose tag names it, most often. */
static uint32_t usable(const state *s, const uint64_t *sets)
{
    uint32_t x = below(s->cpu.n);
    for (int tries = 0; tries < 8; tries++) {
        if (s->owners[x] == s->cpu.prev || (sets != NULL && sets[x] >> s->cpu.prev & 1)) return x;
        x = below(s->cpu.n);
    }
    return x;
}

static void odd_pair(uint32_t pair[2], uint32_t n)
{
    static const uint32_t odd[][2] = {{0, 0xFFFFFFFF}, {4096, 4099}, {4096, 4097}, {4095, 4097}, {4098, 4100},
                                      {4097, 4098},    {0, 4099},    {0, 0},       {5, 5},       {7, 3},
                                      {4097, 4099},    {0xFFFFFFFE, 0xFFFFFFFF},   {4096, 4100},
                                      {4099, 4100},    {4096, 4101}, {4099, 4101}};
    if (one_in(3)) {
        pair[0] = near_address(n);
        pair[1] = one_in(2) ? pair[0] + below(3) : n + below(3);
    } else {
        const uint32_t i = below(sizeof odd / sizeof odd[0]);
        pair[0] = odd[i][0], pair[1] = odd[i][1];
    }
}

/* Lets the caller read the words of the set from `at` to `past`, but for one word now and then. */
static void let_read(state *s, uint32_t at, uint32_t past, uint32_t odds)
{
    for (uint32_t x = at; x < past && x < s->cpu.n; x++)
        if (s->owners[x] != s->cpu.prev && !one_in(odds)) s->readers[x] |= UINT64_C(1) << s->cpu.prev;
}

/* Writes a set of up to `most` pairs at `at`, where it fits; gives the place past it. */
static uint32_t make_set(state *s, uint32_t at, uint32_t most, const uint64_t *sets, bool odd)
{
    const uint32_t n = s->cpu.n, room = at < n ? (n - 1 - at) / 2 : 0, services = service_count(s->cpu.strict);
    uint32_t count = below((most < room ? most : room) + 1);
    if (count == 0 && room > 0 && !one_in(4)) count = 1;
    if (at >= n) return at;
    s->words[at] = count;
    for (uint32_t i = 0; i < count; i++) {
        uint32_t *pair = &s->words[at + 1 + 2 * i];
        pair[0] = usable(s, sets);
        pair[1] = pair[0] + 1;
        while (pair[1] < n && (s->owners[pair[1]] == s->cpu.prev) && !one_in(3)) pair[1]++;
        if (sets == s->jumpers && one_in(4)) {
            pair[0] = ISOLATE + below(services);
            pair[1] = between(pair[0] + 1, ISOLATE + services);
        }
        if (odd && one_in(4)) odd_pair(pair, n);
    }
    const uint32_t past = at + 1 + 2 * count;
    let_read(s, at, past, odd ? 16 : 200);
    const uint32_t wraps = UINT32_C(0x80000000) + count; /* twice it is twice count modulo 2^32 */
    if (odd && one_in(6)) s->words[at] = one_in(2) ? room + below(2) : one_in(2) ? any_number() : wraps;
    return past;
}

static void make_sets(state *s, bool odd)
{
    kl_processor *p = &s->cpu;
    const uint32_t most = p->n > 64 ? p->n / 8 : 3;
    p->regs[1] = one_in(2) ? below(p->n) : below(p->n / 4 + 1);
    p->regs[2] = make_set(s, p->regs[1], most, NULL, odd);
    p->regs[3] = make_set(s, p->regs[2], most, s->jumpers, odd);
    const uint32_t last = make_set(s, p->regs[3], most, s->writers, odd);
    if (p->strict) p->regs[4] = last, make_set(s, last, most, s->readers, odd);
    if (p->regs[2] >= p->n || one_in(12)) p->regs[2] = p->regs[1];
    if (p->regs[3] >= p->n || one_in(12)) p->regs[3] = one_in(2) ? p->regs[1] : p->regs[2];
    if (p->strict && (p->regs[4] >= p->n || one_in(12))) p->regs[4] = one_in(2) ? p->regs[1] : p->regs[3];
    const uint32_t moved = between(1, 4);
    if (odd && one_in(4)) p->regs[moved] = near_address(p->n);
}

void make_service_call(state *s, bool strict)
{
    const bool odd = one_in(3);
    make_state(s, one_in(300) ? 2048 : between(6, 64), strict);
    kl_processor *p = &s->cpu;
    p->pc = one_in(4) ? between(ADD_JUMP, strict || odd ? ADD_READ : ADD_STORE) : ISOLATE;
    p->prev = few.numbers[below(4)];
    p->jumped = !one_in(12);
    for (uint32_t x = 0; x < p->n; x++)
        if (!one_in(3)) s->owners[x] = p->prev;
    for (int i = 0; i < 4; i++)
        if (!one_in(12)) p->services[i] |= UINT64_C(1) << p->prev;
    if (p->pc == ISOLATE) make_sets(s, odd);
    else p->regs[1] = odd ? near_address(p->n) : usable(s, NULL);
    p->regs[15] = odd && one_in(3) ? near_address(p->n) : usable(s, NULL);
}
