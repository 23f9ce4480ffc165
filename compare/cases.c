/* The kinds of cases of the host test: what is called, on which states and images. */
#include "compare.h"

#include <string.h>

static state ours, sheet;
static uint8_t bytes[BYTES_ROOM];

/* Both sides begin with the state that was made for the sheet's. */
static void begin(void) { copy_state(&ours, &sheet); }

/* ---- instruction words ---- */

static const uint32_t EDGES[] = {0,   1,    2,      14,     15,         16,         17,         255,       256,
                                 257, 4095, 0x7FFF, 0x8000, 0xFFFF,     0x10000,    0x10001,    0x1000000, 0x10000000,
                                 0x10000001, 0x80000000, 0xFFFFFFFF};
enum { EDGE_COUNT = sizeof EDGES / sizeof EDGES[0] };

static void decode_around(uint32_t high)
{
    static const uint32_t lows[] = {17, 31, 255, 256, 0x7FFF, 0x8000, 0xFFF0, 0xFFFF};
    for (uint32_t low = 0; low <= 16; low++) check_decode(high << 16 | low);
    for (size_t i = 0; i < sizeof lows / sizeof lows[0]; i++) check_decode(high << 16 | lows[i]);
}

/* Every upper half of a word with the edges of the lower one; the encoder with every opcode at every edge. */
void fixed_words(void)
{
    for (uint32_t high = 0; high < 0x10000; high++) decode_around(high);
    for (uint32_t op = 0; op < 17; op++)
        for (int i = 0; i < EDGE_COUNT; i++)
            for (int j = 0; j < EDGE_COUNT; j++)
                for (int k = 0; k < EDGE_COUNT; k++)
                    check_encode(op < 16 ? op : EDGES[(i + j + k) % EDGE_COUNT], EDGES[i], EDGES[j], EDGES[k]);
}

void words_case(void)
{
    const uint32_t word = any_instruction(), any = (uint32_t)roll(), op = below(16);
    uint32_t fields[4];
    check_decode(word);
    check_decode(word ^ UINT32_C(1) << below(32));
    check_decode(any);
    check_decode(op << 24 | (any & 0xFFFFFF));
    check_encode(word >> 24, word >> 20 & 15, word >> 16 & 15, word & 0xFFFF);
    for (int i = 0; i < 4; i++) fields[i] = one_in(4) ? any_number() : below(17);
    check_encode(op, fields[1], fields[2], fields[3]);
    check_encode(fields[0], any_number(), 0, 0);
}

/* ---- images ---- */

static void load_over(bool strict, size_t length, const size_t lent[MEMORIES])
{
    size_t longest = 0;
    for (int m = 0; m < MEMORIES; m++)
        if (lent[m] > longest) longest = lent[m];
    noise(&sheet, longest);
    memcpy(sheet.lent, lent, sizeof sheet.lent);
    begin();
    check_load(&ours, &sheet, strict, bytes, length);
    check_image(bytes, length);
    if (!one_in(4)) return;
    sheet.rows_lent = odd_length(); /* the same once more, with another table */
    begin();
    check_load(&ours, &sheet, strict, bytes, length);
}

/* In either mode, over memories of one length. */
static void load_equal(size_t length, size_t lent)
{
    for (int strict = 0; strict < 2; strict++) load_over(strict, length, (size_t[]){lent, lent, lent, lent, lent});
}

/* An image whole, cut at each length, with bytes after it, and with each byte changed, over memories of 0 to n + 3
   places and over memories of which one differs. */
static void around_image(uint32_t n)
{
    const size_t length = make_image(bytes, n);
    for (size_t lent = 0; lent <= n + 3; lent++) {
        for (size_t cut = 0; cut <= length + 9; cut++) load_equal(cut, lent);
        for (size_t i = 0; i < 4 * MEMORIES; i++) {
            size_t lengths[MEMORIES] = {lent, lent, lent, lent, lent};
            lengths[i / 4] += i % 4;
            for (int strict = 0; strict < 2; strict++) load_over(strict, length, lengths);
        }
        for (size_t readers = 0; readers < lent; readers++)
            for (int strict = 0; strict < 2; strict++)
                load_over(strict, length, (size_t[]){lent, lent, lent, lent, readers});
    }
    for (size_t i = 0; i < length; i++)
        for (uint32_t change = 1; change < 256; change = change * 2 + 1) {
            bytes[i] ^= (uint8_t)change;
            load_equal(length, n);
            load_equal(length, n + 2);
            bytes[i] ^= (uint8_t)change;
        }
}

void fixed_images(void)
{
    for (uint32_t n = 1; n < 6; n++) around_image(n);
    for (uint32_t n = 2046; n <= 2048; n++) {
        const size_t length = make_image(bytes, n);
        for (size_t lent = n - 2; lent <= n + 2; lent++)
            for (size_t cut = 0; cut < 8; cut++) load_equal(length - cut, lent), load_equal(length + cut, lent);
    }
    for (uint32_t n = 2049; n < 2053; n++) { /* 21 where the lent memories would hold the words */
        make_image(bytes, 2048);
        bytes[0] = (uint8_t)n;
        load_equal(IMAGE_MOST + 16, 2056);
    }
}

void images_case(void)
{
    const uint32_t n = some_size();
    const bool strict = one_in(2);
    size_t length = make_image(bytes, n), lent[MEMORIES];
    for (int m = 0; m < MEMORIES; m++) lent[m] = n;
    while (!one_in(3)) {
        const size_t more = below(4);
        for (int m = 0; m < MEMORIES; m++) lent[m] += more;
        if (lent[0] > n + 6) break;
    }
    if (one_in(16)) for (int m = 0; m < MEMORIES; m++) lent[m] = below(n + 1);
    const uint32_t other = below(MEMORIES);
    if (one_in(16)) lent[other] = below(n + 4);
    if (one_in(strict ? 16 : 2)) lent[READERS] = below(n + 8);
    if (!one_in(4)) spoil_image(bytes, &length);
    if (one_in(8)) spoil_image(bytes, &length);
    load_over(strict, length > IMAGE_MOST + 40 ? IMAGE_MOST + 40 : length, lent);
}

/* ---- the writer ---- */

static uint32_t some_words[ROOM];

static void some_registers(uint32_t regs[16])
{
    const uint32_t listed = below(17);
    for (uint32_t i = 0; i < 16; i++) regs[i] = i < listed && !one_in(3) ? any_number() : 0;
}

static void write_around(size_t n, const uint32_t regs[16], uint32_t entry)
{
    size_t listed = 16;
    while (listed > 0 && regs[listed - 1] == 0) listed--;
    const size_t exact = n <= 2048 ? 4 * (n + listed + 4) : 64;
    check_write(some_words, n, regs, entry, exact);
    check_write(some_words, n, regs, entry, exact - 1);
    check_write(some_words, n, regs, entry, exact + below(17));
    check_write(some_words, n, regs, entry, below((uint32_t)exact));
}

void fixed_writes(void)
{
    static const size_t sizes[] = {0, 1, 2, 3, 2047, 2048, 2049, 2056};
    uint32_t regs[16];
    for (int i = 0; i < ROOM; i++) some_words[i] = (uint32_t)roll();
    for (size_t i = 0; i < sizeof sizes / sizeof sizes[0]; i++)
        for (uint32_t listed = 0; listed <= 16; listed++) {
            const uint32_t n = (uint32_t)sizes[i];
            for (uint32_t r = 0; r < 16; r++) regs[r] = r + 1 == listed ? UINT32_C(0x80000000) : 0;
            write_around(n, regs, 0);
            write_around(n, regs, n - 1);
            write_around(n, regs, n);
            write_around(n, regs, UINT32_MAX);
        }
}

void writes_case(void)
{
    uint32_t regs[16];
    const uint32_t n = one_in(64) ? between(2047, 2056) : one_in(16) ? 0 : some_size();
    some_registers(regs);
    for (uint32_t i = 0; i < n; i++) some_words[i] = any_number();
    write_around(n, regs, one_in(4) ? near_address(n) : below(n + 1));
}

/* ---- states ---- */

static uint32_t some_budget(void)
{
    return one_in(8) ? 0 : one_in(4) ? 1 : one_in(8) ? any_number() % 5000 : below(40);
}

/* A step or a run from the state made, then up to `most` steps on from where it led; after a stop seldom one more. */
static void go_on(uint32_t most)
{
    begin();
    uint32_t answer = one_in(2) ? check_step(&ours, &sheet) : check_run(&ours, &sheet, some_budget()).answer;
    for (uint32_t i = 0; i < most && (answer == 0 || one_in(8)); i++) answer = check_step(&ours, &sheet);
}

void states_case(void)
{
    make_state(&sheet, some_size(), one_in(2));
    go_on(4);
}

void refused_case(void)
{
    make_state(&sheet, one_in(100) ? 2048 : some_size(), one_in(2));
    spoil_state(&sheet);
    if (sheet.cpu.n > 2040 && sheet.cpu.n < 2056) lend(&sheet, sheet.kept - 4);
    go_on(1);
}

/* A', J', S' and R' are one set of 1,023 pairs that fill a memory of 2,048 words; then with one pair or the count
   other. */
static void full_set(bool strict, uint32_t count, uint32_t place, uint32_t first, uint32_t past)
{
    make_state(&sheet, 2048, strict);
    sheet.rows_lent = ROWS;
    kl_processor *p = &sheet.cpu;
    p->pc = ISOLATE, p->prev = 0, p->jumped = true, p->next = 63, p->services[0] |= 1;
    p->regs[1] = p->regs[2] = p->regs[3] = p->regs[4] = 0, p->regs[15] = 5;
    sheet.words[0] = count;
    for (uint32_t i = 0; i < 1023; i++) {
        sheet.words[1 + 2 * i] = i % 2 == 0 ? 1000 : 1000 + i;
        sheet.words[2 + 2 * i] = 2048;
    }
    sheet.words[1 + 2 * place] = first, sheet.words[2 + 2 * place] = past;
    for (uint32_t x = 0; x < 2048; x++) sheet.owners[x] = 0;
    begin();
    check_step(&ours, &sheet);
}

static void full_sets(bool strict)
{
    static const uint32_t pairs[][2] = {{1000, 2048}, {0, UINT32_MAX}, {0, 4099}, {4096, 4099}, {2047, 2049}, {7, 7},
                                        {5, 6},       {0, 1},          {0, 4100}, {4096, 4100}};
    static const uint32_t counts[] = {1023, 1022, 0, 1024, 0x7FFFFFFF, 0x80000000, 0x80000001, 0x800003FF, UINT32_MAX};
    for (size_t i = 0; i < sizeof pairs / sizeof pairs[0]; i++)
        for (uint32_t place = 0; place < 1023; place += 511) full_set(strict, 1023, place, pairs[i][0], pairs[i][1]);
    for (size_t i = 0; i < sizeof counts / sizeof counts[0]; i++) full_set(strict, counts[i], 0, 1000, 2048);
}

void fixed_services(void)
{
    full_sets(false);
    full_sets(true);
}

void services_case(void)
{
    make_service_call(&sheet, one_in(2));
    go_on(2);
}

/* A step with a table that is none, which moves nothing; then 64 rows are lent again. */
static void try_odd_rows(void)
{
    ours.rows_lent = sheet.rows_lent = odd_length();
    check_step(&ours, &sheet);
    ours.rows_lent = sheet.rows_lent = ROWS;
}

/* Loads a program on both sides and runs it in pieces, up to some thousand steps. */
void programs_case(void)
{
    const bool strict = one_in(2);
    const size_t length = make_program(bytes, strict), lent = PROGRAM_SIZE + below(5);
    noise(&sheet, lent);
    lend(&sheet, lent);
    if (!strict && one_in(2)) sheet.lent[READERS] = below((uint32_t)lent + 5);
    begin();
    if (check_load(&ours, &sheet, strict, bytes, length) != 0) return;
    check_right(&ours);
    for (uint32_t pieces = between(1, 6), answer = 0; pieces > 0 && answer == 0; pieces--) {
        answer = check_run(&ours, &sheet, one_in(4) ? below(3000) : below(200)).answer;
        check_right(&ours);
        if (one_in(8)) try_odd_rows();
    }
    check_step(&ours, &sheet);
    check_right(&ours);
}

/* ---- the counts ---- */

/* Long lists, with N and their ends around the services' addresses. */
void fixed_counts(void)
{
    enum { LONG = 4104 };
    static uint32_t owners[LONG];
    static uint64_t jumpers[LONG], writers[LONG];
    noise(&sheet, 0);
    for (uint32_t x = 0; x < LONG; x++) owners[x] = below(70), jumpers[x] = roll(), writers[x] = roll() & roll();
    for (uint32_t n = ISOLATE - 1; n <= ADD_READ + 2; n++)
        for (size_t length = ISOLATE - 1; length <= ADD_READ + 2; length++)
            for (int strict = 0; strict < 2; strict++) {
                sheet.cpu.n = n, sheet.cpu.strict = strict;
                check_counted(&(counted){&sheet.cpu, owners, jumpers, writers, {0, length, length, length, 0}});
            }
}

/* Memories of any lengths and any N, besides states that 14 lets pass. */
void counts_case(void)
{
    make_state(&sheet, some_size(), one_in(2));
    const uint32_t most = (uint32_t)(sheet.kept - GUARD), kind = below(6);
    for (int m = 0; m < MEMORIES; m++)
        if (kind > 0) sheet.lent[m] = below(most + 1);
    if (kind == 1) sheet.cpu.n = below(most + 4);
    if (kind == 2) sheet.cpu.n = between(ISOLATE - 1, ADD_READ + 2);
    if (kind == 3) sheet.cpu.n = any_number();
    begin();
    check_counts(&ours, &sheet);
}
