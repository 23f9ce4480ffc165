/* The sheet's images in plain C: loading for either mode, checking, and writing. Each function names the sentence of the
   sheet, or of a request, that it follows. */
#include "sheet.h"
#include "sheet_sizes.h"

#include <string.h>

#define MAIN_SET UINT64_C(1) /* {0} */

/* "all numbers 4 bytes, little-endian": the number at place i, counted in numbers. */
static uint32_t number_at(const uint8_t *bytes, size_t i)
{
    const uint8_t *b = bytes + 4 * i;
    return (uint32_t)b[0] | (uint32_t)b[1] << 8 | (uint32_t)b[2] << 16 | (uint32_t)b[3] << 24;
}

static void put_number(uint8_t *bytes, size_t i, uint32_t number)
{
    for (unsigned k = 0; k < 4; k++) bytes[4 * i + k] = (uint8_t)(number >> 8 * k);
}

/* "left to right 20 where a field is not whole, with 21 .. 25, each as soon as its field is read; then 26". */
static uint32_t check_image(const uint8_t *bytes, size_t bytes_len, size_t lent)
{
    const size_t whole = bytes_len / 4;
    if (whole < 1) return 20;
    const uint32_t n = number_at(bytes, 0);
    if (n < 1 || n > MOST_WORDS) return 21;
    if (n > lent) return 28;
    if (whole < (size_t)n + 2) return 20;
    const uint32_t listed = number_at(bytes, n + 1);
    if (listed > REGISTERS) return 22;
    size_t at = (size_t)n + 2 + listed;
    if (whole < at) return 20;
    if (listed > 0 && number_at(bytes, at - 1) == 0) return 23;
    if (whole < at + 1) return 20;
    if (number_at(bytes, at) != 1) return 24;
    if (whole < at + 2) return 20;
    if (number_at(bytes, at + 1) >= n) return 25;
    return bytes_len == 4 * (at + 2) ? 0 : 26;
}

/* "N = 0 and a blank record (registers 0, pc 0, tags as after loading)". */
static void make_blank(kl_processor *cpu, bool strict)
{
    memset(cpu->regs, 0, sizeof cpu->regs);
    cpu->n = cpu->pc = cpu->prev = 0;
    cpu->jumped = false;
    cpu->strict = strict;
    cpu->next = first_unused(strict);
    for (int s = 0; s < 4; s++) cpu->services[s] = MAIN_SET;
}

/* "Loading fills it": main has every word and may jump to the services, a service has itself and may return to every word. */
static void fill_rows(kl_row rows[ROWS], bool strict, uint32_t n)
{
    memset(rows, 0, ROWS * sizeof rows[0]);
    rows[0] = (kl_row){n, service_count(strict), 0};
    for (uint32_t s = 1; s <= service_count(strict); s++) rows[s] = (kl_row){1, n, 0};
}

/* "27 lent memories differ in length; then .. Accepted: the first N places of each memory are filled, the rest
   keep their contents"; "every owner 0, every I = {1, 2, 3}, every W empty". "a strict mode, chosen at load": the
   readers "all empty after loading", and looked at in no other mode. "18 .. after 27 in a load". */
uint32_t sheet_load(kl_processor *cpu, bool strict, const uint8_t *bytes, size_t bytes_len,
                    uint32_t *words, size_t words_len, uint32_t *owners, size_t owners_len,
                    uint64_t *jumpers, size_t jumpers_len, uint64_t *writers, size_t writers_len,
                    uint64_t *readers, size_t readers_len, kl_row *rows, size_t rows_len)
{
    make_blank(cpu, strict);
    if (!same_lengths(strict, words_len, owners_len, jumpers_len, writers_len, readers_len)) return 27;
    if (rows_len != ROWS) return 18;
    const uint32_t refusal = check_image(bytes, bytes_len, words_len);
    if (refusal != 0) return refusal;

    const uint32_t n = number_at(bytes, 0), listed = number_at(bytes, n + 1);
    for (uint32_t x = 0; x < n; x++) {
        words[x] = number_at(bytes, x + 1);
        owners[x] = 0;
        jumpers[x] = services_set(strict);
        writers[x] = 0;
    }
    if (strict) memset(readers, 0, n * sizeof readers[0]);
    for (uint32_t r = 0; r < listed; r++) cpu->regs[r] = number_at(bytes, n + 2 + r);
    cpu->n = n;
    cpu->pc = number_at(bytes, n + 3 + listed);
    fill_rows(rows, strict, n);
    return 0;
}

/* "one call checks an image, tells N or the refusal and needs no memory": "what the filling call would over four memories
   of 2,048 places". It makes that very load, over memories and rows of its own. */
uint32_t sheet_check(const uint8_t *bytes, size_t bytes_len, uint32_t *n)
{
    static kl_processor cpu;
    static uint32_t words[MOST_WORDS], owners[MOST_WORDS];
    static uint64_t jumpers[MOST_WORDS], writers[MOST_WORDS];
    static kl_row rows[ROWS];
    const uint32_t answer = sheet_load(&cpu, false, bytes, bytes_len, words, MOST_WORDS, owners, MOST_WORDS, jumpers,
                                       MOST_WORDS, writers, MOST_WORDS, writers, 0, rows, ROWS);
    *n = cpu.n;
    return answer;
}

/* "it answers 21, 25, 31 (out buffer too short) in this order, else the length written, and the out buffer
   beyond that length keeps its contents"; "The last listed register is not 0." */
uint32_t sheet_write(const uint32_t *words, size_t words_len, const uint32_t regs[16], uint32_t entry,
                     uint8_t *out, size_t out_len, size_t *length)
{
    *length = 0;
    if (words_len < 1 || words_len > MOST_WORDS) return 21;
    if (entry >= words_len) return 25;
    size_t listed = REGISTERS;
    while (listed > 0 && regs[listed - 1] == 0) listed--;
    if (out_len < 4 * (words_len + listed + 4)) return 31;

    size_t at = 0;
    put_number(out, at++, (uint32_t)words_len);
    for (size_t x = 0; x < words_len; x++) put_number(out, at++, words[x]);
    put_number(out, at++, (uint32_t)listed);
    for (size_t r = 0; r < listed; r++) put_number(out, at++, regs[r]);
    put_number(out, at++, 1);
    put_number(out, at++, entry);
    *length = 4 * at;
    return 0;
}
