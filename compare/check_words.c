/* The checker of the calls that are lent no state: makes a call on both sides, compares what they told and wrote, and reports
   the first difference in full. */
#include "compare.h"

#include <inttypes.h>
#include <stdio.h>
#include <string.h>

void check_image(const uint8_t *bytes, size_t length)
{
    uint32_t n = any_number(), wanted = any_number();
    const uint32_t ours = kl_check(bytes, length, &n), sheet = sheet_check(bytes, length, &wanted);
    count_case(sheet);
    if (ours == sheet && n == wanted) return;
    begin_report("kl_check");
    printf("  %zu bytes:", length);
    for (size_t i = 0; i < length; i++) printf(" %02X", bytes[i]);
    printf("\n");
    show("answer", ALONE, ours, sheet);
    show("n", ALONE, n, wanted);
    end_report();
}

void check_decode(uint32_t word)
{
    uint32_t a[4], b[4];
    for (int i = 0; i < 4; i++) a[i] = b[i] = any_number();
    const uint32_t ours = kl_decode(word, a), sheet = sheet_decode(word, b);
    count_case(sheet);
    if (ours == sheet && memcmp(a, b, sizeof a) == 0) return;
    begin_report("kl_decode");
    printf("  word %08" PRIX32 "\n", word);
    show("answer", ALONE, ours, sheet);
    for (size_t i = 0; i < 4; i++) show("field", i, a[i], b[i]);
    end_report();
}

void check_encode(uint32_t op, uint32_t a, uint32_t b, uint32_t low)
{
    uint32_t word = any_number(), wanted = any_number();
    const uint32_t ours = kl_encode(op, a, b, low, &word), sheet = sheet_encode(op, a, b, low, &wanted);
    count_case(sheet);
    if (ours == sheet && word == wanted) return;
    begin_report("kl_encode");
    printf("  op %" PRIu32 " a %" PRIu32 " b %" PRIu32 " low %" PRIu32 "\n", op, a, b, low);
    show("answer", ALONE, ours, sheet);
    show("word", ALONE, word, wanted);
    end_report();
}

void check_write(const uint32_t *words, size_t n, const uint32_t regs[16], uint32_t entry, size_t out_len)
{
    static uint8_t out[BYTES_ROOM], wanted[BYTES_ROOM];
    const size_t kept = out_len + GUARD;
    size_t length = any_number(), wanted_length = any_number();
    for (size_t i = 0; i < kept; i++) out[i] = wanted[i] = (uint8_t)(i * 37 + 11);
    const uint32_t ours = kl_write(words, n, regs, entry, out, out_len, &length);
    const uint32_t sheet = sheet_write(words, n, regs, entry, wanted, out_len, &wanted_length);
    count_case(sheet);
    if (ours == sheet && length == wanted_length && memcmp(out, wanted, kept) == 0) return;
    begin_report("kl_write");
    printf("  %zu words, entry %" PRIu32 ", out buffer of %zu bytes, registers", n, entry, out_len);
    for (int i = 0; i < 16; i++) printf(" %" PRIX32, regs[i]);
    printf("\n  words");
    for (size_t i = 0; i < n; i++) printf(" %08" PRIX32, words[i]);
    printf("\n");
    show("answer", ALONE, ours, sheet);
    show("length", ALONE, length, wanted_length);
    for (size_t i = 0; i < kept; i++) show("byte at", i, out[i], wanted[i]);
    end_report();
}
