/* Words exported by the library and by plain C: answers, lengths, texts and what stands behind them. */
#include "compare.h"

#include <inttypes.h>
#include <stdio.h>
#include <string.h>

enum { TEXT_ROOM = KL_HEX_MAX + 64 };

static uint32_t some_words[ROOM];

static void check_export(size_t n, size_t out_len)
{
    static uint8_t out[TEXT_ROOM], wanted[TEXT_ROOM];
    const size_t kept = out_len + GUARD;
    size_t length = any_number(), wanted_length = any_number();
    for (size_t i = 0; i < kept; i++) out[i] = wanted[i] = (uint8_t)(i * 37 + 11);
    const uint32_t ours = kl_export(some_words, n, out, out_len, &length);
    const uint32_t sheet = sheet_export(some_words, n, wanted, out_len, &wanted_length);
    count_case(sheet);
    if (ours == sheet && length == wanted_length && memcmp(out, wanted, kept) == 0) return;
    begin_report("kl_export");
    printf("  out buffer of %zu bytes, %zu words", out_len, n);
    for (size_t i = 0; i < n; i++) printf(" %08" PRIX32, some_words[i]);
    printf("\n");
    show("answer", ALONE, ours, sheet);
    show("length", ALONE, length, wanted_length);
    for (size_t i = 0; i < kept; i++) show("byte at", i, out[i], wanted[i]);
    end_report();
}

/* Buffers just too short, just long enough and longer, and an empty one. */
static void export_around(size_t n)
{
    const size_t needed = n < 1 || n > KL_PLACES ? 12 : 8 * n + 12 * ((n + 3) / 4) + 12;
    check_export(n, needed - 1);
    check_export(n, needed);
    check_export(n, needed + GUARD);
    check_export(n, 0);
}

void fixed_exports(void)
{
    static const size_t sizes[] = {0, 1, 2, 3, 4, 5, 7, 8, 9, 63, 64, 65, 1024, 2047, 2048, 2049, 2056};
    for (size_t i = 0; i < ROOM; i++) some_words[i] = (uint32_t)roll();
    for (size_t i = 0; i < sizeof sizes / sizeof sizes[0]; i++) export_around(sizes[i]);
}

void exports_case(void)
{
    const uint32_t n = one_in(64) ? between(2040, 2056) : one_in(16) ? below(6) : some_size();
    for (uint32_t i = 0; i < n; i++) some_words[i] = any_number();
    export_around(n);
}
