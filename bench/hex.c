/* Times Intel HEX beside the plain C of sheet_export.c and sheet_import.c: 2,048 words written as a text, and read from it. */
#include "bench.h"
#include "kldemuvash.h"
#include "sheet.h"

#include <stdio.h>
#include <string.h>

/* A side: its calls, and what they wrote last. */
typedef struct side {
    uint32_t (*export)(const uint32_t *, size_t, uint8_t *, size_t, size_t *);
    uint32_t (*import)(const uint8_t *, size_t, const uint32_t *, uint32_t, uint8_t *, size_t, uint64_t *, size_t *);
    uint8_t text[KL_HEX_MAX], image[KL_IMAGE_MAX];
    size_t text_len, image_len;
} side;

static uint32_t words[KL_PLACES];

static uint32_t write_text(side *s) { return s->export(words, KL_PLACES, s->text, sizeof s->text, &s->text_len); }

static uint32_t read_text(side *s)
{
    static const uint32_t regs[KL_REGISTERS];
    uint64_t line;
    return s->import(s->text, s->text_len, regs, 0, s->image, sizeof s->image, &line, &s->image_len);
}

static double timed(const char *name, uint32_t (*work)(side *), side *s, uint32_t repeats)
{
    const double began = now_ms();
    for (uint32_t i = 0; i < repeats; i++)
        if (work(s) != 0) fail(name, "it was refused");
    return now_ms() - began;
}

static void row(const char *name, uint32_t (*work)(side *), side *c, side *ours, double ms, int rounds)
{
    fprintf(stderr, "bench: %s: calibrating\n", name);
    uint32_t repeats = 1;
    while (timed(name, work, c, repeats) < ms / 8) repeats *= 2;
    repeats *= 8;
    double c_ms = 1e300, ours_ms = 1e300;
    for (int round = 0; round < rounds; round++) {
        c_ms = least(c_ms, timed(name, work, c, repeats));
        ours_ms = least(ours_ms, timed(name, work, ours, repeats));
        fprintf(stderr, "bench: %s: round %d of %d, least so far: C %.1f ms, ours %.1f ms\n", name, round + 1, rounds, c_ms,
                ours_ms);
    }
    const double kilobytes = 1e-3 * (double)c->text_len * repeats;
    printf("%-30s %12u %10.2f %10.2f %8.2f\n", name, (unsigned)repeats, kilobytes / c_ms, kilobytes / ours_ms, c_ms / ours_ms);
}

void hex_rows(double ms, int rounds)
{
    static _Alignas(4096) side c = {.export = sheet_export, .import = sheet_import};
    static _Alignas(4096) side ours = {.export = kl_export, .import = kl_import};
    for (uint32_t i = 0; i < KL_PLACES; i++) words[i] = i * UINT32_C(2654435761);
    row("HEX: exporting 2,048 words", write_text, &c, &ours, ms, rounds);
    if (c.text_len != ours.text_len || memcmp(c.text, ours.text, c.text_len) != 0) fail("HEX", "the texts differ");
    row("HEX: importing 2,048 words", read_text, &c, &ours, ms, rounds);
    if (c.image_len != ours.image_len || memcmp(c.image, ours.image, c.image_len) != 0) fail("HEX", "the images differ");
    printf("(the last two rows count texts: MB of text a second by plain C and by the library, and the ratio of their times)\n");
}
