/* Times the assembler: a text of 2,048 words with 1,000 labels, each word line using one, beside the same text with numbers. */
#include "bench.h"
#include "kldemuvash.h"

#include <stdint.h>
#include <stdio.h>
#include <string.h>

enum { WORDS = 2048, LABELS = 1000, TEXT_MOST = 1 << 17, IMAGE_MOST = 8272 };

/* A text, and what it assembles to. */
typedef struct source {
    char text[TEXT_MOST];
    size_t length;
    uint8_t image[IMAGE_MOST];
    size_t image_len;
} source;

/* A label stands before every second word, until there are 1,000; each word line uses the label that is 367 further on. In the second
   text a comment stands where a label is defined, and a number of as many digits where it is used. */
static void make_text(source *s, int labels)
{
    s->length = 0;
    for (int word = 0; word < WORDS; word++) {
        char *to = s->text + s->length;
        const int used = (word + 367) % LABELS, address = 2 * used;
        int n = 0;
        if (word % 2 == 0 && word / 2 < LABELS) n = sprintf(to, labels ? "label_%04d:\n" : ";abel_%04d:\n", word / 2);
        if (labels) n += sprintf(to + n, "        Const label_%04d r%d\n", used, word % 16);
        else n += sprintf(to + n, "        Const 000000%04d r%d\n", address, word % 16);
        s->length += (size_t)n;
    }
}

static void assemble(source *s, const char *name)
{
    uint64_t line;
    if (kl_assemble((const uint8_t *)s->text, s->length, s->image, sizeof s->image, &line, &s->image_len) != 0)
        fail(name, "the text was refused");
}

static double timed(source *s, uint32_t repeats, const char *name)
{
    const double began = now_ms();
    for (uint32_t i = 0; i < repeats; i++) assemble(s, name);
    return now_ms() - began;
}

void sources_row(double ms, int rounds)
{
    static const char name[] = "assembling 2,048 words";
    static source labels, numbers;
    make_text(&labels, 1);
    make_text(&numbers, 0);
    fprintf(stderr, "bench: %s: calibrating\n", name);
    uint32_t repeats = 1;
    while (timed(&numbers, repeats, name) < ms / 8) repeats *= 2;
    repeats *= 8;
    double labels_ms = 1e300, numbers_ms = 1e300;
    for (int round = 0; round < rounds; round++) {
        numbers_ms = least(numbers_ms, timed(&numbers, repeats, name));
        labels_ms = least(labels_ms, timed(&labels, repeats, name));
        fprintf(stderr, "bench: %s: round %d of %d, least so far: numbers %.1f ms, labels %.1f ms\n", name, round + 1, rounds, numbers_ms, labels_ms);
    }
    if (labels.image_len != numbers.image_len || memcmp(labels.image, numbers.image, labels.image_len) != 0)
        fail(name, "the two texts gave two images");
    printf("%-30s %12u %10.2f %10.2f %8.2f\n", name, (unsigned)repeats, numbers_ms, labels_ms, labels_ms / numbers_ms);
    printf("(the last row counts texts: the time with numbers, the time with 1,000 labels, and how many times the one is the other)\n");
}
