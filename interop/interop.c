/* Makes random words for the real tools, and compares what they read and wrote with what the library reads and writes.
   interop make SEED COUNT FOLDER: for each i below COUNT, FOLDER/i.bin has the bytes of words, FOLDER/i.gap the first and
   the past of places among them that are 0, and FOLDER/i.ours.hex the library's export.
   interop check COUNT FOLDER: each text that a tool wrote of i.bin must be imported as its words, with any registers and
   entry, and each file that a tool read back from i.ours.hex must be i.bin. */
#include "kldemuvash.h"

#include <inttypes.h>
#include <stdio.h>
#include <stdlib.h>
#include <string.h>

enum { BYTES_MOST = 4 * KL_PLACES, TEXT_MOST = 1 << 18 };

/* Texts that tools wrote, and files that tools read back. */
static const char *const TEXTS[] = {"objcopy.hex", "srec.hex", "short.hex", "long.hex",
                                    "crlf.hex", "plain.hex", "gap.hex", "start.hex"};
static const char *const BACKS[] = {"objcopy.back", "srec.back"};
#define COUNT_OF(list) (sizeof(list) / sizeof((list)[0]))

static uint8_t bytes[BYTES_MOST], text[TEXT_MOST], image[KL_IMAGE_MAX], wanted[KL_IMAGE_MAX];
static uint32_t words[KL_PLACES];

static uint64_t dice;

static uint32_t roll(void)
{
    uint64_t x = dice += UINT64_C(0x9E3779B97F4A7C15);
    x = (x ^ x >> 30) * UINT64_C(0xBF58476D1CE4E5B9);
    x = (x ^ x >> 27) * UINT64_C(0x94D049BB133111EB);
    return (uint32_t)((x ^ x >> 31) >> 16);
}

static void could_not(const char *what, const char *name)
{
    fprintf(stderr, "interop: %s: %s\n", what, name);
    exit(4);
}

static FILE *open_part(const char *folder, uint64_t i, const char *part, const char *mode)
{
    char name[4096];
    snprintf(name, sizeof name, "%s/%" PRIu64 ".%s", folder, i, part);
    FILE *f = fopen(name, mode);
    if (f == NULL) could_not("a file could not be opened", name);
    return f;
}

static void write_part(const char *folder, uint64_t i, const char *part, const void *from, size_t length)
{
    FILE *f = open_part(folder, i, part, "wb");
    if (fwrite(from, 1, length, f) != length || fclose(f) != 0) could_not("a file could not be written", part);
}

static size_t read_part(const char *folder, uint64_t i, const char *part, uint8_t *to, size_t most)
{
    FILE *f = open_part(folder, i, part, "rb");
    const size_t length = fread(to, 1, most, f);
    if (ferror(f) || fclose(f) != 0) could_not("a file could not be read", part);
    return length;
}

/* Often at an edge of a record or of memory. */
static uint32_t some_size(void)
{
    static const uint32_t edges[] = {1, 2, 3, 4, 5, 7, 8, 9, 63, 64, 65, 1023, 1024, 2047, 2048};
    return roll() % 3 == 0 ? edges[roll() % COUNT_OF(edges)] : 1 + roll() % (roll() % 4 == 0 ? KL_PLACES : 80);
}

static void make(uint64_t i, const char *folder)
{
    const uint32_t n = some_size();
    for (uint32_t w = 0; w < n; w++) words[w] = roll() % 8 == 0 ? 0 : roll() << 16 ^ roll();
    const uint32_t first = roll() % n, past = first + roll() % (n - first); /* the last word keeps its bytes */
    for (uint32_t w = first; w < past; w++) words[w] = 0;
    for (uint32_t b = 0; b < 4 * n; b++) bytes[b] = (uint8_t)(words[b / 4] >> 8 * (b % 4));
    write_part(folder, i, "bin", bytes, 4 * n);
    char gap[64];
    write_part(folder, i, "gap", gap, (size_t)snprintf(gap, sizeof gap, "%" PRIu32 " %" PRIu32 "\n", 4 * first, 4 * past));
    size_t length;
    if (kl_export(words, n, text, KL_HEX_MAX, &length) != 0) could_not("the library refused words", "kl_export");
    write_part(folder, i, "ours.hex", text, length);
}

static uint64_t differences;

static void differs(uint64_t i, const char *part, const char *what, uint64_t number)
{
    printf("interop: DIFFERENCE: %" PRIu64 ".%s: %s %" PRIu64 "\n", i, part, what, number);
    differences++;
}

/* The text must be the words, with the registers and the entry that are given. */
static void check_text(uint64_t i, const char *part, const char *folder, uint32_t n)
{
    uint32_t regs[KL_REGISTERS];
    for (int r = 0; r < KL_REGISTERS; r++) regs[r] = roll() % 2 == 0 ? 0 : roll();
    const uint32_t entry = roll() % n;
    uint64_t line;
    size_t length, wanted_length;
    const size_t text_length = read_part(folder, i, part, text, sizeof text);
    memset(image, 0xA5, sizeof image);
    memset(wanted, 0xA5, sizeof wanted);
    const uint32_t answer = kl_import(text, text_length, regs, entry, image, sizeof image, &line, &length);
    if (answer != 0) differs(i, part, "kl_import answers", answer);
    else if (kl_write(words, n, regs, entry, wanted, sizeof wanted, &wanted_length) != 0 || length != wanted_length ||
             memcmp(image, wanted, sizeof image) != 0)
        differs(i, part, "the image is another, of bytes", length);
}

static void check_back(uint64_t i, const char *part, const char *folder, uint32_t n)
{
    const size_t length = read_part(folder, i, part, text, sizeof text);
    if (length != 4 * n) differs(i, part, "the bytes are as many as", length);
    else if (memcmp(text, bytes, length) != 0) differs(i, part, "the bytes are others, of", length);
}

static void check(uint64_t i, const char *folder)
{
    const uint32_t n = (uint32_t)read_part(folder, i, "bin", bytes, sizeof bytes) / 4;
    for (uint32_t w = 0; w < n; w++) {
        const uint8_t *b = bytes + 4 * w;
        words[w] = (uint32_t)b[0] | (uint32_t)b[1] << 8 | (uint32_t)b[2] << 16 | (uint32_t)b[3] << 24;
    }
    for (size_t t = 0; t < COUNT_OF(TEXTS); t++) check_text(i, TEXTS[t], folder, n);
    for (size_t b = 0; b < COUNT_OF(BACKS); b++) check_back(i, BACKS[b], folder, n);
}

int main(int argc, char **argv)
{
    if (argc == 5 && strcmp(argv[1], "make") == 0) {
        dice = strtoull(argv[2], NULL, 10);
        for (uint64_t i = 0; i < strtoull(argv[3], NULL, 10); i++) make(i, argv[4]);
        return 0;
    }
    if (argc == 4 && strcmp(argv[1], "check") == 0) {
        const uint64_t count = strtoull(argv[2], NULL, 10);
        for (uint64_t i = 0; i < count; i++) check(i, argv[3]);
        printf("interop: %" PRIu64 " texts of the tools imported, %" PRIu64 " exports read back, %" PRIu64 " differences\n",
               count * COUNT_OF(TEXTS), count * COUNT_OF(BACKS), differences);
        return differences == 0 ? 0 : 1;
    }
    fprintf(stderr, "usage: interop make SEED COUNT FOLDER, or interop check COUNT FOLDER\n");
    return 4;
}
