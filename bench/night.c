/* The sheet of a night of images in plain C, written apart from the verified code: night [--strict] reads names on standard
   input, one a line, runs each file's image, and prints a line for each and the totals, as `card sheet` does. */
#include "sheet.h"
#include "sheet_sizes.h"

#include <stdio.h>
#include <string.h>

enum { IMAGE_MOST = 8272, NAME_MOST = 255, NAMES_MOST = 10000, BUDGET = 100000, ANSWERS = 18 };

typedef struct totals {
    uint32_t images, refused, ended[ANSWERS], steps;
} totals;

static uint8_t image[IMAGE_MOST + 1];

/* The bytes of a file, or none where it cannot be read. */
static size_t take(const char *name, size_t length)
{
    if (length == 0 || length > NAME_MOST || strlen(name) != length)
        return 0;
    FILE *file = fopen(name, "rb");
    if (file == NULL)
        return 0;
    const size_t got = fread(image, 1, sizeof image, file);
    const bool failed = ferror(file) != 0;
    fclose(file);
    return failed ? 0 : got;
}

static void run_name(bool strict, const char *name, size_t length, totals *t)
{
    uint32_t words[MOST_WORDS] = {0}, owners[MOST_WORDS] = {0};
    uint64_t jumpers[MOST_WORDS] = {0}, writers[MOST_WORDS] = {0}, readers[MOST_WORDS] = {0};
    kl_row rows[ROWS];
    kl_processor cpu;
    const size_t got = take(name, length);
    const uint32_t loaded = sheet_load(&cpu, strict, image, got, words, MOST_WORDS, owners, MOST_WORDS, jumpers, MOST_WORDS,
                                       writers, MOST_WORDS, readers, MOST_WORDS, rows, ROWS);
    t->images++;
    if (loaded != 0) {
        t->refused++;
        printf("refused %u\n", loaded);
        return;
    }
    uint32_t count = 0;
    const uint32_t answer = sheet_run(&cpu, words, MOST_WORDS, owners, MOST_WORDS, jumpers, MOST_WORDS, writers, MOST_WORDS,
                                      readers, MOST_WORDS, rows, ROWS, BUDGET, &count);
    t->ended[answer]++;
    t->steps += count;
    printf("answer %u steps %u pc %u prev %u jumped %u next %u widest %u", answer, count, cpu.pc, cpu.prev, cpu.jumped ? 1u : 0u,
           cpu.next, sheet_widest(&cpu, owners, MOST_WORDS, writers, MOST_WORDS));
    if (answer == 7) {
        const uint32_t target = cpu.regs[words[cpu.pc] >> 20 & 15];
        printf(" writers");
        for (unsigned c = 0; c < MOST_COMPARTMENTS; c++)
            if (writers[target] >> c & 1)
                printf(" %u", c);
    }
    printf("\n");
}

int main(int argc, char **argv)
{
    const bool strict = argc == 2 && strcmp(argv[1], "--strict") == 0;
    char name[NAME_MOST + 2];
    size_t length = 0;
    totals t = {0};
    int byte;
    while (t.images < NAMES_MOST && (byte = getchar()) != EOF) {
        if (byte != '\n') {
            if (length <= NAME_MOST)
                name[length++] = (char)byte;
            continue;
        }
        name[length] = 0;
        run_name(strict, name, length, &t);
        length = 0;
    }
    if (length > 0 && t.images < NAMES_MOST) {
        name[length] = 0;
        run_name(strict, name, length, &t);
    }
    printf("images %u refused %u halted %u stopped", t.images, t.refused, t.ended[1]);
    for (unsigned a = 2; a < ANSWERS; a++)
        if (a != 14 && a != 15 && (a != 17 || strict))
            printf(" %u %u", a, t.ended[a]);
    printf(" budget %u steps %u\n", t.ended[0], t.steps);
    return ferror(stdin) || fflush(stdout) != 0 ? 4 : 0;
}
