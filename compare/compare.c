/* The host test: the verified library beside sheet.c, the sheet's rules in plain C, on many states and images.
   compare [SEED [COUNT]]: the same seed gives the same cases; COUNT is the number of random rounds of each kind. */
#define _POSIX_C_SOURCE 200112L
#include "compare.h"

#include <errno.h>
#include <inttypes.h>
#include <stdio.h>
#include <stdlib.h>
#include <unistd.h>

_Static_assert((int)KL_PLACES == (int)MOST_WORDS && (int)KL_REGISTERS == (int)REGISTERS &&
                   (int)KL_COMPARTMENTS == (int)MOST_COMPARTMENTS && (int)KL_ROWS == (int)ROWS &&
                   (int)KL_IMAGE_MAX == (int)IMAGE_MOST &&
                   (int)KL_ISOLATE == (int)ISOLATE && (int)KL_ADD_JUMP_TARGET == (int)ADD_JUMP &&
                   (int)KL_ADD_STORE_TARGET == (int)ADD_STORE && (int)KL_ADD_READ_TARGET == (int)ADD_READ,
               "the header's sizes and services are the sheet's");

/* A kind of cases: what is done once, and what is done COUNT times with other dice. */
static const struct kind {
    const char *name;
    void (*once)(void), (*again)(void);
} KINDS[] = {
    {"lines", sheet_lines, NULL},          {"strict", strict_lines, NULL},
    {"words", fixed_words, words_case},    {"images", fixed_images, images_case},
    {"writes", fixed_writes, writes_case}, {"states", NULL, states_case},
    {"refused", NULL, refused_case},       {"services", fixed_services, services_case},
    {"programs", NULL, programs_case},     {"counts", fixed_counts, counts_case},
    {"exports", fixed_exports, exports_case}, {"imports", fixed_imports, imports_case},
    {"rows", rows_lines, NULL},
};

/* One line that is written over on a terminal; elsewhere a line where a kind begins and at each quarter. */
static void progress(const char *kind, uint64_t done, uint64_t count)
{
    const bool terminal = isatty(2);
    const uint64_t part = terminal ? count / 100 + 1 : count / 4 + 1;
    if (done % part == 0)
        fprintf(stderr, "%scompare: %s, round %" PRIu64 " of %" PRIu64 "%s", terminal ? "\r\033[K" : "", kind, done,
                count, terminal ? "" : "\n");
}

static uint64_t compare_kind(const struct kind *k, uint64_t seed, uint64_t count)
{
    begin_kind(k->name, seed);
    progress(k->name, 0, k->again != NULL ? count : 1);
    if (k->once != NULL) k->once();
    for (uint64_t i = 0; k->again != NULL && i < count; i++) {
        begin_case(i);
        k->again();
        progress(k->name, i + 1, count);
    }
    if (isatty(2)) fprintf(stderr, "\r\033[K");
    return end_kind();
}

static bool read_count(const char *text, uint64_t *number)
{
    char *end;
    errno = 0;
    *number = strtoull(text, &end, 10);
    return errno == 0 && text[0] >= '0' && text[0] <= '9' && *end == '\0';
}

int main(int argc, char **argv)
{
    uint64_t seed = 1, count = 20000, cases = 0;
    if (argc > 3 || (argc > 1 && !read_count(argv[1], &seed)) || (argc > 2 && !read_count(argv[2], &count))) {
        fprintf(stderr, "usage: compare [SEED [COUNT]], two whole numbers\n");
        return 4;
    }
    setvbuf(stdout, NULL, _IOLBF, 0); /* a line as soon as it is known, also through a pipe */
    printf("compare: seed %" PRIu64 ", %" PRIu64 " rounds of each kind\n", seed, count);
    for (size_t i = 0; i < sizeof KINDS / sizeof KINDS[0]; i++) cases += compare_kind(&KINDS[i], seed, count);
    printf("compare: the slowest step took %.1f ms\n", slowest_step());
    printf("compare: %" PRIu64 " cases, 0 differences\n", cases);
    return 0;
}
