/* A host of the library, in C or in C++: checks the image on standard input, lends memories of its N places and a table of rows, loads
   and runs it, in strict mode where it is called with --strict, and prints what the run program prints. With --rows it shows the rows
   after every hundred steps, too. It ends as the run program does: 0 halted, 1 stopped, 2 refused, 3 budget used, 4 it could not be done.
   cc -I include -o host examples/host.c target/ready/libhost.a */
#include "kldemuvash.h"

#include <stdio.h>
#include <stdlib.h>
#include <string.h>

enum { BUDGET = 100000 };

/* Static, so zeros to begin with: a record that is lent was set, also one that kl_load is to fill. */
static kl_processor cpu;
static uint32_t n; /* the places of each memory */
static uint32_t *words, *owners;
static uint64_t *jumpers, *writers, *readers;
static kl_row rows[KL_ROWS]; /* lent to load and to each run; a host that does not look at them lends them all the same */
static uint8_t image[KL_IMAGE_MAX + 1]; /* a byte more than any image has: of a longer input check and load answer the same */

static int could_not(const char *what)
{
    fprintf(stderr, "host: %s\n", what);
    return 4;
}

/* The five memories, each of n places; the readers are lent in either mode. */
static bool find_memories(void)
{
    words = (uint32_t *)calloc(n, sizeof *words);
    owners = (uint32_t *)calloc(n, sizeof *owners);
    jumpers = (uint64_t *)calloc(n, sizeof *jumpers);
    writers = (uint64_t *)calloc(n, sizeof *writers);
    readers = (uint64_t *)calloc(n, sizeof *readers);
    return words != NULL && owners != NULL && jumpers != NULL && writers != NULL && readers != NULL;
}

/* The rows are always what kl_owned, kl_jumps and kl_stores would count: a load fills them, and each step moves them. */
static void print_rows(void)
{
    for (uint32_t c = 0; c < cpu.next; c++) printf("%u %u %u %u\n", c, rows[c].owned, rows[c].jump, rows[c].store);
}

/* Runs what was loaded, `at_once` steps a call, with the rows after each but the last; prints what came of it, and gives the status. */
static int run(uint32_t at_once)
{
    uint32_t answer, count, steps = 0;
    for (;;) {
        answer = kl_run(&cpu, words, n, owners, n, jumpers, n, writers, n, readers, n, rows, KL_ROWS, at_once, &count);
        steps += count;
        if (answer != KL_DONE || steps == BUDGET) break;
        printf("steps %u\n", steps);
        print_rows();
    }
    printf("answer %u steps %u pc %u prev %u jumped %d next %u widest %u\n", answer, steps, cpu.pc, cpu.prev, cpu.jumped,
           cpu.next, kl_widest(&cpu, owners, n, writers, n));
    print_rows();
    if (answer == KL_DONE) return 3;
    return answer == KL_HALT ? 0 : 1;
}

/* Looks first, loads later: kl_load by itself refuses what kl_check refuses, and here lends what N asks for. */
static int check_and_run(bool strict, uint32_t at_once, size_t length)
{
    uint32_t refused = kl_check(image, length, &n);
    if (refused == KL_DONE) {
        if (!find_memories()) return could_not("there is no room for the memories");
        refused = kl_load(&cpu, strict, image, length, words, n, owners, n, jumpers, n, writers, n, readers, n, rows, KL_ROWS);
    }
    if (refused == KL_DONE) return run(at_once);
    printf("refused %u\n", refused);
    return 2;
}

int main(int argc, char **argv)
{
    bool strict = false;
    uint32_t at_once = BUDGET;
    for (int i = 1; i < argc; i++) {
        if (strcmp(argv[i], "--strict") == 0) strict = true;
        else if (strcmp(argv[i], "--rows") == 0) at_once = 100;
        else return could_not("it takes --strict, --rows, both or nothing, and an image on standard input");
    }
    const size_t length = fread(image, 1, sizeof image, stdin);
    if (ferror(stdin)) return could_not("the image could not be read");
    const int status = check_and_run(strict, at_once, length);
    if (fflush(stdout) != 0 || ferror(stdout)) return could_not("standard output could not be written");
    return status;
}
