/* What the parts of the host test share: states, dice, generators, the checker and the kinds of cases. */
#ifndef COMPARE_H
#define COMPARE_H

#include "kldemuvash.h"
#include "sheet.h"
#include "sheet_sizes.h"

enum { WORDS, OWNERS, JUMPERS, WRITERS, READERS, MEMORIES };
enum { GUARD = 8, ROOM = 2048 + 16 + GUARD, IMAGE_MOST = 8272, BYTES_ROOM = IMAGE_MOST + 64 };
enum { PROGRAM_SIZE = 144, ROWS_MOST = ROWS + 8, ROWS_ROOM = ROWS_MOST + GUARD };

/* A record, the five memories and the table of rows beside it, and the lengths that are lent. The places from a lent length
   on, up to `kept`, guard the memory's end, and all rows from `rows_lent` on the table's: no call may touch them. */
typedef struct state {
    kl_processor cpu;
    size_t lent[MEMORIES], kept, rows_lent;
    kl_row rows[ROWS_ROOM];
    uint32_t words[ROOM], owners[ROOM];
    uint64_t jumpers[ROOM], writers[ROOM], readers[ROOM];
} state;

/* What the counts are lent. */
typedef struct counted {
    const kl_processor *cpu;
    const uint32_t *owners;
    const uint64_t *jumpers, *writers;
    size_t lent[MEMORIES];
} counted;

/* What a call told beside what it left. */
typedef struct told {
    uint32_t answer, count;
} told;

/* ---- dice.c: random numbers, the same for the same seed, kind and case ---- */
void throw_dice(uint64_t seed, uint64_t kind, uint64_t number);
uint64_t roll(void);
uint32_t below(uint32_t n);                       /* 0 to n-1; n is not 0 */
uint32_t between(uint32_t least, uint32_t most);  /* both included */
bool one_in(uint32_t n);
uint32_t any_number(void);                        /* often at an edge */
uint32_t near_address(uint32_t n);                /* mostly in a memory of n words, or just beside, or a service */
uint32_t any_instruction(void);                   /* a word that decodes */

/* ---- make.c: random states, sets and images ---- */
void make_state(state *s, uint32_t n, bool strict); /* one that 14 lets pass, most often */
uint32_t some_size(void);                         /* N: mostly small */
void spoil_state(state *s);                       /* so that 14 or 15 turn it away, most often */
void make_service_call(state *s, bool strict);    /* pc at a service, with sets that are mostly good */
size_t make_image(uint8_t *bytes, uint32_t n);    /* a valid image; gives its length */
size_t make_program(uint8_t *bytes, bool strict); /* a valid image of PROGRAM_SIZE words that runs for a while */
void spoil_image(uint8_t *bytes, size_t *length);
void noise(state *s, size_t longest);             /* fills record, memories and rows; kept = longest + GUARD; lends 64 rows */
void lend(state *s, size_t length);               /* lends all five memories at this length */
size_t odd_length(void);                          /* of a table of rows: not 64, most often just beside it */

/* ---- check.c: calls both sides, compares all they left, reports a difference and ends; gives what they told ---- */
uint32_t check_step(state *ours, state *sheet);   /* our side within a limit of time */
double slowest_step(void);                        /* of our side so far, in milliseconds */
told check_run(state *ours, state *sheet, uint32_t budget);
uint32_t check_load(state *ours, state *sheet, bool strict, const uint8_t *bytes, size_t length);
void check_counts(const state *ours, const state *sheet); /* the four, for every compartment and some that are none */
void check_counted(const counted *lent);                  /* the same, both sides lent the same */
void copy_state(state *to, const state *from);
void expect(const char *what, uint64_t ours, uint64_t sheet, uint64_t wanted); /* by the sheet's own lines */
void begin_kind(const char *name, uint64_t seed);
void begin_case(uint64_t number);
uint64_t end_kind(void);                          /* prints the kind's counts; gives its cases */

/* ---- check_words.c: the same for the calls that are lent no state ---- */
void check_image(const uint8_t *bytes, size_t length);
void check_decode(uint32_t word);
void check_encode(uint32_t op, uint32_t a, uint32_t b, uint32_t low);
void check_write(const uint32_t *words, size_t n, const uint32_t regs[16], uint32_t entry, size_t out_len);

/* ---- check_rows.c: the rows of both sides, which are equal, beside a recount of the tags ---- */
void check_filled(const state *after);            /* by a load: they are what is counted */
void check_moved(const char *call, const state *before, const state *after); /* by as much as what is counted */
void check_right(const state *ours);              /* from a load on: they are what kl_owned, kl_jumps and kl_stores count */

/* ---- check.c: the report of a difference ---- */
#define ALONE SIZE_MAX /* the place of a value that is not one of many */
void count_case(uint32_t answer);
void begin_report(const char *call);
void show(const char *what, size_t place, uint64_t ours, uint64_t sheet); /* where they differ; not all of many */
void end_report(void);                            /* ends with status 1 */

/* ---- cases.c, lines.c, strict.c, rows.c, exports.c, imports.c: the kinds ---- */
void fixed_words(void);
void fixed_images(void);
void fixed_writes(void);
void fixed_services(void);
void fixed_exports(void);
void fixed_imports(void);
void fixed_counts(void);
void words_case(void);
void images_case(void);
void writes_case(void);
void states_case(void);
void refused_case(void);
void services_case(void);
void programs_case(void);
void counts_case(void);
void exports_case(void);
void imports_case(void);
void sheet_lines(void);
void strict_lines(void);
void rows_lines(void);

/* ---- lines.c: a program, and what its run must come to on both sides ---- */
extern state line_ours, line_sheet;               /* the states of the two sides */
void load_words(const uint32_t *words, uint32_t n, bool strict);
void set_both(void);                              /* the sheet's side was changed: the same on ours */
void runs(const char *line, uint32_t budget, uint32_t answer, uint32_t count, uint32_t pc);
void row(uint32_t c, uint32_t owned, uint32_t jump, uint32_t store);

#define LOAD(words, strict) load_words(words, sizeof(words) / sizeof((words)[0]), strict)

#endif
