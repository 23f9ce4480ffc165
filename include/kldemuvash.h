/* The C interface of the verified library: target/ready/libhost.a, which `card compare` and `card bench` make. `rt lib` in crates/host_c
   makes the same archive as crates/host_c/out/libhost_c.a.

   A host keeps one kl_processor, five memories and a table of rows, and lends them to each call:
     words    one 32-bit word per place
     owners   the compartment number that owns the place
     jumpers  the set I of the place, a bit per compartment: who may arrive there by a jump
     writers  the set W of the place, a bit per compartment: who may store there
     readers  the set R of the place, a bit per compartment: who may load from there, in strict mode
     rows     a row per compartment, KL_ROWS of them: how many addresses it owns, may jump to and may store to
   Memory is the places 0 to n-1; the memories may be longer, and the places from n on are neither
   read nor changed. Services are at 4096 (isolate), 4097 (add jump target), 4098 (add store target) and,
   in strict mode, 4099 (add read target).

   kl_load chooses the mode, and the record keeps it. In strict mode a Load needs the owner of the word or
   one of its readers, isolate takes a fourth set, and there is a fourth service, which is compartment 4's.
   In the other mode reading is free to all, 4099 is no place, 4 is a compartment number like any other, and
   the readers are neither looked at nor changed, whatever their length.

   The rows are kept for the host: kl_load fills them, and each step moves them by what its tags change. No answer and nothing else
   depends on what they hold. A host that wants no rows still lends a table of 64, and need not look at it or keep it: one of any
   contents will do for each call. kl_owned, kl_jumps and kl_stores count anew and take no table.

   Every call takes any values and always returns. Each answer is one number; 0 means done. A call that
   answers another number leaves everything it was lent as it was, except where its comment says more.
   The four counts (kl_owned, kl_jumps, kl_stores, kl_widest) answer a count and change nothing.

   What the host owes:
     - A pointer is not null, also where its length is 0 and where it is not looked at, and points at as many
       places as its length says. The data() of an empty std::vector may be null: lend the address of
       anything of that type instead, with length 0.
     - What is lent to one call does not overlap.
     - A record that is lent was set, also one that kl_load is to fill: `jumped` and `strict` are true or
       false, and so is the mode. Zeros will do.
   Compare records by their fields and not by their bytes: there are bytes between the fields, and what
   stands in them is not said.

   The library keeps nothing between calls and has no state but what is lent. Calls that are lent different
   records and memories may be made by different threads at once. What a call may write to is that call's
   alone until it returns; the counts only read, and may share what they are lent.
   The archive needs memcpy and memset of the C library, and nothing else. kl_assemble uses about 100 KB of the
   stack, kl_import about 25 KB, every other call less than 8 KB.

   On x86-64 Linux, on a processor of x86-64-v2 or above; usable from C (C99 on) and C++ (C++11 on). examples/host.c is a host. */
#ifndef KLDEMUVASH_H
#define KLDEMUVASH_H

#include <stdbool.h>
#include <stddef.h>
#include <stdint.h>

#ifdef __cplusplus
extern "C" {
#endif

/* Grows by one where a declaration of this header is added or changes: 1 the base, 2 sources, 3 strict mode, 4 kl_check,
   5 kl_widest is lent the owners, 6 KL_STRAY_BIT beside KL_NO_INSTRUCTION, 7 Intel HEX, 8 kl_why, 9 kl_load, kl_step
   and kl_run are lent rows. */
#define KL_VERSION 9

/* Sizes. */
enum {
    KL_PLACES = 2048,      /* the most words of memory: memories of so many places hold every image */
    KL_REGISTERS = 16,     /* r0 to r15 */
    KL_COMPARTMENTS = 64,  /* compartment numbers are below it */
    KL_ROWS = 64,          /* the rows of a table, one a compartment */
    KL_IMAGE_MAX = 8272,   /* bytes of the longest image: enough for kl_write, kl_assemble and kl_import */
    KL_LINE_MAX = 16,      /* bytes of the longest line of kl_disassemble, its LF counted */
    KL_HEX_MAX = 22540     /* bytes of the longest text of kl_export */
};

/* The addresses of the services. */
enum {
    KL_ISOLATE = 4096,
    KL_ADD_JUMP_TARGET = 4097,
    KL_ADD_STORE_TARGET = 4098,
    KL_ADD_READ_TARGET = 4099 /* in strict mode */
};

/* The answers. Each call's comment says which it gives, and when. */
enum {
    KL_DONE = 0,             /* the step ran, the budget is used, or the call is done */
    KL_HALT = 1,             /* the instruction is Halt */
    KL_NO_PLACE = 2,         /* a stop, up to KL_NO_NUMBER: pc is neither in memory nor a service */
    KL_NO_INSTRUCTION = 3,   /* the word has no known opcode: probably data */
    KL_NO_ARRIVAL = 4,       /* arrival is not allowed */
    KL_LOAD_OUTSIDE = 5,     /* a Load from outside memory */
    KL_STORE_OUTSIDE = 6,    /* a Store to outside memory */
    KL_STORE_FORBIDDEN = 7,  /* a Store to a word that is neither its owner's nor writable by it */
    KL_BAD_SET = 8,          /* isolate: a set's own words leave memory, or a pair has first >= past */
    KL_EMPTY_SET = 9,        /* isolate: A' is empty */
    KL_NOT_WITHIN = 10,      /* isolate: a set names an address that the caller may not give */
    KL_NOT_OWNED = 11,       /* an add: the caller does not own the address */
    KL_NO_RETURN = 12,       /* a service: r15 is not the caller's to return to */
    KL_NO_NUMBER = 13,       /* isolate: no compartment number is left */
    KL_BAD_FORM = 14,        /* the state is refused: lengths, n, next or prev */
    KL_BAD_OWNER = 15,       /* the state is refused: the owner of the word at pc */
    KL_STRAY_BIT = 16,       /* a stop: a known opcode with a bit set that it does not use */
    KL_LOAD_FORBIDDEN = 17,  /* a stop, strict mode: a Load from a word that is neither its owner's nor readable by it */
    KL_BAD_ROWS = 18,        /* the lent table does not have 64 rows */
    KL_NOT_WHOLE = 20,       /* the image ends inside a field */
    KL_BAD_SIZE = 21,        /* the number of words is not 1 to 2,048 */
    KL_MANY_REGISTERS = 22,  /* more than 16 registers */
    KL_LAST_ZERO = 23,       /* the last listed register is 0 */
    KL_BAD_ENTRY_COUNT = 24, /* the entry's count is not 1 */
    KL_BAD_ENTRY = 25,       /* the entry is not in memory */
    KL_BYTES_LEFT = 26,      /* bytes are left over */
    KL_LENGTHS_DIFFER = 27,  /* the lent memories differ in length */
    KL_SHORT_MEMORY = 28,    /* the image has more words than the memories have places */
    KL_NO_WORD = 30,         /* no instruction has these fields */
    KL_SHORT_BUFFER = 31,    /* the out buffer is too short */
    KL_NO_LINE = 50,         /* the line is not in the grammar */
    KL_UNKNOWN_LABEL = 51,   /* the line uses a label that no line defines */
    KL_LABEL_TWICE = 52,     /* the line defines a label that a line before it defines */
    KL_VALUE_OUTSIDE = 53,   /* a value is outside its bounds */
    KL_TOO_DEEP = 54,        /* a seventeenth bracket is opened */
    KL_MANY_WORDS = 55,      /* the line holds a word after the 2,048th */
    KL_BAD_RECORD = 60,      /* the line is no record */
    KL_BAD_SUM = 61,         /* the checksum is wrong */
    KL_OTHER_TYPE = 62,      /* the record's type is none of 00, 01 and 04 */
    KL_BEYOND_MEMORY = 63,   /* the record has a byte beyond 2,048 words */
    KL_BYTE_TWICE = 64,      /* the record has a byte that was given before */
    KL_AFTER_END = 66,       /* something stands after the end record */
    KL_NO_END = 65,          /* there is no end record */
    KL_PART_WORD = 67,       /* one past the highest byte address is not a multiple of four */
    KL_NO_DATA = 68          /* no record has data */
};

/* The opcodes. */
enum {
    KL_OP_NOP = 0,
    KL_OP_CONST = 1,
    KL_OP_MOV = 2,
    KL_OP_ADD = 3,
    KL_OP_SUB = 4,
    KL_OP_MUL = 5,
    KL_OP_EQ = 6,
    KL_OP_LEQ = 7,
    KL_OP_LOAD = 8,
    KL_OP_STORE = 9,
    KL_OP_JUMP = 10,
    KL_OP_JAL = 11,
    KL_OP_BNZ = 12,
    KL_OP_HALT = 13
};

/* The processor's numbers. The host may read them at any time and may set them as it likes: a step
   answers 14 or 15 where they do not form a state. It may set the mode, too: the next call then follows it. */
typedef struct kl_processor {
    uint32_t n;                  /* N, the number of memory words: 1 to 2,048; 0 after a refused load */
    uint32_t regs[KL_REGISTERS]; /* r0 to r15; r15 takes the return address */
    uint32_t pc;                 /* the address of the next instruction */
    uint32_t prev;               /* the pc number: the compartment that ran last */
    bool jumped;                 /* whether the last step was a Jump, a Jal or a service */
    bool strict;                 /* the mode: whether a Load needs the owner or a reader */
    uint32_t next;               /* the first unused compartment number: 4 to 64, in strict mode 5 to 64 */
    uint64_t services[4];        /* the sets I of 4096 to 4099; the last is looked at and changed in strict mode only */
} kl_processor;

/* The row of a compartment. The host may read and set rows as it likes: a step moves them by as much as the counts move, so that
   right rows stay right and a column that was set to 0 tells what came since, modulo 2^32. */
typedef struct kl_row {
    uint32_t owned; /* the addresses that it owns, as kl_owned counts them */
    uint32_t jump;  /* the addresses in its J, as kl_jumps counts them */
    uint32_t store; /* the addresses in its S, as kl_stores counts them */
} kl_row;

/* Does not compile where a compiler lays a record or a row out otherwise than the library, or has other sizes. */
typedef char kl_layout_is_the_library_s
    [sizeof(kl_processor) == 120 && offsetof(kl_processor, n) == 0 && offsetof(kl_processor, regs) == 4 &&
             offsetof(kl_processor, pc) == 68 && offsetof(kl_processor, prev) == 72 && offsetof(kl_processor, jumped) == 76 &&
             offsetof(kl_processor, strict) == 77 && offsetof(kl_processor, next) == 80 &&
             offsetof(kl_processor, services) == 88 && sizeof(bool) == 1 && sizeof(size_t) == 8 && sizeof(void *) == 8
         ? 1
         : -1];

typedef char kl_layout_of_a_row_is_the_library_s
    [sizeof(kl_row) == 12 && offsetof(kl_row, owned) == 0 && offsetof(kl_row, jump) == 4 && offsetof(kl_row, store) == 8 ? 1 : -1];

/* Loads the image in `bytes` for a run in the mode `strict`, over whatever the record held.
   Answers 0: the first N places of the first four memories are filled (words from the image, owner 0,
   I = {1, 2, 3}, W empty), the places from N on keep their contents, and so do the readers; the record is
   the loaded one (registers and pc from the image, prev 0, not jumped, the mode, next 4, each service's set
   {0}). In strict mode the first N places of the readers are filled, too (R empty), I is {1, 2, 3, 4} and
   next is 5. All 64 rows are filled, whatever they held: main's is N, the number of services and 0; each service's 1, N and 0; all
   others are 0.
   Answers, the first that applies: 27 the first four memories differ in length, or in strict mode the five; 18 rows_len is not 64;
   then from left to right 20 a field is not whole, 21 N not 1 to 2,048, 28 N above the lent length, 22 more
   than 16 registers, 23 the last listed register is 0, 24 entry count not 1, 25 entry not below N; then 26
   bytes left over.
   A refused load leaves the five memories and the rows as they were and the record blank: n 0, registers 0, pc 0,
   prev 0, not jumped, the mode asked for, next 4 (in strict mode 5), each service's set {0}. In either mode
   all four sets of `services` are {0} after a load, accepted or refused. */
uint32_t kl_load(kl_processor *cpu, bool strict, const uint8_t *bytes, size_t bytes_len,
                 uint32_t *words, size_t words_len, uint32_t *owners, size_t owners_len,
                 uint64_t *jumpers, size_t jumpers_len, uint64_t *writers, size_t writers_len,
                 uint64_t *readers, size_t readers_len, kl_row *rows, size_t rows_len);

/* Checks the image in `bytes` and needs no memory and no table: answers what kl_load would over memories of 2,048 places and 64 rows,
   in either mode.
   Answers 0 with the image's number of words in *n, 1 to 2,048: memories of so many places, or more, are enough for kl_load.
   Answers, the first that applies: from left to right 20 a field is not whole, 21 N not 1 to 2,048, 22 more than 16 registers, 23 the
   last listed register is 0, 24 entry count not 1, 25 entry not below N; then 26 bytes left over. Then *n is 0. It never answers 18,
   27 or 28. kl_load asks nothing of an earlier check, and answers 28 before what stands behind N: an image cut short there, with N above
   the lent length, is 28 to it and 20 here. */
uint32_t kl_check(const uint8_t *bytes, size_t bytes_len, uint32_t *n);

/* Makes one step.
   Answers 0: the step ran, and the record and the memories are the state after it. Each row has moved by what the step's changes of
   tags add or take, each count modulo 2^32: row after = row before + count after - count before, whatever it held; a tag that was
   written and stayed the same moves nothing, and an owner from 64 on is in no row. A step in memory moves no row.
   Answers 1: the instruction is a Halt.
   Answers 2 to 13, 16 or 17: the step stops. 2 pc is neither in memory nor a service; 3 the word at pc has no
   known opcode; 16 it has one, and a bit set that this opcode does not use; 4 arrival not allowed; 5 Load outside memory; 6 Store outside memory; 7 Store not allowed; 8 the words of a set of
   isolate (its count and its pairs) are not inside memory, or a pair has first >= past; 9 A' is empty; 10 a
   set names an address that the caller may not give, also one outside memory; 11 the caller does not own the
   target; 12 the return address is not the caller's; 13 no compartment is left; 17 Load not allowed.
   Answers 14: the first four memories differ in length, n is not 1 to 2,048 or is above that length, next is
   not 4 to 64, prev is not below next, or prev is 1, 2 or 3 while pc is a service.
   Answers 18: rows_len is not 64.
   Answers 15: the owner of the word at pc is 1, 2, 3 or not below next.
   The first that applies is given, in the order 14, 18, 2, 15, 4; then at a memory word 3 or 16, and 5 and 17, 6 and 7,
   or 1 by its instruction; at isolate 8, 9, 10, 12, 13; at the other services 11, 12.
   In strict mode, and only there: 17 is given where the owner of a Load neither owns the word that it would
   read nor is among its readers. isolate takes a fourth set, R', at r4, after S': 8 looks at it as at the
   other three, and is given, too, where the caller neither owns a word of one of the four sets (its count or
   a pair) nor is among its readers; 10 wants every address of R' to be a word that the caller owns or is
   among the readers of; where isolate runs, the new compartment joins the readers of each word of R'. The
   service at 4099 puts the caller among the readers of the word at r1. 14 looks at the lengths of all five
   memories and wants next to be 5 to 64, and 14 and 15 treat 4 as they treat 1, 2 and 3. Fetching is not
   reading: the word at pc need not be readable.
   With any answer but 0 the record, the memories and the rows are as they were, and the next step answers alike. */
uint32_t kl_step(kl_processor *cpu,
                 uint32_t *words, size_t words_len, uint32_t *owners, size_t owners_len,
                 uint64_t *jumpers, size_t jumpers_len, uint64_t *writers, size_t writers_len,
                 uint64_t *readers, size_t readers_len, kl_row *rows, size_t rows_len);

/* Makes steps until one answers another number than 0, or `budget` of them answered 0.
   Answers that number, or 0 where the budget was used. *count is the number of steps that answered 0; the record and the memories
   are the state after those steps, and the rows have moved by them. Budget 0 looks at nothing, not at rows_len either: answer 0,
   *count 0. */
uint32_t kl_run(kl_processor *cpu,
                uint32_t *words, size_t words_len, uint32_t *owners, size_t owners_len,
                uint64_t *jumpers, size_t jumpers_len, uint64_t *writers, size_t writers_len,
                uint64_t *readers, size_t readers_len, kl_row *rows, size_t rows_len, uint32_t budget, uint32_t *count);

/* Why the next step answers its number, in numbers; one that says nothing of an answer is 0. docs/REFERENCE.md has the table. */
typedef struct kl_reason {
    uint32_t answer; /* what the step would answer */
    uint32_t set;    /* 8, 9, 10: which set: 1 A', 2 J', 3 S', 4 R' */
    uint32_t fault;  /* 8: 1 a word outside memory, 2 first >= past, 3 not readable; 12: 1 not the caller's word, 2 A' takes it;
                        14: 1 lengths, 2 N, 3 next, 4 prev not below next, 5 prev is a service's number at a service */
    uint32_t place;  /* the address that the answer is about */
    uint32_t owner;  /* 4, 7, 10, 11, 12, 15, 17: who owns that address; 64 where it is neither a word nor a service */
    uint32_t value;  /* 3, 16: the word; 5, 6: N; 8: the word at the place; 13: 64 */
    uint32_t bits;   /* 3, 16: the bits that are not 0 and that the word's opcode leaves unused */
} kl_reason;

/* Finds out why the next step would answer its number, and changes nothing: answers that number, and lays the seven numbers of
   kl_reason into told, in their order. The record comes in its parts; kl_why takes it whole. */
uint32_t kl_why_of(uint32_t n, const uint32_t regs[16], uint32_t pc, uint32_t prev, bool jumped, bool strict, uint32_t next,
                   const uint64_t services[4], const uint32_t *words, size_t words_len, const uint32_t *owners, size_t owners_len,
                   const uint64_t *jumpers, size_t jumpers_len, const uint64_t *writers, size_t writers_len,
                   const uint64_t *readers, size_t readers_len, uint32_t told[7]);

static inline uint32_t kl_why(const kl_processor *cpu, const uint32_t *words, size_t words_len, const uint32_t *owners,
                              size_t owners_len, const uint64_t *jumpers, size_t jumpers_len, const uint64_t *writers,
                              size_t writers_len, const uint64_t *readers, size_t readers_len, kl_reason *told)
{
    uint32_t t[7];
    (void)kl_why_of(cpu->n, cpu->regs, cpu->pc, cpu->prev, cpu->jumped, cpu->strict, cpu->next, cpu->services, words, words_len,
                    owners, owners_len, jumpers, jumpers_len, writers, writers_len, readers, readers_len, t);
    told->answer = t[0], told->set = t[1], told->fault = t[2], told->place = t[3];
    told->owner = t[4], told->value = t[5], told->bits = t[6];
    return told->answer;
}

/* Takes an instruction word apart: fields[0] opcode, [1] field a, [2] field b, [3] the low 16 bits, all
   unsigned (a Bnz's offset as its raw 16 bits). Answers 0, or 3 where the opcode is above 13, whatever the
   other bits, or 16 where a known opcode has a bit set that it does not use; then the four fields are 0. */
uint32_t kl_decode(uint32_t word, uint32_t fields[4]);

/* Puts an instruction word together. Answers 0 with the word in *word, or 30 with *word 0 where the opcode
   is above 13, a field is out of its range, or a field that the opcode does not use is not 0. */
uint32_t kl_encode(uint32_t op, uint32_t a, uint32_t b, uint32_t low, uint32_t *word);

/* Writes the image of exactly `words_len` words, sixteen registers and an entry to the front of `out`.
   Answers 0 with the number of bytes written in *length; `out` beyond them keeps its contents.
   Answers, the first that applies: 21 the number of words is not 1 to 2,048, 25 entry not below it, 31 `out`
   is too short; then *length is 0 and `out` is as it was. 8,272 bytes are enough for every image. */
uint32_t kl_write(const uint32_t *words, size_t words_len, const uint32_t regs[16], uint32_t entry,
                  uint8_t *out, size_t out_len, size_t *length);

/* Assembles a source (docs/GRAMMAR.md) into the image of its words, with entry 0 and no registers, at the front of `out`.
   Answers 0 with the number of bytes written in *length and *line 0; `out` beyond them keeps its contents.
   Answers, of the first line at fault, which is told in *line, counted from 1: 50 the line is not in the grammar, 51 it uses a
   label that no line defines, 52 it defines a label that a line before defines, 53 a value is outside its bounds, 54 a
   seventeenth bracket is opened, 55 it holds a word after the 2,048th. Else, with *line 0: 21 there is no word, 31 `out` is too
   short. Then *length is 0 and `out` is as it was. Any bytes are a text; 8,272 bytes of `out` are enough for every image. */
uint32_t kl_assemble(const uint8_t *text, size_t text_len, uint8_t *out, size_t out_len, uint64_t *line, size_t *length);

/* Imports a text in the Intel HEX format, record types 00, 01 and 04, into the image of its words, with these registers and this
   entry, at the front of `out`: four bytes to a word, lowest first, gaps filled with 0. Digits are read in either case; a line ends
   in LF, or CR and LF; types 01 and 04 may have any address field.
   Answers 0 with the number of bytes written in *length and *line 0; `out` beyond them keeps its contents.
   Answers, of the first record at fault, which is told in *line, counted from 1, the first that applies: 66 something stands after
   the end record, 60 the line is no record (a colon and pairs of digits as its count says, with its LF; no data in type 01, two
   bytes in type 04), 61 its bytes do not sum up to 0 modulo 256, 62 its type is another, 63 one of its bytes is beyond 2,048 words,
   64 one was given before. Else, with *line 0, the first that applies: 65 there is no end record, 68 no record has data, 67 one past
   the highest byte address is not a multiple of four, 25 entry not below the number of words, 31 `out` is too short. Then *length is
   0 and `out` is as it was. Any bytes are a text; 8,272 bytes of `out` are enough for every image. */
uint32_t kl_import(const uint8_t *text, size_t text_len, const uint32_t regs[16], uint32_t entry, uint8_t *out, size_t out_len,
                   uint64_t *line, size_t *length);

/* Writes a source of exactly `words_len` words to the front of `out`: a line for each, an instruction as the sheet spells it, any
   other word as 0x and eight digits. kl_assemble gives the same words back.
   Answers 0 with the number of bytes written in *length; `out` beyond them keeps its contents.
   Answers, the first that applies: 21 the number of words is not 1 to 2,048, 31 `out` is too short; then *length is 0 and `out` is
   as it was. 16 bytes a word are enough. */
uint32_t kl_disassemble(const uint32_t *words, size_t words_len, uint8_t *out, size_t out_len, size_t *length);

/* Writes exactly `words_len` words as a text in the Intel HEX format to the front of `out`: each word as four bytes, lowest first,
   the first at address 0, in type 00 records of 16 bytes, the last perhaps shorter, and an end record; digits in upper case, each
   record with an LF.
   Answers 0 with the number of bytes written in *length; `out` beyond them keeps its contents.
   Answers, the first that applies: 21 the number of words is not 1 to 2,048, 31 `out` is too short; then *length is 0 and `out` is
   as it was. 22,540 bytes are enough for every image. */
uint32_t kl_export(const uint32_t *words, size_t words_len, uint8_t *out, size_t out_len, size_t *length);

/* Counts the addresses that compartment `number` owns: the places whose owner it is, and its service (4096
   is 1's, 4097 is 2's, 4098 is 3's, in strict mode 4099 is 4's). In each of the four counts a place is looked at where it is below n and
   below the length lent, and a service where n does not reach its address, so that each address counts once. */
uint32_t kl_owned(const kl_processor *cpu, const uint32_t *owners, size_t owners_len, uint32_t number);

/* Counts the addresses in J of compartment `number`: the places and the services with it in their set I,
   whoever owns them. A number from 64 on is in no set: 0. */
uint32_t kl_jumps(const kl_processor *cpu, const uint64_t *jumpers, size_t jumpers_len, uint32_t number);

/* Counts the addresses in S of compartment `number`: the places with it in their set W, whoever owns them.
   A service has no W. A number from 64 on is in no set: 0. */
uint32_t kl_stores(const kl_processor *cpu, const uint64_t *writers, size_t writers_len, uint32_t number);

/* Counts the compartments that may write to the most widely writable word: those in its set W together with its
   owner, which counts once where it is in W; an owner from 64 on is in no set, and counts. A place is looked at where it
   is below both lengths. 0 where no place is looked at. */
uint32_t kl_widest(const kl_processor *cpu, const uint32_t *owners, size_t owners_len, const uint64_t *writers,
                   size_t writers_len);

#ifdef __cplusplus
}
#endif

#endif
