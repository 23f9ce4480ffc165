/* The sheet's rules in plain C, written apart from the verified code: one call for each of the library's, with
   the same arguments, answers and effects (include/kldemuvash.h says what they are). */
#ifndef SHEET_H
#define SHEET_H

#include "kldemuvash.h"

/* ---- sheet.c ---- */
uint32_t sheet_step(kl_processor *cpu,
                    uint32_t *words, size_t words_len, uint32_t *owners, size_t owners_len,
                    uint64_t *jumpers, size_t jumpers_len, uint64_t *writers, size_t writers_len,
                    uint64_t *readers, size_t readers_len, kl_row *rows, size_t rows_len);

uint32_t sheet_run(kl_processor *cpu,
                   uint32_t *words, size_t words_len, uint32_t *owners, size_t owners_len,
                   uint64_t *jumpers, size_t jumpers_len, uint64_t *writers, size_t writers_len,
                   uint64_t *readers, size_t readers_len, kl_row *rows, size_t rows_len, uint32_t budget, uint32_t *count);

uint32_t sheet_decode(uint32_t word, uint32_t fields[4]);

uint32_t sheet_encode(uint32_t op, uint32_t a, uint32_t b, uint32_t low, uint32_t *word);

/* ---- sheet_images.c ---- */
uint32_t sheet_load(kl_processor *cpu, bool strict, const uint8_t *bytes, size_t bytes_len,
                    uint32_t *words, size_t words_len, uint32_t *owners, size_t owners_len,
                    uint64_t *jumpers, size_t jumpers_len, uint64_t *writers, size_t writers_len,
                    uint64_t *readers, size_t readers_len, kl_row *rows, size_t rows_len);

uint32_t sheet_check(const uint8_t *bytes, size_t bytes_len, uint32_t *n);

uint32_t sheet_write(const uint32_t *words, size_t words_len, const uint32_t regs[16], uint32_t entry,
                     uint8_t *out, size_t out_len, size_t *length);

/* ---- sheet_counts.c ---- */
uint32_t sheet_owned(const kl_processor *cpu, const uint32_t *owners, size_t owners_len, uint32_t number);

uint32_t sheet_jumps(const kl_processor *cpu, const uint64_t *jumpers, size_t jumpers_len, uint32_t number);

uint32_t sheet_stores(const kl_processor *cpu, const uint64_t *writers, size_t writers_len, uint32_t number);

uint32_t sheet_widest(const kl_processor *cpu, const uint32_t *owners, size_t owners_len, const uint64_t *writers,
                      size_t writers_len);

/* ---- sheet_import.c ---- */
uint32_t sheet_import(const uint8_t *text, size_t text_len, const uint32_t regs[16], uint32_t entry, uint8_t *out,
                      size_t out_len, uint64_t *line, size_t *length);

/* ---- sheet_export.c ---- */
uint32_t sheet_export(const uint32_t *words, size_t words_len, uint8_t *out, size_t out_len, size_t *length);

/* ---- sheet_why.c: of a step's answer, which it is given ---- */
uint32_t sheet_why(const kl_processor *cpu, const uint32_t *words, size_t words_len, const uint32_t *owners, size_t owners_len,
                   const uint64_t *jumpers, size_t jumpers_len, const uint64_t *writers, size_t writers_len,
                   const uint64_t *readers, size_t readers_len, uint32_t answer, kl_reason *told);

#endif
