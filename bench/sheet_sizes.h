/* The sizes of the sheet, and what the mode decides, for the parts of the sheet's rules in plain C. */
#ifndef SHEET_SIZES_H
#define SHEET_SIZES_H

#include <stdbool.h>
#include <stddef.h>
#include <stdint.h>

enum { MOST_WORDS = 2048, REGISTERS = 16, RETURN = 15, MOST_COMPARTMENTS = 64, ROWS = 64 };
enum { ISOLATE = 4096, ADD_JUMP, ADD_STORE, ADD_READ };

/* Services "at 4096, 4097, 4098"; in strict mode "a fourth service at 4099". */
static inline uint32_t service_count(bool strict) { return strict ? 4 : 3; }

static inline bool is_service(bool strict, uint32_t x) { return x >= ISOLATE && x - ISOLATE < service_count(strict); }

/* "1, 2, 3 own the three service addresses"; in strict mode 4 owns the fourth. */
static inline bool is_service_number(bool strict, uint32_t who) { return who >= 1 && who <= service_count(strict); }

/* "next, the first unused number, starts at 4"; "In strict mode next starts at 5". */
static inline uint32_t first_unused(bool strict) { return strict ? 5 : 4; }

/* "the services set (1, 2, 3)"; in strict mode "the services set is 1 to 4". */
static inline uint64_t services_set(bool strict) { return strict ? UINT64_C(30) : UINT64_C(14); }

/* "the four lent memories .. differ in length"; the readers are "looked at and counted in 14 and 27 in strict mode
   only". */
static inline bool same_lengths(bool strict, size_t words, size_t owners, size_t jumpers, size_t writers,
                                size_t readers)
{
    return words == owners && words == jumpers && words == writers && (!strict || words == readers);
}

#endif
