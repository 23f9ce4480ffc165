/* The sheet's counts in plain C: the addresses that a compartment owns, may jump to and may store to, "services
   counted", and the most widely writable word. */
#include "sheet.h"
#include "sheet_sizes.h"

/* "each set one 64-bit number with a bit per compartment": a number from 64 on has no bit. */
static bool in(uint64_t set, uint32_t number) { return number < 64 && (set >> number & 1) != 0; }

/* The places of memory, 0 to N-1, as far as the list that is lent has them. */
static size_t places(const kl_processor *cpu, size_t lent) { return lent < cpu->n ? lent : cpu->n; }

/* Each address is counted once: at a service's address the service, unless memory reaches it. */
static bool counts(const kl_processor *cpu, uint32_t s) { return cpu->n <= ISOLATE + s; }

static uint32_t sets_with(const uint64_t *sets, size_t count, uint32_t number)
{
    uint32_t found = 0;
    while (count > 0) found += in(sets[--count], number);
    return found;
}

/* "addresses owned": a word is its owner's, and the services are those of 1, 2 and 3, in strict mode of 4 too. */
uint32_t sheet_owned(const kl_processor *cpu, const uint32_t *owners, size_t owners_len, uint32_t number)
{
    uint32_t found = 0;
    for (size_t x = places(cpu, owners_len); x > 0; x--) found += owners[x - 1] == number;
    if (is_service_number(cpu->strict, number)) found += counts(cpu, number - 1);
    return found;
}

/* "addresses in J": those with the number in their set I. */
uint32_t sheet_jumps(const kl_processor *cpu, const uint64_t *jumpers, size_t jumpers_len, uint32_t number)
{
    uint32_t found = sets_with(jumpers, places(cpu, jumpers_len), number);
    for (uint32_t s = 0; s < service_count(cpu->strict); s++)
        if (counts(cpu, s)) found += in(cpu->services[s], number);
    return found;
}

/* "addresses in S": those with the number in their set W, which no service has. */
uint32_t sheet_stores(const kl_processor *cpu, const uint64_t *writers, size_t writers_len, uint32_t number)
{
    return sets_with(writers, places(cpu, writers_len), number);
}

/* The most compartments that may write to any word: "it counts the owner together with the writers, once each when it is
   in both". */
uint32_t sheet_widest(const kl_processor *cpu, const uint32_t *owners, size_t owners_len, const uint64_t *writers,
                      size_t writers_len)
{
    uint32_t most = 0;
    for (size_t x = 0; x < places(cpu, owners_len) && x < writers_len; x++) {
        uint32_t found = !in(writers[x], owners[x]);
        for (uint64_t rest = writers[x]; rest != 0; rest &= rest - 1) found++;
        if (found > most) most = found;
    }
    return most;
}
