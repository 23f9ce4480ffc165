/* The checker of the rows: what a load filled and what steps moved, beside a recount of the tags before and after. That is the
   request's own sentence, and neither side's way of keeping rows. */
#include "compare.h"

#include <inttypes.h>
#include <stdio.h>
#include <string.h>

/* The counts of every compartment over the places below N, which the lent memories have, and the services. */
static void recount(const state *s, kl_row rows[ROWS])
{
    memset(rows, 0, ROWS * sizeof rows[0]);
    for (uint32_t x = 0; x < s->cpu.n; x++) {
        if (s->owners[x] < ROWS) rows[s->owners[x]].owned++;
        for (uint32_t c = 0; c < ROWS; c++) rows[c].jump += s->jumpers[x] >> c & 1, rows[c].store += s->writers[x] >> c & 1;
    }
    for (uint32_t i = 0; i < service_count(s->cpu.strict); i++) {
        rows[i + 1].owned++;
        for (uint32_t c = 0; c < ROWS; c++) rows[c].jump += s->cpu.services[i] >> c & 1;
    }
}

static bool same_row(kl_row a, kl_row b) { return a.owned == b.owned && a.jump == b.jump && a.store == b.store; }

static void settle_row(const char *call, size_t c, kl_row is, kl_row wanted)
{
    if (same_row(is, wanted)) return;
    begin_report(call);
    printf("  row %zu is %" PRIu32 " %" PRIu32 " %" PRIu32 " on both sides, and by a recount of the tags it must be %" PRIu32
           " %" PRIu32 " %" PRIu32 "\n",
           c, is.owned, is.jump, is.store, wanted.owned, wanted.jump, wanted.store);
    end_report();
}

void check_filled(const state *after)
{
    kl_row counts[ROWS];
    recount(after, counts);
    for (size_t c = 0; c < ROWS; c++) settle_row("kl_load", c, after->rows[c], counts[c]);
}

/* "row after = row before + count after - count before", modulo 2^32. */
void check_moved(const char *call, const state *before, const state *after)
{
    kl_row was[ROWS], is[ROWS];
    recount(before, was);
    recount(after, is);
    for (size_t c = 0; c < ROWS; c++) {
        const kl_row row = before->rows[c];
        const kl_row wanted = {row.owned + is[c].owned - was[c].owned, row.jump + is[c].jump - was[c].jump,
                               row.store + is[c].store - was[c].store};
        settle_row(call, c, after->rows[c], wanted);
    }
}

/* The owned counts add up to N and the services, too, for from a load on every owner has a row. */
void check_right(const state *ours)
{
    uint64_t owned = 0;
    for (uint32_t c = 0; c < ROWS; c++) {
        const kl_row counts = {kl_owned(&ours->cpu, ours->owners, ours->lent[OWNERS], c),
                               kl_jumps(&ours->cpu, ours->jumpers, ours->lent[JUMPERS], c),
                               kl_stores(&ours->cpu, ours->writers, ours->lent[WRITERS], c)};
        settle_row("a row beside kl_owned, kl_jumps and kl_stores", c, ours->rows[c], counts);
        if (c >= ours->cpu.next) settle_row("a row from next on", c, ours->rows[c], (kl_row){0, 0, 0});
        owned += ours->rows[c].owned;
    }
    const uint64_t all = (uint64_t)ours->cpu.n + service_count(ours->cpu.strict);
    expect("what is owned, added up", owned, owned, all);
}
