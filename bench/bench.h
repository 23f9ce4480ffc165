/* What the parts of the bench share. */
#ifndef BENCH_H
#define BENCH_H

/* Tells what went wrong and ends with status 1. */
void fail(const char *name, const char *what);

/* The time that this process has used. */
double now_ms(void);

double least(double a, double b);

/* Times the assembler on a text with labels beside the same text with numbers for them, and prints the row. */
void sources_row(double ms, int rounds);

/* Times Intel HEX both ways beside plain C, and prints the rows. */
void hex_rows(double ms, int rounds);

#endif
