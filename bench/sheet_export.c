/* The request's export in plain C: words as a text in the Intel HEX format. Each function names the sentence that it
   follows. */
#include "sheet.h"
#include "sheet_sizes.h"

enum { WORDS_A_RECORD = 4 }; /* "type 00 records of 16 bytes, the last perhaps shorter" */

/* "written in upper case" */
static const char DIGITS[] = "0123456789ABCDEF";

static uint8_t *put_byte(uint8_t *to, uint8_t byte, uint8_t *sum)
{
    to[0] = (uint8_t)DIGITS[byte >> 4];
    to[1] = (uint8_t)DIGITS[byte & 15];
    *sum = (uint8_t)(*sum + byte);
    return to + 2;
}

/* A colon, the count, the address, the type, the bytes, what makes the sum 0 modulo 256, and an LF. */
static uint8_t *put_record(uint8_t *to, size_t at, uint8_t type, const uint32_t *words, size_t n)
{
    uint8_t sum = 0;
    *to++ = ':';
    to = put_byte(to, (uint8_t)(4 * n), &sum);
    to = put_byte(to, (uint8_t)(at >> 8), &sum);
    to = put_byte(to, (uint8_t)at, &sum);
    to = put_byte(to, type, &sum);
    for (size_t i = 0; i < n; i++)
        for (unsigned k = 0; k < 4; k++) to = put_byte(to, (uint8_t)(words[i] >> 8 * k), &sum); /* "little-endian" */
    to = put_byte(to, (uint8_t)-sum, &sum);
    *to++ = '\n';
    return to;
}

static size_t words_from(size_t first, size_t words_len)
{
    return words_len - first < WORDS_A_RECORD ? words_len - first : WORDS_A_RECORD;
}

/* "export 21, then 31. Refusals keep the out buffer's contents." */
uint32_t sheet_export(const uint32_t *words, size_t words_len, uint8_t *out, size_t out_len, size_t *length)
{
    *length = 0;
    if (words_len < 1 || words_len > MOST_WORDS) return 21;
    size_t needed = 12; /* the end record */
    for (size_t first = 0; first < words_len; first += WORDS_A_RECORD) needed += 12 + 8 * words_from(first, words_len);
    if (out_len < needed) return 31;
    uint8_t *to = out;
    for (size_t first = 0; first < words_len; first += WORDS_A_RECORD)
        to = put_record(to, 4 * first, 0, words + first, words_from(first, words_len));
    to = put_record(to, 0, 1, words, 0);
    *length = (size_t)(to - out);
    return 0;
}
