/* The request's import in plain C: a text in the Intel HEX format to an image. Each function names the sentence that it
   follows. */
#include "sheet.h"
#include "sheet_sizes.h"

#include <string.h>

enum { MOST_BYTES = 4 * MOST_WORDS, NOT_GIVEN = -1 };

/* What the records so far say: each place's byte, bits 16 to 31 of the addresses, and whether the end record was read. */
typedef struct said {
    int bytes[MOST_BYTES];
    uint64_t base;
    bool ended;
} said;

/* "Digits are read in either case" */
static int digit(uint8_t c)
{
    if (c >= '0' && c <= '9') return c - '0';
    if (c >= 'A' && c <= 'F') return c - 'A' + 10;
    if (c >= 'a' && c <= 'f') return c - 'a' + 10;
    return -1;
}

/* The bytes that a line's pairs of digits say; how many there are, or -1 where the line is no colon and pairs of digits. */
static int pairs(const uint8_t *line, size_t length, uint8_t *to)
{
    if (length < 1 || line[0] != ':' || length % 2 == 0 || length > 1 + 2 * 260) return -1;
    for (size_t i = 1; i < length; i += 2) {
        const int high = digit(line[i]), low = digit(line[i + 1]);
        if (high < 0 || low < 0) return -1;
        to[i / 2] = (uint8_t)(16 * high + low);
    }
    return (int)(length / 2);
}

/* "66 anything after the end record, 60 bad character or length (also a line without its LF, data in type 01, other than two
   bytes in type 04), 61 checksum, 62 other record type, 63 address beyond 2,048 words, 64 byte given twice"; a line comes
   without its LF and the CR before it. */
static uint32_t take_record(said *s, const uint8_t *line, size_t length, bool whole)
{
    uint8_t got[260], sum = 0;
    if (s->ended) return 66;
    const int n = pairs(line, length, got);
    if (!whole || n < 5 || n != got[0] + 5) return 60;
    const uint8_t count = got[0], type = got[3];
    if ((type == 1 && count != 0) || (type == 4 && count != 2)) return 60;
    for (int i = 0; i < n; i++) sum = (uint8_t)(sum + got[i]);
    if (sum != 0) return 61;
    if (type == 1) s->ended = true; /* "Types 01 and 04 may have any address field" */
    else if (type == 4) s->base = (uint64_t)got[4] << 8 | got[5];
    else if (type != 0) return 62;
    else {
        const uint64_t at = s->base << 16 | (uint64_t)got[1] << 8 | got[2];
        for (uint64_t i = 0; i < count; i++)
            if (at + i >= MOST_BYTES) return 63;
        for (uint64_t i = 0; i < count; i++)
            if (s->bytes[at + i] != NOT_GIVEN) return 64;
        for (uint64_t i = 0; i < count; i++) s->bytes[at + i] = got[4 + i];
    }
    return 0;
}

/* "at the end 65 no end record, 68 no data, 67 one past the highest byte address is not a multiple of four; then 25 for the
   caller's entry, then 31"; "four bytes to a word, little-endian, gaps filled with 0" */
static uint32_t finish(const said *s, const uint32_t regs[16], uint32_t entry, uint8_t *out, size_t out_len, size_t *length)
{
    static uint32_t words[MOST_WORDS];
    size_t past = MOST_BYTES;
    if (!s->ended) return 65;
    while (past > 0 && s->bytes[past - 1] == NOT_GIVEN) past--;
    if (past == 0) return 68;
    if (past % 4 != 0) return 67;
    memset(words, 0, sizeof words);
    for (size_t i = 0; i < past; i++)
        if (s->bytes[i] != NOT_GIVEN) words[i / 4] |= (uint32_t)s->bytes[i] << 8 * (i % 4);
    return sheet_write(words, past / 4, regs, entry, out, out_len, length);
}

/* "a line ends in LF, or CR and LF"; "Refusals, record by record" */
uint32_t sheet_import(const uint8_t *text, size_t text_len, const uint32_t regs[16], uint32_t entry, uint8_t *out,
                      size_t out_len, uint64_t *line, size_t *length)
{
    static said s;
    uint64_t number = 0;
    for (size_t i = 0; i < MOST_BYTES; i++) s.bytes[i] = NOT_GIVEN;
    s.base = 0;
    s.ended = false;
    *line = 0;
    *length = 0;
    for (size_t at = 0, end; at < text_len; at = end + 1) {
        for (end = at; end < text_len && text[end] != '\n'; end++) continue;
        const bool returned = end > at && text[end - 1] == '\r';
        const uint32_t answer = take_record(&s, text + at, end - at - returned, end < text_len);
        number++;
        if (answer == 0) continue;
        *line = number;
        return answer;
    }
    return finish(&s, regs, entry, out, out_len, length);
}
