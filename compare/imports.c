/* Texts in the Intel HEX format, good and damaged, imported by the library and by plain C: answers, lines, lengths, images
   and what stands behind them. */
#include "compare.h"

#include <inttypes.h>
#include <stdio.h>
#include <string.h>

enum { MEMORY = 4 * KL_PLACES, TEXT_ROOM = 65536, SPARE = 1024 };

static uint8_t text[TEXT_ROOM + SPARE];
static size_t text_len;
static uint32_t regs[16];

static void check_import(uint32_t entry, size_t out_len)
{
    static uint8_t out[BYTES_ROOM], wanted[BYTES_ROOM];
    const size_t kept = out_len + GUARD;
    size_t length = any_number(), wanted_length = any_number();
    uint64_t line = any_number(), wanted_line = any_number();
    for (size_t i = 0; i < kept; i++) out[i] = wanted[i] = (uint8_t)(i * 37 + 11);
    const uint32_t ours = kl_import(text, text_len, regs, entry, out, out_len, &line, &length);
    const uint32_t sheet = sheet_import(text, text_len, regs, entry, wanted, out_len, &wanted_line, &wanted_length);
    count_case(sheet);
    if (ours == sheet && line == wanted_line && length == wanted_length && memcmp(out, wanted, kept) == 0) return;
    begin_report("kl_import");
    printf("  entry %" PRIu32 ", out buffer of %zu bytes, registers", entry, out_len);
    for (int i = 0; i < 16; i++) printf(" %" PRIX32, regs[i]);
    printf("\n  text of %zu bytes:\n%.*s\n", text_len, (int)text_len, (const char *)text);
    show("answer", ALONE, ours, sheet);
    show("line", ALONE, line, wanted_line);
    show("length", ALONE, length, wanted_length);
    for (size_t i = 0; i < kept; i++) show("byte at", i, out[i], wanted[i]);
    end_report();
}

/* ---- texts ---- */

static void put(uint8_t c)
{
    if (text_len < TEXT_ROOM) text[text_len++] = c;
}

static void put_pair(uint8_t byte, uint8_t *sum)
{
    const char *digits = one_in(4) ? "0123456789abcdef" : "0123456789ABCDEF";
    put((uint8_t)digits[byte >> 4]);
    put((uint8_t)digits[byte & 15]);
    *sum = (uint8_t)(*sum + byte);
}

/* A record of n random bytes of data, seldom with another checksum, count or line end than it should have. */
static void put_record(uint32_t at, uint8_t type, uint32_t n)
{
    uint8_t sum = 0;
    put(':');
    put_pair((uint8_t)(n + (one_in(200) ? below(3) : 0)), &sum);
    put_pair((uint8_t)(at >> 8), &sum);
    put_pair((uint8_t)at, &sum);
    put_pair(type, &sum);
    for (uint32_t i = 0; i < n; i++) put_pair(one_in(3) ? (uint8_t)any_number() : (uint8_t)roll(), &sum);
    put_pair((uint8_t)(-sum + (one_in(200) ? 1 : 0)), &sum);
    if (one_in(8)) put('\r');
    if (!one_in(300)) put('\n');
}

static void put_base(uint32_t base)
{
    uint8_t sum = 0;
    put(':');
    const uint8_t bytes[] = {2, (uint8_t)roll(), (uint8_t)roll(), 4, (uint8_t)(base >> 8), (uint8_t)base};
    for (size_t i = 0; i < sizeof bytes; i++) put_pair(bytes[i], &sum);
    put_pair((uint8_t)-sum, &sum);
    put('\n');
}

/* Records from a place on, one behind the other, seldom with a gap or over what was given, up to a whole word most often. */
static void put_records(uint32_t first, uint32_t past)
{
    uint32_t at = first;
    while (at < past) {
        uint32_t n = one_in(3) ? 16 : below(one_in(8) ? 256 : 33);
        if (n > past - at) n = past - at;
        if (one_in(30)) put_record((uint32_t)roll() & 0xFFFF, 0, 0); /* no byte: at any address */
        if (one_in(40)) put_base(0);
        put_record(at, 0, n);
        at += n;
        if (one_in(12) && past - at > 8) at += below(8);
        if (one_in(60) && at > 0) at -= 1;
        if (one_in(300)) put_record((uint32_t)roll() & 0xFFFF, (uint8_t)below(7), below(5));
    }
}

static void make_text(void)
{
    const uint32_t n = one_in(16) ? KL_PLACES : some_size();
    const uint32_t past = one_in(12) ? 4 * n - below(4) : one_in(20) ? MEMORY + below(5) - 2 : 4 * n;
    text_len = 0;
    if (one_in(4)) put_base(one_in(8) ? (uint32_t)roll() & 0xFFFF : 0);
    put_records(one_in(4) ? below(past) & ~UINT32_C(3) : 0, past);
    if (!one_in(20)) put_record(one_in(2) ? 0 : (uint32_t)roll() & 0xFFFF, 1, one_in(30) ? 1 : 0);
    if (one_in(25)) put(one_in(2) ? '\n' : ':');
}

/* One byte changed, taken out or put in; or the text cut. */
static void spoil_text(void)
{
    static const char some[] = "0:\r\nAFaf9G/`g ";
    const size_t at = text_len == 0 ? 0 : below((uint32_t)text_len);
    switch (below(5)) {
    case 0: text_len = at; break;
    case 1: text[at] = (uint8_t)some[below(sizeof some - 1)]; break;
    case 2: text[at] = (uint8_t)roll(); break;
    case 3:
        if (text_len > 0) memmove(text + at, text + at + 1, --text_len - at);
        break;
    default:
        memmove(text + at + 1, text + at, text_len++ - at);
        text[at] = (uint8_t)some[below(sizeof some - 1)];
    }
}

/* Each text with a good buffer and with one near the length that its image needs, or none. */
static void import_around(void)
{
    size_t length = 0;
    uint64_t line;
    const uint32_t entry = one_in(4) ? any_number() : below(4);
    static uint8_t image[KL_IMAGE_MAX];
    check_import(entry, KL_IMAGE_MAX);
    if (sheet_import(text, text_len, regs, entry, image, sizeof image, &line, &length) == 0 || one_in(8))
        check_import(entry, length == 0 ? 0 : length - 1 + below(3));
}

/* Lines of the format on both sides of each number. */
void fixed_imports(void)
{
    static const char *const texts[] = {
        "", "\n", "\r\n", ":", ":\n", ":00000001FF", ":00000001FF\n", ":00000001ff\r\n", ":00000001FF\r\r\n",
        ":00000001FF\n\n", ":0400000001020304F2\n:00000001FF\n", ":0400000001020304F2\n",
        ":0400000001020304F3\n:00000001FF\n", ":0400000001020304F2\n:0400000001020304F2\n:00000001FF\n",
        ":0400000001020304F2\n:0100030004F8\n:00000001FF\n", ":0400000001020304F2\n:0100040004F7\n:00000001FF\n",
        ":01000000AA55\n:00000001FF\n", ":0400000201020304F0\n:00000001FF\n", ":011FFF0001E0\n:00000001FF\n",
        ":0120000001DE\n:00000001FF\n", ":0020000000E0\n:0400000001020304F2\n:00000001FF\n",
        ":020000040001F9\n:0400000001020304F2\n:00000001FF\n", ":020000040000FA\n:0400000001020304F2\n:00000001FF\n",
        ":0100000400FB\n:00000001FF\n", ":0100000100FE\n", ":02FFFF00AAAA\n:00000001FF\n",
        ":04000000FFFFFFFF00\n:01000000FF00\n:00000001FF\n",
    };
    memset(regs, 0, sizeof regs);
    for (size_t i = 0; i < sizeof texts / sizeof texts[0]; i++) {
        text_len = strlen(texts[i]);
        memcpy(text, texts[i], text_len);
        for (uint32_t entry = 0; entry < 3; entry++)
            for (size_t room = 0; room <= 32; room++) check_import(entry, room);
    }
}

void imports_case(void)
{
    for (uint32_t i = 0; i < 16; i++) regs[i] = one_in(3) ? any_number() : 0;
    make_text();
    if (one_in(3)) spoil_text();
    if (one_in(8)) spoil_text();
    import_around();
}
