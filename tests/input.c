/* input.c - random numbers from a seed, and address texts, legal and broken. */
#include "input.h"

#include <stdio.h>
#include <string.h>

/* ---- numbers: splitmix64, which takes any seed */

static uint64_t state;

void seed_random(uint64_t seed)
{
    state = seed;
}

uint64_t random_bits(void)
{
    uint64_t x = state += 0x9e3779b97f4a7c15u;
    x = (x ^ x >> 30) * 0xbf58476d1ce4e5b9u;
    x = (x ^ x >> 27) * 0x94d049bb133111ebu;
    return x ^ x >> 31;
}

uint64_t below(uint64_t n)
{
    return random_bits() % n;
}

int one_in(uint64_t n)
{
    return below(n) == 0;
}

/* ---- legal texts */

static const uint64_t mapped = 0xffff; /* the upper half of low, for an IPv4 address; then high is 0 */

static int is_mapped(struct shelfegret_key key)
{
    return key.high == 0 && key.low >> 32 == mapped;
}

/* its octets are often of one or two digits */
static struct shelfegret_key random_mapped(void)
{
    struct shelfegret_key key = {0, mapped};
    for (int i = 0; i < 4; i++) {
        uint64_t octet = random_bits() & 0xff;
        key.low = key.low << 8 | octet >> below(8);
    }
    return key;
}

struct shelfegret_key random_address(void)
{
    if (one_in(8)) return random_mapped();
    struct shelfegret_key key = {0, 0};
    uint64_t zeros = below(5); /* of 4 groups */
    for (int i = 0; i < 8; i++) {
        uint64_t group = random_bits() & 0xffff;
        group >>= 4 * below(4);
        if (below(4) < zeros) group = 0;
        if (one_in(16)) group = 0xffff;
        key.high = key.high << 16 | key.low >> 48;
        key.low = key.low << 16 | group;
    }
    return key;
}

static unsigned group_of(struct shelfegret_key key, int i)
{
    return (unsigned)((i < 4 ? key.high : key.low) >> 16 * (3 - i % 4)) & 0xffff;
}

/* a group in hexadecimal: either case, with or without leading zeros */
static uint8_t *put_group(uint8_t *at, unsigned group)
{
    unsigned least = group > 0xfff ? 4 : group > 0xff ? 3 : group > 0xf ? 2 : 1;
    for (unsigned digits = least + (unsigned)below(5 - least); digits; digits--) {
        const char *set = one_in(2) ? "0123456789abcdef" : "0123456789ABCDEF";
        *at++ = (uint8_t)set[group >> 4 * (digits - 1) & 15];
    }
    return at;
}

static uint8_t *put_decimal(uint8_t *at, unsigned n)
{
    if (n > 99) *at++ = (uint8_t)('0' + n / 100);
    if (n > 9) *at++ = (uint8_t)('0' + n / 10 % 10);
    *at++ = (uint8_t)('0' + n % 10);
    return at;
}

static uint8_t *put_dotted(uint8_t *at, uint64_t low)
{
    for (int shift = 24; shift >= 0; shift -= 8) {
        at = put_decimal(at, (unsigned)(low >> shift) & 0xff);
        if (shift) *at++ = '.';
    }
    return at;
}

size_t legal_text(struct shelfegret_key key, uint8_t *text)
{
    if (is_mapped(key) && one_in(2)) return (size_t)(put_dotted(text, key.low) - text);
    uint8_t *at = text;
    int dotted = one_in(4), groups = dotted ? 6 : 8, colon = 0;
    int gap = (int)below(8), gap_len = 0; /* "::" stands for any part of a run of zero groups */
    while (gap + gap_len < groups && group_of(key, gap + gap_len) == 0 && !(gap_len && one_in(6))) gap_len++;
    for (int i = 0; i < groups;) {
        if (gap_len && i == gap) {
            *at++ = ':';
            *at++ = ':';
            colon = 0;
            i += gap_len;
            continue;
        }
        if (colon) *at++ = ':';
        at = put_group(at, group_of(key, i++));
        colon = 1;
    }
    if (dotted) {
        if (colon) *at++ = ':';
        at = put_dotted(at, key.low);
    }
    return (size_t)(at - text);
}

/* ---- broken texts */

static size_t put_piece(uint8_t *at)
{
    static const char *const pieces[] = {
        ":",     "::",    ":",   ".",   "0",   "1",   "9",    "a",    "F",     "g",       "00",
        "01",    "12",    "255", "256", "001", "999", "beef", "0000", "12345", "1.2.3.4", "0.0.0.0",
        "1:2:3", "ffff:", "%1",  " ",   "-",   "/64", "[",    "]",    "\n",    "x",
    };
    if (one_in(12)) { /* any byte, also NUL */
        *at = (uint8_t)random_bits();
        return 1;
    }
    const char *piece = pieces[below(sizeof pieces / sizeof *pieces)];
    memcpy(at, piece, strlen(piece));
    return strlen(piece);
}

static size_t insert(uint8_t *text, size_t len, size_t at)
{
    uint8_t piece[16];
    size_t n = put_piece(piece);
    memmove(text + at + n, text + at, len - at);
    memcpy(text + at, piece, n);
    return len + n;
}

static size_t cut(uint8_t *text, size_t len, size_t at, size_t n)
{
    memmove(text + at, text + at + n, len - at - n);
    return len - n;
}

static size_t one_edit(uint8_t *text, size_t len)
{
    size_t at = below(len + 1);
    if (at == len || one_in(3)) return insert(text, len, at);
    if (one_in(2)) return cut(text, len, at, 1 + below(len - at));
    return insert(text, cut(text, len, at, 1), at);
}

static size_t pieces_text(uint8_t *text)
{
    size_t len = 0;
    uint64_t pieces = one_in(16) ? below(40) : below(12);
    while (pieces--) len += put_piece(text + len);
    return len;
}

static size_t noise(uint8_t *text)
{
    size_t len = below(one_in(8) ? TEXT_MOST : 48);
    for (size_t i = 0; i < len; i++) text[i] = (uint8_t)random_bits();
    return len;
}

size_t any_text(struct shelfegret_key key, uint8_t *text)
{
    uint64_t kind = below(100);
    if (kind < 5) return noise(text);
    if (kind < 15) return pieces_text(text);
    size_t len = legal_text(key, text);
    if (kind < 40)
        for (uint64_t edits = 1 + below(3); edits; edits--) len = one_edit(text, len);
    return len;
}

void tell_text(const uint8_t *text, size_t len)
{
    fprintf(stderr, " \"");
    for (size_t i = 0; i < len; i++) fprintf(stderr, text[i] > 31 && text[i] < 127 ? "%c" : "\\x%02x", text[i]);
    fprintf(stderr, "\"");
}
