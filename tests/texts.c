/* texts.c - reading and writing of address texts against the C library's inet_pton and inet_ntop.
 *
 *     texts [SEED [TEXTS]]
 *
 * Three differences are known, and each has its rule below: a NUL byte within a text; a bare dotted text, which
 * inet_pton reads as an address of another family; and the dotted form that inet_ntop gives to more addresses than the
 * library does. Every other difference fails the test. */
#define _DEFAULT_SOURCE /* AF_INET6 and inet_ntop under -std=c99 */

#include <arpa/inet.h>
#include <inttypes.h>
#include <stdio.h>
#include <stdlib.h>
#include <string.h>

#include "input.h"
#include "shelfegret.h"

typedef struct shelfegret_key key;
typedef struct shelfegret_answer answer;

static uint64_t seed = 1, texts = 8000000;
static uint64_t read_legal, read_bare, read_refused, written, written_dotted;

static void differ(const char *trouble, const uint8_t *text, size_t len)
{
    fprintf(stderr, "seed %" PRIu64 ": %s:", seed, trouble);
    tell_text(text, len);
    fprintf(stderr, "\n");
    exit(1);
}

static int equal(key a, key b)
{
    return a.high == b.high && a.low == b.low;
}

/* ---- reading */

static key from_bytes(const uint8_t *bytes)
{
    key k = {0, 0};
    for (int i = 0; i < 8; i++) {
        k.high = k.high << 8 | bytes[i];
        k.low = k.low << 8 | bytes[8 + i];
    }
    return k;
}

enum kind { NO_ADDRESS, ADDRESS, BARE };

/* Whether the text is legal, and its key, by inet_pton. It takes a C string, so it would read a text with a NUL byte
 * only up to there; to the library that is a byte like any other, and not legal. A text that is no IPv6 address but an
 * IPv4 address is that address behind ::ffff:. With AF_INET, glibc takes just four decimals to 255 without leading
 * zeros; not the shorter, octal and hexadecimal forms that inet_aton has. */
static enum kind expected_key(const uint8_t *text, size_t len, key *k)
{
    uint8_t bytes[16] = {[10] = 0xff, [11] = 0xff};
    char string[TEXT_MOST + 1];
    memcpy(string, text, len);
    string[len] = 0;
    if (strlen(string) != len) return NO_ADDRESS;
    int bare = inet_pton(AF_INET, string, bytes + 12) == 1;
    if (!bare && inet_pton(AF_INET6, string, bytes) != 1) return NO_ADDRESS;
    *k = from_bytes(bytes);
    return bare ? BARE : ADDRESS;
}

static void check_read(const uint8_t *text, size_t len)
{
    key k = {0, 0};
    enum kind kind = expected_key(text, len, &k);
    uint32_t code = kind == NO_ADDRESS ? SHELFEGRET_REFUSED_TEXT : 0;
    answer a = shelfegret_read_text(text, len);
    if (a.code != code) differ(code ? "not legal, but read" : "legal, but refused", text, len);
    if (!equal(a.key, k)) differ("read as another key", text, len);
    if (a.word || a.label || a.compared || a.number) differ("a field is not zero", text, len);
    *(code ? &read_refused : &read_legal) += 1;
    read_bare += kind == BARE;
}

/* every text of up to `most` bytes of the alphabet behind the `len` bytes that are there */
static void check_read_all(const char *alphabet, uint8_t *text, size_t len, unsigned most)
{
    check_read(text, len);
    if (most == 0) return;
    for (const char *c = alphabet; *c; c++) {
        text[len] = (uint8_t)*c;
        check_read_all(alphabet, text, len + 1, most - 1);
    }
}

/* ---- writing */

static void to_bytes(key k, uint8_t *bytes)
{
    for (int i = 0; i < 8; i++) {
        bytes[i] = (uint8_t)(k.high >> 8 * (7 - i));
        bytes[8 + i] = (uint8_t)(k.low >> 8 * (7 - i));
    }
}

/* The text by inet_ntop. It ends ::a.b.c.d (where a.b is not 0.0) and ::ffff:a.b.c.d in decimals; the library only the
 * second. These are the only addresses with dots. */
static void expected_text(key k, char *text, size_t most)
{
    uint8_t bytes[16];
    to_bytes(k, bytes);
    if (inet_ntop(AF_INET6, bytes, text, (socklen_t)most) == NULL) abort();
    if (strchr(text, '.') != NULL && strncmp(text, "::ffff:", 7) != 0)
        snprintf(text, most, "::%x:%x", (unsigned)(k.low >> 16) & 0xffff, (unsigned)k.low & 0xffff);
}

static void check_write(key k)
{
    char expected[INET6_ADDRSTRLEN];
    uint8_t text[40];
    memset(text, '#', sizeof text);
    expected_text(k, expected, sizeof expected);
    answer a = shelfegret_write_text(k, text, sizeof text);
    if (a.code || a.number != strlen(expected) || memcmp(text, expected, a.number) != 0)
        differ("not the text written", (uint8_t *)expected, strlen(expected));
    for (size_t i = a.number; i < sizeof text; i++)
        if (text[i] != '#') differ("written behind the end", text, sizeof text);
    if (!equal(shelfegret_read_text(text, a.number).key, k)) differ("not read back", text, a.number);
    written++;
    written_dotted += strchr(expected, '.') != NULL;
}

/* addresses with each set of zero groups, so each choice of "::" */
static void check_write_patterns(void)
{
    for (unsigned zeros = 0; zeros < 256; zeros++) {
        key k = {random_bits() | 0x0001000100010001, random_bits() | 0x0001000100010001};
        for (unsigned i = 0; i < 4; i++) {
            if (zeros >> i & 1) k.low &= ~((uint64_t)0xffff << 16 * i);
            if (zeros >> (4 + i) & 1) k.high &= ~((uint64_t)0xffff << 16 * i);
        }
        check_write(k);
    }
}

/* An IPv4 address behind ::ffff:, and the same four bytes behind what is nearly that. */
static void check_write_mapped(uint32_t ipv4)
{
    static const key before[] = {
        {0, 0}, {0, 1}, {0, 0xff00}, {0, 0xfff}, {0, 0x7fff}, {0, 0xfffe}, /* the sixth group is another */
        {0, 0x10000}, {0, 0x1ffff}, {0, 0xffff0000}, {0, 0xffffffff},      /* the fifth is not zero */
        {1, 0xffff}, {(uint64_t)1 << 63, 0xffff}, {0xffff, 0xffff}, {0xffff, 0}, /* one of the first four is not */
    };
    check_write((key){0, 0xffff00000000 | ipv4});
    for (size_t i = 0; i < sizeof before / sizeof *before; i++)
        check_write((key){before[i].high, before[i].low << 32 | ipv4});
}

/* all that can be made of octets of one, two and three digits, the least and the greatest of each among them */
static void check_write_octets(void)
{
    static const uint8_t octets[] = {0, 1, 9, 10, 19, 99, 100, 109, 199, 200, 249, 255};
    enum { OCTETS = sizeof octets };
    for (unsigned i = 0; i < OCTETS * OCTETS * OCTETS * OCTETS; i++) {
        uint32_t ipv4 = 0;
        for (unsigned j = 0, rest = i; j < 4; j++, rest /= OCTETS) ipv4 = ipv4 << 8 | octets[rest % OCTETS];
        check_write_mapped(ipv4);
    }
    for (unsigned n = 0; n < 256; n++)
        for (unsigned shift = 0; shift < 32; shift += 8) check_write_mapped((uint32_t)n << shift);
}

int main(int argc, char **argv)
{
    uint8_t text[TEXT_MOST];
    if (argc > 1) seed = strtoull(argv[1], NULL, 0);
    if (argc > 2) texts = strtoull(argv[2], NULL, 0);
    seed_random(seed);
    check_read_all(":.01f", text, 0, 8);
    check_read_all(".0256", text, 0, 9); /* 255.0.0.0 and 256.0.0.0 have 9 bytes */
    memcpy(text, "::", 2);
    check_read_all(".0256", text, 2, 9);
    check_write_octets();
    for (uint64_t i = 0; i < texts; i++) {
        key k = random_address();
        check_read(text, any_text(k, text));
        check_write(k);
        if (i % 1000 == 0) {
            check_write_patterns();
            check_write_mapped((uint32_t)random_bits());
        }
    }
    printf("texts: %" PRIu64 " texts read (%" PRIu64 " of IPv4), %" PRIu64 " refused, %" PRIu64
           " written (%" PRIu64 " of IPv4), no difference\n", read_legal, read_bare, read_refused, written,
           written_dotted);
    int many = read_legal > texts / 3 && read_refused > texts / 3;
    int many_of_ipv4 = read_bare > texts / 40 && written_dotted > texts / 16;
    return many && many_of_ipv4 ? 0 : 1;
}
