/* Addresses as text: product, baseline and glibc.
 *   text time ROUNDS READ WRITE TAIL BARE MAPPED    ns of each call as a Markdown table; the last five are Rust's
 *   text count LIBRARY                              each operation once a round, for callgrind; prints the calls of each
 *   text list FILE TAIL BARE                        writes the texts that are read, a line each, a file for each row */
#define _POSIX_C_SOURCE 200112L
#include <arpa/inet.h>
#include <stdio.h>
#include <stdlib.h>
#include <string.h>

#include "bed.h"

enum { TEXTS = 4096, LONGEST = 48, GLIBC = LIBRARIES, SIDES };

typedef struct {
    uint8_t bytes[LONGEST]; /* with a terminator, for glibc */
    size_t length;
} Text;

typedef struct {
    Key keys[TEXTS];
    Text texts[TEXTS];
    struct in6_addr addresses[TEXTS]; /* the keys as glibc takes them */
} Spelled;

static Spelled any, mapped; /* of any addresses; of IPv4 addresses, bare dotted */
static Text tails[TEXTS];   /* of these, behind "::ffff:" */
static Bed *bed; /* the program's table */
static Text *in_texts, *out_texts;

static Answer got[LIBRARIES][CHUNK];
static uint8_t written[LIBRARIES][CHUNK][LONGEST];
static struct in6_addr glibc_read[CHUNK];
static struct in_addr glibc_read_bare[CHUNK];
static char glibc_written[CHUNK][LONGEST];

static Text spelled(Key key)
{
    Text t;
    memset(&t, 0, sizeof t);
    t.length = libraries[BASELINE].write_text(key, t.bytes, LONGEST).number;
    return t;
}

/* One group in three is zero, so that "::" has work to do. */
static Key key_with_zeros(void)
{
    Key k = random_key(128);
    for (unsigned g = 0; g < 4; g++) {
        if (random_bits() % 3 == 0) k.high &= ~((uint64_t)0xffff << 16 * g);
        if (random_bits() % 3 == 0) k.low &= ~((uint64_t)0xffff << 16 * g);
    }
    return k;
}

static void raise_case(Text *t)
{
    for (size_t i = 0; i < t->length; i++)
        if (t->bytes[i] >= 'a') t->bytes[i] = (uint8_t)(t->bytes[i] - 'a' + 'A');
}

static struct in6_addr network_order(Key k)
{
    struct in6_addr a;
    for (unsigned i = 0; i < 8; i++) {
        a.s6_addr[i] = (uint8_t)(k.high >> (56 - 8 * i));
        a.s6_addr[8 + i] = (uint8_t)(k.low >> (56 - 8 * i));
    }
    return a;
}

static Text *spell_all(const Key *from, unsigned n)
{
    Text *t = room(n * sizeof *t);
    for (unsigned i = 0; i < n; i++) t[i] = spelled(from[i]);
    return t;
}

/* with random octets: six in ten have three digits */
static void prepare_mapped(void)
{
    for (unsigned i = 0; i < TEXTS; i++) {
        uint32_t ipv4 = (uint32_t)(random_bits() >> 32);
        Text *t = &mapped.texts[i];
        mapped.keys[i] = (Key){ 0, 0xffff00000000 | ipv4 };
        mapped.addresses[i] = network_order(mapped.keys[i]);
        t->length = (size_t)snprintf((char *)t->bytes, LONGEST, "%u.%u.%u.%u", ipv4 >> 24, ipv4 >> 16 & 255,
                                     ipv4 >> 8 & 255, ipv4 & 255);
        tails[i].length = (size_t)snprintf((char *)tails[i].bytes, LONGEST, "::ffff:%.15s", (const char *)t->bytes);
    }
}

static void prepare(void)
{
    for (unsigned i = 0; i < TEXTS; i++) {
        any.keys[i] = key_with_zeros();
        any.addresses[i] = network_order(any.keys[i]);
        any.texts[i] = spelled(any.keys[i]);
        if (i % 3 == 0) raise_case(&any.texts[i]);
    }
    bed = new_bed((Settings){ 128, 8, 4, 64, 3, 8, 97, 31 }, 800);
    in_texts = spell_all(bed->in, bed->n);
    out_texts = spell_all(bed->out, bed->n);
    prepare_mapped();
}

/* CHUNK calls of one side, on what stands from `at` on. */
typedef void TextOperation(int side, unsigned at);

/* Functions that several operations share are inline, so that callgrind counts them as the operation's own. */
static inline void find_texts(int side, const Text *t)
{
    for (unsigned i = 0; i < CHUNK; i++)
        got[side][i] = libraries[side].find_text(bed->settings, bed->table[side], bed->size, t[i].bytes, t[i].length);
}

static void op_find_text_hit(int side, unsigned at)
{
    find_texts(side, in_texts + at);
}

static void op_find_text_miss(int side, unsigned at)
{
    find_texts(side, out_texts + at);
}

static inline void read_texts(int side, const Text *t)
{
    for (unsigned i = 0; i < CHUNK; i++) {
        if (side == GLIBC) inet_pton(AF_INET6, (const char *)t[i].bytes, &glibc_read[i]);
        else got[side][i] = libraries[side].read_text(t[i].bytes, t[i].length);
    }
}

static void op_read_text(int side, unsigned at)
{
    read_texts(side, any.texts + at);
}

static void op_read_tail(int side, unsigned at)
{
    read_texts(side, tails + at);
}

static void op_read_bare(int side, unsigned at)
{
    for (unsigned i = 0; i < CHUNK; i++) {
        const Text *t = &mapped.texts[at + i];
        if (side == GLIBC) inet_pton(AF_INET, (const char *)t->bytes, &glibc_read_bare[i]);
        else got[side][i] = libraries[side].read_text(t->bytes, t->length);
    }
}

static inline void write_texts(int side, const Spelled *from, unsigned at)
{
    for (unsigned i = 0; i < CHUNK; i++) {
        if (side == GLIBC) inet_ntop(AF_INET6, &from->addresses[at + i], glibc_written[i], LONGEST);
        else got[side][i] = libraries[side].write_text(from->keys[at + i], written[side][i], LONGEST);
    }
}

static void op_write_text(int side, unsigned at)
{
    write_texts(side, &any, at);
}

static void op_write_mapped(int side, unsigned at)
{
    write_texts(side, &mapped, at);
}

static void compare_libraries(unsigned at)
{
    (void)at;
    if (memcmp(got[PRODUCT], got[BASELINE], sizeof got[PRODUCT]) != 0) fail("the answers differ");
    if (memcmp(written[PRODUCT], written[BASELINE], sizeof written[PRODUCT]) != 0) fail("the texts differ");
}

static void compare_read(unsigned at)
{
    compare_libraries(at);
    if (memcmp(glibc_read, any.addresses + at, sizeof glibc_read) != 0) fail("glibc reads another address");
}

static void compare_tail(unsigned at)
{
    compare_libraries(at);
    if (memcmp(glibc_read, mapped.addresses + at, sizeof glibc_read) != 0) fail("glibc reads another address");
}

static void compare_bare(unsigned at)
{
    compare_libraries(at);
    for (unsigned i = 0; i < CHUNK; i++) {
        const uint8_t *ipv4 = mapped.addresses[at + i].s6_addr + 12;
        if (memcmp(&got[PRODUCT][i].key, &mapped.keys[at + i], sizeof(Key)) != 0) fail("read as another address");
        if (memcmp(&glibc_read_bare[i], ipv4, sizeof glibc_read_bare[i]) != 0) fail("glibc reads another address");
    }
}

/* glibc writes some addresses with a dotted tail, so that its text is compared by what it reads as. */
static void compare_written(unsigned at)
{
    compare_libraries(at);
    for (unsigned i = 0; i < CHUNK; i++) {
        Answer a = libraries[PRODUCT].read_text((const uint8_t *)glibc_written[i], strlen(glibc_written[i]));
        if (a.code || memcmp(&a.key, &any.keys[at + i], sizeof a.key) != 0) fail("glibc writes another address");
    }
}

/* These it writes as they are due. */
static void compare_mapped(unsigned at)
{
    compare_libraries(at);
    for (unsigned i = 0; i < CHUNK; i++) {
        size_t length = strlen(glibc_written[i]);
        if (got[PRODUCT][i].number != length || memcmp(written[PRODUCT][i], glibc_written[i], length) != 0)
            fail("glibc writes another text");
    }
}

static const struct {
    const char *name;
    TextOperation *run;
    void (*compare)(unsigned at);
    int sides;
} operations[] = {
    { "find_text, hit", op_find_text_hit, compare_libraries, LIBRARIES },
    { "find_text, miss", op_find_text_miss, compare_libraries, LIBRARIES },
    { "read_text", op_read_text, compare_read, SIDES },
    { "write_text", op_write_text, compare_written, SIDES },
    { "read_text, dotted tail", op_read_tail, compare_tail, SIDES },
    { "read_text, bare dotted", op_read_bare, compare_bare, SIDES },
    { "write_text, mapped", op_write_mapped, compare_mapped, SIDES },
};
enum { OPERATIONS = sizeof operations / sizeof operations[0] };

static unsigned texts_of(unsigned o)
{
    return operations[o].sides == SIDES ? TEXTS : bed->n;
}

static void time_operation(unsigned o, unsigned rounds, double ns[SIDES])
{
    int sides = operations[o].sides;
    double *times[SIDES];
    for (int s = 0; s < sides; s++) times[s] = room(rounds * sizeof *times[s]);
    for (unsigned r = 0; r < rounds; r++) {
        unsigned at = (unsigned)(random_bits() % (texts_of(o) - CHUNK + 1));
        for (int j = 0; j < sides; j++) {
            int s = (int)(r + (unsigned)j) % sides;
            double start = wall_clock();
            operations[o].run(s, at);
            times[s][r] = wall_clock() - start;
        }
        operations[o].compare(at);
    }
    for (int s = 0; s < sides; s++) {
        ns[s] = median(times[s], rounds) / CHUNK;
        free(times[s]);
    }
}

/* with a figure of Rust's for each row that has one of glibc's */
static void time_all(unsigned rounds, char **rust)
{
    printf("| call | product, ns | baseline, ns | product / baseline | glibc, ns | Rust, ns |\n"
           "|---|---|---|---|---|---|\n");
    for (unsigned o = 0; o < OPERATIONS; o++) {
        double ns[SIDES] = { 0 };
        time_operation(o, rounds, ns);
        printf("| %s | %.1f | %.1f | %.2f |", operations[o].name, ns[PRODUCT], ns[BASELINE],
               ns[PRODUCT] / ns[BASELINE]);
        if (operations[o].sides == SIDES) printf(" %.1f | %s |\n", ns[GLIBC], *rust++);
        else printf(" | |\n");
    }
}

enum { COUNTED = 20 };

static void count(int library)
{
    for (unsigned o = 0; o < OPERATIONS; o++)
        for (unsigned c = 0; c < COUNTED; c++) operations[o].run(library, c * (texts_of(o) - CHUNK) / (COUNTED - 1));
    printf("calls %u\n", COUNTED * CHUNK);
}

static void list(const char *path, const Text *texts)
{
    FILE *file = fopen(path, "w");
    if (!file) fail("cannot write the list");
    for (unsigned i = 0; i < TEXTS; i++) fprintf(file, "%s\n", (const char *)texts[i].bytes);
    fclose(file);
}

int main(int argc, char **argv)
{
    prepare();
    if (argc == 3 + 5 && strcmp(argv[1], "time") == 0) time_all((unsigned)atoi(argv[2]), argv + 3);
    else if (argc == 3 && strcmp(argv[1], "count") == 0) count(library_named(argv[2]));
    else if (argc == 5 && strcmp(argv[1], "list") == 0) {
        list(argv[2], any.texts);
        list(argv[3], tails);
        list(argv[4], mapped.texts);
    } else fail("text time ROUNDS READ WRITE TAIL BARE MAPPED | text count LIBRARY | text list FILE TAIL BARE");
    return 0;
}
