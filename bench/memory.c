/* Memory: how many random keys a table holds when an enter is first refused 8, and what an entry costs then.
 *   memory ipv6 ROUNDS    the program's table, and the smallest found for some numbers of addresses
 *   memory paper          Table 1 of Geldenhuys and Valmari, as far as it has 10 and 100 thousand bytes and w above 24
 *   memory find N BII     the smallest table found for N addresses in 2^BII lists */
#include <math.h>
#include <stdio.h>
#include <stdlib.h>
#include <string.h>

#include "bed.h"

/* ---- filling tables ---- */

enum { RUNS = 101 };

typedef struct {
    unsigned lowest, median, highest;
} Held;

static size_t size_of(Settings s)
{
    return libraries[PRODUCT].size(s).number; /* 0 if the settings are refused */
}

/* Enters random keys into the tables of the first `sides` libraries; the number held when one is refused 8. Short keys
 * come again, and then are known. */
static unsigned fill(Settings s, uint8_t *table[], size_t size, int sides)
{
    for (int k = 0; k < sides; k++) libraries[k].make(s, table[k], size);
    for (unsigned n = 0;;) {
        Key key = random_key(s.w);
        Answer a[LIBRARIES];
        for (int k = 0; k < sides; k++) a[k] = libraries[k].enter(s, table[k], size, key, 0);
        if (sides > 1 && memcmp(&a[PRODUCT], &a[BASELINE], sizeof a[PRODUCT]) != 0) fail("the answers differ");
        if (a[PRODUCT].code == SHELFEGRET_REFUSED_FULL) return n;
        if (a[PRODUCT].code == SHELFEGRET_REFUSED_KNOWN) continue;
        if (a[PRODUCT].word != SHELFEGRET_ADDED) fail("an enter is refused, and the table is not full");
        n++;
    }
}

/* The product's RUNS fills; the baseline goes along in the first. */
static Held held_by(Settings s)
{
    restart_random();
    size_t size = size_of(s);
    uint8_t *table[LIBRARIES] = { room(size), room(size) };
    double held[RUNS];
    for (int r = 0; r < RUNS; r++) {
        held[r] = fill(s, table, size, r == 0 ? LIBRARIES : 1);
        if (r == 0 && memcmp(table[PRODUCT], table[BASELINE], size) != 0) fail("the tables differ");
    }
    for (int k = 0; k < LIBRARIES; k++) free(table[k]);
    unsigned middle = (unsigned)median(held, RUNS);
    return (Held){ (unsigned)held[0], middle, (unsigned)held[RUNS - 1] };
}

/* log2 of the number of sets of n keys of w bits, for each key: no structure can do with less on average. */
static double least_bits(unsigned w, unsigned n)
{
    double bits = -lgamma(n + 1.0) / log(2);
    for (unsigned i = 0; i < n; i++) bits += w + log1p(-ldexp(i, -(int)w)) / log(2);
    return bits / n;
}

/* ---- the smallest table for n keys ---- */

enum { SIMULATED = 1001, LONGEST = 511, WIDEST_BLOCK = 255, WIDEST_OVERFLOW = 8 };

/* How many lists have each length. */
typedef struct {
    unsigned lists[LONGEST + 1], longest;
} Lengths;

/* A random key falls into every list alike, so that list numbers are enough. */
static Lengths throw_keys(unsigned bii, unsigned n)
{
    static unsigned length[1 << 16];
    Lengths l;
    memset(length, 0, sizeof length);
    memset(&l, 0, sizeof l);
    for (unsigned i = 0; i < n; i++) length[random_bits() >> (64 - bii)]++;
    for (unsigned i = 0; i < 1u << bii; i++) {
        if (length[i] > LONGEST) fail("a list is too long");
        l.lists[length[i]]++;
        if (length[i] > l.longest) l.longest = length[i];
    }
    return l;
}

static unsigned blocks_of(const Lengths *l, unsigned sib, unsigned sio)
{
    unsigned blocks = 0;
    for (unsigned length = sib + 1; length <= l->longest; length++)
        blocks += l->lists[length] * ((length - sib + sio - 1) / sio);
    return blocks;
}

static unsigned most_blocks(const Lengths *fills, unsigned sib, unsigned sio)
{
    unsigned most = 0;
    for (int i = 0; i < SIMULATED; i++) {
        unsigned blocks = blocks_of(&fills[i], sib, sio);
        if (blocks > most) most = blocks;
    }
    return most;
}

/* The fewest bytes that hold n addresses with 8-bit labels in each of the SIMULATED fills, with one overflow block in
 * a hundred to spare, since other keys may have a little less luck. */
static Settings smallest(unsigned n, unsigned bii)
{
    if (n == 0 || bii == 0 || bii > 16) fail("N is above 0, and BII 1 to 16");
    restart_random();
    Lengths *fills = room(SIMULATED * sizeof *fills);
    for (int i = 0; i < SIMULATED; i++) fills[i] = throw_keys(bii, n);
    Settings best = { 0 };
    size_t best_size = SIZE_MAX;
    for (unsigned sib = 1; sib <= WIDEST_BLOCK; sib++)
        for (unsigned sio = 1; sio <= WIDEST_OVERFLOW; sio++) {
            Settings s = spread((Settings){ 128, bii, sib, 0, sio, 8, 0, 0 });
            if (size_of(s) >= best_size) continue; /* with no overflow block even */
            unsigned most = most_blocks(fills, sib, sio);
            s.nob = most + most / 100 + 1;
            size_t size = size_of(s);
            if (size != 0 && size < best_size) {
                best = s;
                best_size = size;
            }
        }
    free(fills);
    return best;
}

/* ---- tables for IPv6 addresses ---- */

/* Short lists are fast; long ones need fewer links and spare slots. */
static const struct {
    unsigned n, bii[3];
} wanted[] = {
    { 200, { 6, 5, 3 } },
    { 1000, { 8, 7, 5 } },
    { 10000, { 12, 11, 9 } },
    { 50000, { 14, 13, 11 } },
};

static void print_ipv6(const char *what, unsigned n, Settings s, unsigned rounds)
{
    Held held = held_by(s);
    size_t size = size_of(s);
    double hit[LIBRARIES], miss[LIBRARIES];
    Bed *bed = new_bed(s, n);
    race(bed, NULL, op_find_hit, NULL, rounds, wall_clock, hit);
    race(bed, NULL, op_find_miss, NULL, rounds, wall_clock, miss);
    free_bed(bed);
    printf("| %s | ", what);
    print_settings(s);
    printf(" | %.1f | %zu | %u, %u, %u |", (double)n / (1u << s.bii), size, held.lowest, held.median, held.highest);
    printf(" %.1f | %u | %.1f |", 8.0 * size / held.median, s.w + s.val, least_bits(s.w, held.median) + s.val);
    printf(" %.0f, %.0f |\n", hit[PRODUCT] / CHUNK, miss[PRODUCT] / CHUNK);
}

static void print_all_ipv6(unsigned rounds)
{
    printf("| for | settings | average list | bytes | held at the first refusal: lowest, median, highest "
           "| bits an entry | linear storage | lower bound | find hit, miss, ns |\n"
           "|---|---|---|---|---|---|---|---|---|\n");
    print_ipv6("the program", 800, (Settings){ 128, 8, 4, 64, 3, 8, 97, 31 }, rounds);
    for (size_t i = 0; i < sizeof wanted / sizeof wanted[0]; i++)
        for (int j = 0; j < 3; j++) {
            char what[32];
            snprintf(what, sizeof what, "%u addresses", wanted[i].n);
            print_ipv6(what, wanted[i].n, smallest(wanted[i].n, wanted[i].bii[j]), rounds);
        }
}

/* ---- the paper's Table 1 ---- */

/* Its practical capacity and performance; and bii, sio, sib of Table 2, since those of Table 1 are averages of five. */
static const struct {
    unsigned w, thousands, n, percent, bii, sio, sib;
} rows[] = {
    { 32, 10, 2919, 128, 7, 2, 20 },   { 32, 100, 33290, 134, 10, 3, 28 }, { 48, 10, 1799, 116, 6, 2, 22 },
    { 48, 100, 19320, 119, 9, 2, 31 }, { 60, 10, 1401, 113, 5, 2, 37 },    { 60, 100, 14801, 115, 9, 2, 23 },
};
enum { ROWS = sizeof rows / sizeof rows[0] };

/* As many overflow blocks as the memory has room for. */
static Settings fit(Settings s, size_t memory)
{
    unsigned low = 0, high = 65535;
    while (low < high) {
        s.nob = (low + high + 1) / 2;
        size_t size = size_of(s);
        if (size != 0 && size <= memory) low = s.nob;
        else high = s.nob - 1;
    }
    s.nob = low;
    return spread(s);
}

/* A fill as in the paper's section 4.1: a counter for each list and one for the free blocks. */
static unsigned simulate(Settings s)
{
    static unsigned length[1 << 16];
    unsigned free_blocks = s.nob;
    memset(length, 0, sizeof length[0] << s.bii);
    for (unsigned n = 0;; n++) {
        unsigned *l = &length[random_bits() >> (64 - s.bii)];
        if (*l >= s.sib && (*l - s.sib) % s.sio == 0 && free_blocks-- == 0) return n;
        ++*l;
    }
}

/* The paper takes the middle of three, and then the average of its five best settings. */
enum { TRIED = 11 };

static double middle_fill(Settings s)
{
    double n[TRIED];
    for (int i = 0; i < TRIED; i++) n[i] = simulate(s);
    return median(n, TRIED);
}

/* bii, sib, sio that hold the most; only those which give the basic blocks 60 to 95 % of the memory are tried. */
static Settings roomiest(unsigned w, size_t memory)
{
    restart_random();
    Settings best = { 0 };
    double most = 0;
    for (unsigned bii = 3; bii <= 12; bii++)
        for (unsigned sib = 1; sib <= WIDEST_BLOCK; sib++) {
            double share = ldexp((double)sib * (w - bii), (int)bii) / (8.0 * memory);
            for (unsigned sio = 1; sio <= 5 && share >= 0.6 && share <= 0.95; sio++) {
                Settings s = fit(spread((Settings){ w, bii, sib, 0, sio, 0, 0, 0 }), memory);
                double n = middle_fill(s);
                if (n > most) {
                    most = n;
                    best = s;
                }
            }
        }
    return best;
}

/* M / Mest: M is all the memory given, Mest = n (w - log2 n) + n. */
static double performance(unsigned w, size_t memory, unsigned n)
{
    return 100 * 8.0 * memory / (n * (w - log2(n)) + n);
}

static void print_row(unsigned i, const char *from, Settings s)
{
    size_t memory = 1000 * (size_t)rows[i].thousands;
    unsigned n = held_by(s).median;
    printf("| %u | %zu | %u | %u %% (%.1f) |", s.w, memory, rows[i].n, rows[i].percent,
           performance(s.w, memory, rows[i].n));
    printf(" %s: bii %u, sib %u, sio %u, nob %u | %zu | %u |", from, s.bii, s.sib, s.sio, s.nob, size_of(s), n);
    printf(" %.1f %% | %.1f %% |\n", performance(s.w, memory, n), 100 * 8.0 * memory / (n * least_bits(s.w, n)));
}

static void print_paper(void)
{
    printf("| w | memory, bytes | paper: n | paper: M / Mest | product's settings | bytes | product: n "
           "| product: M / Mest | product: M / log2 C(2^w, n) |\n|---|---|---|---|---|---|---|---|---|\n");
    for (unsigned i = 0; i < ROWS; i++) {
        size_t memory = 1000 * (size_t)rows[i].thousands;
        Settings s = { rows[i].w, rows[i].bii, rows[i].sib, 0, rows[i].sio, 0, 0, 0 };
        print_row(i, "Table 2", fit(spread(s), memory));
        print_row(i, "searched", roomiest(rows[i].w, memory));
    }
}

int main(int argc, char **argv)
{
    if (argc == 3 && strcmp(argv[1], "ipv6") == 0) {
        print_all_ipv6((unsigned)atoi(argv[2]));
    } else if (argc == 2 && strcmp(argv[1], "paper") == 0) {
        print_paper();
    } else if (argc == 4 && strcmp(argv[1], "find") == 0) {
        print_settings(smallest((unsigned)atoi(argv[2]), (unsigned)atoi(argv[3])));
        printf("\n");
    } else {
        fail("memory ipv6 ROUNDS | memory paper | memory find N BII");
    }
    return 0;
}
