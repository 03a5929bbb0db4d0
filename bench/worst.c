/* worst.c - how long calls take on the longest lists and the largest tables.
 *
 *     worst           some seconds
 *     worst whole     with the check of the longest list to its end: some hours
 *
 * The tables with long lists are written bit by bit, as docs/SPECIFICATION.md gives the format, since entering so many
 * entries to one list would take as long as the check. Times are the processor's for one call, the least of several
 * where it is short. */
#include <stdio.h>
#include <stdlib.h>
#include <string.h>
#include <time.h>

#include "shelfegret.h"

typedef struct shelfegret_settings settings;
typedef struct shelfegret_key key;
typedef struct shelfegret_answer answer;

enum { TABLE_MOST = 16777216 };

static uint8_t table[TABLE_MOST], marks[8192], out[SHELFEGRET_PAGE_BYTES];
static size_t size;
static settings s;

static double seconds(void)
{
    struct timespec t;
    clock_gettime(CLOCK_PROCESS_CPUTIME_ID, &t);
    return (double)t.tv_sec + 1e-9 * (double)t.tv_nsec;
}

static void expect(int good, const char *what)
{
    if (good) return;
    fprintf(stderr, "worst: %s\n", what);
    exit(1);
}

static uint64_t random_bits(void)
{
    static uint64_t state = 1;
    uint64_t x = state += 0x9e3779b97f4a7c15u;
    x = (x ^ x >> 30) * 0xbf58476d1ce4e5b9u;
    x = (x ^ x >> 27) * 0x94d049bb133111ebu;
    return x ^ x >> 31;
}

/* ---- tables written bit by bit */

static uint64_t log2_up(uint64_t n)
{
    uint64_t bits = 0;
    while (1ull << bits < n) bits++;
    return bits;
}

static size_t put(size_t at, uint64_t bits, uint64_t value)
{
    for (; bits; bits--, at++) {
        uint8_t bit = (uint8_t)(128 >> at % 8);
        if (value >> (bits - 1) & 1)
            table[at / 8] |= bit;
        else
            table[at / 8] &= (uint8_t)~bit;
    }
    return at;
}

/* An entry that is the number n, with the label 0. */
static size_t put_slot(size_t at, uint64_t n)
{
    uint64_t bie = s.w - s.bii;
    if (bie > 64) at = put(at, bie - 64, 0);
    at = put(at, bie > 64 ? 64 : bie, n);
    return put(at, s.val, 0);
}

static uint32_t order[65535];

/* The overflow blocks are dealt out to the first `lists` lists, in order or in random order: to each as many as to the
 * others, and to the first those that are left over. All slots of these lists are in use, and the other lists are
 * empty: a sound table. */
static void all_blocks(settings given, uint32_t lists, int in_order)
{
    s = given;
    size = shelfegret_size(s).number;
    expect(size != 0 && shelfegret_make(s, table, size).code == 0, "the settings are refused");
    uint64_t link = log2_up(s.nob), slot = s.w - s.bii + s.val, counter = log2_up(2 + s.sib);
    for (uint32_t i = 0; i < s.nob; i++) {
        uint64_t j = in_order ? i : random_bits() % (i + 1);
        order[i] = order[j];
        order[j] = i;
    }
    size_t start = put(0, log2_up(1 + s.nob), s.nob), blocks = start + ((counter + s.sib * slot) << s.bii);
    for (uint32_t list = 0, i = 0; list < lists; list++) {
        size_t at = put(start + list * (counter + s.sib * slot), counter, s.sib + 1), slots = at;
        uint64_t n = 0;
        while (n < s.sib) at = put_slot(at, n++);
        put(slots, link, order[i]); /* in the place of zeros: the entries are small */
        for (uint32_t left = s.nob / lists + (list == 0 ? s.nob % lists : 0); left; left--, i++) {
            at = blocks + order[i] * (log2_up(1 + s.sio) + link + s.bii + s.sio * slot);
            at = put(at, log2_up(1 + s.sio), left == 1 ? s.sio - 1 : s.sio);
            at = put(at, link, left == 1 ? 0 : order[i + 1]);
            at = put(at, s.bii, list);
            for (uint32_t j = 0; j < s.sio; j++) at = put_slot(at, n++);
        }
    }
}

static uint64_t entries(void)
{
    return s.sib + (uint64_t)s.nob * s.sio;
}

/* ---- times */

static answer find(key k) { return shelfegret_find(s, table, size, k); }
static answer record(uint64_t n) { return shelfegret_record(s, table, size, n); }
static answer retrieve(uint64_t slot) { return shelfegret_retrieve(s, table, size, slot); }
static answer page(uint64_t n) { return shelfegret_page(s, table, size, n, out, sizeof out); }
static answer check(void) { return shelfegret_check(s, table, size, marks, sizeof marks); }

static double least(double a, double b) { return a < b ? a : b; }

static double find_miss(uint64_t due)
{
    double best = 1e9;
    for (int i = 0; i < 5; i++) {
        double start = seconds();
        answer a = find((key){0, ~0ull});
        best = least(best, seconds() - start);
        expect(a.word == SHELFEGRET_NONE && a.compared == due, "a find of what is not there");
    }
    return best;
}

static double record_beyond(void)
{
    double best = 1e9;
    for (int i = 0; i < 3; i++) {
        double start = seconds();
        answer a = record(~0ull);
        best = least(best, seconds() - start);
        expect(a.word == SHELFEGRET_NONE, "a record behind the last");
    }
    return best;
}

static double last_slot(uint64_t slot)
{
    double best = 1e9;
    for (int i = 0; i < 5; i++) {
        double start = seconds();
        answer a = retrieve(slot);
        best = least(best, seconds() - start);
        expect(a.word == SHELFEGRET_RECORD, "a slot that is in use");
    }
    return best;
}

static double first_page(void)
{
    double best = 1e9;
    for (int i = 0; i < 3; i++) {
        double start = seconds();
        answer a = page(1);
        best = least(best, seconds() - start);
        expect(a.number == sizeof out, "a full page");
    }
    return best;
}

static double whole_check(uint32_t word)
{
    double start = seconds();
    answer a = check();
    double took = seconds() - start;
    expect(a.word == word, "check");
    return took;
}

static void show(const char *what, double took, const char *how)
{
    if (took >= 60)
        printf("| %s | %.0f min | %s |\n", what, took / 60, how);
    else if (took >= 1)
        printf("| %s | %.1f s | %s |\n", what, took, how);
    else if (took >= 1e-3)
        printf("| %s | %.1f ms | %s |\n", what, 1e3 * took, how);
    else
        printf("| %s | %.1f us | %s |\n", what, 1e6 * took, how);
}

/* ---- what is measured */

/* Seconds that check takes for an entry in front of all others: entry ALIKE stands also in the slot behind it, so check
 * ends there, and has compared each entry before it with all that follow. */
static double one_entry(void)
{
    enum { ALIKE = 63 };
    put_slot(log2_up(1 + s.nob) + log2_up(2 + s.sib) + (ALIKE + 1) * (s.w - s.bii + s.val), ALIKE);
    double took = whole_check(SHELFEGRET_UNSOUND) / (ALIKE + 1);
    put_slot(log2_up(1 + s.nob) + log2_up(2 + s.sib) + (ALIKE + 1) * (s.w - s.bii + s.val), ALIKE + 1);
    return took;
}

static void one_list(int in_order, int whole)
{
    char what[128];
    const char *way = in_order ? "blocks in order" : "blocks in random order";
    static const uint32_t blocks[] = {250, 1000, 65535};
    for (int i = 0; i < 3; i++) {
        all_blocks((settings){128, 0, 255, blocks[i], 15, 7, 1, 1}, 1, in_order);
        uint64_t n = entries();
        snprintf(what, sizeof what, "check, one list of %u entries, %s", (unsigned)n, way);
        if (i < 2 || whole)
            show(what, whole_check(SHELFEGRET_SOUND), "measured");
        else
            show(what, one_entry() * (double)n / 2, "computed from 64 entries");
    }
    snprintf(what, sizeof what, "find of what is not there, in that list, %s", way);
    show(what, find_miss(entries()), "measured");
    snprintf(what, sizeof what, "record behind the last, in that list, %s", way);
    show(what, record_beyond(), "measured");
    snprintf(what, sizeof what, "retrieve, the last slot of that list, %s", way);
    show(what, last_slot(s.sib + (uint64_t)s.sio * order[s.nob - 1] + s.sio - 1), "measured");
    snprintf(what, sizeof what, "page 1, of that list, %s", way);
    show(what, first_page(), "measured");
}

/* As many lists and blocks as the settings allow; since no block is in two lists, no call follows more. */
static void most_lists(void)
{
    settings given = {128, 16, 1, 65535, 15, 0, 1, 1};
    all_blocks(given, 1, 0);
    show("record behind the last, 65,536 lists, one of them through 65,535 blocks in random order", record_beyond(),
         "measured");
    show("page 1, of that table", first_page(), "measured");
    all_blocks(given, 65535, 0);
    show("record behind the last, 65,535 lists with a block each, in random order", record_beyond(), "measured");
    show("page 1, of that table", first_page(), "measured");
    show("check, of that table", whole_check(SHELFEGRET_SOUND), "measured");
}

/* A table with n random addresses, its check, and a copy of it by record 0, 1, .. */
static void filled(const char *name, settings given, uint64_t n)
{
    char what[128];
    s = given;
    size = shelfegret_size(s).number;
    expect(shelfegret_make(s, table, size).code == 0, "the settings are refused");
    for (uint64_t i = 0; i < n; i++) {
        key k = {random_bits(), random_bits()};
        expect(shelfegret_enter(s, table, size, k, i % 256).word == SHELFEGRET_ADDED, "an address is not taken");
    }
    double took = 1e9;
    for (int i = 0; i < 5; i++) took = least(took, whole_check(SHELFEGRET_SOUND));
    snprintf(what, sizeof what, "check, %s", name);
    show(what, took, "measured");
    snprintf(what, sizeof what, "record behind the last, %s", name);
    show(what, record_beyond(), "measured");
    double start = seconds();
    for (uint64_t i = 0; i < n; i += n / 100) expect(record(i).word == SHELFEGRET_RECORD, "a record is not there");
    snprintf(what, sizeof what, "record 0, 1, .. to the last, %s", name);
    show(what, (seconds() - start) * (double)n / 100, "computed from a hundred of them");
    snprintf(what, sizeof what, "page 1, 2, .. to the last, %s", name);
    start = seconds();
    for (uint64_t i = 1; i <= (n + 39) / 40; i++) expect(page(i).code == 0, "a page is not there");
    show(what, seconds() - start, "measured");
}

int main(int argc, char **argv)
{
    setvbuf(stdout, NULL, _IOLBF, 0);
    printf("| what | time | how |\n|---|---|---|\n");
    int whole = argc > 1 && strcmp(argv[1], "whole") == 0;
    one_list(0, whole);
    one_list(1, whole);
    most_lists();
    filled("the program's table with 700 random addresses", (settings){128, 8, 4, 64, 3, 8, 97, 31}, 700);
    filled("50,000 random addresses (bii 14, sib 2, nob 21,559, sio 1)",
           (settings){128, 14, 2, 21559, 1, 8, 97, 31}, 50000);
    return 0;
}
