/* Pages of the sheet, product beside baseline.
 *   pages time ROUNDS            ns a page on each table below, as a Markdown table
 *   pages count LIBRARY TABLE    each operation once, for callgrind to count; prints the calls of each
 *   pages tables                 the names that count takes */
#include <stdio.h>
#include <stdlib.h>
#include <string.h>

#include "bed.h"

static const struct {
    const char *name;
    unsigned n;
    Settings settings;
} tables[] = {
    /*                                    w   bii sib  nob  sio val  a   b */
    { "the program's, n 800", 800,     { 128,  8,  4,   64, 3,  8, 97, 31 } },
    { "n 10^5",               100000,  { 128, 13, 12, 8000, 3,  8, 97, 31 } },
};
enum { TABLES = sizeof tables / sizeof tables[0] };

/* An operation asks for its page a few times. */
enum { ROWS = 40, AT_ONCE = 4 };

static uint8_t out[LIBRARIES][SHELFEGRET_PAGE_BYTES];

static uint64_t last_page(const Bed *bed)
{
    return (bed->n + ROWS - 1) / ROWS;
}

static inline void ask(Bed *bed, int k, uint64_t page)
{
    for (unsigned i = 0; i < AT_ONCE; i++)
        bed->got[k][i] = libraries[k].page(bed->settings, bed->table[k], bed->size, page, out[k], sizeof out[k]);
}

static void op_page_first(Bed *bed, int k, unsigned at)
{
    (void)at;
    ask(bed, k, 1);
}

static void op_page_middle(Bed *bed, int k, unsigned at)
{
    (void)at;
    ask(bed, k, last_page(bed) / 2);
}

static void op_page_last(Bed *bed, int k, unsigned at)
{
    (void)at;
    ask(bed, k, last_page(bed));
}

static void op_page_beyond(Bed *bed, int k, unsigned at)
{
    (void)at;
    ask(bed, k, last_page(bed) + 1);
}

static const struct {
    const char *name;
    Operation *timed;
    uint32_t code;
} operations[] = {
    { "the first page", op_page_first, 0 },
    { "the middle page", op_page_middle, 0 },
    { "the last page", op_page_last, 0 },
    { "one page beyond, refused", op_page_beyond, SHELFEGRET_REFUSED_PAGE },
};
enum { OPERATIONS = sizeof operations / sizeof operations[0] };

static void compare_pages(Bed *bed, int k, unsigned at)
{
    (void)k;
    (void)at;
    size_t written = bed->got[PRODUCT][0].number;
    if (written > sizeof out[PRODUCT] || memcmp(out[PRODUCT], out[BASELINE], written) != 0) fail("the pages differ");
}

static void time_table(unsigned t, unsigned rounds)
{
    Bed *bed = new_bed(tables[t].settings, tables[t].n);
    for (unsigned i = 0; i < OPERATIONS; i++) {
        double ns[LIBRARIES];
        race(bed, NULL, operations[i].timed, compare_pages, rounds, wall_clock, ns);
        if (bed->got[PRODUCT][0].code != operations[i].code) fail("not the answer that was to be timed");
        printf("| %s | %s | %.0f | %.0f | %.2f |\n", tables[t].name, operations[i].name, ns[PRODUCT] / AT_ONCE,
               ns[BASELINE] / AT_ONCE, ns[PRODUCT] / ns[BASELINE]);
    }
    free_bed(bed);
}

static void count(int library, const char *name)
{
    for (unsigned t = 0; t < TABLES; t++) {
        if (strcmp(tables[t].name, name) != 0) continue;
        Bed *bed = new_bed(tables[t].settings, tables[t].n);
        for (unsigned i = 0; i < OPERATIONS; i++) operations[i].timed(bed, library, 0);
        printf("calls %u\n", AT_ONCE);
        free_bed(bed);
        return;
    }
    fail("no such table");
}

int main(int argc, char **argv)
{
    if (argc == 3 && strcmp(argv[1], "time") == 0) {
        printf("| table | page | product, ns | baseline, ns | product / baseline |\n|---|---|---|---|---|\n");
        for (unsigned t = 0; t < TABLES; t++) time_table(t, (unsigned)atoi(argv[2]));
    } else if (argc == 4 && strcmp(argv[1], "count") == 0) {
        count(library_named(argv[2]), argv[3]);
    } else if (argc == 2 && strcmp(argv[1], "tables") == 0) {
        for (unsigned t = 0; t < TABLES; t++) printf("%s\n", tables[t].name);
    } else {
        fail("pages time ROUNDS | pages count LIBRARY TABLE | pages tables");
    }
    return 0;
}
