/* Calls on a table, product beside baseline.
 *   calls time ROUNDS            ns of each call on each table below, as a Markdown table
 *   calls late ROUNDS            the same but for check, with one of the settings stored right before each call
 *   calls count LIBRARY TABLE    each operation once a round, for callgrind to count; prints the calls of each
 *   calls tables                 the names that count takes */
#include <stdio.h>
#include <stdlib.h>
#include <string.h>

#include "bed.h"

static const struct {
    const char *name;
    unsigned n;
    Settings settings;
} tables[] = {
    /*                                    w   bii sib  nob  sio val  a   b */
    { "the program's, n 800", 800,     { 128,  8,  4,   64, 3,  8, 97, 31 } },
    { "n 10^4, short lists",  10000,   { 128, 10, 10, 1500, 3,  8, 97, 31 } },
    { "n 10^4, long lists",   10000,   { 128,  8, 39,  500, 3,  8, 97, 31 } },
    { "n 10^5",               100000,  { 128, 13, 12, 8000, 3,  8, 97, 31 } },
    { "w 48, n 10^4",         10000,   {  48,  8, 39,  500, 3,  0, 97, 31 } },
};
enum { TABLES = sizeof tables / sizeof tables[0] };

/* An enter needs its keys out of the table first, a relabel new labels, and after a delete the keys come back. What is
 * retrieved must be there: so that comes before any delete. */
static const struct {
    const char *name;
    Operation *before, *timed, *late, *after;
} operations[] = {
    { "find, hit", NULL, op_find_hit, late_find_hit, NULL },
    { "find, miss", NULL, op_find_miss, late_find_miss, NULL },
    { "retrieve, short list", NULL, op_retrieve_short, late_retrieve_short, NULL },
    { "retrieve, long list", NULL, op_retrieve_long, late_retrieve_long, NULL },
    { "retrieve, overflow block", NULL, op_retrieve_overflow, late_retrieve_overflow, NULL },
    { "enter", op_delete, op_enter, late_enter, NULL },
    { "relabel", draw_labels, op_relabel, late_relabel, NULL },
    { "delete", NULL, op_delete, late_delete, op_enter },
    { "check, an entry", NULL, op_check, NULL, NULL },
};
enum { OPERATIONS = sizeof operations / sizeof operations[0] };

/* A check walks the whole table, so that a few are enough. */
enum { CHECKS = 25 };

static void expect_records(const Bed *bed, Operation *done)
{
    if (done != op_retrieve_short && done != op_retrieve_long && done != op_retrieve_overflow) return;
    for (unsigned i = 0; i < CHUNK; i++)
        if (bed->got[PRODUCT][i].word != SHELFEGRET_RECORD) fail("a slot is not in use");
}

static void time_table(unsigned t, unsigned rounds, int late)
{
    Bed *bed = new_bed(tables[t].settings, tables[t].n);
    for (unsigned i = 0; i < OPERATIONS; i++) {
        Operation *timed = late ? operations[i].late : operations[i].timed;
        if (!timed) continue;
        int whole = timed == op_check;
        unsigned entries = whole ? bed->n : CHUNK;
        double ns[LIBRARIES];
        race(bed, operations[i].before, timed, operations[i].after, whole ? CHECKS : rounds,
             whole ? processor_clock : wall_clock, ns);
        expect_records(bed, operations[i].timed);
        printf("| %s | %s | %.1f | %.1f | %.2f |\n", tables[t].name, operations[i].name,
               ns[PRODUCT] / entries, ns[BASELINE] / entries, ns[PRODUCT] / ns[BASELINE]);
    }
    free_bed(bed);
}

static void print_tables(void)
{
    printf("| table | settings |\n|---|---|\n");
    for (unsigned t = 0; t < TABLES; t++) {
        printf("| %s | ", tables[t].name);
        print_settings(tables[t].settings);
        printf(" |\n");
    }
    printf("\n");
}

static void time_all(unsigned rounds, int late)
{
    printf("| table | call | product, ns | baseline, ns | product / baseline |\n|---|---|---|---|---|\n");
    for (unsigned t = 0; t < TABLES; t++) time_table(t, rounds, late);
}

enum { COUNTED = 20 };

/* The chunks are spread over all keys, since those entered early stand first in their lists. */
static void count(int library, const char *name)
{
    for (unsigned t = 0; t < TABLES; t++) {
        if (strcmp(tables[t].name, name) != 0) continue;
        Bed *bed = new_bed(tables[t].settings, tables[t].n);
        for (unsigned c = 0; c < COUNTED; c++) {
            unsigned at = c * (bed->n - CHUNK) / (COUNTED - 1);
            op_retrieve_short(bed, library, at);
            op_retrieve_long(bed, library, at);
            op_retrieve_overflow(bed, library, at);
        }
        for (unsigned c = 0; c < COUNTED; c++) {
            unsigned at = c * (bed->n - CHUNK) / (COUNTED - 1);
            op_find_hit(bed, library, at);
            op_find_miss(bed, library, at);
            op_delete(bed, library, at);
            op_enter(bed, library, at);
            draw_labels(bed, PRODUCT, at);
            op_relabel(bed, library, at);
        }
        op_check(bed, library, 0);
        printf("calls %u\nentries %u\n", COUNTED * CHUNK, bed->n);
        free_bed(bed);
        return;
    }
    fail("no such table");
}

int main(int argc, char **argv)
{
    if (argc == 3 && strcmp(argv[1], "time") == 0) {
        print_tables();
        time_all((unsigned)atoi(argv[2]), 0);
    } else if (argc == 3 && strcmp(argv[1], "late") == 0) {
        time_all((unsigned)atoi(argv[2]), 1);
    } else if (argc == 4 && strcmp(argv[1], "count") == 0) {
        count(library_named(argv[2]), argv[3]);
    } else if (argc == 2 && strcmp(argv[1], "tables") == 0) {
        for (unsigned t = 0; t < TABLES; t++) printf("%s\n", tables[t].name);
    } else {
        fail("calls time ROUNDS | calls late ROUNDS | calls count LIBRARY TABLE | calls tables");
    }
    return 0;
}
