/* How a find grows with the lists and with the table, product beside baseline.
 *   growth lists ROUNDS    256 lists that get longer
 *   growth n ROUNDS        more lists of nearly the same length */
#include <stdio.h>
#include <stdlib.h>
#include <string.h>

#include "bed.h"

typedef struct {
    unsigned n;
    Settings settings;
} Step;

/* As many slots in a list's own block as a list has entries on average, and overflow blocks to spare. */
static const Step longer_lists[] = {
    /*           w   bii sib  nob  sio val a   b */
    { 1024,  { 128,  8,  4,  512, 3, 8, 97, 31 } },
    { 2048,  { 128,  8,  8,  512, 3, 8, 97, 31 } },
    { 4096,  { 128,  8, 16,  512, 3, 8, 97, 31 } },
    { 8192,  { 128,  8, 32,  512, 3, 8, 97, 31 } },
    { 16384, { 128,  8, 64,  512, 3, 8, 97, 31 } },
};
static const Step more_lists[] = {
    { 1000,   { 128,  7,  8,  128, 3, 8, 97, 31 } },
    { 10000,  { 128, 10, 10, 1024, 3, 8, 97, 31 } },
    { 100000, { 128, 13, 12, 8192, 3, 8, 97, 31 } },
};

/* Entries that a find compares, on average over the keys. */
static double compared(const Bed *bed, const Key *keys)
{
    double sum = 0;
    for (unsigned i = 0; i < bed->n; i++)
        sum += libraries[PRODUCT].find(bed->settings, bed->table[PRODUCT], bed->size, keys[i]).compared;
    return sum / bed->n;
}

static void print_race(Bed *bed, Operation *find, const Key *keys, unsigned rounds)
{
    double ns[LIBRARIES];
    race(bed, NULL, find, NULL, rounds, wall_clock, ns);
    printf(" %.1f | %.1f | %.1f | %.2f |", compared(bed, keys), ns[PRODUCT] / CHUNK, ns[BASELINE] / CHUNK,
           ns[PRODUCT] / ns[BASELINE]);
}

static void print_step(Step step, unsigned rounds)
{
    Bed *bed = new_bed(step.settings, step.n);
    printf("| %u | %u | %u | %u | %.1f |", step.n, step.settings.bii, step.settings.sib, step.settings.nob,
           (double)step.n / (1u << step.settings.bii));
    print_race(bed, op_find_hit, bed->in, rounds);
    print_race(bed, op_find_miss, bed->out, rounds);
    printf("\n");
    free_bed(bed);
}

static void print_steps(const Step *steps, size_t count, unsigned rounds)
{
    printf("| n | bii | sib | nob | average list | hit: compared | product, ns | baseline, ns | ratio "
           "| miss: compared | product, ns | baseline, ns | ratio |\n"
           "|---|---|---|---|---|---|---|---|---|---|---|---|---|\n");
    for (size_t i = 0; i < count; i++) print_step(steps[i], rounds);
}

int main(int argc, char **argv)
{
    if (argc == 3 && strcmp(argv[1], "lists") == 0)
        print_steps(longer_lists, sizeof longer_lists / sizeof longer_lists[0], (unsigned)atoi(argv[2]));
    else if (argc == 3 && strcmp(argv[1], "n") == 0)
        print_steps(more_lists, sizeof more_lists / sizeof more_lists[0], (unsigned)atoi(argv[2]));
    else
        fail("growth lists ROUNDS | growth n ROUNDS");
    return 0;
}
