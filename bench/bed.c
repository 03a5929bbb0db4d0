#include "bed.h"

#include <stdlib.h>
#include <string.h>

#include "../tests/format.h"

static void compare_tables(const Bed *bed)
{
    if (memcmp(bed->table[PRODUCT], bed->table[BASELINE], bed->size) != 0) fail("the tables differ");
}

static void compare_answers(const Bed *bed)
{
    if (memcmp(bed->got[PRODUCT], bed->got[BASELINE], sizeof bed->got[PRODUCT]) != 0) fail("the answers differ");
}

static uint64_t label_of(const Bed *bed, unsigned i)
{
    return bed->settings.val == 0 ? 0 : i & ((1u << (bed->settings.val < 8 ? bed->settings.val : 8)) - 1);
}

static void fill(Bed *bed, unsigned n)
{
    for (unsigned tries = 0; bed->n < n; tries++) {
        Key key = random_key(bed->settings.w);
        Answer a[LIBRARIES];
        for (int k = 0; k < LIBRARIES; k++)
            a[k] = libraries[k].enter(bed->settings, bed->table[k], bed->size, key, label_of(bed, bed->n));
        if (memcmp(&a[PRODUCT], &a[BASELINE], sizeof a[PRODUCT]) != 0) fail("the answers differ");
        if (a[PRODUCT].word == SHELFEGRET_ADDED) bed->in[bed->n++] = key;
        if (tries > 2 * n) fail("the table is too small");
    }
    compare_tables(bed);
}

static void choose_misses(Bed *bed)
{
    for (unsigned i = 0; i < bed->n;) {
        Key key = random_key(bed->settings.w);
        Answer a = libraries[BASELINE].find(bed->settings, bed->table[BASELINE], bed->size, key);
        if (a.word == SHELFEGRET_NONE) bed->out[i++] = key;
    }
}

/* The number of each key's slot is what find answers; which lists have overflow blocks is told by their keys' slots. */
static void choose_slots(Bed *bed)
{
    Settings s = bed->settings;
    uint64_t own = basic_slots(s);
    unsigned count[SLOT_KINDS] = { 0 };
    uint8_t *overflows = room((size_t)1 << s.bii);
    memset(overflows, 0, (size_t)1 << s.bii);
    for (int pass = 0; pass < 2; pass++)
        for (unsigned i = 0; i < bed->n; i++) {
            uint64_t slot = libraries[BASELINE].find(s, bed->table[BASELINE], bed->size, bed->in[i]).number;
            uint64_t list = list_of(s, bed->in[i]);
            int kind = slot >= own ? OVERFLOW_BLOCK : overflows[list] ? LONG_LIST : SHORT_LIST;
            if (pass == 0) overflows[list] |= slot >= own;
            else bed->slots[kind][count[kind]++] = slot;
        }
    for (int kind = 0; kind < SLOT_KINDS; kind++)
        for (unsigned i = count[kind]; i < bed->n; i++)
            bed->slots[kind][i] = count[kind] ? bed->slots[kind][i - count[kind]] : UINT64_MAX;
    free(overflows);
}

Bed *new_bed(Settings s, unsigned n)
{
    restart_random();
    Bed *bed = room(sizeof *bed);
    memset(bed, 0, sizeof *bed);
    bed->settings = s;
    bed->size = libraries[PRODUCT].size(s).number;
    if (bed->size == 0 || bed->size != libraries[BASELINE].size(s).number) fail("the sizes differ");
    for (int k = 0; k < LIBRARIES; k++) {
        bed->table[k] = room(bed->size);
        libraries[k].make(s, bed->table[k], bed->size);
    }
    bed->in = room(n * sizeof *bed->in);
    bed->out = room(n * sizeof *bed->out);
    bed->marks_size = (s.nob + 7) / 8;
    bed->marks = room(bed->marks_size + 1);
    for (int kind = 0; kind < SLOT_KINDS; kind++) bed->slots[kind] = room(n * sizeof *bed->slots[kind]);
    fill(bed, n);
    choose_misses(bed);
    choose_slots(bed);
    return bed;
}

void free_bed(Bed *bed)
{
    for (int k = 0; k < LIBRARIES; k++) free(bed->table[k]);
    free(bed->in);
    free(bed->out);
    for (int kind = 0; kind < SLOT_KINDS; kind++) free(bed->slots[kind]);
    free(bed->marks);
    free(bed);
}

/* These are inline so that callgrind counts them as the operation's own. */
static inline Settings settings_of(Bed *bed, int late)
{
    if (late) *(volatile uint32_t *)&bed->settings.w = bed->settings.w;
    return bed->settings;
}

static inline void find_all(Bed *bed, int k, const Key *keys, int late)
{
    for (unsigned i = 0; i < CHUNK; i++)
        bed->got[k][i] = libraries[k].find(settings_of(bed, late), bed->table[k], bed->size, keys[i]);
}

static inline void enter_all(Bed *bed, int k, unsigned at, int late)
{
    for (unsigned i = 0; i < CHUNK; i++)
        bed->got[k][i] = libraries[k].enter(settings_of(bed, late), bed->table[k], bed->size, bed->in[at + i],
                                            label_of(bed, at + i));
}

static inline void relabel_all(Bed *bed, int k, unsigned at, int late)
{
    for (unsigned i = 0; i < CHUNK; i++)
        bed->got[k][i] = libraries[k].relabel(settings_of(bed, late), bed->table[k], bed->size, bed->in[at + i],
                                              bed->labels[i]);
}

static inline void delete_all(Bed *bed, int k, unsigned at, int late)
{
    for (unsigned i = 0; i < CHUNK; i++)
        bed->got[k][i] = libraries[k].remove(settings_of(bed, late), bed->table[k], bed->size, bed->in[at + i]);
}

static inline void retrieve_all(Bed *bed, int k, const uint64_t *slots, int late)
{
    for (unsigned i = 0; i < CHUNK; i++)
        bed->got[k][i] = libraries[k].retrieve(settings_of(bed, late), bed->table[k], bed->size, slots[i]);
}

void op_find_hit(Bed *bed, int k, unsigned at) { find_all(bed, k, bed->in + at, 0); }
void op_find_miss(Bed *bed, int k, unsigned at) { find_all(bed, k, bed->out + at, 0); }
void op_enter(Bed *bed, int k, unsigned at) { enter_all(bed, k, at, 0); }
void op_relabel(Bed *bed, int k, unsigned at) { relabel_all(bed, k, at, 0); }
void op_delete(Bed *bed, int k, unsigned at) { delete_all(bed, k, at, 0); }
void op_retrieve_short(Bed *bed, int k, unsigned at) { retrieve_all(bed, k, bed->slots[SHORT_LIST] + at, 0); }
void op_retrieve_long(Bed *bed, int k, unsigned at) { retrieve_all(bed, k, bed->slots[LONG_LIST] + at, 0); }
void op_retrieve_overflow(Bed *bed, int k, unsigned at) { retrieve_all(bed, k, bed->slots[OVERFLOW_BLOCK] + at, 0); }

void late_find_hit(Bed *bed, int k, unsigned at) { find_all(bed, k, bed->in + at, 1); }
void late_find_miss(Bed *bed, int k, unsigned at) { find_all(bed, k, bed->out + at, 1); }
void late_enter(Bed *bed, int k, unsigned at) { enter_all(bed, k, at, 1); }
void late_relabel(Bed *bed, int k, unsigned at) { relabel_all(bed, k, at, 1); }
void late_delete(Bed *bed, int k, unsigned at) { delete_all(bed, k, at, 1); }
void late_retrieve_short(Bed *bed, int k, unsigned at) { retrieve_all(bed, k, bed->slots[SHORT_LIST] + at, 1); }
void late_retrieve_long(Bed *bed, int k, unsigned at) { retrieve_all(bed, k, bed->slots[LONG_LIST] + at, 1); }
void late_retrieve_overflow(Bed *bed, int k, unsigned at) { retrieve_all(bed, k, bed->slots[OVERFLOW_BLOCK] + at, 1); }

void op_check(Bed *bed, int k, unsigned at)
{
    (void)at;
    bed->got[k][0] = libraries[k].check(bed->settings, bed->table[k], bed->size, bed->marks, bed->marks_size);
}

void draw_labels(Bed *bed, int k, unsigned at)
{
    (void)at;
    if (k != PRODUCT) return; /* once for both */
    for (unsigned i = 0; i < CHUNK; i++)
        bed->labels[i] = bed->settings.val == 0 ? 0 : random_bits() >> (64 - bed->settings.val);
}

static void run_both(Bed *bed, Operation *operation, unsigned at)
{
    if (!operation) return;
    for (int k = 0; k < LIBRARIES; k++) operation(bed, k, at);
    compare_answers(bed);
}

void race(Bed *bed, Operation *before, Operation *timed, Operation *after, unsigned rounds, Clock *clock,
          double ns[LIBRARIES])
{
    double *times[LIBRARIES];
    for (int k = 0; k < LIBRARIES; k++) times[k] = room(rounds * sizeof *times[k]);
    for (unsigned r = 0; r < rounds; r++) {
        unsigned at = (unsigned)(random_bits() % (bed->n - CHUNK + 1));
        run_both(bed, before, at);
        for (unsigned j = 0; j < LIBRARIES; j++) {
            int k = (int)((r + j) % LIBRARIES); /* neither is always the first */
            double start = clock();
            timed(bed, k, at);
            times[k][r] = clock() - start;
        }
        compare_answers(bed);
        run_both(bed, after, at);
    }
    compare_tables(bed);
    for (int k = 0; k < LIBRARIES; k++) {
        ns[k] = median(times[k], rounds);
        free(times[k]);
    }
}
