/* A test bed: one table, kept alike by both libraries, and operations on it that are timed or counted. */
#ifndef BED_H
#define BED_H

#include "common.h"

/* An operation makes CHUNK calls, so that reading the clock weighs little, and stays short, so that both libraries
 * meet the same state of a busy machine. */
enum { CHUNK = 64 };

/* Slots in use: of a list without overflow blocks; of the own block of a list that has some; of an overflow block. */
enum { SHORT_LIST, LONG_LIST, OVERFLOW_BLOCK, SLOT_KINDS };

typedef struct {
    Settings settings;
    size_t size;
    uint8_t *table[LIBRARIES];
    unsigned n;     /* entries */
    Key *in, *out;  /* n keys that it holds, n that it does not */
    uint64_t *slots[SLOT_KINDS]; /* n numbers of each kind, repeated if there are fewer; good until a delete */
    uint64_t labels[CHUNK]; /* what the next relabels give */
    uint8_t *marks;
    size_t marks_size;
    Answer got[LIBRARIES][CHUNK]; /* what the last operation answered */
} Bed;

/* Random keys are entered until n are held; those that the table refuses are left out. */
Bed *new_bed(Settings s, unsigned n);
void free_bed(Bed *bed);

/* CHUNK calls of one library, on the keys from `at` on; op_check makes one call. Their names start with op_ so that
 * callgrind's counts can be picked out. */
typedef void Operation(Bed *bed, int library, unsigned at);
Operation op_find_hit, op_find_miss, op_enter, op_relabel, op_delete, op_check;
Operation op_retrieve_short, op_retrieve_long, op_retrieve_overflow;

/* Draws the labels that both libraries' next relabels give. */
Operation draw_labels;

/* The same with one of the settings stored right before each call: the copy of the whole struct waits until that store is
 * in the cache, and so does what the call computes from it. */
Operation late_find_hit, late_find_miss, late_enter, late_relabel, late_delete;
Operation late_retrieve_short, late_retrieve_long, late_retrieve_overflow;

/* Runs `timed` for both libraries in turn, `rounds` times, and gives each library's median ns. `before` prepares the
 * table and `after` puts it back, untimed; either may be NULL. Ends the program if the answers or the tables differ. */
void race(Bed *bed, Operation *before, Operation *timed, Operation *after, unsigned rounds, Clock *clock,
          double ns[LIBRARIES]);

#endif
