/* What the drivers share: the two libraries behind one interface, random keys from a fixed seed, a clock, medians. */
#ifndef COMMON_H
#define COMMON_H

#include <stddef.h>
#include <stdint.h>

#include "shelfegret.h"

#ifdef __cplusplus
extern "C" {
#endif

typedef struct shelfegret_settings Settings;
typedef struct shelfegret_key Key;
typedef struct shelfegret_answer Answer;

typedef struct {
    const char *name;
    Answer (*size)(Settings);
    Answer (*make)(Settings, uint8_t *, size_t);
    Answer (*enter)(Settings, uint8_t *, size_t, Key, uint64_t);
    Answer (*relabel)(Settings, uint8_t *, size_t, Key, uint64_t);
    Answer (*find)(Settings, const uint8_t *, size_t, Key);
    Answer (*remove)(Settings, uint8_t *, size_t, Key);
    Answer (*retrieve)(Settings, const uint8_t *, size_t, uint64_t);
    Answer (*check)(Settings, const uint8_t *, size_t, uint8_t *, size_t);
    Answer (*find_text)(Settings, const uint8_t *, size_t, const uint8_t *, size_t);
    Answer (*read_text)(const uint8_t *, size_t);
    Answer (*write_text)(Key, uint8_t *, size_t);
    Answer (*page)(Settings, const uint8_t *, size_t, uint64_t, uint8_t *, size_t);
} Library;

enum { PRODUCT, BASELINE, LIBRARIES };
extern const Library libraries[LIBRARIES];

/* The index of the library with this name; ends the program if there is none. */
int library_named(const char *name);

/* The same settings with a and b, 97 and 31 where the prime of bii is above them. */
Settings spread(Settings s);
void print_settings(Settings s);

/* Ends the program with exit code 1. */
void fail(const char *why);
void *room(size_t bytes);

/* Random numbers from a fixed seed. Every table starts them anew, so that it does not depend on those before it. */
void restart_random(void);
uint64_t random_bits(void);
Key random_key(unsigned w);

/* Clocks, in ns. For some microseconds the wall clock is right: its reading is cheap, and a median drops the rounds in
 * which another process had the processor. For milliseconds it takes the processor time of this process alone. */
typedef double Clock(void);
Clock wall_clock, processor_clock;

double median(double *values, size_t n); /* sorts them */

#ifdef __cplusplus
}
#endif

#endif
