#define _POSIX_C_SOURCE 199309L
#include "common.h"

#include <stdio.h>
#include <stdlib.h>
#include <string.h>
#include <time.h>

/* The baseline's calls, which bench/run renames so that both libraries fit into one program. */
Answer baseline_size(Settings);
Answer baseline_make(Settings, uint8_t *, size_t);
Answer baseline_enter(Settings, uint8_t *, size_t, Key, uint64_t);
Answer baseline_relabel(Settings, uint8_t *, size_t, Key, uint64_t);
Answer baseline_find(Settings, const uint8_t *, size_t, Key);
Answer baseline_delete(Settings, uint8_t *, size_t, Key);
Answer baseline_retrieve(Settings, const uint8_t *, size_t, uint64_t);
Answer baseline_check(Settings, const uint8_t *, size_t, uint8_t *, size_t);
Answer baseline_find_text(Settings, const uint8_t *, size_t, const uint8_t *, size_t);
Answer baseline_read_text(const uint8_t *, size_t);
Answer baseline_write_text(Key, uint8_t *, size_t);
Answer baseline_page(Settings, const uint8_t *, size_t, uint64_t, uint8_t *, size_t);

const Library libraries[LIBRARIES] = {
    { "product", shelfegret_size, shelfegret_make, shelfegret_enter, shelfegret_relabel, shelfegret_find,
      shelfegret_delete, shelfegret_retrieve, shelfegret_check, shelfegret_find_text, shelfegret_read_text,
      shelfegret_write_text, shelfegret_page },
    { "baseline", baseline_size, baseline_make, baseline_enter, baseline_relabel, baseline_find,
      baseline_delete, baseline_retrieve, baseline_check, baseline_find_text, baseline_read_text,
      baseline_write_text, baseline_page },
};

int library_named(const char *name)
{
    for (int k = 0; k < LIBRARIES; k++)
        if (strcmp(libraries[k].name, name) == 0) return k;
    fail("no such library");
    return 0;
}

Settings spread(Settings s)
{
    static const uint32_t primes[] = { 2,   3,   5,    11,   17,   37,   67,    131,  257,
                                       521, 1031, 2053, 4099, 8209, 16411, 32771, 65537 };
    uint32_t p = primes[s.bii];
    s.a = 1 + 96 % (p - 1);
    s.b = 1 + 30 % (p - 1);
    return s;
}

void print_settings(Settings s)
{
    printf("w %u, bii %u, sib %u, nob %u, sio %u, val %u, a %u, b %u", s.w, s.bii, s.sib, s.nob, s.sio, s.val, s.a,
           s.b);
}

void fail(const char *why)
{
    fprintf(stderr, "%s\n", why);
    exit(1);
}

void *room(size_t bytes)
{
    void *p = malloc(bytes);
    if (!p) fail("no memory");
    return p;
}

#define SEED 88172645463325252u
static uint64_t state = SEED;

void restart_random(void)
{
    state = SEED;
}

/* xorshift64* */
uint64_t random_bits(void)
{
    state ^= state >> 12;
    state ^= state << 25;
    state ^= state >> 27;
    return state * 2685821657736338717u;
}

static uint64_t random_below(unsigned bits)
{
    return bits == 0 ? 0 : random_bits() >> (64 - bits);
}

Key random_key(unsigned w)
{
    Key k;
    k.high = random_below(w > 64 ? w - 64 : 0);
    k.low = random_below(w > 64 ? 64 : w);
    return k;
}

static double read_clock(clockid_t id)
{
    struct timespec t;
    clock_gettime(id, &t);
    return (double)t.tv_sec * 1e9 + (double)t.tv_nsec;
}

double wall_clock(void)
{
    return read_clock(CLOCK_MONOTONIC);
}

double processor_clock(void)
{
    return read_clock(CLOCK_PROCESS_CPUTIME_ID);
}

static int by_size(const void *a, const void *b)
{
    double x = *(const double *)a, y = *(const double *)b;
    return (x > y) - (x < y);
}

double median(double *values, size_t n)
{
    qsort(values, n, sizeof *values, by_size);
    return values[n / 2];
}
