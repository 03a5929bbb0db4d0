/* salvage.c - what is left of a damaged table goes into a new one.
 *
 *     cc -Iinclude examples/salvage.c target/staticlib/libshelfegret.a -o salvage
 *
 * A call is refused with 7 if a list that it follows is damaged; the other lists can still be read. shelfegret_record
 * goes from list to list, and comes to no entry behind a damaged one. So a copy of the bytes is made in which the
 * damaged lists are empty, and that is read to its end. */
#include <stdio.h>
#include <string.h>

#include "shelfegret.h"

static const struct shelfegret_settings settings = {
    .w = 128, .bii = 4, .sib = 4, .nob = 8, .sio = 3, .val = 8, .a = 11, .b = 5};

static uint8_t table[1468], copy[sizeof table], rescued[sizeof table], marks[1];

/* ---- what must be known of the format: where a list's counter stands */

static uint32_t log2_up(uint32_t n)
{
    uint32_t bits = 0;
    while ((uint32_t)1 << bits < n) bits++;
    return bits;
}

static void set_counter(uint8_t *bytes, uint32_t list, uint32_t value)
{
    uint32_t bits = log2_up(2 + settings.sib), slot = settings.w - settings.bii + settings.val;
    size_t at = log2_up(1 + settings.nob) + (size_t)list * (bits + settings.sib * slot);
    for (; bits != 0; bits--, at++) {
        uint8_t bit = (uint8_t)(0x80 >> at % 8);
        bytes[at / 8] = (uint8_t)((value >> (bits - 1) & 1) ? bytes[at / 8] | bit : bytes[at / 8] & ~bit);
    }
}

/* A key of the list, for w 128 and bii above 0: the one whose stored bits are all 0. (a * 0 + b) mod p is b, so its
 * first bits are the list's number xor the low bits of b. */
static struct shelfegret_key key_of(uint32_t list)
{
    uint32_t index = list ^ (settings.b & (((uint32_t)1 << settings.bii) - 1));
    struct shelfegret_key key = {(uint64_t)index << (64 - settings.bii), 0};
    return key;
}

/* ---- the salvage */

/* Enters the records of `from` into `to`, up to the first that cannot be read; a key that `to` holds keeps its label. */
static void copy_records(const uint8_t *from, uint8_t *to)
{
    for (unsigned n = 0;; n++) {
        struct shelfegret_answer r = shelfegret_record(settings, from, sizeof table, n);
        if (r.code != 0 || r.word != SHELFEGRET_RECORD) {
            printf("%u records, then %s\n", n, r.code == 0 ? "the end" : "refused 7");
            return;
        }
        uint32_t code = shelfegret_enter(settings, to, sizeof table, r.key, r.label).code;
        if (code != 0 && code != SHELFEGRET_REFUSED_KNOWN) printf("record %u does not fit\n", n);
    }
}

static void salvage(void)
{
    memcpy(copy, table, sizeof table);
    for (uint32_t list = 0; list < (uint32_t)1 << settings.bii; list++) {
        if (shelfegret_find(settings, table, sizeof table, key_of(list)).code != SHELFEGRET_REFUSED_DAMAGE) continue;
        printf("list %u is damaged\n", (unsigned)list);
        set_counter(copy, list, 0);
    }
    copy_records(copy, rescued);
}

/* ---- a table with damage */

static struct shelfegret_key address(uint64_t n)
{
    struct shelfegret_key key = {0x20010db800000000, n}; /* 2001:db8::n */
    return key;
}

static unsigned found(const uint8_t *bytes)
{
    unsigned n = 0;
    for (uint64_t i = 1; i <= 40; i++)
        n += shelfegret_find(settings, bytes, sizeof table, address(i)).word == SHELFEGRET_HELD;
    return n;
}

static const char *soundness(const uint8_t *bytes)
{
    struct shelfegret_answer answer = shelfegret_check(settings, bytes, sizeof table, marks, sizeof marks);
    return answer.word == SHELFEGRET_SOUND ? "sound" : "unsound";
}

int main(void)
{
    shelfegret_make(settings, table, sizeof table);
    for (uint64_t i = 1; i <= 40; i++) shelfegret_enter(settings, table, sizeof table, address(i), i);
    printf("%u addresses, %s\n", found(table), soundness(table));

    set_counter(table, 6, 7); /* no list: a counter is at most sib + 1 */
    set_counter(table, 9, 7);
    printf("%u addresses are found, %s\n", found(table), soundness(table));

    shelfegret_make(settings, rescued, sizeof rescued);
    printf("as it is: ");
    copy_records(table, rescued);
    salvage();
    printf("the new table: %u addresses, %s\n", found(rescued), soundness(rescued));
    return 0;
}
