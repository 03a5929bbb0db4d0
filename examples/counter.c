/* counter.c - a traffic counter beside a block list: figures by slot number, printed by address.
 *
 *     cc -Iinclude examples/counter.c target/staticlib/libshelfegret.a -o counter
 *
 * Find answers the number of the entry's slot. So the counter keeps no addresses of its own, only a figure for each
 * slot, and gets back from a slot to its address by retrieve. */
#include <stdio.h>
#include <string.h>

#include "shelfegret.h"

/* Few addresses, so that some lists need an overflow block: 2^2 lists with room for 2 entries each, and 4 blocks for 2
 * each. */
static const struct shelfegret_settings settings = {
    .w = 128, .bii = 2, .sib = 2, .nob = 4, .sio = 2, .val = 8, .a = 2, .b = 3};
enum { SLOTS = 2 * 4 + 2 * 4 }; /* sib * 2^bii + sio * nob: slots are numbered 0 to 15 */

static uint8_t table[273];
static unsigned dropped[SLOTS]; /* packets from the address in this slot */

static struct shelfegret_key address(uint64_t n)
{
    struct shelfegret_key key = {0x20010db800000000, n}; /* 2001:db8::n */
    return key;
}

static void print_address(struct shelfegret_key key)
{
    uint8_t text[39];
    struct shelfegret_answer written = shelfegret_write_text(key, text, sizeof text);
    printf("%.*s", (int)written.number, (const char *)text);
}

/* The word decides: 0 is the number of a slot, and also stands where nothing is held. */
static void packet_from(struct shelfegret_key source)
{
    struct shelfegret_answer answer = shelfegret_find(settings, table, sizeof table, source);
    if (answer.word == SHELFEGRET_HELD) dropped[answer.number]++;
}

static void print_figures(const char *when)
{
    printf("%s:\n", when);
    for (uint64_t slot = 0; slot < SLOTS; slot++) {
        if (dropped[slot] == 0) continue;
        struct shelfegret_answer answer = shelfegret_retrieve(settings, table, sizeof table, slot);
        printf("  slot %2u: ", (unsigned)slot);
        print_address(answer.key);
        printf(", label %u, %u dropped\n", (unsigned)answer.label, dropped[slot]);
    }
}

/* Numbers are good until an address is deleted, which may move another one to its slot. So each figure goes along with
 * its address: that is retrieved before the delete, and asked for its number behind it. */
static void unblock(struct shelfegret_key key)
{
    struct shelfegret_key keys[SLOTS];
    unsigned figures[SLOTS];
    memcpy(figures, dropped, sizeof dropped);
    for (uint64_t slot = 0; slot < SLOTS; slot++)
        keys[slot] = shelfegret_retrieve(settings, table, sizeof table, slot).key;
    if (shelfegret_delete(settings, table, sizeof table, key).word != SHELFEGRET_GONE) return;
    memset(dropped, 0, sizeof dropped);
    for (int slot = 0; slot < SLOTS; slot++) {
        if (figures[slot] == 0) continue;
        struct shelfegret_answer answer = shelfegret_find(settings, table, sizeof table, keys[slot]);
        if (answer.word == SHELFEGRET_HELD) dropped[answer.number] = figures[slot];
    }
}

int main(void)
{
    static const uint8_t sources[] = {3, 1, 3, 10, 7, 99, 3, 12, 10, 8, 1, 0, 5, 7, 3}; /* 99 and 0 are not blocked */
    if (shelfegret_make(settings, table, sizeof table).code != 0) return 1;
    for (uint64_t n = 1; n <= 12; n++) shelfegret_enter(settings, table, sizeof table, address(n), n);
    for (size_t i = 0; i < sizeof sources; i++) packet_from(address(sources[i]));
    print_figures("in the morning");
    shelfegret_relabel(settings, table, sizeof table, address(10), 200); /* a new label leaves all numbers good, */
    shelfegret_enter(settings, table, sizeof table, address(13), 13);    /* and so does a new address */
    packet_from(address(13));
    print_figures("at noon");
    unblock(address(1));
    for (size_t i = 0; i < sizeof sources; i++) packet_from(address(sources[i]));
    print_figures("in the evening, without 2001:db8::1");
    return 0;
}
