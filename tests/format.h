/* format.h - the bits of a table, as docs/SPECIFICATION.md, section 4, has them: one at a time, slow and plain. */
#ifndef FORMAT_H
#define FORMAT_H

#include <stddef.h>
#include <stdint.h>

#include "shelfegret.h"

uint32_t log2_up(uint64_t n); /* the least k with 2^k >= n */

/* a field of at most 64 bits */
uint64_t get_bits(const uint8_t *table, size_t at, uint32_t bits);
void put_bits(uint8_t *table, size_t at, uint32_t bits, uint64_t value);

/* the bits of the fields */
uint32_t start_bits(struct shelfegret_settings s);
uint32_t basic_counter_bits(struct shelfegret_settings s);
uint32_t counter_bits(struct shelfegret_settings s);
uint32_t link_bits(struct shelfegret_settings s);
uint32_t list_bits(struct shelfegret_settings s);
uint32_t entry_bits(struct shelfegret_settings s);
uint32_t slot_bits(struct shelfegret_settings s);

/* the first bit of a list's basic block, and of an overflow block; each begins with its counter */
size_t basic_at(struct shelfegret_settings s, uint64_t list);
size_t block_at(struct shelfegret_settings s, uint64_t block);

/* the first bit of an overflow block's link, and of the number of its list, behind which its slots stand */
size_t link_at(struct shelfegret_settings s, uint64_t block);
size_t list_at(struct shelfegret_settings s, uint64_t block);

/* the smallest prime above 2^bii */
uint32_t prime_above(uint32_t bii);

/* the key with this entry that belongs to this list, and the list that a key belongs to */
struct shelfegret_key key_in_list(struct shelfegret_settings s, struct shelfegret_key entry, uint64_t list);
uint64_t list_of(struct shelfegret_settings s, struct shelfegret_key key);

/* k's last n bits, and k with the small number above in front of its last n bits */
struct shelfegret_key low_bits(struct shelfegret_key k, uint32_t n);
struct shelfegret_key in_front(uint64_t above, uint32_t n, struct shelfegret_key k);

/* the slots of all basic blocks, and all slots: those of the overflow blocks are numbered behind the others */
uint64_t basic_slots(struct shelfegret_settings s);
uint64_t all_slots(struct shelfegret_settings s);

/* A list, followed to its end. */
struct followed {
    uint64_t list;
    uint32_t length, blocks; /* entries, and overflow blocks */
    uint32_t block[65535];   /* those, in their order */
};

/* Whether the list is sound enough to be followed. */
int follow(struct shelfegret_settings s, const uint8_t *table, uint64_t list, struct followed *f);

/* The number of the list's nth slot; and which of the list's slots has that number, its length if none has that is in
 * use. */
uint64_t slot_number(struct shelfegret_settings s, const struct followed *f, uint32_t n);
uint32_t slot_with_number(struct shelfegret_settings s, const struct followed *f, uint64_t number);

/* Where bit i of the list's nth slot stands: a displaced bit stands in the last block's link. */
size_t bit_at(struct shelfegret_settings s, const struct followed *f, uint32_t n, uint32_t i);
int is_displaced(struct shelfegret_settings s, const struct followed *f, uint32_t n, uint32_t i);

/* Whether the list's nth entry is the key's. */
int is_entry(struct shelfegret_settings s, const uint8_t *table, const struct followed *f, uint32_t n,
             struct shelfegret_key key);

/* The key of the list's nth entry, bit by bit from where its bits stand. */
struct shelfegret_key get_key(struct shelfegret_settings s, const uint8_t *table, const struct followed *f, uint32_t n);

/* The label of the list's nth entry, bit by bit from where its bits stand, and the same written there. */
uint64_t get_label(struct shelfegret_settings s, const uint8_t *table, const struct followed *f, uint32_t n);
void put_label(struct shelfegret_settings s, uint8_t *table, const struct followed *f, uint32_t n, uint64_t label);

#endif
