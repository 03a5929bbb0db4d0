/* input.h - random numbers from a seed, and address texts, legal and broken. */
#ifndef INPUT_H
#define INPUT_H

#include <stddef.h>
#include <stdint.h>

#include "shelfegret.h"

enum { TEXT_MOST = 320 }; /* no text made here is longer */

void seed_random(uint64_t seed);
uint64_t random_bits(void);
uint64_t below(uint64_t n); /* 0 to n - 1 */
int one_in(uint64_t n);

/* An address in which whole groups are often zero, so that "::" has something to stand for; or an IPv4 address. */
struct shelfegret_key random_address(void);

/* Each writes a text and returns its length. */
size_t legal_text(struct shelfegret_key key, uint8_t *text); /* one of the legal spellings of the key */
size_t any_text(struct shelfegret_key key, uint8_t *text);   /* often one of them, else broken or not a text at all */

void tell_text(const uint8_t *text, size_t len); /* to standard error, in quotes */

#endif
