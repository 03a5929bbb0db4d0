/* format.c - the bits of a table, as docs/SPECIFICATION.md, section 4, has them: one at a time, slow and plain. */
#include "format.h"

typedef struct shelfegret_settings settings;
typedef struct shelfegret_key key;

uint32_t log2_up(uint64_t n)
{
    uint32_t k = 0;
    while ((uint64_t)1 << k < n) k++;
    return k;
}

uint64_t get_bits(const uint8_t *table, size_t at, uint32_t bits)
{
    uint64_t value = 0;
    for (; bits; bits--, at++) value = value << 1 | (table[at / 8] >> (7 - at % 8) & 1);
    return value;
}

void put_bits(uint8_t *table, size_t at, uint32_t bits, uint64_t value)
{
    for (; bits; bits--, at++) {
        uint8_t bit = (uint8_t)(0x80 >> at % 8);
        table[at / 8] = (uint8_t)((value >> (bits - 1) & 1) ? table[at / 8] | bit : table[at / 8] & ~bit);
    }
}

/* ---- fields and blocks */

uint32_t start_bits(settings s) { return log2_up((uint64_t)s.nob + 1); }
uint32_t basic_counter_bits(settings s) { return log2_up((uint64_t)s.sib + 2); }
uint32_t counter_bits(settings s) { return log2_up((uint64_t)s.sio + 1); }
uint32_t link_bits(settings s) { return log2_up(s.nob); }
uint32_t list_bits(settings s) { return s.bii; }
uint32_t entry_bits(settings s) { return s.w - s.bii; }
uint32_t slot_bits(settings s) { return entry_bits(s) + s.val; }

size_t basic_at(settings s, uint64_t list)
{
    return start_bits(s) + (size_t)list * (basic_counter_bits(s) + (size_t)s.sib * slot_bits(s));
}

size_t block_at(settings s, uint64_t block)
{
    size_t one = counter_bits(s) + link_bits(s) + list_bits(s) + (size_t)s.sio * slot_bits(s);
    return basic_at(s, (uint64_t)1 << s.bii) + (size_t)block * one;
}

size_t link_at(settings s, uint64_t block)
{
    return block_at(s, block) + counter_bits(s);
}

size_t list_at(settings s, uint64_t block)
{
    return link_at(s, block) + link_bits(s);
}

uint64_t basic_slots(settings s) { return (uint64_t)s.sib << s.bii; }
uint64_t all_slots(settings s) { return basic_slots(s) + (uint64_t)s.sio * s.nob; }

/* ---- keys */

uint32_t prime_above(uint32_t bii)
{
    static const uint32_t primes[17] = {2,   3,    5,    11,   17,   37,    67,    131,  257,
                                        521, 1031, 2053, 4099, 8209, 16411, 32771, 65537};
    return primes[bii];
}

key low_bits(key k, uint32_t n)
{
    key ones = {n <= 64 ? 0 : UINT64_MAX >> (128 - n), n >= 64 ? UINT64_MAX : ((uint64_t)1 << n) - 1};
    k.high &= ones.high;
    k.low &= ones.low;
    return k;
}

key in_front(uint64_t above, uint32_t n, key k)
{
    k.high |= n >= 128 ? 0 : n >= 64 ? above << (n - 64) : n ? above >> 1 >> (63 - n) : 0;
    k.low |= n >= 64 ? 0 : above << n;
    return k;
}

static uint64_t hash_of(settings s, key entry)
{
    uint64_t p = prime_above(s.bii), two_64 = (UINT64_MAX % p + 1) % p;
    uint64_t rest = (entry.high % p * two_64 + entry.low % p) % p;
    return (s.a * rest + s.b) % p % ((uint64_t)1 << s.bii);
}

key key_in_list(settings s, key entry, uint64_t list)
{
    uint64_t lists = (uint64_t)1 << s.bii;
    return in_front((list % lists) ^ hash_of(s, entry), entry_bits(s), entry);
}

uint64_t list_of(settings s, key k)
{
    uint32_t n = entry_bits(s);
    uint64_t index = n >= 64 ? (n == 128 ? 0 : k.high >> (n - 64)) : k.low >> n | (n ? k.high << 1 << (63 - n) : 0);
    return index ^ hash_of(s, low_bits(k, n));
}

/* ---- lists */

int follow(settings s, const uint8_t *table, uint64_t list, struct followed *f)
{
    size_t at = basic_at(s, list);
    uint64_t counter = get_bits(table, at, basic_counter_bits(s));
    uint64_t block = get_bits(table, at + basic_counter_bits(s), link_bits(s));
    f->list = list;
    f->length = (uint32_t)counter;
    f->blocks = 0;
    if (counter <= s.sib) return 1;
    if (counter > s.sib + 1) return 0;
    do {
        if (block >= s.nob || f->blocks == s.nob) return 0;
        f->block[f->blocks++] = (uint32_t)block;
        if (get_bits(table, list_at(s, block), list_bits(s)) != list) return 0;
        counter = get_bits(table, block_at(s, block), counter_bits(s));
        if (counter > s.sio) return 0;
        block = get_bits(table, link_at(s, block), link_bits(s));
    } while (counter == s.sio);
    f->length = s.sib + (f->blocks - 1) * s.sio + (uint32_t)counter + 1;
    return 1;
}

int is_displaced(settings s, const struct followed *f, uint32_t n, uint32_t i)
{
    return f->blocks && n < s.sib && (uint64_t)n * slot_bits(s) + i < link_bits(s);
}

size_t bit_at(settings s, const struct followed *f, uint32_t n, uint32_t i)
{
    size_t bit = (size_t)(n < s.sib ? n : (n - s.sib) % s.sio) * slot_bits(s) + i;
    if (is_displaced(s, f, n, i)) return link_at(s, f->block[f->blocks - 1]) + bit;
    if (n < s.sib) return basic_at(s, f->list) + basic_counter_bits(s) + bit;
    return list_at(s, f->block[(n - s.sib) / s.sio]) + list_bits(s) + bit;
}

int is_entry(settings s, const uint8_t *table, const struct followed *f, uint32_t n, key k)
{
    for (uint32_t i = 0, left = entry_bits(s); left--; i++) {
        uint64_t bit = left >= 64 ? k.high >> (left - 64) & 1 : k.low >> left & 1;
        if (get_bits(table, bit_at(s, f, n, i), 1) != bit) return 0;
    }
    return 1;
}

uint64_t slot_number(settings s, const struct followed *f, uint32_t n)
{
    if (n < s.sib) return f->list * s.sib + n;
    uint32_t block = (n - s.sib) / s.sio, place = (n - s.sib) % s.sio;
    return basic_slots(s) + (uint64_t)s.sio * f->block[block] + place;
}

uint32_t slot_with_number(settings s, const struct followed *f, uint64_t number)
{
    uint32_t n = 0;
    while (n < f->length && slot_number(s, f, n) != number) n++;
    return n;
}

key get_key(settings s, const uint8_t *table, const struct followed *f, uint32_t n)
{
    key entry = {0, 0};
    for (uint32_t i = 0; i < entry_bits(s); i++) {
        entry.high = entry.high << 1 | entry.low >> 63;
        entry.low = entry.low << 1 | get_bits(table, bit_at(s, f, n, i), 1);
    }
    return key_in_list(s, entry, f->list);
}

uint64_t get_label(settings s, const uint8_t *table, const struct followed *f, uint32_t n)
{
    uint64_t label = 0;
    for (uint32_t i = 0; i < s.val; i++)
        label = label << 1 | get_bits(table, bit_at(s, f, n, entry_bits(s) + i), 1);
    return label;
}

void put_label(settings s, uint8_t *table, const struct followed *f, uint32_t n, uint64_t label)
{
    for (uint32_t i = 0; i < s.val; i++)
        put_bits(table, bit_at(s, f, n, entry_bits(s) + i), 1, label >> (s.val - 1 - i) & 1);
}
