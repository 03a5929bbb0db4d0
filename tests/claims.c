/* claims.c - what docs/LIBRARY.md says of refusals 7, 8 and 12, of check, of slots and of pages, on tables small enough
 * to try every case; and the widths of the fields, for every number that they depend on.
 *
 *     claims [SEED]
 *
 * The tables are damaged bit by bit, as format.c puts them. Prints how many tables and cases were tried. */
#include <stdio.h>
#include <stdlib.h>
#include <string.h>

#include "format.h"
#include "input.h"
#include "shelfegret.h"

typedef struct shelfegret_settings settings;
typedef struct shelfegret_key key;
typedef struct shelfegret_answer answer;

enum { TABLE_MOST = 32768 };

static settings s;
static size_t size;
static uint8_t table[TABLE_MOST], other[TABLE_MOST], marks[32];
static unsigned tables, cases;

static void expect(int good, const char *what)
{
    cases++;
    if (good) return;
    fprintf(stderr, "claims: %s (w %u bii %u sib %u nob %u sio %u val %u a %u b %u)\n", what, (unsigned)s.w,
            (unsigned)s.bii, (unsigned)s.sib, (unsigned)s.nob, (unsigned)s.sio, (unsigned)s.val, (unsigned)s.a,
            (unsigned)s.b);
    exit(1);
}

static void new_table(settings given)
{
    s = given;
    size = shelfegret_size(s).number;
    expect(size != 0 && size <= TABLE_MOST && shelfegret_make(s, table, size).code == 0, "the settings are refused");
    tables++;
}

static answer enter(uint8_t *t, key k) { return shelfegret_enter(s, t, size, k, 0); }
static answer relabel(uint8_t *t, key k, uint32_t label) { return shelfegret_relabel(s, t, size, k, label); }
static answer find(const uint8_t *t, key k) { return shelfegret_find(s, t, size, k); }
static answer gone(uint8_t *t, key k) { return shelfegret_delete(s, t, size, k); }
static answer record(const uint8_t *t, uint64_t n) { return shelfegret_record(s, t, size, n); }
static answer retrieve(const uint8_t *t, uint64_t slot) { return shelfegret_retrieve(s, t, size, slot); }
static answer check(const uint8_t *t) { return shelfegret_check(s, t, size, marks, sizeof marks); }

/* Key n of the list: its entry is n. */
static key key_of(uint32_t list, uint64_t n)
{
    return key_in_list(s, (key){0, n}, list);
}

static int is_key(answer a, key k)
{
    return a.word == SHELFEGRET_RECORD && a.key.high == k.high && a.key.low == k.low;
}

static void fill(uint32_t list, uint32_t n)
{
    for (uint32_t i = 0; i < n; i++)
        expect(enter(table, key_of(list, i)).word == SHELFEGRET_ADDED, "an entry is not taken");
}

/* ---- refusal 8: which deletes make room */

static uint32_t overflow_blocks(uint32_t n)
{
    return n <= s.sib ? 0 : (n - s.sib + s.sio - 1) / s.sio;
}

/* Only a key that is not there needs a block: each one that is there is known to enter, and can be relabelled. */
static void full_for_enter_alone(uint32_t list, const uint32_t *length)
{
    memcpy(other, table, size);
    for (uint32_t i = 0; i < (uint32_t)1 << s.bii; i++)
        for (uint32_t n = 0; n < length[i]; n++) {
            expect(enter(other, key_of(i, n)).code == SHELFEGRET_REFUSED_KNOWN, "known in a full table");
            answer a = relabel(other, key_of(i, n), 1 + n % 7);
            expect(a.word == SHELFEGRET_RELABELLED && a.compared == n + 1, "relabelled in a full table");
            expect(a.label == 0, "the label before");
        }
    answer miss = relabel(other, key_of(list, length[list]), 1);
    expect(miss.word == SHELFEGRET_NONE && miss.compared == length[list], "relabel of what was refused");
    for (uint32_t i = 0; i < (uint32_t)1 << s.bii; i++)
        for (uint32_t n = 0; n < length[i]; n++)
            expect(find(other, key_of(i, n)).label == 1 + n % 7, "every label is the new one");
    expect(check(other).word == SHELFEGRET_SOUND, "sound with other labels");
}

static void full_table(void)
{
    settings given = {40, (uint32_t)below(4), 1 + (uint32_t)below(4), (uint32_t)below(12), 1 + (uint32_t)below(5),
                      3,  1, 1};
    uint32_t length[8] = {0}, list, lists = (uint32_t)1 << given.bii, used = 0;
    new_table(given);
    for (;;) { /* until the first refusal */
        list = (uint32_t)below(lists);
        answer a = enter(table, key_of(list, length[list]));
        if (a.code == SHELFEGRET_REFUSED_FULL) break;
        expect(a.word == SHELFEGRET_ADDED && a.compared == length[list], "added, and compared is the length");
        length[list]++;
    }
    key new = key_of(list, length[list]);
    answer miss = find(table, new);
    expect(miss.word == SHELFEGRET_NONE && miss.compared == length[list], "compared is the length of the refused list");
    expect(length[list] >= s.sib && (length[list] - s.sib) % s.sio == 0, "the refused list has no vacant slot");
    for (uint32_t i = 0; i < lists; i++) used += overflow_blocks(length[i]);
    expect(used == s.nob, "all blocks are in use");
    full_for_enter_alone(list, length);
    for (uint32_t i = 0; i < lists; i++)
        for (uint32_t n = 0; n < length[i]; n++) {
            int room = i == list || (length[i] > s.sib && length[i] % s.sio == (s.sib + 1) % s.sio);
            memcpy(other, table, size);
            expect(gone(other, key_of(i, n)).word == SHELFEGRET_GONE, "a delete");
            expect(enter(other, new).code == (room ? 0 : SHELFEGRET_REFUSED_FULL), "which delete makes room");
            if (!room) expect(enter(other, key_of(i, n)).word == SHELFEGRET_ADDED, "what was deleted can come back");
        }
}

/* ---- refusal 7 by the free chain */

/* List 0 has four entries, two of them in block 0: one more needs another block, and two fewer free that one. List 1
 * has one entry. Blocks 1 and up are free. */
static void two_lists(void)
{
    new_table((settings){16, 1, 2, 5, 2, 0, 1, 1});
    fill(0, 4);
    fill(1, 1);
    expect(get_bits(table, 0, start_bits(s)) == 1, "block 1 is the first free one");
}

/* All that needs no free block is as before, and all records can be read. */
static void rest_works(void)
{
    for (uint32_t n = 0; n < 4; n++) {
        expect(find(table, key_of(0, n)).word == SHELFEGRET_HELD, "a find beside a broken chain");
        expect(enter(table, key_of(0, n)).code == SHELFEGRET_REFUSED_KNOWN, "known beside a broken chain");
        expect(relabel(table, key_of(0, n), 0).word == SHELFEGRET_RELABELLED, "a relabel beside a broken chain");
        answer a = find(table, key_of(0, n));
        expect(is_key(retrieve(table, a.number), a.key), "a slot beside a broken chain");
    }
    expect(relabel(table, key_of(0, 4), 0).word == SHELFEGRET_NONE, "none to relabel beside a broken chain");
    for (uint32_t n = 0; n < 5; n++)
        expect(record(table, n).word == SHELFEGRET_RECORD, "a record beside a broken chain");
    expect(record(table, 5).word == SHELFEGRET_NONE, "the end beside a broken chain");
    expect(check(table).word == SHELFEGRET_UNSOUND, "a broken chain is unsound");
    memcpy(other, table, size);
    expect(enter(other, key_of(1, 1)).word == SHELFEGRET_ADDED, "an enter that takes no block");
    expect(gone(other, key_of(0, 0)).word == SHELFEGRET_GONE, "a delete that frees no block");
}

static void enter_is_refused(const char *what)
{
    expect(enter(table, key_of(0, 4)).code == SHELFEGRET_REFUSED_DAMAGE, what);
    rest_works();
}

static void broken_chain(void)
{
    for (uint32_t bad = 6; bad < 8; bad++) {
        two_lists();
        put_bits(table, 0, start_bits(s), bad);
        enter_is_refused("a block is taken, and the free start is above nob");
        memcpy(other, table, size);
        expect(gone(other, key_of(0, 0)).word == SHELFEGRET_GONE, "the block has one entry left");
        expect(gone(other, key_of(0, 1)).code == SHELFEGRET_REFUSED_DAMAGE, "a block is freed, free start above nob");
    }
    two_lists();
    put_bits(table, 0, start_bits(s), 0);
    enter_is_refused("the first free block is in this same list");
    for (uint32_t bad = 5; bad < 8; bad++) {
        two_lists();
        put_bits(table, link_at(s, 1), 3, bad);
        enter_is_refused("the first free block's link is nob or more");
    }
}

/* ---- refusal 7 by a list, and what can be read beside it */

/* The list's counter; or its first block; or one of its blocks has the number of another list. */
static void break_list(uint32_t bad, uint32_t length)
{
    static struct followed f;
    uint64_t way = length > s.sib ? below(3) : 0;
    if (way == 0) put_bits(table, basic_at(s, bad), basic_counter_bits(s), s.sib + 2 + below(3));
    if (way == 1) put_bits(table, basic_at(s, bad) + basic_counter_bits(s), link_bits(s), s.nob + below(12));
    if (way != 2) return;
    expect(follow(s, table, bad, &f) && f.blocks != 0, "the list is not damaged yet");
    put_bits(table, list_at(s, f.block[below(f.blocks)]), list_bits(s), (bad + 1 + below(7)) % 8);
}

/* A slot's list is that of its basic block, or the one that its overflow block has the number of. */
static void slots_beside(uint32_t bad)
{
    uint64_t basic = basic_slots(s);
    for (uint64_t slot = 0; slot < all_slots(s); slot++) {
        uint64_t list = slot / s.sib;
        if (slot >= basic) list = get_bits(table, list_at(s, (slot - basic) / s.sio), list_bits(s));
        expect((retrieve(table, slot).code == SHELFEGRET_REFUSED_DAMAGE) == (list == bad),
               "retrieve refuses 7 exactly where the slot's list is damaged");
    }
}

static void broken_list(void)
{
    uint32_t length[8];
    new_table((settings){40, 3, 3, 20, 2, 5, 3, 4});
    for (uint32_t i = 0; i < 8; i++) fill(i, length[i] = (uint32_t)below(8));
    uint32_t bad = (uint32_t)below(8), before = 0, all = 0, n = 0;
    break_list(bad, length[bad]);
    slots_beside(bad);
    expect(check(table).word == SHELFEGRET_UNSOUND, "a damaged list is unsound");
    for (uint32_t i = 0; i < 8; i++) {
        uint32_t code = i == bad ? SHELFEGRET_REFUSED_DAMAGE : 0;
        uint32_t known = length[i] ? SHELFEGRET_REFUSED_KNOWN : 0;
        expect(find(table, key_of(i, 0)).code == code, "a find refuses 7 exactly in the damaged list");
        expect(relabel(table, key_of(i, 0), 0).code == code, "a relabel refuses 7 exactly in the damaged list");
        memcpy(other, table, size);
        expect(enter(other, key_of(i, 0)).code == (code ? code : known), "7 of the list comes before 12");
        for (uint32_t j = 0; j < length[i] && !code; j++) {
            answer a = find(table, key_of(i, j));
            expect(a.word == SHELFEGRET_HELD, "an entry of another list");
            expect(is_key(retrieve(table, a.number), a.key), "and its slot");
        }
        if (i < bad) before += length[i];
        if (i != bad) all += length[i];
    }
    while (record(table, n).word == SHELFEGRET_RECORD) n++;
    expect(n == before, "record reads all before the damaged list");
    expect(record(table, n).code == SHELFEGRET_REFUSED_DAMAGE, "and none behind it");
    put_bits(table, basic_at(s, bad), basic_counter_bits(s), 0);
    for (n = 0; record(table, n).word == SHELFEGRET_RECORD;) n++;
    expect(n == all && record(table, n).code == 0, "with the damaged list empty, record reads all others");
}

/* ---- page, on tables that are sound and not */

enum { ROWS = 40, LINE = 51 };
static uint8_t sheet[SHELFEGRET_PAGE_BYTES];

static answer page(uint64_t n) { return shelfegret_page(s, table, size, n, sheet, sizeof sheet); }

static void expect_row(uint32_t row, key k, uint32_t label)
{
    char address[39], due[LINE + 1];
    int n = (int)shelfegret_write_text(k, (uint8_t *)address, sizeof address).number;
    snprintf(due, sizeof due, "%-39.*s %10u\n", n, address, (unsigned)label);
    expect(memcmp(sheet + (1 + row) * LINE, due, LINE) == 0, "a row is its record");
}

/* The pages, without their headings, are the records: each once, and in their order. */
static void pages_are_records(void)
{
    uint64_t n = 0, pages = 0;
    do {
        answer a = page(++pages);
        uint32_t rows = (uint32_t)(a.number / LINE) - 1;
        expect(a.code == 0 && a.number == LINE * (1 + rows) && rows <= ROWS, "a page with whole lines");
        expect(memcmp(sheet, "ADDRESS                                      LABEL\n", LINE) == 0, "the heading");
        for (uint32_t i = 0; i < rows; i++) {
            answer r = record(table, n++);
            expect(r.word == SHELFEGRET_RECORD, "a row that is no record");
            expect_row(i, r.key, r.label);
        }
        expect(rows == ROWS || record(table, n).word == SHELFEGRET_NONE, "every page but the last is full");
    } while (record(table, n).word == SHELFEGRET_RECORD);
    expect(pages == (n ? (n + ROWS - 1) / ROWS : 1), "no page more than the records need");
    expect(page(pages + 1).code == SHELFEGRET_REFUSED_PAGE, "no page behind the last");
    expect(page(0).code == SHELFEGRET_REFUSED_PAGE, "no page 0");
}

static uint32_t find_code(uint32_t list)
{
    return find(table, key_of(list, 0)).code;
}

static void no_page(const char *what)
{
    for (uint64_t n = 0; n < 5; n++) expect(page(n).code == SHELFEGRET_REFUSED_DAMAGE, what);
}

/* The list gets another's counter and link. No block is in two lists: the one is damaged as long as the blocks have the
 * other's number, and then the other. Once that has a counter without blocks, both can be read: entries that nobody
 * entered, and blocks in no list if the first had any. */
static void move_blocks(uint32_t to, uint32_t from)
{
    static struct followed f;
    uint32_t bits = basic_counter_bits(s) + link_bits(s);
    expect(follow(s, table, from, &f), "a list that can be followed");
    if (f.blocks == 0 || to == from) return;
    put_bits(table, basic_at(s, to), bits, get_bits(table, basic_at(s, from), bits));
    expect(find_code(to) == SHELFEGRET_REFUSED_DAMAGE && find_code(from) == 0, "the blocks have the other's number");
    no_page("a list goes on in another's blocks");
    for (uint32_t i = 0; i < f.blocks; i++) put_bits(table, list_at(s, f.block[i]), list_bits(s), to);
    expect(find_code(from) == SHELFEGRET_REFUSED_DAMAGE && find_code(to) == 0, "the blocks have the list's number");
    no_page("the other still goes on in them");
    put_bits(table, basic_at(s, from), basic_counter_bits(s), below(s.sib + 1));
    expect(find_code(from) == 0 && find_code(to) == 0, "each block in one list");
}

static void moved_blocks(void)
{
    new_table((settings){128, 3, 3, 60, 2, 5, 3, 4});
    for (uint32_t i = 0; i < 8; i++) {
        uint32_t length = (uint32_t)below(1 + below(18));
        fill(i, length);
        for (uint32_t n = 0; n < length; n++) relabel(table, key_of(i, n), (uint32_t)below(32));
    }
    pages_are_records();
    for (uint64_t left = 1 + below(3); left; left--) {
        uint32_t to = (uint32_t)below(8), from = (uint32_t)below(8);
        move_blocks(to, from);
    }
    pages_are_records();
    uint64_t bad = below(8);
    put_bits(table, basic_at(s, bad), basic_counter_bits(s), s.sib + 2 + below(3));
    no_page("no page while a list is damaged, wherever it is");
}

/* No entry; then a list through all blocks, and then another through the same. */
static void long_list(void)
{
    new_table((settings){128, 1, 1, 100, 15, 8, 1, 1});
    pages_are_records();
    fill(1, 1501);
    pages_are_records();
    move_blocks(0, 1);
    pages_are_records();
}

/* ---- other settings than the table's */

/* Returns how many of 700 addresses are found with another a and b. */
static unsigned other_spread(void)
{
    static key keys[700];
    unsigned found = 0;
    new_table((settings){128, 8, 4, 64, 3, 8, 97, 31});
    for (int i = 0; i < 700; i++) {
        keys[i] = (key){random_bits(), random_bits()};
        expect(enter(table, keys[i]).word == SHELFEGRET_ADDED, "an address is not taken");
    }
    s.a = 98;
    s.b = 30;
    expect(check(table).word == SHELFEGRET_SOUND, "check says sound with another a and b");
    for (int i = 0; i < 700; i++) found += find(table, keys[i]).word == SHELFEGRET_HELD;
    expect(found < 20, "nearly nothing is found with another a and b");
    return found;
}

/* Keys that have the same first bits and whose entries are equal modulo p are in one list, whatever a and b are. */
static void no_secret(void)
{
    for (uint32_t a = 1; a < 257; a += 15)
        for (uint32_t b = 1; b < 257; b += 15) {
            new_table((settings){128, 8, 4, 64, 3, 8, a, b});
            for (uint32_t n = 0; n < 20; n++)
                expect(enter(table, (key){0, 5 + 257 * (uint64_t)n}).compared == n, "entries equal modulo p: one list");
        }
}

/* ---- the widths of the fields */

/* The size tells the sum of them; format.c finds each by doubling. */
static void expect_size(settings given)
{
    s = given;
    expect(shelfegret_size(s).number == (block_at(s, s.nob) + 7) / 8, "the size is that of fields of these widths");
}

/* Every sib, sio, bii and nob, and the program's table. In eight blocks a bit is a byte of the size; a bit of the free
 * start moves it with one of sixteen sib, since with them the other fields leave every remainder modulo 8. */
static void every_width(void)
{
    expect_size((settings){128, 8, 4, 64, 3, 8, 97, 31});
    expect(shelfegret_size(s).number == (157447 + 7) / 8, "the program's table has 157,447 bits");
    for (uint32_t bii = 0; bii <= 16; bii++) expect_size((settings){bii + 3, bii, 1, 8, 1, 0, 1, 1});
    for (uint32_t sib = 1; sib <= 255; sib++) expect_size((settings){8, 3, sib, 0, 1, 0, 1, 1});
    for (uint32_t sio = 1; sio <= 15; sio++) expect_size((settings){8, 3, 1, 8, sio, 0, 1, 1});
    for (uint32_t nob = 0; nob <= 65535; nob++)
        for (uint32_t sib = 1; sib <= 16; sib++) expect_size((settings){17, 0, sib, nob, 1, 0, 1, 1});
}

int main(int argc, char **argv)
{
    seed_random(argc > 1 ? strtoull(argv[1], NULL, 0) : 1);
    unsigned found = other_spread(); /* first, so that its addresses depend on the seed alone */
    for (int i = 0; i < 2000; i++) full_table();
    broken_chain();
    for (int i = 0; i < 2000; i++) broken_list();
    for (int i = 0; i < 500; i++) moved_blocks();
    long_list();
    no_secret();
    every_width();
    printf("claims: %u cases on %u tables; %u of 700 found with another a and b\n", cases, tables, found);
    return 0;
}
