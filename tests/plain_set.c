/* plain_set.c - enter, relabel, find, delete, record, retrieve and page against a plain set, on tables that stay sound.
 *
 *     plain_set [SEED]
 *
 * The set has each list's keys in their order, with their labels (docs/SPECIFICATION.md, section 8): enter puts a key
 * last, delete the last one into the gap, relabel changes a label alone. Every field of every answer must be the set's,
 * compared and refusals among them, and the records are the set, list by list, and so are the rows of all pages. A
 * relabel leaves the free start, the free chain and the blocks of every list as they were.
 *
 * Of slot numbers the set knows only what its order tells: the number in a list's own block, and the place in an
 * overflow block, not the block. So it keeps what it is told. After each call, every number told since the last
 * accepted delete gives its key and the label that the set has now, and no other number is told for that key. Now and
 * then every key is asked for its number: no two have the same, and of all slots exactly these are in use.
 *
 * Then tables whose bytes were worked out by hand: the example of docs/SPECIFICATION.md, section 11, blocks with the
 * number of another list, and the order of the refusals. Prints how many calls were tried. */
#include <stdio.h>
#include <stdlib.h>
#include <string.h>

#include "format.h"
#include "input.h"
#include "shelfegret.h"

typedef struct shelfegret_settings settings;
typedef struct shelfegret_key key;
typedef struct shelfegret_answer answer;

enum { TABLE_MOST = 8192, LISTS_MOST = 16, LIST_MOST = 128, KEYS_MOST = 48, MARKS_MOST = 64, SLOTS_MOST = 1024 };

static settings s;
static size_t size;
static uint8_t table[TABLE_MOST], before[TABLE_MOST], marks[MARKS_MOST];
static uint8_t out[SHELFEGRET_PAGE_BYTES + 8], out_before[sizeof out]; /* lent to page, all but the last 8 */
static unsigned tables, calls, pages;
static unsigned codes[15], words[9]; /* how often each came in random calls */
static unsigned long good;           /* numbers that were good when they were tried, */
static unsigned long good_in_block;  /* those of overflow blocks, */
static unsigned oldest;              /* and the most calls between the telling and the trying of one */

static void fail(const char *what)
{
    fprintf(stderr, "plain_set: %s (call %u, w %u bii %u sib %u nob %u sio %u val %u a %u b %u)\n", what, calls,
            (unsigned)s.w, (unsigned)s.bii, (unsigned)s.sib, (unsigned)s.nob, (unsigned)s.sio, (unsigned)s.val,
            (unsigned)s.a, (unsigned)s.b);
    exit(1);
}

static int equal(key a, key b)
{
    return a.high == b.high && a.low == b.low;
}

/* Drawn one by one: of two draws in one expression, the compiler chooses which comes first. */
static uint64_t large_number(void)
{
    uint64_t bits = random_bits();
    return bits >> (1 + below(63));
}

static key random_entry(void)
{
    key k;
    k.high = random_bits();
    k.low = random_bits();
    return low_bits(k, entry_bits(s));
}

/* ---- the set */

struct pair {
    key key;
    uint32_t label;
    unsigned told; /* when its number was first told since the last delete, in calls; 0 if it was not */
    uint64_t number;
};

static struct pair set[LISTS_MOST][LIST_MOST];
static uint32_t length[LISTS_MOST];

/* the key's place in its list, or the list's length */
static uint32_t place_of(uint64_t list, key k)
{
    uint32_t n = 0;
    while (n < length[list] && !equal(set[list][n].key, k)) n++;
    return n;
}

static uint32_t blocks_for(uint32_t n)
{
    return n <= s.sib ? 0 : (n - s.sib + s.sio - 1) / s.sio;
}

static int has_room(uint64_t list)
{
    uint32_t used = 0;
    for (uint64_t i = 0; i < (uint64_t)1 << s.bii; i++) used += blocks_for(length[i]);
    return used < s.nob || blocks_for(length[list] + 1) == blocks_for(length[list]);
}

enum what { ENTER, RELABEL, FIND, DELETE };

static answer said(uint32_t word, key k, uint32_t label, uint32_t compared)
{
    answer a = {0};
    a.word = word;
    a.key = k;
    a.label = label;
    a.compared = compared;
    return a;
}

static answer refused(uint32_t code)
{
    answer a = {0};
    a.code = code;
    return a;
}

static answer step_enter(key k, uint32_t label)
{
    uint64_t list = list_of(s, k);
    uint32_t n = length[list];
    if (place_of(list, k) < n) return refused(SHELFEGRET_REFUSED_KNOWN);
    if (!has_room(list)) return refused(SHELFEGRET_REFUSED_FULL);
    set[list][length[list]++] = (struct pair){k, label, 0, 0};
    return said(SHELFEGRET_ADDED, k, label, n);
}

static void forget_numbers(void)
{
    for (uint64_t list = 0; list < (uint64_t)1 << s.bii; list++)
        for (uint32_t n = 0; n < length[list]; n++) set[list][n].told = 0;
}

/* What the set answers; where it answers, it steps. */
static answer step(enum what what, key k, uint64_t label)
{
    if (!equal(low_bits(k, s.w), k)) return refused(SHELFEGRET_REFUSED_KEY);
    if ((what == ENTER || what == RELABEL) && label >> s.val) return refused(SHELFEGRET_REFUSED_LABEL);
    if (what == ENTER) return step_enter(k, (uint32_t)label);
    uint64_t list = list_of(s, k);
    uint32_t n = place_of(list, k), old = set[list][n].label;
    if (n == length[list]) return said(SHELFEGRET_NONE, k, 0, n);
    if (what == FIND) return said(SHELFEGRET_HELD, k, old, n + 1);
    if (what == RELABEL) {
        set[list][n].label = (uint32_t)label;
        return said(SHELFEGRET_RELABELLED, k, old, n + 1);
    }
    set[list][n] = set[list][--length[list]];
    forget_numbers();
    return said(SHELFEGRET_GONE, k, old, n + 1);
}

/* ---- the table */

static answer ask_with_text(enum what what, key k, uint64_t label)
{
    uint8_t text[TEXT_MOST];
    size_t n = legal_text(k, text);
    switch (what) {
    case ENTER: return shelfegret_enter_text(s, table, size, text, n, label);
    case RELABEL: return shelfegret_relabel_text(s, table, size, text, n, label);
    case FIND: return shelfegret_find_text(s, table, size, text, n);
    default: return shelfegret_delete_text(s, table, size, text, n);
    }
}

static answer ask(enum what what, key k, uint64_t label)
{
    if (s.w == 128 && one_in(2)) return ask_with_text(what, k, label);
    switch (what) {
    case ENTER: return shelfegret_enter(s, table, size, k, label);
    case RELABEL: return shelfegret_relabel(s, table, size, k, label);
    case FIND: return shelfegret_find(s, table, size, k);
    default: return shelfegret_delete(s, table, size, k);
    }
}

static int same(answer a, answer b)
{
    return a.code == b.code && a.word == b.word && equal(a.key, b.key) && a.label == b.label &&
           a.compared == b.compared && a.number == b.number;
}

/* ---- numbers of slots */

static answer retrieve(uint64_t slot)
{
    return shelfegret_retrieve(s, table, size, slot);
}

static uint64_t own_slots(void)
{
    return (uint64_t)s.sib << s.bii;
}

static uint64_t capacity(void)
{
    return own_slots() + (uint64_t)s.sio * s.nob;
}

/* The key's number, as the set's order has it: the slot in its list's own block, or the place in a block. */
static void expect_number(uint64_t list, uint32_t n, uint64_t number)
{
    uint64_t own = own_slots();
    if (number >= capacity()) fail("a number that no slot has");
    if (n < s.sib && number != s.sib * list + n) fail("not the slot in the list's own block");
    if (n >= s.sib && (number < own || (number - own) % s.sio != (n - s.sib) % s.sio)) fail("not the place in a block");
}

/* The answer has a number exactly if it says where the key is: the one told before, unless a delete came between. */
static void note_number(answer a)
{
    if (a.word != SHELFEGRET_ADDED && a.word != SHELFEGRET_HELD && a.word != SHELFEGRET_RELABELLED) {
        if (a.number != 0) fail("a number where there is none");
        return;
    }
    uint64_t list = list_of(s, a.key);
    uint32_t n = place_of(list, a.key);
    struct pair *pair = &set[list][n];
    expect_number(list, n, a.number);
    if (pair->told && pair->number != a.number) fail("another number than before, and no delete between");
    if (!pair->told) pair->told = calls;
    pair->number = a.number;
}

static answer recorded(struct pair pair)
{
    return said(SHELFEGRET_RECORD, pair.key, pair.label, 0);
}

/* Every number told since the last accepted delete. */
static void numbers_are_good(void)
{
    for (uint64_t list = 0; list < (uint64_t)1 << s.bii; list++)
        for (uint32_t n = 0; n < length[list]; n++) {
            struct pair pair = set[list][n];
            if (!pair.told) continue;
            if (!same(retrieve(pair.number), recorded(pair))) fail("a number is not good any more");
            good++;
            good_in_block += n >= s.sib;
            if (calls - pair.told > oldest) oldest = calls - pair.told;
        }
}

/* Each key has a number of its own, and no slot is in use but those that have them. */
static void slots_are_the_set(void)
{
    static uint8_t used[SLOTS_MOST];
    answer none = said(SHELFEGRET_NONE, (key){0, 0}, 0, 0);
    uint64_t all = capacity();
    if (all > SLOTS_MOST) return;
    memset(used, 0, sizeof used);
    memcpy(before, table, size);
    for (uint64_t list = 0; list < (uint64_t)1 << s.bii; list++)
        for (uint32_t n = 0; n < length[list]; n++) {
            answer a = shelfegret_find(s, table, size, set[list][n].key);
            note_number(a);
            if (a.word != SHELFEGRET_HELD || used[a.number]) fail("two keys with one number");
            used[a.number] = 1;
            if (!same(retrieve(a.number), recorded(set[list][n]))) fail("not the key whose number it is");
        }
    for (uint64_t slot = 0; slot < all; slot++)
        if (!used[slot] && !same(retrieve(slot), none)) fail("a slot in use that is no key's");
    for (uint64_t slot = all; slot < all + 3; slot++)
        if (!same(retrieve(slot), refused(SHELFEGRET_REFUSED_SLOT))) fail("a slot behind the last");
    if (!same(retrieve(all + large_number()), refused(SHELFEGRET_REFUSED_SLOT))) fail("a slot further behind it");
    if (memcmp(before, table, size) != 0) fail("retrieve changed the table");
}

/* The records are the set, list by list and in its order. */
static void records_are_the_set(void)
{
    uint64_t n = 0;
    for (uint64_t list = 0; list < (uint64_t)1 << s.bii; list++)
        for (uint32_t i = 0; i < length[list]; i++) {
            answer due = recorded(set[list][i]);
            if (!same(shelfegret_record(s, table, size, n++), due)) fail("a record is not the set's");
        }
    answer end = said(SHELFEGRET_NONE, (key){0, 0}, 0, 0);
    if (!same(shelfegret_record(s, table, size, n), end)) fail("a record too many");
    if (shelfegret_check(s, table, size, marks, sizeof marks).word != SHELFEGRET_SOUND) fail("the table is not sound");
}

/* ---- pages */

enum { ROWS = 40, LINE = 51 };

/* A line of a page: 39 columns, a space and 10 columns. */
static size_t put_line(uint8_t *to, const char *left, const char *right)
{
    char line[LINE + 1];
    if (snprintf(line, sizeof line, "%-39s %10s\n", left, right) != LINE) fail("the test's own line is too long");
    memcpy(to, line, LINE);
    return LINE;
}

static size_t put_row(uint8_t *to, struct pair pair)
{
    char address[40], label[11];
    address[shelfegret_write_text(pair.key, (uint8_t *)address, 39).number] = 0;
    snprintf(label, sizeof label, "%lu", (unsigned long)pair.label);
    return put_line(to, address, label);
}

/* The page is refused with 13, or has the heading and so many rows, which are put behind it into out_before. */
static void expect_page(uint64_t page, uint32_t code, const struct pair *rows, uint64_t count)
{
    size_t n = 0;
    for (size_t i = 0; i < sizeof out; i++) out[i] = out_before[i] = (uint8_t)random_bits();
    if (!code) n = put_line(out_before, "ADDRESS", "LABEL");
    for (uint64_t i = 0; i < count; i++) n += put_row(out_before + n, rows[i]);
    answer due = {0};
    due.code = code;
    due.number = n;
    if (!same(shelfegret_page(s, table, size, page, out, SHELFEGRET_PAGE_BYTES), due)) fail("not the page's answer");
    if (memcmp(out, out_before, sizeof out) != 0) fail("not the set's rows, or more is written");
    pages++;
}

/* All pages have each pair of the set in its place, and no others are there. */
static void pages_are_the_set(void)
{
    static struct pair all[LISTS_MOST * LIST_MOST];
    uint64_t count = 0, page = 0;
    memcpy(before, table, size);
    for (uint64_t list = 0; list < (uint64_t)1 << s.bii; list++)
        for (uint32_t i = 0; i < length[list]; i++) all[count++] = set[list][i];
    expect_page(0, SHELFEGRET_REFUSED_PAGE, all, 0);
    for (uint64_t n = 0; n < count; n += ROWS)
        expect_page(++page, 0, all + n, count - n < ROWS ? count - n : ROWS);
    if (count == 0) expect_page(++page, 0, all, 0);
    expect_page(page + 1, SHELFEGRET_REFUSED_PAGE, all, 0);
    expect_page(page + ((uint64_t)1 << (32 + below(32))), SHELFEGRET_REFUSED_PAGE, all, 0);
    if (memcmp(before, table, size) != 0) fail("page changed the table");
}

static void free_chain_is_as_before(void)
{
    uint64_t block = get_bits(table, 0, start_bits(s));
    if (block != get_bits(before, 0, start_bits(s))) fail("relabel changed the free start");
    while (block < s.nob) {
        uint64_t next = get_bits(table, link_at(s, block), link_bits(s));
        if (next != get_bits(before, link_at(s, block), link_bits(s))) fail("relabel changed the free chain");
        if (next == block) return;
        block = next;
    }
}

/* Each list has the same length and blocks before and now. */
static void lists_are_as_before(void)
{
    static struct followed then, now;
    for (uint64_t list = 0; list < (uint64_t)1 << s.bii; list++) {
        if (!follow(s, before, list, &then) || !follow(s, table, list, &now)) fail("a list is damaged");
        if (then.length != now.length || then.blocks != now.blocks ||
            memcmp(then.block, now.block, now.blocks * sizeof *now.block) != 0)
            fail("relabel changed a list's blocks");
    }
}

/* ---- random calls */

static settings some_settings(void)
{
    for (;;) {
        settings one;
        one.w = one_in(4) ? 128 : 4 + (uint32_t)below(9);
        one.bii = (uint32_t)below(4);
        one.sib = 1 + (uint32_t)below(4);
        one.nob = one_in(2) ? (uint32_t)below(8) : (uint32_t)below(300);
        one.sio = 1 + (uint32_t)below(3);
        one.val = one_in(6) ? 0 : one_in(6) ? 32 : 1 + (uint32_t)below(8);
        one.a = 1 + (uint32_t)below(prime_above(one.bii) - 1);
        one.b = 1 + (uint32_t)below(prime_above(one.bii) - 1);
        answer a = shelfegret_size(one);
        if (a.code == 0 && a.number <= TABLE_MOST) return one;
    }
}

static uint64_t some_label(void)
{
    uint64_t labels = (uint64_t)1 << s.val;
    return one_in(20) ? labels + (one_in(2) ? 0 : large_number()) : below(labels);
}

static void tell(answer a, const char *what)
{
    fprintf(stderr, "plain_set: code %u word %u label %u compared %u %s\n", (unsigned)a.code, (unsigned)a.word,
            (unsigned)a.label, (unsigned)a.compared, what);
}

/* The call's answer is the set's, and every number that was told is good. */
static answer asked(enum what what, key k, uint64_t label)
{
    answer due = step(what, k, label), a = ask(what, k, label);
    calls++;
    due.number = a.number;
    if (!same(a, due)) {
        tell(due, "is due");
        tell(a, "came");
        fail("not the set's answer");
    }
    note_number(a);
    numbers_are_good();
    return a;
}

/* With `calm`, few keys are deleted. */
static void one_call(const key *keys, uint64_t count, int calm)
{
    static const enum what some[] = {ENTER, ENTER, ENTER, RELABEL, RELABEL, FIND, DELETE, DELETE};
    enum what what = some[below(sizeof some / sizeof *some)];
    key k = keys[below(count)];
    uint64_t label = some_label();
    if (what == DELETE && calm && !one_in(40)) what = FIND;
    if (s.w < 128 && one_in(50)) k = in_front(1, s.w, k);
    memcpy(before, table, size);
    answer a = asked(what, k, label);
    *(a.code ? &codes[a.code] : &words[a.word]) += 1;
    int writes = a.word == SHELFEGRET_ADDED || a.word == SHELFEGRET_RELABELLED || a.word == SHELFEGRET_GONE;
    if (!writes && memcmp(before, table, size) != 0) fail("a call that changes nothing wrote");
    if (a.word == SHELFEGRET_RELABELLED) {
        free_chain_is_as_before();
        lists_are_as_before();
    }
    if (writes && (a.word == SHELFEGRET_RELABELLED || one_in(8))) records_are_the_set();
    if (writes && one_in(8)) slots_are_the_set();
    if (writes && s.w == 128 && one_in(16)) pages_are_the_set();
}

/* Each refusal and word that a sound table gives came many times. */
static void all_seen(void)
{
    static const unsigned due_codes[] = {5, 6, 8, 12}, due_words[] = {1, 2, 3, 4, 8};
    for (size_t i = 0; i < sizeof due_codes / sizeof *due_codes; i++)
        if (codes[due_codes[i]] < 1000) fail("too few refusals of a kind");
    for (size_t i = 0; i < sizeof due_words / sizeof *due_words; i++)
        if (words[due_words[i]] < 1000) fail("too few answers with a word");
    if (good < 1000000 || good_in_block < 100000 || oldest < 300) fail("too few numbers were tried");
}

static void one_table(void)
{
    static key keys[KEYS_MOST];
    uint64_t count = 1 + below(KEYS_MOST), lists;
    s = some_settings();
    size = shelfegret_size(s).number;
    lists = one_in(2) ? 1 : (uint64_t)1 << s.bii; /* all in one list, or in any */
    memset(length, 0, sizeof length);
    if (shelfegret_make(s, table, size).code) fail("make");
    tables++;
    for (uint64_t i = 0; i < count; i++) {
        key entry = random_entry();
        keys[i] = key_in_list(s, entry, below(lists));
        if (s.w == 128 && one_in(4)) keys[i] = random_address(); /* one that has many spellings */
    }
    int calm = one_in(3);
    for (int i = 0; i < 400; i++) one_call(keys, count, calm);
    records_are_the_set();
    slots_are_the_set();
}

/* From none to enough for some pages, and back: after each call all pages are the set. */
static void one_sheet(uint32_t bii, uint32_t val)
{
    static key keys[3 * ROWS + 2];
    enum { KEYS = sizeof keys / sizeof *keys };
    s = (settings){128, bii, 2, 60, 2, val, 1, 1};
    size = shelfegret_size(s).number;
    memset(length, 0, sizeof length);
    if (size > TABLE_MOST || shelfegret_make(s, table, size).code) fail("make");
    tables++;
    pages_are_the_set();
    for (uint32_t i = 0; i < 2 * KEYS; i++) {
        enum what what = i < KEYS ? ENTER : DELETE;
        if (what == ENTER) keys[i] = key_in_list(s, low_bits(random_address(), entry_bits(s)), i & ((1u << bii) - 1));
        uint64_t label = below((uint64_t)1 << val);
        asked(what, keys[i % KEYS], label);
        pages_are_the_set();
    }
}

/* ---- tables by hand */

static void expect(answer a, answer due, const char *what)
{
    calls++;
    if (!same(a, due)) fail(what);
    if (a.code && memcmp(before, table, sizeof table) != 0) fail("a refused call wrote");
}

/* w 6, bii 1, sib 2, nob 2, sio 1, a 1, b 1, as in docs/SPECIFICATION.md, section 11, and labels of val bits. */
static void new_table_t(uint32_t val)
{
    s = (settings){6, 1, 2, 2, 1, val, 1, 1};
    size = shelfegret_size(s).number;
    memset(table, 0, sizeof table);
    if (shelfegret_make(s, table, size).code) fail("make");
    tables++;
}

/* Without labels, and with these bytes. */
static void table_t(const char *bytes)
{
    new_table_t(0);
    memcpy(table, bytes, size);
    memcpy(before, table, sizeof table);
}

static answer enter(uint64_t k, uint64_t label) { return shelfegret_enter(s, table, size, (key){0, k}, label); }
static answer relabel(uint64_t k, uint64_t label) { return shelfegret_relabel(s, table, size, (key){0, k}, label); }
static answer find(uint64_t k) { return shelfegret_find(s, table, size, (key){0, k}); }
static answer gone(uint64_t k) { return shelfegret_delete(s, table, size, (key){0, k}); }

/* The same answer with the number of a slot. */
static answer in_slot(answer a, uint64_t number)
{
    a.number = number;
    return a;
}

static answer added(uint64_t k, uint32_t compared, uint64_t slot)
{
    return in_slot(said(SHELFEGRET_ADDED, (key){0, k}, 0, compared), slot);
}

/* These keys have numbers 0, 1, ..; -1 is a slot that is not in use, -2 one whose list is damaged. */
static void expect_slots(const int *keys, const char *what)
{
    memcpy(before, table, sizeof table);
    for (uint64_t slot = 0; slot < capacity(); slot++) {
        int k = keys[slot];
        answer none = said(SHELFEGRET_NONE, (key){0, 0}, 0, 0), damage = refused(SHELFEGRET_REFUSED_DAMAGE);
        if (k < 0) expect(retrieve(slot), k == -1 ? none : damage, what);
        if (k < 0) continue;
        expect(retrieve(slot), said(SHELFEGRET_RECORD, (key){0, (uint64_t)k}, 0, 0), what);
        if (find((uint64_t)k).number != slot) fail(what);
    }
    expect(retrieve(capacity()), refused(SHELFEGRET_REFUSED_SLOT), what);
}

static void expect_bytes(const char *bytes, const char *what)
{
    if (size != 6 || memcmp(table, bytes, size) != 0) fail(what);
    if (shelfegret_check(s, table, size, marks, sizeof marks).word != SHELFEGRET_SOUND) fail("it is not sound");
}

/* Table T, step by step. */
static void example(void)
{
    new_table_t(0);
    if (capacity() != 6) fail("six slots");
    expect_bytes("\x00\x00\x00\x10\x10\x00", "T, new");
    expect_slots((const int[]){-1, -1, -1, -1, -1, -1}, "T, new");
    expect(enter(1, 0), added(1, 0, 0), "the first slot of list 0");
    expect(enter(2, 0), added(2, 1, 1), "its second slot");
    expect(enter(4, 0), added(4, 2, 4), "block 0");
    expect_bytes("\x70\x88\x00\x01\x10\x00", "T with 1, 2, 4");
    expect_slots((const int[]){1, 2, -1, -1, 4, -1}, "T with 1, 2, 4");
    expect(enter(5, 0), added(5, 3, 5), "block 1");
    expect_bytes("\xB0\x88\x00\x31\x01\x40", "T with 1, 2, 4, 5");
    expect_slots((const int[]){1, 2, -1, -1, 4, 5}, "T with 1, 2, 4, 5");
    expect(enter(0, 0), added(0, 0, 2), "the first slot of list 1");
    expect_bytes("\xB0\x89\x00\x31\x01\x40", "T with 1, 2, 4, 5, 0");
    expect_slots((const int[]){1, 2, 0, -1, 4, 5}, "T with 1, 2, 4, 5, 0");
    table_t("\xB0\x88\x00\x31\x01\x40");
    expect(gone(1), said(SHELFEGRET_GONE, (key){0, 1}, 0, 1), "delete answers no number");
    expect_bytes("\x72\x88\x00\x01\x10\x00", "T with 5, 2, 4");
    expect_slots((const int[]){5, 2, -1, -1, 4, -1}, "T with 5, 2, 4: 5 has another number, and its old one is vacant");
    /* 0, 3 and 6 are in list 1: a block of it has its number, and none when it is free. */
    new_table_t(0);
    expect(enter(0, 0), added(0, 0, 2), "the first slot of list 1");
    expect(enter(3, 0), added(3, 1, 3), "its second slot");
    expect(enter(6, 0), added(6, 2, 4), "block 0");
    expect_bytes("\x40\x03\x00\xC9\x90\x00", "T with 0, 3, 6");
    expect_slots((const int[]){-1, -1, 0, 3, 6, -1}, "T with 0, 3, 6");
    expect(gone(0), said(SHELFEGRET_GONE, (key){0, 0}, 0, 1), "the block is freed");
    expect_bytes("\x00\x02\x30\xD0\x10\x00", "T with 6, 3");
    expect_slots((const int[]){-1, -1, 6, 3, -1, -1}, "T with 6, 3");
}

/* A block with the number of another list, in a list and free. */
static void other_number(void)
{
    answer damage = refused(SHELFEGRET_REFUSED_DAMAGE);
    /* 1, 2 and 4 are in list 0, and its block 0 has number 1. */
    table_t("\x70\x88\x00\x09\x10\x00");
    expect(find(4), damage, "find follows a block of another list");
    expect(find(1), damage, "also for an entry before it");
    expect(enter(5, 0), damage, "so does enter");
    expect(enter(1, 0), damage, "damage before known");
    expect(relabel(1, 0), damage, "so does relabel");
    expect(gone(2), damage, "so does delete");
    expect(shelfegret_record(s, table, size, 0), damage, "so does record");
    expect(find(0), said(SHELFEGRET_NONE, (key){0, 0}, 0, 0), "the other list has no such block, and is not damaged");
    expect_slots((const int[]){-2, -2, -1, -1, -1, -2}, "block 0 names list 1, block 1, which is free, list 0");
    if (shelfegret_check(s, table, size, marks, sizeof marks).word != SHELFEGRET_UNSOUND) fail("another list's number");
    /* The same with a good block 0; block 1, which is free, has number 1. */
    table_t("\x70\x88\x00\x01\x18\x00");
    if (shelfegret_check(s, table, size, marks, sizeof marks).word != SHELFEGRET_UNSOUND) fail("a free block's number");
    expect_slots((const int[]){1, 2, -1, -1, 4, -1}, "a free block's number names a list that does not contain it");
    expect(enter(5, 0), added(5, 3, 5), "a block is taken, whatever number it had");
    expect_bytes("\xB0\x88\x00\x31\x01\x40", "and has the list's then");
}

/* Every refusal of retrieve, each before those that are due as well. */
static void order_by_slot(void)
{
    answer beyond = refused(SHELFEGRET_REFUSED_SLOT);
    /* 1, 2, 4 and 5 are in list 0, but block 1 is as if it were not the last: the list has no end. */
    table_t("\xB0\x88\x00\x31\x21\x40");
    expect_slots((const int[]){-2, -2, -1, -1, -2, -2}, "a list without an end");
    expect(retrieve(6), beyond, "the slot before damage");
    expect(retrieve((uint64_t)1 << 32), beyond, "the slot before damage, in all its bits");
    size--;
    expect(retrieve(6), refused(SHELFEGRET_REFUSED_SHORT), "short before the slot");
    expect(retrieve(0), refused(SHELFEGRET_REFUSED_SHORT), "short before damage");
    s.a = 3;
    expect(retrieve(6), refused(SHELFEGRET_REFUSED_SETTINGS), "the settings before short");
}

static void order_by_key(void)
{
    answer known = refused(SHELFEGRET_REFUSED_KNOWN), full = refused(SHELFEGRET_REFUSED_FULL);
    answer damage = refused(SHELFEGRET_REFUSED_DAMAGE), too_large = refused(SHELFEGRET_REFUSED_LABEL);
    /* 1, 2 and 4 are in list 0. The free start is 3, above nob. */
    table_t("\xF0\x88\x00\x01\x10\x00");
    expect(enter(4, 0), known, "known, before the free chain is looked at");
    expect(enter(5, 0), damage, "the free chain is damaged, where a block is needed");
    expect(relabel(4, 0), in_slot(said(SHELFEGRET_RELABELLED, (key){0, 4}, 0, 3), 4), "relabel looks at no free chain");
    expect(relabel(5, 0), said(SHELFEGRET_NONE, (key){0, 5}, 0, 3), "nor for a key that is not there");
    if (memcmp(before, table, size) != 0) fail("with val 0 relabel changes no bit");
    /* 1, 2, 4 and 5 are in list 0, and no block is free. */
    table_t("\xB0\x88\x00\x31\x01\x40");
    expect(enter(5, 0), known, "known before 8");
    expect(enter(32, 0), full, "no block");
    expect(enter(32, 1), too_large, "the label before 8");
    expect(enter(5, 1), too_large, "the label before known");
    expect(relabel(32, 0), said(SHELFEGRET_NONE, (key){0, 32}, 0, 4), "relabel needs no block");
    expect(relabel(32, 1), too_large, "the label of a key that is not there");
    /* Block 1's counter is 1, as if it were not the last: the list goes on in block 0, and has no end. */
    table_t("\xB0\x88\x00\x31\x21\x40");
    expect(enter(2, 0), damage, "the list is damaged before its second entry is known");
    expect(relabel(2, 0), damage, "the list is damaged, and the entry is not relabelled");
    expect(enter(2, 1), too_large, "the label before damage");
    expect(relabel(2, 1), too_large, "the label before damage");
    /* and what comes before the label */
    expect(enter(64, 1), refused(SHELFEGRET_REFUSED_KEY), "the key before the label");
    expect(relabel(64, 1), refused(SHELFEGRET_REFUSED_KEY), "the key before the label");
    size--;
    expect(enter(64, 1), refused(SHELFEGRET_REFUSED_SHORT), "short before the key");
    expect(relabel(64, 1), refused(SHELFEGRET_REFUSED_SHORT), "short before the key");
    s.a = 3;
    expect(enter(64, 1), refused(SHELFEGRET_REFUSED_SETTINGS), "the settings before short");
    expect(relabel(64, 1), refused(SHELFEGRET_REFUSED_SETTINGS), "the settings before short");
}

/* Entry 1 stands twice in list 0, with labels 2 and 1: the first is relabelled. */
static void twice(void)
{
    static struct followed f;
    new_table_t(2);
    size_t at = basic_at(s, 0);
    put_bits(table, at, 2, 2);
    put_bits(table, at + 2, 7, 1 << 2 | 2);
    put_bits(table, at + 9, 7, 1 << 2 | 1);
    memcpy(before, table, sizeof table);
    expect(enter(1, 3), refused(SHELFEGRET_REFUSED_KNOWN), "known twice");
    expect(relabel(1, 3), said(SHELFEGRET_RELABELLED, (key){0, 1}, 2, 1), "the first of two equal entries");
    if (!follow(s, before, 0, &f) || f.length != 2) fail("two entries");
    put_label(s, before, &f, 0, 3);
    if (memcmp(before, table, sizeof table) != 0) fail("the first of two equal entries, and nothing else");
}

static answer with_text(int entering, const char *text, uint64_t label)
{
    const uint8_t *bytes = (const uint8_t *)text;
    if (entering) return shelfegret_enter_text(s, table, size, bytes, strlen(text), label);
    return shelfegret_relabel_text(s, table, size, bytes, strlen(text), label);
}

static void order_by_text(void)
{
    for (int entering = 0; entering < 2; entering++) {
        s = (settings){128, 0, 1, 1, 1, 4, 1, 1};
        size = shelfegret_size(s).number;
        memset(table, 0xff, sizeof table);
        memcpy(before, table, sizeof table);
        expect(with_text(entering, "::1", 15), refused(SHELFEGRET_REFUSED_DAMAGE), "damage");
        expect(with_text(entering, "::1", 16), refused(SHELFEGRET_REFUSED_LABEL), "the label before damage");
        expect(with_text(entering, "::g", 16), refused(SHELFEGRET_REFUSED_TEXT), "the text before the label");
        expect(with_text(entering, "::g", (uint64_t)1 << 40), refused(SHELFEGRET_REFUSED_TEXT), "the text before it");
        s.w = 127;
        expect(with_text(entering, "::g", 16), refused(SHELFEGRET_REFUSED_WIDTH), "the width before the text");
        size = 3;
        expect(with_text(entering, "::g", 16), refused(SHELFEGRET_REFUSED_SHORT), "short before the width");
        s.sio = 0;
        expect(with_text(entering, "::g", 16), refused(SHELFEGRET_REFUSED_SETTINGS), "the settings before short");
    }
}

static answer page(uint64_t n, size_t len)
{
    return shelfegret_page(s, table, size, n, out, len);
}

/* Every refusal of page, each before those that are due as well. */
static void order_by_page(void)
{
    size_t short_of_it = SHELFEGRET_PAGE_BYTES - 1;
    s = (settings){128, 1, 1, 1, 1, 4, 1, 1};
    size = shelfegret_size(s).number;
    memset(out, 0xaa, sizeof out);
    memcpy(out_before, out, sizeof out);
    for (int damaged = 1; damaged >= 0; damaged--) {
        shelfegret_make(s, table, size);
        put_bits(table, basic_at(s, 1), basic_counter_bits(s), damaged ? 3 : 0); /* list 1, behind an empty list 0 */
        memcpy(before, table, sizeof table);
        answer damage = refused(SHELFEGRET_REFUSED_DAMAGE), output = refused(SHELFEGRET_REFUSED_OUTPUT);
        answer no_page = refused(damaged ? SHELFEGRET_REFUSED_DAMAGE : SHELFEGRET_REFUSED_PAGE);
        if (damaged) expect(page(1, sizeof out), damage, "a list behind the page's rows is damaged");
        expect(page(0, sizeof out), no_page, "damage before page 0");
        expect(page(2, sizeof out), no_page, "damage before a page behind the last");
        expect(page(0, short_of_it), output, "the output before damage and the page");
        expect(page(1, short_of_it), output, "as many bytes must be lent to a page without rows");
        expect(page(1, 0), output, "no output");
    }
    settings good = s;
    s.w = 127;
    put_bits(table, basic_at(s, 0), basic_counter_bits(s), 3);
    memcpy(before, table, sizeof table);
    expect(page(0, short_of_it), refused(SHELFEGRET_REFUSED_WIDTH), "the width before the output");
    expect(page(1, sizeof out), refused(SHELFEGRET_REFUSED_WIDTH), "the width before damage");
    size = 3;
    expect(page(0, short_of_it), refused(SHELFEGRET_REFUSED_SHORT), "short before the width");
    s.sio = 0;
    expect(page(0, short_of_it), refused(SHELFEGRET_REFUSED_SETTINGS), "the settings before short");
    s = good;
    expect(page(0, short_of_it), refused(SHELFEGRET_REFUSED_SHORT), "short before the output");
    if (memcmp(out, out_before, sizeof out) != 0) fail("a refused page wrote");
}

/* One entry, which fills its list's basic block; the free start, in the table's first two bits, is nob or above it. */
static void known_by_text(void)
{
    s = (settings){128, 0, 1, 2, 1, 4, 1, 1};
    size = shelfegret_size(s).number;
    memset(table, 0xff, sizeof table);
    shelfegret_make(s, table, size);
    if (with_text(1, "::1", 5).word != SHELFEGRET_ADDED) fail("a new table takes an address");
    for (uint32_t start = 2; start < 4; start++) {
        put_bits(table, 0, 2, start);
        memcpy(before, table, sizeof table);
        expect(with_text(1, "0:0::0.0.0.1", 6), refused(SHELFEGRET_REFUSED_KNOWN), "known under another spelling");
        expect(with_text(1, "::2", 6), refused(start == 2 ? SHELFEGRET_REFUSED_FULL : SHELFEGRET_REFUSED_DAMAGE),
               "a block is needed for another address");
    }
}

/* An IPv4 address is one entry, by whichever spelling it is entered and asked for; no other address is that one. */
static void ipv4_by_text(void)
{
    static const char *const spelled[] = {"192.0.2.1", "::ffff:192.0.2.1", "::FFFF:C000:201", "0::ffff:c000:0201"};
    static const char *const others[] = {"192.0.2.2", "::192.0.2.1", "::fffe:192.0.2.1", "::1:ffff:192.0.2.1"};
    key k = {0, 0xffffc0000201};
    s = (settings){128, 0, 2, 0, 1, 4, 1, 1};
    size = shelfegret_size(s).number;
    for (int i = 0; i < 4; i++) {
        shelfegret_make(s, table, size);
        expect(with_text(1, spelled[i], 5), said(SHELFEGRET_ADDED, k, 5, 0), "a new IPv4 address");
        for (int j = 0; j < 4; j++) {
            memcpy(before, table, sizeof table);
            expect(with_text(1, spelled[j], 6), refused(SHELFEGRET_REFUSED_KNOWN), "known by another spelling");
            expect(with_text(0, spelled[j], 5), said(SHELFEGRET_RELABELLED, k, 5, 1), "held by another spelling");
            if (with_text(0, others[j], 5).word != SHELFEGRET_NONE) fail("another address is held");
        }
    }
}

int main(int argc, char **argv)
{
    seed_random(argc > 1 ? strtoull(argv[1], NULL, 0) : 1);
    for (int i = 0; i < 3000; i++) one_table();
    all_seen();
    for (uint32_t bii = 0; bii <= 4; bii++) one_sheet(bii, 8 * bii);
    if (pages < 10000) fail("too few pages");
    example();
    other_number();
    order_by_slot();
    order_by_key();
    twice();
    order_by_text();
    order_by_page();
    known_by_text();
    ipv4_by_text();
    printf("plain_set: %u calls on %u tables, all as the plain set's; a slot's number was good %lu times\n", calls,
           tables, good);
    return 0;
}
