/* stack.c - the bytes of stack that each call of the library was seen to use.
 *
 *     stack [CALLS]
 *
 * The calls run on a stack of their own. Before each one all below its return address is painted, in one of two
 * colours; afterwards the lowest byte that has changed says how deep it went. The calls are random, on small tables, in
 * use, full and damaged, that end where the buffer ends. Prints a line for each call: its name and bytes, the return
 * address included. */
#include <stdio.h>
#include <stdlib.h>
#include <string.h>
#include <ucontext.h>

#include "../tests/input.h"
#include "shelfegret.h"

typedef struct shelfegret_settings settings;
typedef struct shelfegret_key key;
typedef struct shelfegret_answer answer;

enum { STACK = 65536, DEEP = 8192, TABLE_MOST = 65536, KEYS = 256 };

static _Alignas(16) uint8_t stack[STACK];
static ucontext_t here, there;
static uint8_t *top; /* the first byte above the return address */

/* ---- the calls, and stubs that are called in the same way and say where the stack is */

#define STUB(name, ...) \
    static answer name(__VA_ARGS__) \
    { \
        top = (uint8_t *)__builtin_frame_address(0) + 16; \
        return (answer){0}; \
    }
#pragma GCC diagnostic ignored "-Wunused-parameter"
STUB(stub_size, settings s)
STUB(stub_make, settings s, uint8_t *t, size_t n)
STUB(stub_enter, settings s, uint8_t *t, size_t n, key k, uint64_t l)
STUB(stub_relabel, settings s, uint8_t *t, size_t n, key k, uint64_t l)
STUB(stub_find, settings s, const uint8_t *t, size_t n, key k)
STUB(stub_delete, settings s, uint8_t *t, size_t n, key k)
STUB(stub_record, settings s, const uint8_t *t, size_t n, uint64_t i)
STUB(stub_retrieve, settings s, const uint8_t *t, size_t n, uint64_t i)
STUB(stub_check, settings s, const uint8_t *t, size_t n, uint8_t *m, size_t mn)
STUB(stub_enter_text, settings s, uint8_t *t, size_t n, const uint8_t *x, size_t xn, uint64_t l)
STUB(stub_relabel_text, settings s, uint8_t *t, size_t n, const uint8_t *x, size_t xn, uint64_t l)
STUB(stub_find_text, settings s, const uint8_t *t, size_t n, const uint8_t *x, size_t xn)
STUB(stub_delete_text, settings s, uint8_t *t, size_t n, const uint8_t *x, size_t xn)
STUB(stub_read_text, const uint8_t *x, size_t xn)
STUB(stub_write_text, key k, uint8_t *o, size_t on)
STUB(stub_page, settings s, const uint8_t *t, size_t n, uint64_t p, uint8_t *o, size_t on)

enum {
    SIZE, MAKE, ENTER, RELABEL, FIND, DELETE, RECORD, RETRIEVE, CHECK,
    ENTER_TEXT, RELABEL_TEXT, FIND_TEXT, DELETE_TEXT, READ_TEXT, WRITE_TEXT, PAGE, CALLS
};
static const char *const names[CALLS] = {
    "size",       "make",         "enter",     "relabel",     "find",      "delete",     "record", "retrieve", "check",
    "enter_text", "relabel_text", "find_text", "delete_text", "read_text", "write_text", "page"};

static const struct {
    answer (*size)(settings);
    answer (*make)(settings, uint8_t *, size_t);
    answer (*enter)(settings, uint8_t *, size_t, key, uint64_t);
    answer (*relabel)(settings, uint8_t *, size_t, key, uint64_t);
    answer (*find)(settings, const uint8_t *, size_t, key);
    answer (*delete)(settings, uint8_t *, size_t, key);
    answer (*record)(settings, const uint8_t *, size_t, uint64_t);
    answer (*retrieve)(settings, const uint8_t *, size_t, uint64_t);
    answer (*check)(settings, const uint8_t *, size_t, uint8_t *, size_t);
    answer (*enter_text)(settings, uint8_t *, size_t, const uint8_t *, size_t, uint64_t);
    answer (*relabel_text)(settings, uint8_t *, size_t, const uint8_t *, size_t, uint64_t);
    answer (*find_text)(settings, const uint8_t *, size_t, const uint8_t *, size_t);
    answer (*delete_text)(settings, uint8_t *, size_t, const uint8_t *, size_t);
    answer (*read_text)(const uint8_t *, size_t);
    answer (*write_text)(key, uint8_t *, size_t);
    answer (*page)(settings, const uint8_t *, size_t, uint64_t, uint8_t *, size_t);
} volatile ways[2] = {
    {stub_size, stub_make, stub_enter, stub_relabel, stub_find, stub_delete, stub_record, stub_retrieve, stub_check,
     stub_enter_text, stub_relabel_text, stub_find_text, stub_delete_text, stub_read_text, stub_write_text, stub_page},
    {shelfegret_size, shelfegret_make, shelfegret_enter, shelfegret_relabel, shelfegret_find, shelfegret_delete,
     shelfegret_record, shelfegret_retrieve, shelfegret_check, shelfegret_enter_text, shelfegret_relabel_text,
     shelfegret_find_text, shelfegret_delete_text, shelfegret_read_text, shelfegret_write_text, shelfegret_page},
};

static struct {
    int what;
    settings s;
    key k;
    uint64_t label, n;
    size_t size, text_len, out_len;
} now;
static uint8_t table[TABLE_MOST], marks[8192], text[TEXT_MOST], out[SHELFEGRET_PAGE_BYTES];
static int way;
static answer last;

static void ask(void)
{
    uint8_t *t = table + TABLE_MOST - now.size;
    switch (now.what) {
    case SIZE: last = ways[way].size(now.s); break;
    case MAKE: last = ways[way].make(now.s, t, now.size); break;
    case ENTER: last = ways[way].enter(now.s, t, now.size, now.k, now.label); break;
    case RELABEL: last = ways[way].relabel(now.s, t, now.size, now.k, now.label); break;
    case FIND: last = ways[way].find(now.s, t, now.size, now.k); break;
    case DELETE: last = ways[way].delete(now.s, t, now.size, now.k); break;
    case RECORD: last = ways[way].record(now.s, t, now.size, now.n); break;
    case RETRIEVE: last = ways[way].retrieve(now.s, t, now.size, now.n); break;
    case CHECK: last = ways[way].check(now.s, t, now.size, marks, sizeof marks); break;
    case ENTER_TEXT: last = ways[way].enter_text(now.s, t, now.size, text, now.text_len, now.label); break;
    case RELABEL_TEXT: last = ways[way].relabel_text(now.s, t, now.size, text, now.text_len, now.label); break;
    case FIND_TEXT: last = ways[way].find_text(now.s, t, now.size, text, now.text_len); break;
    case DELETE_TEXT: last = ways[way].delete_text(now.s, t, now.size, text, now.text_len); break;
    case READ_TEXT: last = ways[way].read_text(text, now.text_len); break;
    case WRITE_TEXT: last = ways[way].write_text(now.k, out, now.out_len); break;
    default: last = ways[way].page(now.s, t, now.size, now.n, out, now.out_len); break;
    }
}

/* ---- painting */

static void runner(void)
{
    for (;;) {
        ask();
        swapcontext(&there, &here);
    }
}

static void run(int which)
{
    way = which;
    swapcontext(&here, &there);
}

static size_t depth[CALLS];

static void measured(int colour)
{
    run(0);
    memset(top - 8 - DEEP, colour, DEEP);
    run(1);
    uint8_t *low = top - 8 - DEEP;
    while (low < top - 8 && *low == colour) low++;
    size_t used = (size_t)(top - low);
    if (used > depth[now.what]) depth[now.what] = used;
}

/* ---- random calls */

static const uint32_t prime_above[17] = {2,   3,    5,    11,   17,   37,    67,    131,  257,
                                         521, 1031, 2053, 4099, 8209, 16411, 32771, 65537};

static settings some_settings(void)
{
    static const settings fixed[] = {
        {128, 8, 4, 64, 3, 8, 97, 31}, {6, 1, 2, 2, 1, 0, 1, 1}, {128, 0, 1, 300, 1, 32, 1, 1}};
    if (one_in(8)) return fixed[below(sizeof fixed / sizeof *fixed)];
    for (;;) {
        settings s = {one_in(2) ? 128 : 2 + (uint32_t)below(127), (uint32_t)below(5), 1 + (uint32_t)below(6),
                      (uint32_t)below(40), 1 + (uint32_t)below(5), (uint32_t)below(33), 0, 0};
        s.a = 1 + (uint32_t)below(prime_above[s.bii] - 1);
        s.b = 1 + (uint32_t)below(prime_above[s.bii] - 1);
        answer size = shelfegret_size(s);
        if (size.code == 0 && size.number <= TABLE_MOST) return s;
    }
}

static key keys[KEYS];

static key some_key(void)
{
    key k = random_address();
    uint32_t w = now.s.w;
    if (w < 64) k.low &= (1ull << w) - 1;
    k.high = w <= 64 ? 0 : w == 128 ? k.high : k.high & ((1ull << (w - 64)) - 1);
    return k;
}

static void new_table(void)
{
    now.s = some_settings();
    now.size = shelfegret_size(now.s).number;
    for (int i = 0; i < KEYS; i++) keys[i] = some_key();
    now.what = MAKE;
    measured(0xa5);
}

static void some_call(int damaged)
{
    now.what = one_in(3) ? ENTER : (int)below(CALLS);
    if (now.what == MAKE) now.what = ENTER_TEXT;
    now.k = keys[below(KEYS)];
    now.label = random_bits() >> (64 - now.s.val) % 64;
    if (now.s.val == 0) now.label = 0;
    now.n = below(now.what == PAGE ? 4 : 64);
    if (now.what == RETRIEVE) now.n = below(((uint64_t)now.s.sib << now.s.bii) + now.s.sio * now.s.nob + 2);
    now.text_len = one_in(2) ? legal_text(now.k, text) : any_text(now.k, text);
    now.out_len = now.what == PAGE ? sizeof out : 39;
    if (one_in(8)) now.out_len = below(now.out_len);
    if (damaged && one_in(20)) table[TABLE_MOST - 1 - below(now.size)] = (uint8_t)random_bits();
    measured(one_in(2) ? 0xa5 : 0x5a);
}

int main(int argc, char **argv)
{
    static uint64_t calls; /* static: no register that a context would restore */
    calls = argc > 1 ? strtoull(argv[1], NULL, 0) : 1000000;
    getcontext(&there);
    there.uc_stack.ss_sp = stack;
    there.uc_stack.ss_size = STACK;
    makecontext(&there, runner, 0);
    seed_random(1);
    while (calls) {
        new_table();
        int damaged = one_in(3);
        for (uint64_t left = 1 + below(1000); left && calls; left--, calls--) some_call(damaged);
    }
    for (int i = 0; i < CALLS; i++) printf("shelfegret_%s %zu\n", names[i], depth[i]);
    return 0;
}
