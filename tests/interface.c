/* interface.c - the library's C interface against the baseline's, on random calls.
 *
 *     interface [SEED [CALLS]]
 *
 * Both libraries get the same calls on equal buffers. After each call every field of the two answers must be equal,
 * and every byte of every buffer: those that the call may write must be equal in both, all others as before. Each
 * buffer lies between two pages without access, against one of them or with guard bytes on both sides, so that reads
 * outside are caught as well. The settings are legal and not, the tables new, in use, damaged and random. Behind each
 * relabel the table must be the one before with the label's bits changed, each where format.c finds it; the slot that
 * a call answers, and what retrieve gives, must be those that format.c finds; and what was answered is retrieved at
 * once. Of small tables every slot is retrieved, and numbers behind them. At the end each call must have given each of
 * its refusals and words many times, and no other; labels of every kind must have been changed, such as those that lie
 * where a block's number is; slots of every kind asked for, such as those of a block that the list which it names does
 * not contain; and pages of every kind printed, such as those of tables with blocks in no list. How many records these
 * have is counted with format.c, and gives the page's length.
 *
 * The baseline is compiled with base_ in the place of shelfegret_ in its names. */
#define _DEFAULT_SOURCE /* MAP_ANONYMOUS */

#include <inttypes.h>
#include <signal.h>
#include <stdio.h>
#include <stdlib.h>
#include <string.h>
#include <sys/mman.h>
#include <unistd.h>

#include "format.h"
#include "input.h"
#include "shelfegret.h"

typedef struct shelfegret_settings settings;
typedef struct shelfegret_key key;
typedef struct shelfegret_answer answer;

/* ---- the two libraries */

struct library {
    answer (*size)(settings);
    answer (*make)(settings, uint8_t *, size_t);
    answer (*enter)(settings, uint8_t *, size_t, key, uint64_t);
    answer (*relabel)(settings, uint8_t *, size_t, key, uint64_t);
    answer (*find)(settings, const uint8_t *, size_t, key);
    answer (*delete)(settings, uint8_t *, size_t, key);
    answer (*record)(settings, const uint8_t *, size_t, uint64_t);
    answer (*retrieve)(settings, const uint8_t *, size_t, uint64_t);
    answer (*check)(settings, const uint8_t *, size_t, uint8_t *, size_t);
    answer (*enter_text)(settings, uint8_t *, size_t, const uint8_t *, size_t, uint64_t);
    answer (*relabel_text)(settings, uint8_t *, size_t, const uint8_t *, size_t, uint64_t);
    answer (*find_text)(settings, const uint8_t *, size_t, const uint8_t *, size_t);
    answer (*delete_text)(settings, uint8_t *, size_t, const uint8_t *, size_t);
    answer (*read_text)(const uint8_t *, size_t);
    answer (*write_text)(key, uint8_t *, size_t);
    answer (*page)(settings, const uint8_t *, size_t, uint64_t, uint8_t *, size_t);
};

answer base_size(settings);
answer base_make(settings, uint8_t *, size_t);
answer base_enter(settings, uint8_t *, size_t, key, uint64_t);
answer base_relabel(settings, uint8_t *, size_t, key, uint64_t);
answer base_find(settings, const uint8_t *, size_t, key);
answer base_delete(settings, uint8_t *, size_t, key);
answer base_record(settings, const uint8_t *, size_t, uint64_t);
answer base_retrieve(settings, const uint8_t *, size_t, uint64_t);
answer base_check(settings, const uint8_t *, size_t, uint8_t *, size_t);
answer base_enter_text(settings, uint8_t *, size_t, const uint8_t *, size_t, uint64_t);
answer base_relabel_text(settings, uint8_t *, size_t, const uint8_t *, size_t, uint64_t);
answer base_find_text(settings, const uint8_t *, size_t, const uint8_t *, size_t);
answer base_delete_text(settings, uint8_t *, size_t, const uint8_t *, size_t);
answer base_read_text(const uint8_t *, size_t);
answer base_write_text(key, uint8_t *, size_t);
answer base_page(settings, const uint8_t *, size_t, uint64_t, uint8_t *, size_t);

enum { LIBRARY, BASELINE, BOTH };
static const char *const names[BOTH + 1] = {"library", "baseline", "test itself"};
static const struct library libraries[BOTH] = {
    {shelfegret_size, shelfegret_make, shelfegret_enter, shelfegret_relabel, shelfegret_find, shelfegret_delete,
     shelfegret_record, shelfegret_retrieve, shelfegret_check, shelfegret_enter_text, shelfegret_relabel_text,
     shelfegret_find_text, shelfegret_delete_text, shelfegret_read_text, shelfegret_write_text, shelfegret_page},
    {base_size, base_make, base_enter, base_relabel, base_find, base_delete, base_record, base_retrieve, base_check,
     base_enter_text, base_relabel_text, base_find_text, base_delete_text, base_read_text, base_write_text, base_page},
};

/* ---- lent buffers */

enum { TABLE_MOST = 16777216, LONGER_MOST = 32, MARKS_MOST = 8192, WRITTEN_MOST = 48, GUARD = 64 };

struct buffer {
    const char *name;
    size_t most;
    uint8_t *room[BOTH]; /* room_size bytes between two pages without access */
    size_t room_size;
    uint8_t *at[BOTH]; /* the lent bytes, in each room at the same place */
    size_t len;
    size_t front, rear; /* guard bytes before and behind them */
    int null;           /* pass NULL; only if len is 0 */
    uint8_t *held;      /* what both copies held before the call; for a table, also what a short one leaves out */
};

static struct buffer table = {.name = "table", .most = TABLE_MOST + LONGER_MOST};
static struct buffer marks = {.name = "marks", .most = MARKS_MOST + LONGER_MOST};
static struct buffer text = {.name = "text", .most = TEXT_MOST};
static struct buffer out = {.name = "out", .most = SHELFEGRET_PAGE_BYTES + LONGER_MOST};
static uint8_t guard[GUARD];

static void *or_give_up(void *memory)
{
    if (memory == NULL || memory == MAP_FAILED) {
        perror("interface");
        exit(2);
    }
    return memory;
}

static void make_room(struct buffer *b)
{
    size_t page = (size_t)sysconf(_SC_PAGESIZE);
    b->room_size = (b->most + 2 * GUARD + 8 + page - 1) / page * page;
    for (int i = 0; i < BOTH; i++) {
        uint8_t *all = or_give_up(mmap(NULL, b->room_size + 2 * page, PROT_NONE, MAP_PRIVATE | MAP_ANONYMOUS, -1, 0));
        b->room[i] = all + page;
        if (mprotect(b->room[i], b->room_size, PROT_READ | PROT_WRITE) != 0) or_give_up(NULL);
    }
    b->held = or_give_up(malloc(b->most));
}

static size_t smaller(size_t a, size_t b)
{
    return a < b ? a : b;
}

/* Lends the first len held bytes: at the start of the room, at its end, or somewhere between. */
static void lend(struct buffer *b, size_t len)
{
    uint64_t place = below(3);
    size_t from = place == 0 ? 0 : place == 1 ? b->room_size - len : GUARD + below(8);
    b->len = len;
    b->null = len == 0 && one_in(2);
    b->front = smaller(GUARD, from);
    b->rear = smaller(GUARD, b->room_size - from - len);
    for (int i = 0; i < BOTH; i++) {
        b->at[i] = b->room[i] + from;
        memcpy(b->at[i] - b->front, guard, b->front);
        memcpy(b->at[i], b->held, len);
        memcpy(b->at[i] + len, guard, b->rear);
    }
}

static void lend_noise(struct buffer *b, size_t len)
{
    for (size_t i = 0; i < len; i++) b->held[i] = (uint8_t)random_bits();
    lend(b, len);
}

static int as_before(const struct buffer *b, int i, size_t written)
{
    return memcmp(b->at[i] - b->front, guard, b->front) == 0 && memcmp(b->at[i] + b->len, guard, b->rear) == 0 &&
           memcmp(b->at[i] + written, b->held + written, b->len - written) == 0;
}

/* The first `written` bytes are equal in both copies, and all others as before. */
static int agree(const struct buffer *b, size_t written)
{
    return memcmp(b->at[LIBRARY], b->at[BASELINE], written) == 0 && as_before(b, LIBRARY, written) &&
           as_before(b, BASELINE, written);
}

/* ---- calls */

enum what {
    SIZE,
    MAKE,
    ENTER,
    RELABEL,
    FIND,
    DELETE,
    RECORD,
    RETRIEVE,
    CHECK,
    ENTER_TEXT, /* the four with a text, in the order of those with a key */
    RELABEL_TEXT,
    FIND_TEXT,
    DELETE_TEXT,
    READ_TEXT,
    WRITE_TEXT,
    PAGE
};
enum { WHATS = PAGE + 1 };

struct call {
    enum what what;
    settings settings;
    key key;
    uint64_t label, n;
};

enum { TAKES_TABLE = 1, TAKES_MARKS = 2, TAKES_TEXT = 4, TAKES_OUT = 8 };
enum { CODES = 15, WORDS = 9 };
#define BIT(n) (1u << (n))

/* what each call takes, and the refusals and words that shelfegret.h gives it; word 0 is no word */
static const struct {
    const char *name;
    unsigned takes, codes, words;
} of_call[WHATS] = {
    [SIZE] = {"size", 0, BIT(1), BIT(0)},
    [MAKE] = {"make", TAKES_TABLE, BIT(1) | BIT(2), BIT(0)},
    [ENTER] = {"enter", TAKES_TABLE, BIT(1) | BIT(2) | BIT(5) | BIT(6) | BIT(7) | BIT(8) | BIT(12),
               BIT(SHELFEGRET_ADDED)},
    [RELABEL] = {"relabel", TAKES_TABLE, BIT(1) | BIT(2) | BIT(5) | BIT(6) | BIT(7),
                 BIT(SHELFEGRET_RELABELLED) | BIT(SHELFEGRET_NONE)},
    [FIND] = {"find", TAKES_TABLE, BIT(1) | BIT(2) | BIT(5) | BIT(7), BIT(SHELFEGRET_HELD) | BIT(SHELFEGRET_NONE)},
    [DELETE] = {"delete", TAKES_TABLE, BIT(1) | BIT(2) | BIT(5) | BIT(7), BIT(SHELFEGRET_GONE) | BIT(SHELFEGRET_NONE)},
    [RECORD] = {"record", TAKES_TABLE, BIT(1) | BIT(2) | BIT(7), BIT(SHELFEGRET_RECORD) | BIT(SHELFEGRET_NONE)},
    [RETRIEVE] = {"retrieve", TAKES_TABLE, BIT(1) | BIT(2) | BIT(14) | BIT(7),
                  BIT(SHELFEGRET_RECORD) | BIT(SHELFEGRET_NONE)},
    [CHECK] = {"check", TAKES_TABLE | TAKES_MARKS, BIT(1) | BIT(2) | BIT(10),
               BIT(SHELFEGRET_SOUND) | BIT(SHELFEGRET_UNSOUND)},
    [ENTER_TEXT] = {"enter_text", TAKES_TABLE | TAKES_TEXT,
                    BIT(1) | BIT(2) | BIT(3) | BIT(4) | BIT(6) | BIT(7) | BIT(8) | BIT(12), BIT(SHELFEGRET_ADDED)},
    [RELABEL_TEXT] = {"relabel_text", TAKES_TABLE | TAKES_TEXT, BIT(1) | BIT(2) | BIT(3) | BIT(4) | BIT(6) | BIT(7),
                      BIT(SHELFEGRET_RELABELLED) | BIT(SHELFEGRET_NONE)},
    [FIND_TEXT] = {"find_text", TAKES_TABLE | TAKES_TEXT, BIT(1) | BIT(2) | BIT(3) | BIT(4) | BIT(7),
                   BIT(SHELFEGRET_HELD) | BIT(SHELFEGRET_NONE)},
    [DELETE_TEXT] = {"delete_text", TAKES_TABLE | TAKES_TEXT, BIT(1) | BIT(2) | BIT(3) | BIT(4) | BIT(7),
                     BIT(SHELFEGRET_GONE) | BIT(SHELFEGRET_NONE)},
    [READ_TEXT] = {"read_text", TAKES_TEXT, BIT(4), BIT(0)},
    [WRITE_TEXT] = {"write_text", TAKES_OUT, BIT(9), BIT(0)},
    [PAGE] = {"page", TAKES_TABLE | TAKES_OUT, BIT(1) | BIT(2) | BIT(3) | BIT(9) | BIT(7) | BIT(13), BIT(0)},
};

static uint8_t *lent(const struct buffer *b, int i)
{
    return b->null ? NULL : b->at[i];
}

static answer ask(int i, const struct call *c)
{
    const struct library *l = &libraries[i];
    uint8_t *t = lent(&table, i);
    switch (c->what) {
    case SIZE: return l->size(c->settings);
    case MAKE: return l->make(c->settings, t, table.len);
    case ENTER: return l->enter(c->settings, t, table.len, c->key, c->label);
    case RELABEL: return l->relabel(c->settings, t, table.len, c->key, c->label);
    case FIND: return l->find(c->settings, t, table.len, c->key);
    case DELETE: return l->delete(c->settings, t, table.len, c->key);
    case RECORD: return l->record(c->settings, t, table.len, c->n);
    case RETRIEVE: return l->retrieve(c->settings, t, table.len, c->n);
    case CHECK: return l->check(c->settings, t, table.len, lent(&marks, i), marks.len);
    case ENTER_TEXT: return l->enter_text(c->settings, t, table.len, lent(&text, i), text.len, c->label);
    case RELABEL_TEXT: return l->relabel_text(c->settings, t, table.len, lent(&text, i), text.len, c->label);
    case FIND_TEXT: return l->find_text(c->settings, t, table.len, lent(&text, i), text.len);
    case DELETE_TEXT: return l->delete_text(c->settings, t, table.len, lent(&text, i), text.len);
    case READ_TEXT: return l->read_text(lent(&text, i), text.len);
    case WRITE_TEXT: return l->write_text(c->key, lent(&out, i), out.len);
    default: return l->page(c->settings, t, table.len, c->n, lent(&out, i), out.len);
    }
}

/* The bytes of the buffer that this call, so answered, may have written: its first ones. */
static size_t written(const struct call *c, answer a, const struct buffer *b)
{
    if (a.code) return 0;
    if (b == &marks) return (c->settings.nob + 7) / 8;
    if (b == &out) return a.number;
    if (b == &table && (c->what == MAKE || a.word == SHELFEGRET_ADDED || a.word == SHELFEGRET_RELABELLED ||
                        a.word == SHELFEGRET_GONE))
        return base_size(c->settings).number;
    return 0;
}

/* ---- what is told on a difference */

static uint64_t seed = 1, calls = 10000000, call_number;
static struct call now;  /* the call under way, */
static int asked = BOTH; /* and the library that is at it, BOTH if none is */

static void tell_buffer(const struct buffer *b)
{
    fprintf(stderr, "  %s: %s%zu bytes", b->name, b->null ? "NULL, " : "", b->len);
    for (size_t i = 0; i < smaller(b->len, 64); i++) fprintf(stderr, "%s%02x", i ? " " : ", before: ", b->held[i]);
    if (b == &text) tell_text(b->held, b->len);
    fprintf(stderr, "\n");
    size_t differs = 0;
    while (differs < b->len && b->at[LIBRARY][differs] == b->at[BASELINE][differs]) differs++;
    if (differs < b->len)
        fprintf(stderr, "    byte %zu was %02x, is %02x to the library and %02x to the baseline\n", differs,
                b->held[differs], b->at[LIBRARY][differs], b->at[BASELINE][differs]);
    for (int i = 0; i < BOTH; i++) {
        if (!as_before(b, i, b->len)) fprintf(stderr, "    the %s changed guard bytes\n", names[i]);
        if (!as_before(b, i, 0)) fprintf(stderr, "    the %s changed something\n", names[i]);
    }
}

static void tell_call(const char *trouble)
{
    settings s = now.settings;
    unsigned takes = of_call[now.what].takes;
    fprintf(stderr, "%s\n", trouble);
    fprintf(stderr, "seed %" PRIu64 ", call %" PRIu64 ": %s\n", seed, call_number, of_call[now.what].name);
    fprintf(stderr, "  settings: w %u bii %u sib %u nob %u sio %u val %u a %u b %u\n", (unsigned)s.w, (unsigned)s.bii,
            (unsigned)s.sib, (unsigned)s.nob, (unsigned)s.sio, (unsigned)s.val, (unsigned)s.a, (unsigned)s.b);
    fprintf(stderr, "  key %016" PRIx64 " %016" PRIx64 ", label %" PRIu64 ", n %" PRIu64 "\n", now.key.high,
            now.key.low, now.label, now.n);
    if (takes & TAKES_TABLE) tell_buffer(&table);
    if (takes & TAKES_MARKS) tell_buffer(&marks);
    if (takes & TAKES_TEXT) tell_buffer(&text);
    if (takes & TAKES_OUT) tell_buffer(&out);
}

static void tell_answer(int i, answer a)
{
    fprintf(stderr, "  %s: code %u word %u key %016" PRIx64 " %016" PRIx64 " label %u compared %u number %" PRIu64 "\n",
            names[i], (unsigned)a.code, (unsigned)a.word, a.key.high, a.key.low, (unsigned)a.label,
            (unsigned)a.compared, a.number);
}

static void differ(const char *trouble, const answer *a)
{
    tell_call(trouble);
    tell_answer(LIBRARY, a[LIBRARY]);
    tell_answer(BASELINE, a[BASELINE]);
    exit(1);
}

static void on_fault(int signal_number)
{
    (void)signal_number;
    tell_call("access outside the lent buffers");
    fprintf(stderr, "  by the %s\n", names[asked]);
    _exit(1);
}

/* ---- one call to both */

static uint64_t refusals[WHATS][CODES], words[WHATS][WORDS];

static int same(answer a, answer b)
{
    return a.code == b.code && a.word == b.word && a.key.high == b.key.high && a.key.low == b.key.low &&
           a.label == b.label && a.compared == b.compared && a.number == b.number;
}

static void count(answer a, const answer *both)
{
    if (a.code >= CODES || a.word >= WORDS) differ("no such code or word", both);
    if (a.code && !(of_call[now.what].codes & BIT(a.code))) differ("not a refusal of this call", both);
    if (!a.code && !(of_call[now.what].words & BIT(a.word))) differ("not a word of this call", both);
    if (a.code && !same(a, (answer){.code = a.code})) differ("a refusal with more than its number", both);
    if (a.code)
        refusals[now.what][a.code]++;
    else
        words[now.what][a.word]++;
}

/* Labels that were changed, by where they stood and what was special about them. */
enum { DISPLACED_FIRST, DISPLACED_LATER, DISPLACED_IN_PART, OTHER_LINK, IN_OVERFLOW, NO_BITS, MOST_BITS, TWICE, KINDS };
static const char *const kinds[KINDS] = {
    [DISPLACED_FIRST] = "in slot 0, displaced",
    [DISPLACED_LATER] = "in a later slot, displaced",
    [DISPLACED_IN_PART] = "in part displaced",
    [OTHER_LINK] = "displaced, and the link holds other bits than before",
    [IN_OVERFLOW] = "in an overflow block",
    [NO_BITS] = "of 0 bits",
    [MOST_BITS] = "of 32 bits",
    [TWICE] = "of the first of two equal entries",
};
static uint64_t relabelled[KINDS];

static void count_label(settings s, const struct followed *f, uint32_t n, uint64_t changed)
{
    uint32_t bits = 0; /* of the label, displaced: its first ones */
    while (bits < s.val && is_displaced(s, f, n, entry_bits(s) + bits)) bits++;
    relabelled[DISPLACED_FIRST] += bits && n == 0;
    relabelled[DISPLACED_LATER] += bits && n > 0;
    relabelled[DISPLACED_IN_PART] += bits && bits < s.val;
    relabelled[OTHER_LINK] += bits && changed >> (s.val - bits);
    relabelled[IN_OVERFLOW] += n >= s.sib;
    relabelled[NO_BITS] += s.val == 0;
    relabelled[MOST_BITS] += s.val == 32;
}

/* The entry found is the first in its list that is the key's, the label answered is the one that it had, and the table
 * is the one before but for that label. */
static void expect_relabelled(const answer *both)
{
    static struct followed f;
    answer a = both[LIBRARY];
    settings s = now.settings;
    uint32_t found = 0, n = a.compared - 1;
    if (!follow(s, table.held, list_of(s, a.key), &f)) differ("relabelled in a damaged list", both);
    while (found < f.length && !is_entry(s, table.held, &f, found, a.key)) found++;
    if (found == f.length || found != n) differ("not the first entry that is equal", both);
    uint64_t old = get_label(s, table.held, &f, n);
    if (a.label != old) differ("not the label before", both);
    put_label(s, table.held, &f, n, now.label);
    int good = memcmp(table.held, table.at[LIBRARY], table.len) == 0;
    put_label(s, table.held, &f, n, old);
    if (!good) differ("relabel changed something other than the label", both);
    count_label(s, &f, n, old ^ now.label);
    for (uint32_t next = n + 1; next < f.length; next++)
        if (is_entry(s, table.held, &f, next, a.key)) {
            relabelled[TWICE]++;
            break;
        }
}

/* Slots that were answered or asked for, by what was special about them. */
enum {
    TOLD_ZERO,
    TOLD_BASIC,
    TOLD_OVERFLOW,
    TOLD_TAKEN,
    SHORT_LIST,
    LONG_LIST,
    SLOT_DISPLACED,
    LATER_DISPLACED,
    VACANT,
    BLOCK_FIRST,
    BLOCK_LATER,
    BLOCK_VACANT,
    NOT_IN_LIST_0,
    NOT_IN_OTHER,
    DAMAGED_OWN,
    DAMAGED_NAMED,
    SLOT_NEXT,
    SLOT_HUGE,
    SLOTS
};
static const char *const slot_kinds[SLOTS] = {
    [TOLD_ZERO] = "answered, 0",
    [TOLD_BASIC] = "answered, in a basic block",
    [TOLD_OVERFLOW] = "answered, in an overflow block",
    [TOLD_TAKEN] = "answered, in a block that was taken for it",
    [SHORT_LIST] = "in use, in a list without overflow blocks",
    [LONG_LIST] = "in use, in a basic block that overflows",
    [SLOT_DISPLACED] = "in use, with displaced bits",
    [LATER_DISPLACED] = "in use, with displaced bits, and not slot 0",
    [VACANT] = "vacant, in a basic block",
    [BLOCK_FIRST] = "in use, in a list's first overflow block",
    [BLOCK_LATER] = "in use, in a later one",
    [BLOCK_VACANT] = "vacant, in a list's last block",
    [NOT_IN_LIST_0] = "of a block that list 0 does not contain, and that has its number",
    [NOT_IN_OTHER] = "of a block that another list does not contain, and that has its number",
    [DAMAGED_OWN] = "of a damaged list, in its basic block",
    [DAMAGED_NAMED] = "of a block with the number of a damaged list",
    [SLOT_NEXT] = "refused, right behind the last",
    [SLOT_HUGE] = "refused, of more than 32 bits, the last 32 a slot's",
};
static uint64_t asked_slots[SLOTS];

/* The number answered is that of the slot in which format.c finds the entry; a new one, in the table afterwards. */
static void expect_number(const answer *both)
{
    static struct followed f;
    answer a = both[LIBRARY];
    settings s = now.settings;
    int added = a.word == SHELFEGRET_ADDED;
    if (!added && a.word != SHELFEGRET_HELD && a.word != SHELFEGRET_RELABELLED) {
        if (a.number && now.what != SIZE && now.what != WRITE_TEXT && now.what != PAGE)
            differ("a number where there is none", both);
        return;
    }
    uint32_t n = added ? a.compared : a.compared - 1;
    const uint8_t *bytes = added ? table.at[LIBRARY] : table.held;
    if (!follow(s, bytes, list_of(s, a.key), &f) || n >= f.length) differ("no such entry", both);
    if (a.number != slot_number(s, &f, n)) differ("not the number of the entry's slot", both);
    asked_slots[TOLD_ZERO] += a.number == 0;
    asked_slots[n < s.sib ? TOLD_BASIC : TOLD_OVERFLOW]++;
    asked_slots[TOLD_TAKEN] += added && n >= s.sib && (n - s.sib) % s.sio == 0;
}

static void count_slot(settings s, const struct followed *f, uint32_t n)
{
    uint64_t basic = basic_slots(s);
    int used = n < f->length, named = now.n >= basic, contained = 0;
    for (uint32_t i = 0; named && i < f->blocks; i++) contained |= f->block[i] == (now.n - basic) / s.sio;
    if (!named) {
        int displaced = used && is_displaced(s, f, n, 0);
        asked_slots[used ? f->blocks ? LONG_LIST : SHORT_LIST : VACANT]++;
        asked_slots[SLOT_DISPLACED] += displaced;
        asked_slots[LATER_DISPLACED] += displaced && n > 0;
    } else if (contained) {
        asked_slots[!used ? BLOCK_VACANT : n - s.sib < s.sio ? BLOCK_FIRST : BLOCK_LATER]++;
    } else {
        asked_slots[f->list ? NOT_IN_OTHER : NOT_IN_LIST_0]++;
    }
}

/* What format.c finds in the slot, in the list that the slot's block belongs to or names. */
static answer slot_due(settings s)
{
    static struct followed f;
    answer due = {0};
    uint64_t basic = basic_slots(s), all = all_slots(s), list = now.n / s.sib;
    if (now.n >= all) {
        due.code = SHELFEGRET_REFUSED_SLOT;
        asked_slots[SLOT_NEXT] += now.n == all;
        asked_slots[SLOT_HUGE] += now.n >> 32 != 0 && (now.n & UINT32_MAX) < all;
        return due;
    }
    if (now.n >= basic) list = get_bits(table.held, list_at(s, (now.n - basic) / s.sio), list_bits(s));
    if (!follow(s, table.held, list, &f)) {
        due.code = SHELFEGRET_REFUSED_DAMAGE;
        asked_slots[now.n < basic ? DAMAGED_OWN : DAMAGED_NAMED]++;
        return due;
    }
    uint32_t n = slot_with_number(s, &f, now.n);
    due.word = SHELFEGRET_NONE;
    if (n < f.length) {
        due.word = SHELFEGRET_RECORD;
        due.key = get_key(s, table.held, &f, n);
        due.label = (uint32_t)get_label(s, table.held, &f, n);
    }
    count_slot(s, &f, n);
    return due;
}

static void expect_retrieved(const answer *both)
{
    answer a = both[LIBRARY];
    if (a.code == SHELFEGRET_REFUSED_SETTINGS || a.code == SHELFEGRET_REFUSED_SHORT) return;
    if (!same(a, slot_due(now.settings))) differ("not what stands in the slot", both);
}

/* The records of the table, counted list by list; none is given where a list is damaged. */
struct sheet {
    uint64_t records;
    int damaged, lost; /* blocks are in no list, and not free */
};

static struct sheet count_records(settings s)
{
    static struct followed f;
    uint64_t used = 0, start = get_bits(table.held, 0, start_bits(s));
    struct sheet sheet = {0, 0, 0};
    for (uint64_t list = 0; list < (uint64_t)1 << s.bii; list++) {
        if (!follow(s, table.held, list, &f)) return (struct sheet){0, 1, 0};
        sheet.records += f.length;
        used += f.blocks;
    }
    while (start < s.nob && used <= s.nob) { /* the free chain */
        uint64_t next = get_bits(table.held, link_at(s, start), link_bits(s));
        used++;
        start = next == start ? s.nob : next;
    }
    sheet.lost = used < s.nob;
    return sheet;
}

/* Pages that were asked for, by what was special about them. */
enum { EMPTY, ONE_ROW, FULL_AND_LAST, FULL_AND_MORE, THIRD, OF_LOST, BEHIND_FULL, PAGE_ZERO, PAGE_HUGE, PAGES };
static const char *const page_kinds[PAGES] = {
    [EMPTY] = "of an empty table",
    [ONE_ROW] = "with one row behind full ones",
    [FULL_AND_LAST] = "full, and the last",
    [FULL_AND_MORE] = "full, and not the last",
    [THIRD] = "from the third on",
    [OF_LOST] = "of a table with blocks in no list that are not free",
    [BEHIND_FULL] = "refused, right behind a full one",
    [PAGE_ZERO] = "refused, 0",
    [PAGE_HUGE] = "refused, of 2^29 or more",
};
static uint64_t asked_pages[PAGES];

enum { ROWS = 40, LINE = 51, FEW_LISTS = 6 };

static uint64_t pages_of(uint64_t records)
{
    return records == 0 ? 1 : (records + ROWS - 1) / ROWS;
}

static void count_page(uint64_t page, uint64_t pages, uint64_t rows, struct sheet sheet)
{
    asked_pages[EMPTY] += page == 1 && sheet.records == 0;
    asked_pages[ONE_ROW] += rows == 1 && page > 1;
    asked_pages[FULL_AND_LAST] += rows == ROWS && page == pages;
    asked_pages[FULL_AND_MORE] += rows == ROWS && page < pages;
    asked_pages[THIRD] += rows != 0 && page >= 3;
    asked_pages[OF_LOST] += rows != 0 && sheet.lost;
    asked_pages[BEHIND_FULL] += page == pages + 1 && sheet.records == ROWS * pages;
    asked_pages[PAGE_ZERO] += page == 0;
    asked_pages[PAGE_HUGE] += page >> 29 != 0;
}

/* The refusals 7 and 13, and the number of bytes, are those that the records give. */
static void expect_page(const answer *both)
{
    answer a = both[LIBRARY];
    if (a.code && a.code != SHELFEGRET_REFUSED_DAMAGE && a.code != SHELFEGRET_REFUSED_PAGE) return;
    if (now.settings.bii > FEW_LISTS) return; /* slow to count */
    struct sheet sheet = count_records(now.settings);
    uint64_t pages = pages_of(sheet.records), before = ROWS * (now.n - 1), rows = 0;
    int there = now.n != 0 && now.n <= pages;
    uint32_t code = sheet.damaged ? SHELFEGRET_REFUSED_DAMAGE : there ? 0 : SHELFEGRET_REFUSED_PAGE;
    if (!code) rows = sheet.records - before < ROWS ? sheet.records - before : ROWS;
    if (a.code != code) differ("not the refusal of such a page", both);
    if (a.number != (code ? 0 : LINE * (1 + rows))) differ("not the length of such a page", both);
    if (!sheet.damaged) count_page(now.n, pages, rows, sheet);
}

static void settle(struct buffer *b, const answer *a, const char *trouble)
{
    size_t n = written(&now, a[LIBRARY], b);
    if (n > b->len || !agree(b, n)) differ(trouble, a);
    if (b == &table) memcpy(b->held, b->at[LIBRARY], n);
}

static answer call_both(struct call c)
{
    answer a[BOTH];
    unsigned takes = of_call[c.what].takes;
    now = c;
    call_number++;
    for (asked = 0; asked < BOTH; asked++) a[asked] = ask(asked, &c);
    if (!same(a[LIBRARY], a[BASELINE])) differ("the answers differ", a);
    count(a[LIBRARY], a);
    if (a[LIBRARY].word == SHELFEGRET_RELABELLED) expect_relabelled(a);
    expect_number(a);
    if (c.what == RETRIEVE) expect_retrieved(a);
    if (c.what == PAGE) expect_page(a);
    if (takes & TAKES_TABLE) settle(&table, a, "bytes of the table differ");
    if (takes & TAKES_MARKS) settle(&marks, a, "bytes of the marks differ");
    if (takes & TAKES_TEXT) settle(&text, a, "bytes of the text differ");
    if (takes & TAKES_OUT) settle(&out, a, "bytes of the output differ");
    return a[LIBRARY];
}

/* ---- settings */

struct shape {
    uint32_t w_least, w_most, bii_most, sib_most, nob_most, sio_most, val_most;
    size_t size_most;
    unsigned calls; /* on one such table, at most */
};

static const struct shape shapes[] = {
    {2, 10, 3, 3, 6, 3, 3, 64, 1000},                 /* a few bytes */
    {3, 9, 3, 4, 300, 4, 1, 4096, 1000},              /* slots smaller than a block's number */
    {6, 12, 4, 4, 48, 3, 8, 4096, 1000},              /* labels where a block's number is, in slot 0 */
    {3, 5, 2, 3, 500, 2, 3, 4096, 1000},              /* and in later slots */
    {2, 128, 4, 8, 20, 15, 32, 16384, 1000},          /* every width */
    {128, 128, 4, 6, 40, 4, 32, 16384, 1500},         /* addresses */
    {128, 128, 2, 2, 4, 3, 8, 1024, 1500},            /* addresses, soon full */
    {2, 128, 16, 255, 65535, 15, 32, 131072, 300},    /* all ranges */
    {2, 128, 16, 255, 65535, 15, 32, TABLE_MOST, 40}, /* all ranges, up to the largest table */
};
enum { SHAPES = sizeof shapes / sizeof *shapes };

static uint32_t between(uint32_t least, uint32_t most)
{
    return least + (uint32_t)below((uint64_t)most - least + 1);
}

/* 1 to most, each power of two as likely as the next */
static uint32_t spread(uint32_t most)
{
    uint32_t bits = 0;
    while (most >> bits > 1) bits++;
    uint32_t n = (uint32_t)1 << below(bits + 1);
    return between(n, most < 2 * n ? most : 2 * n - 1);
}

/* 0, 1, a power of two or a neighbour of one, or any */
static uint32_t some_blocks(uint32_t most)
{
    uint32_t n = spread(most);
    switch (below(6)) {
    case 0: return 0;
    case 1: return 1;
    case 2:
        while (n & (n - 1)) n &= n - 1;
        return n - (uint32_t)below(2);
    default: return n;
    }
}

static settings settings_of(const struct shape *shape)
{
    settings s;
    s.w = between(shape->w_least, shape->w_most);
    s.bii = between(0, shape->bii_most);
    if (s.bii >= s.w) s.bii = (uint32_t)below(s.w);
    s.sib = one_in(16) ? shape->sib_most : spread(shape->sib_most);
    s.nob = some_blocks(shape->nob_most);
    s.sio = between(1, shape->sio_most);
    s.val = one_in(4) ? 0 : between(0, shape->val_most);
    s.a = between(1, prime_above(s.bii) - 1);
    s.b = between(1, prime_above(s.bii) - 1);
    return s;
}

static settings legal_settings(const struct shape *shape)
{
    for (;;) {
        settings s = settings_of(shape);
        answer a = base_size(s);
        if (!a.code && a.number <= shape->size_most) return s;
    }
}

/* a number above `most`: the next, or any */
static uint32_t beyond(uint32_t most)
{
    return one_in(2) ? most + 1 : between(most + 1, UINT32_MAX);
}

/* the settings with one range or rule broken; now and then they are legal all the same */
static settings spoilt(settings s)
{
    uint32_t p = s.bii <= 16 ? prime_above(s.bii) : 2;
    switch (below(12)) {
    case 0: s.w = one_in(2) ? (uint32_t)below(2) : beyond(128); break;
    case 1: s.bii = beyond(16); break;
    case 2: s.bii = s.w + (uint32_t)below(3); break;
    case 3: s.sib = one_in(2) ? 0 : beyond(255); break;
    case 4: s.nob = beyond(65535); break;
    case 5: s.sio = one_in(2) ? 0 : beyond(15); break;
    case 6: s.val = beyond(32); break;
    case 7: s.a = one_in(2) ? 0 : beyond(p - 1); break;
    case 8: s.b = one_in(2) ? 0 : beyond(p - 1); break;
    case 9: /* a basic block may be too small for a block's number */
        s.w = s.bii + 1 + (uint32_t)below(3);
        s.sib = between(1, 5);
        s.val = (uint32_t)below(2);
        s.nob = some_blocks(65535);
        break;
    case 10: /* the table may be too large */
        s.w = between(100, 128);
        s.sib = between(1, 255);
        s.nob = between(0, 65535);
        break;
    default:
        for (uint32_t *field = &s.w; field <= &s.b; field++)
            if (one_in(3)) *field = (uint32_t)random_bits() >> below(32);
    }
    return s;
}

/* settings of a table as large as can be, or one block larger */
static settings at_size_limit(void)
{
    settings s = settings_of(&shapes[SHAPES - 1]);
    uint32_t fits = 0, too_many = 65536;
    while (fits + 1 < too_many) {
        s.nob = (fits + too_many) / 2;
        *(base_size(s).code ? &too_many : &fits) = s.nob;
    }
    s.nob = fits + (uint32_t)below(2);
    return s;
}

/* ---- keys */

static key random_key(uint32_t w)
{
    key k = {random_bits(), random_bits()};
    return low_bits(k, w);
}

static key one_bit_off(key k, uint32_t w)
{
    uint32_t bit = (uint32_t)below(w);
    *(bit < 64 ? &k.low : &k.high) ^= (uint64_t)1 << bit % 64;
    return k;
}

/* ---- the table under test */

enum { POOL_MOST = 400 };
static settings at_hand;    /* its settings */
static size_t size_at_hand; /* and its size */
static key pool[POOL_MOST]; /* keys that are used again and again */
static size_t pool_len;
static int fragile;   /* bits of it are flipped now and then */
static unsigned mood; /* index into the weights below */
static uint64_t tables;

/* Often all in a few lists, and at most twice as many as these hold, so that lists overflow, fill and shrink; and
 * many alike but for a bit. Of 128 bits, some are addresses that have many spellings. */
static void make_pool(void)
{
    uint32_t bie = at_hand.w - at_hand.bii;
    uint64_t first_list = random_bits(), lists = one_in(2) ? 1 + below(3) : (uint64_t)1 << at_hand.bii;
    key entry = random_key(bie);
    pool_len = 1 + below(smaller(POOL_MOST, 2 * (lists * at_hand.sib + at_hand.nob * at_hand.sio)));
    for (size_t i = 0; i < pool_len; i++) {
        entry = one_in(2) ? random_key(bie) : one_bit_off(entry, bie);
        pool[i] = key_in_list(at_hand, entry, first_list + below(lists));
        if (at_hand.w == 128 && one_in(8)) pool[i] = random_address();
    }
}

static void fill_table(unsigned density)
{
    size_t len = size_at_hand + LONGER_MOST;
    memset(table.held, 0, len);
    for (size_t i = 0; i < len; i++)
        if (below(100) < density || i >= size_at_hand) table.held[i] = (uint8_t)random_bits();
}

static void new_table(const struct shape *shape)
{
    at_hand = legal_settings(shape);
    size_at_hand = base_size(at_hand).number;
    fragile = one_in(3);
    mood = 0;
    make_pool();
    fill_table(one_in(8) ? 3 : 100);
    lend(&table, size_at_hand);
    if (!one_in(6)) call_both((struct call){.what = MAKE, .settings = at_hand});
    tables++;
}

/* a bit of the table: of the free start, of a block's counter, link or list number, or any */
static size_t some_bit(void)
{
    settings s = at_hand;
    switch (below(4)) {
    case 0: return below(start_bits(s) + 1);
    case 1: return basic_at(s, below((uint64_t)1 << s.bii)) + below(basic_counter_bits(s) + link_bits(s));
    case 2:
        if (s.nob) return block_at(s, below(s.nob)) + below(counter_bits(s) + link_bits(s) + list_bits(s));
        break;
    }
    return below(8 * size_at_hand);
}

/* One list gets another's counter and link, and its blocks if `move`: then they have its number, the other list is
 * without them, and both can be followed; those that it had itself are in no list. Else they have the other's number,
 * and it is damaged. */
static void share(int move)
{
    static struct followed f;
    settings s = at_hand;
    uint64_t lists = (uint64_t)1 << s.bii, from = below(lists), to = below(lists);
    uint32_t bits = basic_counter_bits(s) + link_bits(s);
    if (!follow(s, table.held, from, &f) || from == to) return;
    put_bits(table.held, basic_at(s, to), bits, get_bits(table.held, basic_at(s, from), bits));
    if (!move || f.blocks == 0) return;
    for (uint32_t i = 0; i < f.blocks; i++) put_bits(table.held, list_at(s, f.block[i]), list_bits(s), to);
    put_bits(table.held, basic_at(s, from), basic_counter_bits(s), below(s.sib + 1));
}

/* A block gets the number of any list. */
static void renumber(void)
{
    settings s = at_hand;
    if (s.nob) put_bits(table.held, list_at(s, below(s.nob)), list_bits(s), below((uint64_t)1 << s.bii));
}

static void damage(void)
{
    switch (below(6)) {
    case 0: share(0); break;
    case 1: share(1); break;
    case 2: renumber(); break;
    default:
        for (uint64_t flips = 1 + below(3); flips; flips--) {
            size_t bit = some_bit();
            table.held[bit / 8] ^= (uint8_t)(0x80 >> bit % 8);
        }
    }
    lend(&table, table.len);
}

/* ---- arguments */

/* a key of the pool; often one that the table has, where it has any and they are soon found */
static key known_key(void)
{
    if (at_hand.bii < 8 && one_in(3)) {
        answer a = base_record(at_hand, table.held, size_at_hand, below(1 + below(pool_len)));
        if (a.word == SHELFEGRET_RECORD) return a.key;
    }
    return pool[below(pool_len)];
}

static key some_key(settings s)
{
    uint32_t w = s.w >= 2 && s.w <= 128 ? s.w : 128;
    key k = known_key();
    switch (below(25)) {
    case 0: return random_key(w);
    case 1: return one_bit_off(k, w);
    case 2: return one_bit_off(k, 128);
    case 3: return low_bits((key){UINT64_MAX, UINT64_MAX}, w < 128 ? w + (uint32_t)below(2) : w);
    case 4: return one_in(2) ? (key){0, 0} : in_front(1, w, (key){0, 0});
    default: return k;
    }
}

static uint64_t some_label(settings s)
{
    uint64_t labels = (uint64_t)1 << (s.val <= 32 ? s.val : 32);
    switch (below(25)) {
    case 0: return labels;
    case 1: return labels - 1;
    case 2: return labels + below(labels);
    case 3: return ((uint64_t)1 << 32) + below(labels);
    case 4: return random_bits() >> below(64);
    default: return below(labels);
    }
}

static uint64_t some_number(void)
{
    return one_in(12) ? random_bits() >> below(64) : below(one_in(2) ? 8 : pool_len + 4);
}

/* Often a page that is there, the last, or one of the first that are not; else 0, or a number that is so large that its
 * first record's has no place in 32 or 64 bits. */
static uint64_t some_page(void)
{
    struct sheet sheet = {0, 0, 0};
    if (at_hand.bii <= FEW_LISTS) sheet = count_records(at_hand);
    uint64_t pages = pages_of(sheet.records), page = 1 + below(pages);
    switch (below(12)) {
    case 0: return 0;
    case 1: return UINT64_MAX - below(3);
    case 2: return page + ((uint64_t)1 << (29 + below(35)));
    case 3: return random_bits() >> below(64);
    case 4:
    case 5: return pages + 1 + below(one_in(2) ? 1 : 3);
    case 6:
    case 7: return pages;
    default: return page;
    }
}

/* Often the slot of a key of the pool, or the next; or one of an overflow block, or any; else one of the first that are
 * not there, or a large number. */
static uint64_t some_slot(void)
{
    settings s = at_hand;
    uint64_t basic = basic_slots(s), all = all_slots(s);
    switch (below(12)) {
    case 0: return all + below(one_in(2) ? 1 : 3);
    case 1: return below(all) + ((uint64_t)1 << (32 + below(32)));
    case 2: return UINT64_MAX - below(3);
    case 3: return random_bits() >> below(64);
    case 4: return below(all);
    case 5:
    case 6: return s.nob ? basic + below(all - basic) : below(all);
    default: return base_find(s, table.held, size_at_hand, known_key()).number + below(2);
    }
}

/* mostly right; else one short, empty, shorter or longer */
static size_t some_len(size_t right)
{
    switch (below(30)) {
    case 0: return right ? right - 1 : 0;
    case 1: return 0;
    case 2: return below(right + 1);
    case 3:
    case 4: return right + 1 + below(LONGER_MOST);
    default: return right;
    }
}

/* The table moves only where its length changes, or now and then. */
static void lend_table(void)
{
    size_t len = some_len(size_at_hand);
    if (len != table.len || one_in(100)) lend(&table, len);
}

static void lend_text(settings s)
{
    int known = at_hand.w == 128 && s.w == 128 && !one_in(5);
    lend(&text, any_text(known ? known_key() : random_address(), text.held));
}

/* ---- which call next */

enum { MOODS = 3 };
static const unsigned weights[MOODS][WHATS] = {
    /* size, make, enter, relabel, find, delete, record, retrieve, check, the four with texts, read text, write text and
     * page */
    {10, 2, 320, 60, 60, 40, 50, 50, 40, 280, 60, 40, 30, 30, 30, 40}, /* grow */
    {10, 2, 150, 80, 80, 150, 50, 50, 40, 140, 70, 70, 140, 30, 30, 40},
    {10, 2, 40, 60, 60, 320, 50, 50, 40, 30, 60, 40, 280, 30, 30, 40}, /* shrink */
};

static enum what some_call(void)
{
    unsigned sum = 0;
    int what = 0;
    for (int i = 0; i < WHATS; i++) sum += weights[mood][i];
    for (uint64_t left = below(sum); left >= weights[mood][what]; what++) left -= weights[mood][what];
    if (what >= ENTER_TEXT && what <= DELETE_TEXT && at_hand.w != 128 && !one_in(6)) what -= ENTER_TEXT - ENTER;
    if (what == PAGE && at_hand.w != 128 && !one_in(6)) what = RECORD;
    return (enum what)what;
}

static answer retrieve(uint64_t n)
{
    return call_both((struct call){.what = RETRIEVE, .settings = at_hand, .n = n});
}

/* Every slot, and some numbers behind them. */
static void retrieve_all(void)
{
    uint64_t all = all_slots(at_hand);
    for (uint64_t n = 0; n < all + 3; n++) retrieve(n);
    retrieve(((uint64_t)1 << 32) + below(all));
    retrieve(UINT64_MAX);
}

/* The slot that was answered gives the key, and the label that it has now. */
static void retrieve_answered(answer a, uint64_t label)
{
    answer due = {0}, r = retrieve(a.number);
    due.word = SHELFEGRET_RECORD;
    due.key = a.key;
    due.label = a.word == SHELFEGRET_HELD ? a.label : (uint32_t)label;
    if (!same(r, due)) {
        tell_call("not what was answered");
        exit(1);
    }
}

static void step(void)
{
    struct call c = {.what = some_call(), .settings = at_hand};
    if (one_in(100)) mood = (unsigned)below(MOODS);
    if (fragile && one_in(60)) damage();
    if (one_in(25)) c.settings = one_in(10) ? at_size_limit() : spoilt(at_hand);
    c.key = c.what == WRITE_TEXT ? random_address() : some_key(c.settings);
    c.label = some_label(c.settings);
    c.n = c.what == RETRIEVE ? some_slot() : some_number();
    lend_table();
    if (c.what == CHECK) lend_noise(&marks, some_len(smaller((c.settings.nob + 7) / 8, MARKS_MOST)));
    if (of_call[c.what].takes & TAKES_TEXT) lend_text(c.settings);
    if (c.what == WRITE_TEXT) lend_noise(&out, below(WRITTEN_MOST + 1));
    if (c.what == PAGE) {
        c.n = some_page();
        lend_noise(&out, some_len(SHELFEGRET_PAGE_BYTES));
    }
    answer a = call_both(c);
    int told = a.word == SHELFEGRET_ADDED || a.word == SHELFEGRET_HELD || a.word == SHELFEGRET_RELABELLED;
    if (told && memcmp(&c.settings, &at_hand, sizeof at_hand) == 0 && one_in(8)) retrieve_answered(a, c.label);
}

/* A table of exactly the most bytes, to the last bit; settings that need one bit more are refused. */
static void largest_table(void)
{
    struct call exact = {.what = SIZE, .settings = {128, 13, 126, 18047, 3, 8, 8208, 1}};
    struct call one_more = {.what = SIZE, .settings = {117, 15, 36, 2827, 2, 11, 1, 32770}};
    at_hand = exact.settings;
    size_at_hand = call_both(exact).number;
    if (size_at_hand != TABLE_MOST || call_both(one_more).code != SHELFEGRET_REFUSED_SETTINGS) {
        tell_call("the limit of a table's size is another");
        exit(1);
    }
    make_pool();
    fill_table(100);
    lend(&table, size_at_hand);
    call_both((struct call){.what = MAKE, .settings = at_hand});
    for (int i = 0; i < 100; i++) step();
}

/* Every key of a table with slots of few bits, entered, relabelled and deleted in a list that overflows. */
static void small_slots(settings s)
{
    answer a = base_size(s);
    uint64_t entries = (uint64_t)1 << entry_bits(s), list = below((uint64_t)1 << s.bii);
    if (a.code) return;
    at_hand = s;
    size_at_hand = a.number;
    fill_table(100);
    lend(&table, size_at_hand);
    call_both((struct call){.what = MAKE, .settings = s});
    for (uint64_t left = 20 * entries; left; left--) {
        static const enum what some[] = {ENTER, ENTER, RELABEL, RELABEL, RELABEL, FIND, DELETE};
        struct call c = {.what = some[below(sizeof some / sizeof *some)], .settings = s};
        c.key = key_in_list(s, (key){0, below(entries)}, list);
        c.label = below((uint64_t)1 << s.val);
        call_both(c);
    }
    if (all_slots(s) < 200) retrieve_all();
    tables++;
}

/* Slots that are smaller than a block's number: of each kind, with labels that lie under it. */
static void all_small_slots(void)
{
    for (uint32_t bie = 2; bie <= 4; bie++)
        for (uint32_t val = 0; val <= 5; val++)
            for (uint32_t sib = 1; sib <= 6; sib++)
                for (uint32_t link = 1; link <= 16; link += 1 + link / 10)
                    small_slots((settings){bie + 1, 1, sib, ((uint32_t)1 << link) - (uint32_t)below(2),
                                           between(1, 3), val, between(1, 2), between(1, 2)});
}

static void ask_page(uint64_t n)
{
    lend_noise(&out, some_len(SHELFEGRET_PAGE_BYTES));
    call_both((struct call){.what = PAGE, .settings = at_hand, .n = n});
}

/* Each page that is there, and some that are not. */
static void ask_pages(void)
{
    uint64_t pages = pages_of(count_records(at_hand).records);
    for (uint64_t n = 0; n <= pages + 1; n++) ask_page(n);
    for (int i = 0; i < 4; i++) ask_page(some_page());
}

/* A table with so many random addresses, or as many as it holds; then with lists that have others' blocks; then
 * damaged. */
static void sheet_of(settings s, uint64_t records)
{
    at_hand = s;
    size_at_hand = base_size(s).number;
    fill_table(100);
    lend(&table, size_at_hand);
    call_both((struct call){.what = MAKE, .settings = s});
    while (records) {
        struct call c = {.what = ENTER, .settings = s, .key = random_address()};
        c.label = below((uint64_t)1 << s.val);
        uint32_t code = call_both(c).code;
        if (code == SHELFEGRET_REFUSED_FULL) break;
        records -= code == 0;
    }
    ask_pages();
    for (uint64_t left = 1 + below(4); left; left--) share(1);
    lend(&table, size_at_hand);
    ask_pages();
    damage();
    ask_pages();
    tables++;
}

static void all_sheets(void)
{
    static const struct shape sheets = {128, 128, 5, 16, 60, 15, 32, 65536, 0};
    for (uint64_t i = 0; i < 1500; i++) {
        uint64_t full = ROWS * (1 + below(5)); /* as many as fill pages, one fewer or more; or any number */
        sheet_of(legal_settings(&sheets), one_in(2) ? full - 1 + below(3) : below(300));
    }
}

/* ---- the run */

static int seen_enough(const char *name, const char *kind, unsigned i, uint64_t times)
{
    uint64_t least = 1 + calls / 50000;
    if (times < least)
        fprintf(stderr, "%s: %s %u only %" PRIu64 " times, %" PRIu64 " wanted\n", name, kind, i, times, least);
    return times >= least;
}

static int all_seen(void)
{
    int good = 1;
    for (unsigned what = 0; what < WHATS; what++) {
        for (unsigned i = 0; i < CODES; i++)
            if (of_call[what].codes & BIT(i)) good &= seen_enough(of_call[what].name, "refusal", i, refusals[what][i]);
        for (unsigned i = 0; i < WORDS; i++)
            if (of_call[what].words & BIT(i)) good &= seen_enough(of_call[what].name, "word", i, words[what][i]);
    }
    for (unsigned i = 0; i < KINDS; i++) good &= seen_enough(kinds[i], "labels of kind", i, relabelled[i]);
    for (unsigned i = 0; i < SLOTS; i++) good &= seen_enough(slot_kinds[i], "slots of kind", i, asked_slots[i]);
    for (unsigned i = 0; i < PAGES; i++) good &= seen_enough(page_kinds[i], "pages of kind", i, asked_pages[i]);
    return good;
}

static void tell_counts(void)
{
    printf("interface: %" PRIu64 " calls on %" PRIu64 " tables, no difference\n", call_number, tables);
    for (unsigned kind = 0; kind < 2; kind++) {
        printf(kind ? "  words" : "  refusals");
        for (unsigned i = 1; i < (kind ? WORDS : CODES); i++) {
            uint64_t sum = 0;
            for (unsigned what = 0; what < WHATS; what++) sum += kind ? words[what][i] : refusals[what][i];
            printf(" %u: %" PRIu64, i, sum);
        }
        printf("\n");
    }
    printf("  labels changed\n");
    for (unsigned i = 0; i < KINDS; i++) printf("    %s: %" PRIu64 "\n", kinds[i], relabelled[i]);
    printf("  slots\n");
    for (unsigned i = 0; i < SLOTS; i++) printf("    %s: %" PRIu64 "\n", slot_kinds[i], asked_slots[i]);
    printf("  pages\n");
    for (unsigned i = 0; i < PAGES; i++) printf("    %s: %" PRIu64 "\n", page_kinds[i], asked_pages[i]);
}

int main(int argc, char **argv)
{
    if (argc > 1) seed = strtoull(argv[1], NULL, 0);
    if (argc > 2) calls = strtoull(argv[2], NULL, 0);
    seed_random(seed);
    for (int i = 0; i < GUARD; i++) guard[i] = (uint8_t)random_bits();
    make_room(&table);
    make_room(&marks);
    make_room(&text);
    make_room(&out);
    signal(SIGSEGV, on_fault);
    largest_table();
    all_small_slots();
    all_sheets();
    uint64_t last = call_number + calls;
    while (call_number < last) {
        const struct shape *shape = &shapes[one_in(2000) ? SHAPES - 1 : below(SHAPES - 1)];
        new_table(shape);
        for (uint64_t left = 1 + below(shape->calls); left && call_number < last; left--) step();
        if (all_slots(at_hand) < 200 && table.len >= size_at_hand) retrieve_all();
    }
    tell_counts();
    return all_seen() ? 0 : 1;
}
