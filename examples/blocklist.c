/* blocklist.c - a block list of IPv6 addresses in a static buffer.
 *
 *     cc -Iinclude examples/blocklist.c target/staticlib/libshelfegret.a -o blocklist */
#include <stdio.h>
#include <string.h>

#include "shelfegret.h"

/* Addresses of 128 bits with labels of 8. The 2^4 lists have room for 4 entries each, 64 in all; a list that is full
 * takes further room from the 8 shared blocks, for 3 entries each. a and b spread the addresses over the lists. */
static const struct shelfegret_settings settings = {
    .w = 128, .bii = 4, .sib = 4, .nob = 8, .sio = 3, .val = 8, .a = 11, .b = 5};

static uint8_t table[1468]; /* what shelfegret_size asks for; the library uses no other memory */
static uint8_t marks[1];    /* scratch for check: a bit for each shared block */

static const char *const words[] = {"-",      "added", "held",    "gone",      "none",
                                    "record", "sound", "unsound", "relabelled"};
static const char *const refusals[] = {"-",      "settings", "short",  "width", "text", "key", "label",
                                       "damage", "full",     "output", "marks", "-",    "known", "page", "slot"};

/* Prints an address. The library writes it into our buffer, without a terminator. */
static void print_address(struct shelfegret_key key)
{
    uint8_t text[39];
    struct shelfegret_answer written = shelfegret_write_text(key, text, sizeof text);
    printf("%.*s", (int)written.number, (const char *)text);
}

static void print_answer(struct shelfegret_answer answer)
{
    if (answer.code != 0) { /* and then nothing has changed */
        printf("refused %u, %s\n", (unsigned)answer.code, refusals[answer.code]);
        return;
    }
    print_address(answer.key);
    printf(" %s, label %u, compared %u", words[answer.word], (unsigned)answer.label, (unsigned)answer.compared);
    if (answer.word == SHELFEGRET_ADDED || answer.word == SHELFEGRET_HELD || answer.word == SHELFEGRET_RELABELLED)
        printf(", slot %u", (unsigned)answer.number); /* with other words the number is 0, and 0 is a slot too */
    printf("\n");
}

/* The texts here are C strings; the library takes the bytes and their number. */
static void block(const char *text, uint64_t label)
{
    printf("block %s -> ", text);
    print_answer(shelfegret_enter_text(settings, table, sizeof table, (const uint8_t *)text, strlen(text), label));
}

static void relabel(const char *text, uint64_t label)
{
    printf("relabel %s -> ", text);
    print_answer(shelfegret_relabel_text(settings, table, sizeof table, (const uint8_t *)text, strlen(text), label));
}

static void unblock(const char *text)
{
    printf("unblock %s -> ", text);
    print_answer(shelfegret_delete_text(settings, table, sizeof table, (const uint8_t *)text, strlen(text)));
}

/* An address as it stands in a packet is a key without any text. */
static void look_up(const uint8_t source[16])
{
    struct shelfegret_key key = {0, 0};
    for (int i = 0; i < 8; i++) {
        key.high = key.high << 8 | source[i];
        key.low = key.low << 8 | source[8 + i];
    }
    printf("packet from ");
    print_answer(shelfegret_find(settings, table, sizeof table, key));
}

/* What stands in a slot. Its number is good until the next address is unblocked. */
static void print_slot(uint64_t slot)
{
    printf("slot %u -> ", (unsigned)slot);
    print_answer(shelfegret_retrieve(settings, table, sizeof table, slot));
}

/* Prints every entry: record 0, 1, .. until there is none. */
static void print_all(void)
{
    for (uint64_t n = 0;; n++) {
        struct shelfegret_answer entry = shelfegret_record(settings, table, sizeof table, n);
        if (entry.code != 0 || entry.word != SHELFEGRET_RECORD) break;
        printf("record %u: ", (unsigned)n);
        print_address(entry.key);
        printf(" label %u\n", (unsigned)entry.label);
    }
}

/* Prints the list as a sheet: page 1, 2, .. until one is refused. */
static void print_sheet(void)
{
    uint8_t page[SHELFEGRET_PAGE_BYTES];
    for (uint64_t n = 1;; n++) {
        struct shelfegret_answer answer = shelfegret_page(settings, table, sizeof table, n, page, sizeof page);
        printf("page %u: ", (unsigned)n);
        if (answer.code != 0) {
            print_answer(answer);
            break;
        }
        printf("%u bytes\n%.*s", (unsigned)answer.number, (int)answer.number, (const char *)page);
    }
}

static void print_check(void)
{
    struct shelfegret_answer answer = shelfegret_check(settings, table, sizeof table, marks, sizeof marks);
    printf("check: %s\n", answer.code ? refusals[answer.code] : words[answer.word]);
}

int main(void)
{
    const uint8_t source[16] = {0x20, 0x01, 0x0d, 0xb8, [15] = 1}, other[16] = {0x20, 0x01, 0x0d, 0xb8, [15] = 2};
    const uint8_t ipv4[16] = {[10] = 0xff, 0xff, 192, 0, 2, 1}; /* as a socket for both families gives it */

    struct shelfegret_answer size = shelfegret_size(settings);
    printf("size: %u bytes, %u lent\n", (unsigned)size.number, (unsigned)sizeof table);
    if (size.code != 0 || shelfegret_make(settings, table, sizeof table).code != 0) return 1;

    block("2001:DB8:0:0::1", 7); /* three spellings of one address: one entry */
    block("2001:db8::1", 8);     /* refused: it is known, and keeps its label */
    relabel("2001:0db8:0000:0000:0000:0000:0.0.0.1", 9);
    relabel("2001:db8::2", 9);   /* one that is not blocked has no label */
    block("fe80::1", 1);
    block("192.0.2.1", 2);         /* an IPv4 device is one entry too: ::ffff:192.0.2.1, */
    relabel("::ffff:c000:201", 3); /* however it is spelled */
    print_all();
    print_sheet();

    look_up(source);
    look_up(other);
    look_up(ipv4);
    print_slot(0);  /* the first slot of the first list is vacant */
    print_slot(12); /* the one that was answered for 2001:db8::1 */
    print_slot(88); /* there are 4 * 2^4 + 3 * 8 slots, and they are counted from 0 */
    unblock("FE80:0::1");
    unblock("fe80::1");

    block("1::2::3", 1);       /* no address */
    block("2001:db8::3", 256); /* a label of more than 8 bits */

    print_check();
    table[0] ^= 0x20; /* a bit tips over in memory */
    print_check();
    return 0;
}
