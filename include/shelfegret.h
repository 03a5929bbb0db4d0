/* Shelfegret: a block list of IPv6 addresses, each with a label, bit-packed into memory that the caller lends.
 *
 * The library keeps nothing between calls: no allocation, no global state. A call on a table takes the settings and
 * the lent bytes, and checks both; every call answers with one struct. Whatever is passed, a call ends, stays within
 * the buffers that it is lent, and answers or refuses with a number; a refused call changes no lent byte. Each call's
 * contract is proved; docs/ARCHITECTURE.md in the source says where.
 *
 * A buffer is a pointer and its length in bytes. The pointer may be NULL only if the length is 0. Buffers that one
 * call takes must not overlap. Calls on one table must not run at the same time, unless none of them writes to it.
 * The archive is for x86-64 Linux.
 */
#ifndef SHELFEGRET_H
#define SHELFEGRET_H

#include <stddef.h>
#include <stdint.h>

#define SHELFEGRET_VERSION "0.1.0"

#ifdef __cplusplus
extern "C" {
#endif

/* The settings of a table. Every call on it must be given the same: with others, the bytes are read as the table that
 * those settings describe. Keep them with the bytes, which do not say what they were, nor which version wrote them: a
 * table that version 0.1.0 wrote with bii and nob above 0 has other fields, and this version cannot read it.
 *   w    bits of a key, 2 to 128; 128 for IPv6 addresses
 *   bii  bits of a key that choose its list and are not stored, 0 to 16, below w: there are 2^bii lists
 *   sib  entries in each list's own block, 1 to 255
 *   nob  overflow blocks, shared by all lists, 0 to 65,535
 *   sio  entries in an overflow block, 1 to 15
 *   val  bits of a label, 0 to 32
 *   a, b spread the keys over the lists: 1 to p - 1, where p is the smallest prime above 2^bii
 * Besides, sib * (w - bii + val) is at least the bits of a link, which are log2(nob) rounded up (0 if nob is 0), and
 * the table needs at most 16,777,216 bytes. docs/LIBRARY.md says how to choose them. */
struct shelfegret_settings {
    uint32_t w, bii, sib, nob, sio, val, a, b;
};

/* A key: the number high * 2^64 + low. Of an IPv6 address, high is the first eight bytes as they stand in a packet,
 * most significant byte first, and low the last eight. An IPv4 address is held as its mapped address, such as
 * ::ffff:192.0.2.1: high is 0, and low is 0xffff00000000 plus the IPv4 address as a number, its first byte the most
 * significant (ntohl of s_addr). */
struct shelfegret_key {
    uint64_t high, low;
};

/* What every call answers. If code is 0 the call was accepted; else code is the refusal and all else is 0. */
struct shelfegret_answer {
    uint32_t code;             /* 0, or SHELFEGRET_REFUSED_.. */
    uint32_t word;             /* SHELFEGRET_ADDED .. SHELFEGRET_RELABELLED, or 0 where a call has no word */
    struct shelfegret_key key; /* the key asked for, read, or recorded; 0 where a call has none */
    uint32_t label;            /* the entry's label, with RELABELLED the one before; 0 with NONE, and where a call has
                                  none */
    uint32_t compared;         /* enter, relabel, find, delete: entries compared, up to and including the match, or the
                                  list's length if there is none (with ADDED, before it); else 0 */
    uint64_t number;           /* size, write_text, page: bytes; with ADDED, HELD and RELABELLED the number of the
                                  entry's slot, see shelfegret_retrieve; else 0 */
};

/* words */
enum {
    SHELFEGRET_ADDED = 1,     /* enter: it was not there, and is now; label is the one given */
    SHELFEGRET_HELD = 2,      /* find: it is there; label is the one stored */
    SHELFEGRET_GONE = 3,      /* delete: it was there, and is no more; label is the one it had */
    SHELFEGRET_NONE = 4,      /* relabel, find, delete: it is not there; record: there is no such record; retrieve: the
                                 slot is not in use */
    SHELFEGRET_RECORD = 5,    /* record, retrieve: key and label are those of the record, or of the slot's entry */
    SHELFEGRET_SOUND = 6,     /* check */
    SHELFEGRET_UNSOUND = 7,   /* check */
    SHELFEGRET_RELABELLED = 8 /* relabel: it is there, and has the label given; label is the one it had */
};

/* Refusals. Each function below lists its own in their order: where several are due, the first of them is given. */
enum {
    SHELFEGRET_REFUSED_SETTINGS = 1, /* a range or rule of the settings is broken */
    SHELFEGRET_REFUSED_SHORT = 2,    /* the lent table is smaller than its size */
    SHELFEGRET_REFUSED_WIDTH = 3,    /* addresses are given or wanted as text, and w is not 128 */
    SHELFEGRET_REFUSED_TEXT = 4,     /* the text is not a legal address */
    SHELFEGRET_REFUSED_KEY = 5,      /* the key is 2^w or more */
    SHELFEGRET_REFUSED_LABEL = 6,    /* the label is 2^val or more */
    SHELFEGRET_REFUSED_DAMAGE = 7,   /* a list that the call follows is damaged, as where a block has the number of
                                        another list; or the chain of free blocks is, where enter takes a block or
                                        delete frees one */
    SHELFEGRET_REFUSED_FULL = 8,     /* a new entry needs an overflow block, and none is free; docs/LIBRARY.md says
                                        which deletes make room */
    SHELFEGRET_REFUSED_OUTPUT = 9,   /* fewer bytes are lent than the text has, or than a page may have */
    SHELFEGRET_REFUSED_MARKS = 10,   /* fewer mark bytes are lent than check needs */
    SHELFEGRET_REFUSED_KNOWN = 12,   /* the key that is to be entered is there already (11 is the program's own) */
    SHELFEGRET_REFUSED_PAGE = 13,    /* the page number is 0 or beyond the last page */
    SHELFEGRET_REFUSED_SLOT = 14     /* the slot number is not below sib * 2^bii + sio * nob, the number of slots */
};

/* The bytes that a table with these settings needs, in number. Refuses 1. */
struct shelfegret_answer shelfegret_size(struct shelfegret_settings settings);

/* Makes the lent bytes an empty table. Bytes behind the table's size stay. Refuses 1, 2. */
struct shelfegret_answer shelfegret_make(struct shelfegret_settings settings, uint8_t *table, size_t len);

/* Enters a key that is not there, with a label: ADDED with the number of its slot. key is the key asked for. Refuses 1,
 * 2, 5, 6, 7, 12, 8; the 7 in this place is for the key's list. Only where a key that is not there needs a block is the
 * chain of free blocks looked at: then 8 can be due, or 7 for the chain, never both. */
struct shelfegret_answer shelfegret_enter(struct shelfegret_settings settings, uint8_t *table, size_t len,
                                          struct shelfegret_key key, uint64_t label);

/* Gives a key that is there another label: RELABELLED with the label that it had and the number of its slot; or NONE,
 * and nothing changes. key is the key asked for. Refuses 1, 2, 5, 6, 7. */
struct shelfegret_answer shelfegret_relabel(struct shelfegret_settings settings, uint8_t *table, size_t len,
                                            struct shelfegret_key key, uint64_t label);

/* Finds the key: HELD with its label and the number of its slot, or NONE. key is the key asked for. The table is only
 * read. Refuses 1, 2, 5, 7. */
struct shelfegret_answer shelfegret_find(struct shelfegret_settings settings, const uint8_t *table, size_t len,
                                         struct shelfegret_key key);

/* Deletes the key: GONE with the label that it had, or NONE, and nothing changes. key is the key asked for.
 * Refuses 1, 2, 5, 7. */
struct shelfegret_answer shelfegret_delete(struct shelfegret_settings settings, uint8_t *table, size_t len,
                                           struct shelfegret_key key);

/* The nth entry of the table, from 0, list by list: RECORD with key and label, or NONE if there are not so many.
 * The order is that of the lists, and changes as entries come and go. Every list up to that record's is followed, and
 * 7 is refused if one of them is damaged. The table is only read. Refuses 1, 2, 7. */
struct shelfegret_answer shelfegret_record(struct shelfegret_settings settings, const uint8_t *table, size_t len,
                                           uint64_t n);

/* What stands in the slot of this number: RECORD with key and label, or NONE if the slot is not in use. Slots are
 * counted from 0: sib for each list, list by list, then sio for each overflow block. Enter, relabel and find answer
 * the number of the entry's slot. 0 is the number of a slot too, the first of list 0; where there is no number, as
 * with NONE or a refusal, 0 stands as well: the word decides.
 * On a table that make made or check found sound, a number stays good until the next delete that answers GONE, of
 * whatever key, or until the table is written anew as a whole, as by make: retrieve gives the number's key, and the
 * label that the key has by then. Afterwards find answers the number anew.
 * Slot k of a list's own block, from 0, is in use if the list has more than k entries; slot k of an overflow block, if
 * the list that the block names contains the block, and the block has more than k entries. That list is followed to
 * its end first, and 7 is refused if it is damaged. The table is only read. Refuses 1, 2, 14, 7. */
struct shelfegret_answer shelfegret_retrieve(struct shelfegret_settings settings, const uint8_t *table, size_t len,
                                             uint64_t slot);

/* Whether the lent bytes are a sound table: SOUND or UNSOUND, whatever the bytes are. It does not see that a or b are
 * not those that the table was filled with. Its time grows with the square of the longest list. marks is scratch, a bit
 * for each overflow block: its first (nob + 7) / 8 bytes are zero afterwards, whatever they held, and bytes behind them
 * stay. The table is only read. Refuses 1, 2, 10, and then marks stay as they are. */
struct shelfegret_answer shelfegret_check(struct shelfegret_settings settings, const uint8_t *table, size_t len,
                                          uint8_t *marks, size_t marks_len);

/* Enter, relabel, find and delete with the address that a text spells, as read_text reads it, for a table with w 128. A
 * text is bytes without a terminator. key is the key as read. enter_text refuses 1, 2, 3, 4, 6, 7, 12, 8; relabel_text
 * 1, 2, 3, 4, 6, 7; find_text and delete_text 1, 2, 3, 4, 7. */
struct shelfegret_answer shelfegret_enter_text(struct shelfegret_settings settings, uint8_t *table, size_t len,
                                               const uint8_t *text, size_t text_len, uint64_t label);
struct shelfegret_answer shelfegret_relabel_text(struct shelfegret_settings settings, uint8_t *table, size_t len,
                                                 const uint8_t *text, size_t text_len, uint64_t label);
struct shelfegret_answer shelfegret_find_text(struct shelfegret_settings settings, const uint8_t *table, size_t len,
                                              const uint8_t *text, size_t text_len);
struct shelfegret_answer shelfegret_delete_text(struct shelfegret_settings settings, uint8_t *table, size_t len,
                                                const uint8_t *text, size_t text_len);

/* Reads an address into key: one as RFC 4291, section 2.2, gives it, or an IPv4 address alone, which is read as its
 * mapped address: 192.0.2.1 as ::ffff:192.0.2.1. Decimals have no leading zeros. Refuses 4. */
struct shelfegret_answer shelfegret_read_text(const uint8_t *text, size_t text_len);

/* Writes the address in RFC 5952 form, with a dotted tail under ::ffff:0:0/96 and in hexadecimal elsewhere, at most 39
 * bytes, without a terminator; number is its length, and the rest of out stays as it is. Refuses 9. */
struct shelfegret_answer shelfegret_write_text(struct shelfegret_key key, uint8_t *out, size_t out_len);

/* The bytes that page must be lent: a heading and 40 rows, of 51 bytes each. */
#define SHELFEGRET_PAGE_BYTES 2091

/* Writes a page of a table with w 128: a heading and up to 40 rows, each 50 bytes and a line feed. A row is an address,
 * as write_text writes it, left in 39 columns, a space, and its label in decimal, right in 10; the heading has ADDRESS
 * and LABEL there. Rows come in the order of record. Pages count from 1; every page but the last has 40 rows, and a
 * table without entries has one page, the heading alone. number is the bytes written, and the rest of out stays as it
 * is; however few they are, SHELFEGRET_PAGE_BYTES must be lent, or 9 is refused. Every list is followed to its end
 * first, and 7 is refused if one of them is damaged. The table is only read. Refuses 1, 2, 3, 9, 7, 13. */
struct shelfegret_answer shelfegret_page(struct shelfegret_settings settings, const uint8_t *table, size_t len,
                                         uint64_t page, uint8_t *out, size_t out_len);

#ifdef __cplusplus
}
#endif

#endif
