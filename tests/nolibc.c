/* nolibc.c - the library in a program without a C library: it needs memset and memcpy, and nothing else.
 *
 *     cc -std=c99 -ffreestanding -fno-stack-protector -nostdlib -static -Iinclude tests/nolibc.c libshelfegret.a
 *
 * The exit status is 0, or the number of the step that went wrong. Linux on x86-64. */
#include <stddef.h>
#include <stdint.h>

#include "shelfegret.h"

/* volatile, so that the compiler does not make these loops calls of the functions themselves */
void *memset(void *to, int byte, size_t n)
{
    for (volatile uint8_t *at = to; n; n--) *at++ = (uint8_t)byte;
    return to;
}

void *memcpy(void *restrict to, const void *restrict from, size_t n)
{
    const uint8_t *next = from;
    for (volatile uint8_t *at = to; n; n--) *at++ = *next++;
    return to;
}

int run(void);

/* The entry: the stack is aligned for a call, and system call 60 is exit. */
__asm__(".globl _start\n"
        "_start:\n"
        "    xor %ebp, %ebp\n"
        "    call run\n"
        "    mov %eax, %edi\n"
        "    mov $60, %eax\n"
        "    syscall\n");

int run(void)
{
    static const uint8_t spelt[] = {'2', '0', '0', '1', ':', 'D', 'B', '8', ':', ':', '0', '1'};
    static uint8_t table[2048], marks[1], text[39], page[SHELFEGRET_PAGE_BYTES];
    const struct shelfegret_settings s = {128, 4, 4, 8, 3, 8, 11, 5};
    const struct shelfegret_key key = {0x20010db800000000, 1}; /* 2001:db8::1 */
    uint64_t slot;

    if (shelfegret_size(s).number > sizeof table) return 1;
    if (shelfegret_make(s, table, sizeof table).code) return 2;
    if (shelfegret_enter(s, table, sizeof table, key, 7).word != SHELFEGRET_ADDED) return 3;
    if (shelfegret_enter_text(s, table, sizeof table, spelt, sizeof spelt, 8).code != 12) return 4;
    if (shelfegret_relabel_text(s, table, sizeof table, spelt, sizeof spelt, 8).label != 7) return 5;
    if (shelfegret_relabel(s, table, sizeof table, key, 9).label != 8) return 6;
    if (shelfegret_find(s, table, sizeof table, key).label != 9) return 7;
    if (shelfegret_record(s, table, sizeof table, 0).key.low != 1) return 8;
    slot = shelfegret_find(s, table, sizeof table, key).number;
    if (shelfegret_retrieve(s, table, sizeof table, slot).label != 9) return 9;
    if (shelfegret_check(s, table, sizeof table, marks, sizeof marks).word != SHELFEGRET_SOUND) return 10;
    if (shelfegret_page(s, table, sizeof table, 1, page, sizeof page).number != 102 || page[100] != '9') return 11;
    if (shelfegret_delete(s, table, sizeof table, key).word != SHELFEGRET_GONE) return 12;
    if (shelfegret_retrieve(s, table, sizeof table, slot).word != SHELFEGRET_NONE) return 13;
    if (shelfegret_find_text(s, table, sizeof table, spelt, sizeof spelt).word != SHELFEGRET_NONE) return 14;
    if (shelfegret_delete_text(s, table, sizeof table, spelt, sizeof spelt).word != SHELFEGRET_NONE) return 15;
    if (shelfegret_write_text(key, text, sizeof text).number != 11) return 16;
    if (shelfegret_read_text(text, 11).key.high != key.high) return 17;
    return 0;
}
