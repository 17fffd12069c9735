#define _GNU_SOURCE
#include "lend.h"
#include <stdio.h>
#include <stdlib.h>
#include <string.h>
#include <sys/mman.h>

enum { SIZE = 1 << 25, PAGE = 1 << 16, GUARD = 64, FILL = 0xa5 };

static struct {
    unsigned char *base, *at;
    size_t bytes, behind;
} slots[SLOTS];

static int edge;
static size_t step;

void lend_place(int at_edge, size_t shift)
{
    edge = at_edge;
    step = shift;
}

static void open_slot(enum slot slot)
{
    unsigned char *base = mmap(NULL, SIZE + PAGE, PROT_READ | PROT_WRITE, MAP_PRIVATE | MAP_ANONYMOUS, -1, 0);
    if (base == MAP_FAILED || mprotect(base + SIZE, PAGE, PROT_NONE) != 0) {
        fprintf(stderr, "beside: no memory\n");
        exit(2);
    }
    slots[slot].base = base;
}

void *lend(enum slot slot, const void *from, size_t bytes, size_t align)
{
    if (slots[slot].base == NULL) open_slot(slot);
    if (bytes + 4 * GUARD > SIZE) {
        fprintf(stderr, "beside: a case of %zu bytes is too large\n", bytes);
        exit(2);
    }
    unsigned char *base = slots[slot].base;
    unsigned char *at = edge ? base + SIZE - bytes : base + GUARD + (align <= 2 ? step / align * align : 0);
    size_t behind = edge ? 0 : GUARD;
    memset(at - GUARD, FILL, GUARD);
    memcpy(at, from, bytes);
    memset(at + bytes, FILL, behind);
    slots[slot].at = at;
    slots[slot].bytes = bytes;
    slots[slot].behind = behind;
    return at;
}

void *lend_list(enum slot slot, const void *from, size_t bytes, size_t align)
{
    void *lent = lend(slot, from, bytes, align);
    return bytes == 0 && step % 2 == 0 ? NULL : lent;
}

int guarded(enum slot slot)
{
    const unsigned char *at = slots[slot].at;
    for (size_t i = 1; i <= GUARD; i++)
        if (at[-(ptrdiff_t)i] != FILL) return 0;
    for (size_t i = 0; i < slots[slot].behind; i++)
        if (at[slots[slot].bytes + i] != FILL) return 0;
    return 1;
}

int holds(enum slot slot, const void *expected)
{
    return memcmp(slots[slot].at, expected, slots[slot].bytes) == 0 && guarded(slot);
}
