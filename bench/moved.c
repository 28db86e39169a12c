/*
 * Counts what a call moves: memcpy and memset are ours and note from where, how long and how often.
 * Prints the number returned, then lines of address, size and times. See bench/moved.
 */
#include <stdio.h>

#include "gidzelma.h"

enum { MOST = 8192 };

static struct {
    const void *from;
    size_t size;
    long times;
} noted[MOST];
static int count, on;

static void note(const void *from, size_t size)
{
    int at = 0;
    if (!on)
        return;
    while (at < count && (noted[at].from != from || noted[at].size != size))
        at++;
    if (at == MOST)
        return;
    if (at == count)
        count++;
    noted[at].from = from;
    noted[at].size = size;
    noted[at].times++;
}

/* Byte by byte through volatile, so that they are not made of themselves. */
__attribute__((noinline)) void *memcpy(void *to, const void *from, size_t size)
{
    note(__builtin_return_address(0), size);
    for (size_t at = 0; at < size; at++)
        ((volatile uint8_t *)to)[at] = ((const uint8_t *)from)[at];
    return to;
}

__attribute__((noinline)) void *memset(void *to, int byte, size_t size)
{
    note(__builtin_return_address(0), size);
    for (size_t at = 0; at < size; at++)
        ((volatile uint8_t *)to)[at] = (uint8_t)byte;
    return to;
}

static uint8_t sheet[65536], listing[1 << 18], diagnosis[GIDZELMA_DIAGNOSIS_LEN(GIDZELMA_ROWS_MAX)];
static uint32_t parts[GIDZELMA_PARTS_LEN];

int main(void)
{
    size_t size = fread(sheet, 1, sizeof sheet, stdin);
    on = 1;
    uint32_t number = CALL(sheet, size, GIDZELMA_ROWS_MAX, listing, sizeof listing, diagnosis, sizeof diagnosis,
                           parts, GIDZELMA_PARTS_LEN);
    on = 0;
    printf("%u\n", number);
    for (int at = 0; at < count; at++)
        printf("%lx %zu %ld\n", (unsigned long)(uintptr_t)noted[at].from, noted[at].size, noted[at].times);
    return 0;
}
