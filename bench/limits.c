/*
 * Makes a call that takes a sheet, under a row limit: for callgrind. CALL is the call.
 *
 *   limits ROWS FILE
 *
 * A first call, in which the linker finds what it needs, is not counted. Prints: the number, how many rows
 * are written, the flag.
 */
#include <stdio.h>
#include <stdlib.h>

#include "gidzelma.h"

static uint8_t sheet[GIDZELMA_SHEET_MAX], listing[1 << 18];
static uint8_t diagnosis[GIDZELMA_DIAGNOSIS_LEN(GIDZELMA_ROWS_MAX)];
static uint32_t rows, parts[GIDZELMA_PARTS_LEN];
static size_t sheet_len;

static uint32_t call(void)
{
    return CALL(sheet, sheet_len, rows, listing, sizeof listing, diagnosis, GIDZELMA_DIAGNOSIS_LEN(rows),
                parts, GIDZELMA_PARTS_LEN);
}

__attribute__((noinline)) uint32_t timed_call(void)
{
    return call();
}

int main(int count, char **words)
{
    FILE *file = count == 3 ? fopen(words[2], "rb") : NULL;
    if (file == NULL)
        return 2;
    rows = (uint32_t)strtoul(words[1], NULL, 10);
    sheet_len = fread(sheet, 1, sizeof sheet, file);
    fclose(file);
    call();
    uint32_t number = timed_call();
    printf("%u %u %u\n", number, parts[1], parts[2]);
    return 0;
}
