/*
 * Writes the packed access schedule of a sheet to standard output, or says on standard error why there is
 * none: the calls from C.
 *
 *     cc examples/schedule.c $(pkg-config --cflags --libs gidzelma) -o schedule
 *     ./schedule examples/base.sheet > base.schedule
 *
 * The status is 0 if the sheet is accepted, 1 if it is refused, 2 if something cannot be read or written.
 */
#include <stdio.h>
#include <stdlib.h>

#include "gidzelma.h"

enum { ACCEPTED, REFUSED, TROUBLE };

/* A file of at most so many bytes and one, by which a sheet that is too long is seen; its length, or -1. */
static long read_sheet(const char *name, uint8_t sheet[GIDZELMA_SHEET_MAX + 1])
{
    FILE *file = fopen(name, "rb");
    if (file == NULL)
        return -1;
    size_t length = fread(sheet, 1, GIDZELMA_SHEET_MAX + 1, file);
    int bad = ferror(file);
    fclose(file);
    return bad ? -1 : (long)length;
}

static void print_name(const uint8_t name[2])
{
    if (name[0] == GIDZELMA_ABSENT)
        fprintf(stderr, " -");
    else if (name[1] == GIDZELMA_ABSENT)
        fprintf(stderr, " @%d", name[0]);
    else
        fprintf(stderr, " @%d.@%d", name[0], name[1]);
}

/* Words are told by their numbers in the sheet's list. */
static void print_rows(const struct gidzelma_row *rows, const uint32_t parts[GIDZELMA_PARTS_LEN])
{
    for (uint32_t at = 0; at < parts[1]; at++) {
        const uint8_t word[2] = {rows[at].word, GIDZELMA_ABSENT};
        fprintf(stderr, "D %d", rows[at].kind);
        print_name(rows[at].subject);
        print_name(rows[at].other);
        print_name(word);
        fprintf(stderr, "\n");
    }
    if (parts[2])
        fprintf(stderr, "more\n");
}

/* The schedule of a sheet: a first call asks for its size, a second one has it written. Of a diagnosis as
 * many rows are asked for as the programs list. */
static int schedule(const uint8_t *sheet, size_t length)
{
    enum { ROWS = GIDZELMA_ROWS_SHOWN };
    struct gidzelma_row rows[ROWS];
    uint32_t parts[GIDZELMA_PARTS_LEN];
    uint8_t none[1], *listing = NULL;
    uint32_t number = gidzelma_schedule(sheet, length, ROWS, none, 0, (uint8_t *)rows, sizeof rows,
                                        parts, GIDZELMA_PARTS_LEN);
    if (number == GIDZELMA_LISTING_TOO_SHORT) {
        size_t size = parts[0];
        listing = malloc(size);
        if (listing == NULL) {
            fprintf(stderr, "no memory\n");
            return TROUBLE;
        }
        number = gidzelma_schedule(sheet, length, ROWS, listing, size, (uint8_t *)rows, sizeof rows,
                                   parts, GIDZELMA_PARTS_LEN);
    }
    int status = number == GIDZELMA_ACCEPTED ? ACCEPTED : REFUSED;
    if (status == ACCEPTED && fwrite(listing, 1, parts[0], stdout) != parts[0])
        status = TROUBLE;
    if (status == REFUSED) {
        fprintf(stderr, "refused %u\n", (unsigned)number);
        print_rows(rows, parts);
    }
    free(listing);
    return status;
}

int main(int count, char **words)
{
    static uint8_t sheet[GIDZELMA_SHEET_MAX + 1];
    long length = count == 2 ? read_sheet(words[1], sheet) : -1;
    if (length < 0) {
        fprintf(stderr, "usage: %s SHEET, a file that can be read\n", words[0]);
        return TROUBLE;
    }
    int status = schedule(sheet, (size_t)length);
    return fflush(stdout) == 0 ? status : TROUBLE;
}
