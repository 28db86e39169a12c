/*
 * Prints the records of a packed schedule, a value for each field, in decimal and parted by blanks; or says
 * on standard error why it is none.
 *
 *     cc examples/records.c $(pkg-config --cflags --libs gidzelma) -o records
 *     ./records 4 examples/base.schedule
 *
 * The first argument is W, the number of words of the sheet. The status is 0 if the schedule is accepted,
 * 1 if it is refused, 2 if something cannot be read or written.
 */
#include <stdio.h>
#include <stdlib.h>

#include "gidzelma.h"

enum { ACCEPTED, REFUSED, TROUBLE };

/* The bytes of a file and how many they are, or NULL. */
static uint8_t *read_file(const char *name, size_t *length)
{
    FILE *file = fopen(name, "rb");
    uint8_t *bytes = malloc(GIDZELMA_SCHEDULE_MAX);
    if (file == NULL || bytes == NULL)
        return NULL;
    *length = fread(bytes, 1, GIDZELMA_SCHEDULE_MAX, file);
    int whole = !ferror(file) && fgetc(file) == EOF;
    fclose(file);
    return whole ? bytes : NULL;
}

static void print_records(const uint8_t *records, size_t length)
{
    for (size_t at = 0; at < length; at += GIDZELMA_RECORD_LEN)
        printf("%s%d", at == 0 ? "" : " ", records[at] << 8 | records[at + 1]);
    printf("\n");
}

/* No pointer may be null, so a byte is asked for at least. */
static int show(size_t w, const uint8_t *schedule, size_t length)
{
    uint32_t parts[GIDZELMA_PARTS_LEN];
    uint8_t *records = malloc(GIDZELMA_RECORDS_LEN(length) + 1);
    if (records == NULL)
        return TROUBLE;
    uint32_t number = gidzelma_read_schedule(w, schedule, length, records, GIDZELMA_RECORDS_LEN(length),
                                             parts, GIDZELMA_PARTS_LEN);
    if (number == GIDZELMA_ACCEPTED)
        print_records(records, parts[0]);
    else
        fprintf(stderr, "refused %u\n", (unsigned)number);
    free(records);
    return number == GIDZELMA_ACCEPTED ? ACCEPTED : REFUSED;
}

int main(int count, char **words)
{
    size_t length = 0;
    uint8_t *schedule = count == 3 ? read_file(words[2], &length) : NULL;
    if (schedule == NULL) {
        fprintf(stderr, "usage: %s W SCHEDULE, a file that can be read\n", words[0]);
        return TROUBLE;
    }
    int status = show(strtoul(words[1], NULL, 10), schedule, length);
    free(schedule);
    return fflush(stdout) == 0 ? status : TROUBLE;
}
