/*
 * Prints what a tariff charges for the items of a packed schedule, or says on standard error why there is
 * no sum.
 *
 *     cc examples/tariff.c $(pkg-config --cflags --libs gidzelma) -o tariff
 *     ./tariff 4 examples/base.schedule 0 2 1250 2 0 100
 *
 * The first argument is W, the number of words of the sheet. Behind the schedule stand the numbers of the
 * tariff, three a row: a sort, a number of parents, a rate in hundredths. The status is 0 if both are
 * accepted, 1 if one is refused, 2 if something cannot be read or written.
 */
#include <errno.h>
#include <stdio.h>
#include <stdlib.h>

#include "gidzelma.h"

enum { ACCEPTED, REFUSED, TROUBLE };

/* The bytes of a file and how many they are, or NULL. */
static uint8_t *read_file(const char *name, size_t *length)
{
    FILE *file = fopen(name, "rb");
    uint8_t *bytes = malloc(GIDZELMA_SCHEDULE_MAX);
    if (file == NULL || bytes == NULL)
        return NULL;
    *length = fread(bytes, 1, GIDZELMA_SCHEDULE_MAX, file);
    int whole = !ferror(file) && fgetc(file) == EOF;
    fclose(file);
    return whole ? bytes : NULL;
}

/* So many words as numbers of 32 bits, or NULL. No pointer may be null, so one is asked for at least. */
static int32_t *read_tariff(char **words, size_t count)
{
    int32_t *tariff = malloc((count + 1) * sizeof *tariff);
    for (size_t at = 0; tariff != NULL && at < count; at++) {
        char *end;
        errno = 0;
        long number = strtol(words[at], &end, 10);
        if (errno != 0 || end == words[at] || *end != '\0' || number < INT32_MIN || number > INT32_MAX) {
            free(tariff);
            return NULL;
        }
        tariff[at] = (int32_t)number;
    }
    return tariff;
}

/* Hundredths. The sign is written by itself: the whole part of -5 hundredths is 0, which has none. */
static void print_total(int64_t total)
{
    long long size = total < 0 ? -total : total;
    printf("total %s%lld.%02lld\n", total < 0 ? "-" : "", size / 100, size % 100);
}

static int charge(const int32_t *tariff, size_t numbers, size_t w, const uint8_t *schedule, size_t length)
{
    int64_t total;
    uint32_t number = gidzelma_tariff(tariff, numbers, w, schedule, length, &total);
    if (number == GIDZELMA_ACCEPTED)
        print_total(total);
    else
        fprintf(stderr, "refused %u\n", (unsigned)number);
    return number == GIDZELMA_ACCEPTED ? ACCEPTED : REFUSED;
}

int main(int count, char **words)
{
    size_t length = 0, numbers = count < 3 ? 0 : (size_t)count - 3;
    uint8_t *schedule = count < 3 ? NULL : read_file(words[2], &length);
    int32_t *tariff = schedule == NULL ? NULL : read_tariff(words + 3, numbers);
    if (tariff == NULL) {
        fprintf(stderr, "usage: %s W SCHEDULE [NUMBER...], a file that can be read\n", words[0]);
        free(schedule);
        return TROUBLE;
    }
    int status = charge(tariff, numbers, strtoul(words[1], NULL, 10), schedule, length);
    free(tariff);
    free(schedule);
    return fflush(stdout) == 0 ? status : TROUBLE;
}
