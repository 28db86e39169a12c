/*
 * Times a call between a schedule and its records, or, with TARIFF, the one over a tariff. CALL is the call.
 *
 *   records W FILE MILLISECONDS [TARIFF]    repeats for so long
 *   records W FILE once [TARIFF]            one repetition, for callgrind
 *
 * TARIFF is a file with the numbers of the tariff, in the machine's order. A first call, in which the linker
 * finds what it needs, is not counted.
 *
 * Prints: the number, the size written or the sum, repetitions, the least nanoseconds.
 */
#define _POSIX_C_SOURCE 199309L
#include <stdio.h>
#include <stdlib.h>
#include <string.h>
#include <time.h>

#include "gidzelma.h"

static uint8_t given[1 << 20];
static size_t given_len, w;

#ifdef TARIFF
static int32_t tariff[GIDZELMA_TARIFF_MAX];
static size_t tariff_len;
static int64_t total;

static uint32_t call(void)
{
    return CALL(tariff, tariff_len, w, given, given_len, &total);
}

static long long answer(void)
{
    return total;
}
#else
static uint8_t output[1 << 22];
static uint32_t parts[GIDZELMA_PARTS_LEN];

static uint32_t call(void)
{
    return CALL(w, given, given_len, output, sizeof output, parts, GIDZELMA_PARTS_LEN);
}

static long long answer(void)
{
    return parts[0];
}
#endif

__attribute__((noinline)) uint32_t timed_call(void)
{
    return call();
}

/* Elements of a size, up to so many, from a file; how many. */
static size_t elements(const char *name, void *to, size_t size, size_t most)
{
    FILE *file = fopen(name, "rb");
    if (file == NULL)
        exit(2);
    size_t count = fread(to, size, most, file);
    fclose(file);
    return count;
}

static long long now(void)
{
    struct timespec time;
    clock_gettime(CLOCK_MONOTONIC, &time);
    return 1000000000LL * time.tv_sec + time.tv_nsec;
}

int main(int count, char **words)
{
#ifdef TARIFF
    if (count != 5)
        return 2;
    tariff_len = elements(words[4], tariff, sizeof *tariff, GIDZELMA_TARIFF_MAX);
#else
    if (count != 4)
        return 2;
#endif
    w = strtoul(words[1], NULL, 10);
    given_len = elements(words[2], given, 1, sizeof given);
    long long budget = strcmp(words[3], "once") == 0 ? 0 : 1000000LL * atoi(words[3]);
    uint32_t number = call();
    long long begin = now(), least = -1, times = 0;
    do {
        long long start = now();
        number = timed_call();
        long long took = now() - start;
        least = least < 0 || took < least ? took : least;
        times++;
    } while (now() - begin < budget);
    printf("%u %lld %lld %lld\n", number, answer(), times, least);
    return 0;
}
