/*
 * How much stack a call takes on what is on standard input: it runs on a painted stack. CALL is the call;
 * with CONVERSION it is one between a schedule and its records, and the first argument is W; with TARIFF it
 * is the one over a tariff, and the second argument is a file with its numbers, in the machine's order.
 */
#include <pthread.h>
#include <stdio.h>
#include <stdlib.h>
#include <string.h>

#include "gidzelma.h"

enum { SIZE = 64 << 20, PAINT = 0xA5 };

static uint8_t given[1 << 20];
static uint32_t number;
static size_t given_len, w;

#ifdef TARIFF
static int32_t tariff[GIDZELMA_TARIFF_MAX];
static size_t tariff_len;

static void read_tariff(const char *name)
{
    FILE *file = name == NULL ? NULL : fopen(name, "rb");
    if (file == NULL)
        exit(2);
    tariff_len = fread(tariff, sizeof *tariff, GIDZELMA_TARIFF_MAX, file);
    fclose(file);
}
#endif

static void *run(void *unused)
{
#ifdef TARIFF
    static int64_t total;
    number = CALL(tariff, tariff_len, w, given, given_len, &total);
#else
    static uint8_t output[1 << 20];
    static uint32_t parts[GIDZELMA_PARTS_LEN];
#ifdef CONVERSION
    number = CALL(w, given, given_len, output, sizeof output, parts, GIDZELMA_PARTS_LEN);
#else
    static uint8_t diagnosis[GIDZELMA_DIAGNOSIS_LEN(GIDZELMA_ROWS_MAX)];
    number = CALL(given, given_len, GIDZELMA_ROWS_MAX, output, sizeof output, diagnosis, sizeof diagnosis,
                  parts, GIDZELMA_PARTS_LEN);
#endif
#endif
    return unused;
}

int main(int count, char **words)
{
    uint8_t *stack = aligned_alloc(4096, SIZE);
    pthread_attr_t attributes;
    pthread_t thread;
    size_t left = 0;
    w = count > 1 ? strtoul(words[1], NULL, 10) : 0;
#ifdef TARIFF
    read_tariff(count > 2 ? words[2] : NULL);
#endif
    given_len = fread(given, 1, sizeof given, stdin);
    if (stack == NULL || pthread_attr_init(&attributes) != 0)
        return 2;
    memset(stack, PAINT, SIZE);
    if (pthread_attr_setstack(&attributes, stack, SIZE) != 0
        || pthread_create(&thread, &attributes, run, NULL) != 0 || pthread_join(thread, NULL) != 0)
        return 2;
    while (left < SIZE && stack[left] == PAINT)
        left++;
    printf("number %u, %zu bytes of stack\n", number, (size_t)SIZE - left);
    return 0;
}
