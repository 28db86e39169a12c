/*
 * Runs an exported call on many inputs, with canaries and guard pages around what it is lent.
 *
 *   driver          slices end at, then start at, a page that may not be touched
 *   driver malloc   slices are blocks of exactly their size, for valgrind
 *
 * CALL is the call; it takes a sheet and a row limit, or, with CONVERSION, W and a schedule or records, or, with TARIFF, a
 * tariff, W and a schedule.
 *
 * Standard input is a list of questions, in numbers of the machine's order: W or the limit in eight bytes; in four
 * bytes each the lengths of what is given (one slice, or tariff and schedule), of the lent slices (listing
 * and diagnosis, or one, or none) and of parts, and a seed; then what is given. For a sum there are two
 * parts, which have its eight bytes. The lent bytes are filled by `fill`. For each question standard
 * output gets the number returned, 1 if all else was left alone (else 0), the lent slices and parts as
 * the call left them.
 */
#include <stdio.h>
#include <stdlib.h>
#include <string.h>
#include <sys/mman.h>
#include <unistd.h>

#include "gidzelma.h"

#ifndef CALL
#define CALL gidzelma_order
#endif

/* What is given, what is lent, and the parts, or the sum; and the most bytes of each. */
#if defined CONVERSION
enum { GIVEN = 1, SLICES = 3 };
static const size_t most[SLICES] = {1 << 20, 1 << 22, 1 << 10};
#elif defined TARIFF
enum { GIVEN = 2, SLICES = 3 };
static const size_t most[SLICES] = {1 << 16, 1 << 20, sizeof(int64_t)};
#else
enum { GIVEN = 1, SLICES = 4 };
static const size_t most[SLICES] = {1 << 17, 1 << 19, 1 << 14, 1 << 10};
#endif

enum { MARGIN = 256, PERIOD = 251 };

/* How many words the sheet has that a schedule is of; or the row limit. */
static uint64_t w;

/* A region with a page before and behind it that may not be touched. */
struct region {
    uint8_t *start;
    size_t size;
};

/* A lent slice; its bytes before the call are kept beside it. */
struct lent {
    uint8_t *at;
    uint8_t *before;
    size_t size;
};

static void stop(const char *what)
{
    fprintf(stderr, "driver: %s\n", what);
    exit(2);
}

/* What stands in a lent byte before the call. */
static uint8_t fill(size_t at, uint32_t seed)
{
    return (uint8_t)((at + seed) % PERIOD);
}

static struct region guarded(size_t most)
{
    size_t page = (size_t)sysconf(_SC_PAGESIZE);
    size_t size = (most + 2 * MARGIN + page - 1) / page * page;
    uint8_t *all = mmap(NULL, size + 2 * page, PROT_NONE, MAP_PRIVATE | MAP_ANONYMOUS, -1, 0);
    if (all == MAP_FAILED || mprotect(all + page, size, PROT_READ | PROT_WRITE) != 0)
        stop("no memory");
    return (struct region){all + page, size};
}

/* Canaries stand in the bytes beside what is lent. */
static uint8_t canary(size_t at)
{
    return (uint8_t)(0xC3 ^ at * 29);
}

static size_t margin_low(size_t from)
{
    return from < MARGIN ? 0 : from - MARGIN;
}

static size_t margin_high(struct region r, size_t end)
{
    return end + MARGIN > r.size ? r.size : end + MARGIN;
}

static uint8_t *place(struct region r, size_t size, int at_end)
{
    size_t from = at_end ? r.size - size : 0;
    for (size_t at = margin_low(from); at < margin_high(r, from + size); at++)
        r.start[at] = canary(at);
    return r.start + from;
}

static int margins_left(struct region r, const uint8_t *slice, size_t size)
{
    size_t from = (size_t)(slice - r.start);
    for (size_t at = margin_low(from); at < margin_high(r, from + size); at++)
        if ((at < from || at >= from + size) && r.start[at] != canary(at))
            return 0;
    return 1;
}

static uint32_t call(struct lent l[SLICES])
{
    for (int i = 0; i < SLICES; i++)
        if (l[i].size > 0)
            memcpy(l[i].at, l[i].before, l[i].size);
    void *last = l[SLICES - 1].at;
#ifdef TARIFF
    return CALL((const int32_t *)(void *)l[0].at, l[0].size / sizeof(int32_t), (size_t)w, l[1].at, l[1].size, last);
#else
    size_t parts_len = l[SLICES - 1].size / sizeof(uint32_t);
#ifdef CONVERSION
    return CALL((size_t)w, l[0].at, l[0].size, l[1].at, l[1].size, last, parts_len);
#else
    return CALL(l[0].at, l[0].size, (uint32_t)w, l[1].at, l[1].size, l[2].at, l[2].size, last, parts_len);
#endif
#endif
}

/* Whether what is given is as it was. */
static int given_left(const struct lent l[SLICES])
{
    for (int i = 0; i < GIVEN; i++)
        if (l[i].size > 0 && memcmp(l[i].at, l[i].before, l[i].size) != 0)
            return 0;
    return 1;
}

/* The call with its slices at the end, or the start, of their regions. */
static uint32_t guarded_call(struct region r[SLICES], struct lent l[SLICES], int at_end, int *left)
{
    for (int i = 0; i < SLICES; i++)
        l[i].at = place(r[i], l[i].size, at_end);
    uint32_t number = call(l);
    for (int i = 0; i < SLICES; i++)
        *left = *left && margins_left(r[i], l[i].at, l[i].size);
    *left = *left && given_left(l);
    return number;
}

static uint8_t *block(size_t size)
{
    uint8_t *out = malloc(size > 0 ? size : 1);
    if (out == NULL)
        stop("no memory");
    return out;
}

static int get(void *to, size_t size)
{
    return fread(to, 1, size, stdin) == size;
}

static void put(const void *from, size_t size)
{
    if (fwrite(from, 1, size, stdout) != size)
        stop("the output is closed");
}

static void tell(uint32_t number, uint32_t left, const struct lent l[SLICES])
{
    put(&number, sizeof number);
    put(&left, sizeof left);
    for (int i = GIVEN; i < SLICES; i++)
        put(l[i].at, l[i].size);
}

/* Both placements; they have to leave the same. */
static void run_guarded(struct region r[SLICES], struct lent l[SLICES])
{
    int left = 1;
    uint8_t *first[SLICES];
    uint32_t number = guarded_call(r, l, 0, &left);
    for (int i = 0; i < SLICES; i++) {
        first[i] = block(l[i].size);
        memcpy(first[i], l[i].at, l[i].size);
    }
    left = guarded_call(r, l, 1, &left) == number && left;
    for (int i = 0; i < SLICES; i++) {
        left = left && memcmp(first[i], l[i].at, l[i].size) == 0;
        free(first[i]);
    }
    tell(number, (uint32_t)left, l);
}

static void run_blocks(struct lent l[SLICES])
{
    for (int i = 0; i < SLICES; i++)
        l[i].at = block(l[i].size);
    uint32_t number = call(l);
    tell(number, (uint32_t)given_left(l), l);
    for (int i = 0; i < SLICES; i++)
        free(l[i].at);
}

int main(int count, char **words)
{
    int blocks = count == 2 && strcmp(words[1], "malloc") == 0;
    if (count > 1 && !blocks)
        stop("usage: driver [malloc]");
    struct region r[SLICES];
    struct lent l[SLICES];
    for (int i = 0; i < SLICES; i++)
        r[i] = guarded(most[i]);
    uint32_t head[SLICES + 1];
    while (get(&w, sizeof w)) {
        if (!get(head, sizeof head))
            stop("a question that ends early");
        for (int i = 0; i < SLICES; i++) {
            l[i].size = head[i] * (i == SLICES - 1 ? sizeof(uint32_t) : 1);
            if (l[i].size > most[i])
                stop("a slice over the limits");
            l[i].before = block(l[i].size);
            for (size_t at = 0; i >= GIVEN && at < l[i].size; at++)
                l[i].before[at] = fill(at, head[SLICES]);
        }
        for (int i = 0; i < GIVEN; i++)
            if (!get(l[i].before, l[i].size))
                stop("a question that ends early");
        if (blocks)
            run_blocks(l);
        else
            run_guarded(r, l);
        fflush(stdout);
        for (int i = 0; i < SLICES; i++)
            free(l[i].before);
    }
    return 0;
}
