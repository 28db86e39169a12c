/*
 * Access schedules of dosing controllers: the proved calls, for C and C++.
 *
 * gidzelma_schedule and gidzelma_order turn a sheet (a bit-packed type map) into a bit-packed listing,
 * or answer with one of eleven refusals. gidzelma_read_schedule turns a packed schedule into records of
 * two bytes a field, gidzelma_write_schedule records into a packed schedule; they have two refusals of
 * their own. gidzelma_tariff sums what a tariff charges for the items of a packed schedule, and has three
 * more. docs/FORMAT.md has the bits and says when each refusal is given; docs/LINKING.md says how to
 * link, and has examples.
 *
 * The calls allocate nothing, keep nothing between calls and write nothing but the slices and the sum
 * below, so that several threads may call at the same time. Of the C library they need memcpy and
 * memset.
 */
#ifndef GIDZELMA_H
#define GIDZELMA_H

#include <stddef.h>
#include <stdint.h>

#ifdef __cplusplus
extern "C" {
#endif

#define GIDZELMA_VERSION "0.2.0"

/* What a call returns: 0, a refusal, or 255, which is none of them. Those of a call that takes a sheet
 * are 1 to 10 and 17, those of a call between a schedule and its records 11 and 12, those of
 * gidzelma_tariff 14 to 16, and 11 and 12 of its schedule. Later versions may add numbers. */
enum gidzelma_number {
    GIDZELMA_ACCEPTED = 0,
    GIDZELMA_SHEET_TOO_LONG = 1,        /* over GIDZELMA_SHEET_MAX bytes */
    GIDZELMA_DIAGNOSIS_TOO_SHORT = 2,   /* under GIDZELMA_DIAGNOSIS_LEN(rows) bytes */
    GIDZELMA_FIELD_PAST_END = 3,        /* a field reaches past the end of the sheet */
    GIDZELMA_VALUE_NOT_ALLOWED = 4,     /* a field has a value that is not allowed */
    GIDZELMA_BAD_WORDS = 5,             /* the words don't ascend, or lack `resource` or `self` */
    GIDZELMA_TWICE = 6,                 /* something stands twice */
    GIDZELMA_BAD_FILL = 7,              /* the last bits are not zero, or more bytes follow */
    GIDZELMA_NO_ORDER = 8,              /* the types have no order; the diagnosis says why */
    GIDZELMA_REFUSED_IN_SYNTHESIS = 9,  /* what a type associates cannot be made; the diagnosis says
                                           why; never from gidzelma_order */
    GIDZELMA_LISTING_TOO_SHORT = 10,    /* parts[0] is the size that is needed */
    GIDZELMA_SCHEDULE_PAST_END = 11,    /* a field, or its record, reaches past the end of the schedule,
                                           or of the records */
    GIDZELMA_SCHEDULE_NOT_ALLOWED = 12, /* the number of words, a field or the fill of a schedule is not
                                           allowed, or bytes follow the last field */
    GIDZELMA_TARIFF_TOO_LONG = 14,      /* over GIDZELMA_TARIFF_MAX numbers */
    GIDZELMA_TARIFF_NOT_ALLOWED = 15,   /* a sort, a number of parents or a rate is not allowed, or the
                                           last row is broken */
    GIDZELMA_TARIFF_TWICE = 16,         /* two rows have one sort and one number of parents */
    GIDZELMA_ROW_LIMIT_NOT_ALLOWED = 17, /* of a call that takes a sheet: rows is 0 or over
                                           GIDZELMA_ROWS_MAX; tested behind 1 and before 2 */
    GIDZELMA_PARTS_TOO_FEW = 255        /* parts_len is under GIDZELMA_PARTS_LEN */
};

/* The kinds of diagnosis rows: 1 to 3 after refusal 8, 4 to 6 after refusal 9. */
enum gidzelma_kind {
    GIDZELMA_KIND_INHERITS_SELF = 1,     /* the subject inherits `self` */
    GIDZELMA_KIND_CYCLE = 2,             /* the subject inherits the other name, which closes a cycle */
    GIDZELMA_KIND_UNDECLARED_PARENT = 3, /* the subject inherits the other name, which is not declared */
    GIDZELMA_KIND_UNKNOWN_CLASS = 4,     /* the other name, a class of the word, is not declared */
    GIDZELMA_KIND_NO_RESOURCE = 5,       /* the other name, a class of the word, is no resource */
    GIDZELMA_KIND_DUPLICATE = 6          /* the subject's resource of this word is there already */
};

/* Lengths. */
#define GIDZELMA_SHEET_MAX 40960        /* bytes of the longest sheet that is read */
#define GIDZELMA_ROW_LEN 6              /* bytes of a diagnosis row */
#define GIDZELMA_ROWS_MAX 256           /* the largest row limit; the least is 1 */
#define GIDZELMA_ROWS_SHOWN 64          /* the row limit of the programs, as many as a screen shows */
#define GIDZELMA_DIAGNOSIS_LEN(rows) (GIDZELMA_ROW_LEN * (rows)) /* bytes that a diagnosis slice needs
                                           under a row limit that is allowed */
#define GIDZELMA_PARTS_LEN 3            /* numbers that parts needs */

/* Bytes that always suffice for the listing: of gidzelma_order, and, by a proved bound, of
 * gidzelma_schedule. The longest schedule that was found has 239,675 bytes, and those of ordinary
 * maps a few hundred; where a listing is too short, the answer is the size that is needed. */
#define GIDZELMA_ORDER_MAX 137
#define GIDZELMA_SCHEDULE_MAX 20949739
#define GIDZELMA_SCHEDULE_FOUND 239675

/* A record is two bytes, and a field of a schedule has 1 to 16 bits. So 16 times the bytes of a schedule
 * always suffice for its records (those of ordinary maps take three to four times), and the bytes of
 * its records for a schedule. */
#define GIDZELMA_RECORD_LEN 2           /* bytes of a record: the high byte first */
#define GIDZELMA_RECORDS_PER_BYTE 16    /* bytes of records for each byte of a schedule, at most */
#define GIDZELMA_RECORDS_LEN(schedule_len) (GIDZELMA_RECORDS_PER_BYTE * (schedule_len))

/* The number of words W of a sheet, which a schedule does not hold itself. */
#define GIDZELMA_WORDS_MIN 2
#define GIDZELMA_WORDS_MAX 200

/* A tariff: rows of three numbers, each a sort, a number of parents and a rate in hundredths. */
#define GIDZELMA_TARIFF_ROW_LEN 3       /* numbers of a row */
#define GIDZELMA_TARIFF_MAX 99          /* numbers that a tariff has at most: 33 rows */
#define GIDZELMA_RATE_MAX 99999         /* the greatest rate; the least is -GIDZELMA_RATE_MAX, a credit */
#define GIDZELMA_SORT_REAL 0            /* resources that are not virtual */
#define GIDZELMA_SORT_VIRTUAL 1         /* resources that are virtual */
#define GIDZELMA_SORT_LINE 2            /* extension lines */
#define GIDZELMA_PARENTS_MIN 2          /* the number of parents in a row for resources, at least */
#define GIDZELMA_PARENTS_MAX 17         /* and at most; in a row for extension lines it is 0 */

/* In a row of the diagnosis: the second word of a name of one word, both words of an absent name, an
 * absent word. Other bytes of names and words are places in the word list of the sheet, counted from
 * 0. */
#define GIDZELMA_ABSENT 255

/*
 * The stack. On the maps that were tried gidzelma_schedule took up to 1.04 MB of it, where it writes
 * rows of refusal 9, and 0.05 MB elsewhere, as gidzelma_order does; gidzelma_read_schedule,
 * gidzelma_write_schedule and gidzelma_tariff took less than 0.01 MB (bench/stack.c measures them). No
 * call can tell that there is less: its thread is then ended by a signal. With glibc a thread has 8 MiB
 * as a rule, one that Rust starts 2 MiB, and elsewhere further threads have as little as 128 KiB. Give a
 * thread that calls this many bytes, by pthread_attr_setstacksize or what there is for it.
 */
#define GIDZELMA_STACK_LEN 4194304

/* A row of the diagnosis. All its fields are bytes, so that an array of as many rows as the limit may be
 * lent as the diagnosis slice: (uint8_t *)array, sizeof array. */
struct gidzelma_row {
    uint8_t kind;       /* enum gidzelma_kind */
    uint8_t subject[2]; /* the name of a type */
    uint8_t other[2];   /* another name */
    uint8_t word;       /* a resource word */
};

/*
 * gidzelma_schedule gives the access schedule of a sheet: the listing gets the count of its types in
 * 7 bits, their names in order, the count of items in 16 bits, and the items, packed. gidzelma_order
 * gives the order of the types alone: their count and their names. `rows` is the row limit: how many rows
 * of a diagnosis are written at most, 1 to GIDZELMA_ROWS_MAX.
 *
 * The items stand in one order: by the name of their type, then by word, then the type's own resources
 * by their parents, the inherited one, the extension line (docs/FORMAT.md, 5.3). Where two sheets that
 * differ only in how they list types and parents are accepted, the bytes written are equal.
 *
 * A call asks nothing of the values in its slices. Of the slices themselves it asks, as Rust
 * does: no pointer is null, also where its length is 0 (then any pointer will do that is not null and
 * is aligned, and nothing is read or written through it); each pointer is good for its length, `parts`
 * aligned for uint32_t; no two of the slices overlap.
 *
 * What is left, by the number returned:
 *
 *    number   parts[0], [1], [2]        listing                        diagnosis
 *    0        size written, 0, 0        `size` bytes, then as before   as before
 *    1 to 7   0, 0, 0                   as before                      as before
 *    17       0, 0, 0                   as before                      as before
 *    8, 9     0, rows written, flag     as before                      6 bytes a row, then as before
 *    10       size needed, 0, 0         as before                      as before
 *    255      as before                 as before                      as before
 *
 * What stands in `parts` behind the first three stays. The flag is 1 if there are more rows than the limit
 * allows, and 0 if not. Two limits that are allowed give the same number and size, where the diagnosis
 * slice suffices for both, and the rows under the smaller one are the first of those under the larger.
 *
 * A listing of any length may be lent first: if the answer is GIDZELMA_LISTING_TOO_SHORT, one of
 * parts[0] bytes gets the whole. A listing of no bytes asks for the size alone.
 */
uint32_t gidzelma_schedule(const uint8_t *sheet, size_t sheet_len,
                           uint32_t rows,
                           uint8_t *listing, size_t listing_len,
                           uint8_t *diagnosis, size_t diagnosis_len,
                           uint32_t *parts, size_t parts_len);

uint32_t gidzelma_order(const uint8_t *sheet, size_t sheet_len,
                        uint32_t rows,
                        uint8_t *listing, size_t listing_len,
                        uint8_t *diagnosis, size_t diagnosis_len,
                        uint32_t *parts, size_t parts_len);

/*
 * gidzelma_read_schedule turns a packed schedule into records, gidzelma_write_schedule records into a
 * packed schedule. `w` is W, the number of words of the sheet that the schedule is of: 8 bits behind
 * the first 4 of the sheet. A record is the value of one field, two bytes, the high one first; they
 * stand in the order of the fields:
 *
 *    schedule     the number of types, for each its name; the number of items, each of them
 *    name         a word, 0 or 1, and a second word behind the 1
 *    item         0 and a resource, or 1 and an extension line
 *    resource     the name of its type, its word, virtual (0 or 1), the number of parents, each of them,
 *                 the number of marks, each of them
 *    parent       the number of words, 1 to 3, and so many words
 *    mark         0 for makelist, or 1 and the tag of a derive
 *    line         the name of its type, virtual, trait, the word
 *
 * Every schedule of 0 to 64 types whose words are below W, whose resources have 2 to 17 parents and up
 * to 448 marks is taken, also one that gidzelma_schedule would not write. W is tested first; then the
 * first field that cannot be taken decides, its two ends before its value; then what follows the last.
 * Of its slices a call asks what the others ask.
 *
 * What is left, by the number returned:
 *
 *    number   parts[0], [1], [2]        the slice that is lent for records, or for the schedule
 *    0        size written, 0, 0        `size` bytes, then as before
 *    11, 12   0, 0, 0                   as before
 *    255      as before                 as before
 *
 * A slice that is too short is refused with 11, and no size is told: lend GIDZELMA_RECORDS_LEN of the
 * schedule's bytes, or as many bytes for the schedule as the records have.
 */
uint32_t gidzelma_read_schedule(size_t w, const uint8_t *schedule, size_t schedule_len,
                                uint8_t *records, size_t records_len,
                                uint32_t *parts, size_t parts_len);

uint32_t gidzelma_write_schedule(size_t w, const uint8_t *records, size_t records_len,
                                 uint8_t *schedule, size_t schedule_len,
                                 uint32_t *parts, size_t parts_len);

/*
 * gidzelma_tariff sums what a tariff charges for the items of a packed schedule. The tariff is rows of
 * three numbers: a sort, a number of parents, and a rate in hundredths, below 0 for a credit.
 * `tariff_len` counts numbers and not rows, and may be 0. `w` is W, as above.
 *
 *    sort                      number of parents    charges
 *    GIDZELMA_SORT_REAL        2 to 17              resources that are not virtual and have at least
 *                                                   so many parents
 *    GIDZELMA_SORT_VIRTUAL     2 to 17              virtual resources, likewise
 *    GIDZELMA_SORT_LINE        0                    extension lines
 *
 * Rows add up: a resource of 3 parents is charged by a row for 2 and by one for 3. Their order makes no
 * difference. The sum is exact: no tariff and no schedule gives more than 104,854,951,440, or less than
 * -104,854,951,440.
 *
 * The tariff is tested first: its length, then the numbers of all its rows, then whether two rows have
 * one sort and one number of parents. The schedule is then read as gidzelma_read_schedule reads it,
 * without records, so that 11 is its own end; an empty tariff has it read too.
 *
 * What is left, by the number returned:
 *
 *    number             *total
 *    0                  the sum, in hundredths
 *    14, 15, 16         0
 *    11, 12             0
 *
 * Of its slices the call asks what the others ask, `tariff` being aligned for int32_t. `total` is not
 * null, is aligned for int64_t, and does not overlap them; it is written in every case.
 */
uint32_t gidzelma_tariff(const int32_t *tariff, size_t tariff_len,
                         size_t w, const uint8_t *schedule, size_t schedule_len,
                         int64_t *total);

#ifdef __cplusplus
}
#endif

#endif
