/*
 * Libraries with one fault each, to see that fuzz/run finds it. FAULT picks the fault, CALL is the call;
 * with CONVERSION it is one between a schedule and its records, with TARIFF the one over a tariff.
 */
#include "gidzelma.h"

#if defined TARIFF
uint32_t faultless(const int32_t *tariff, size_t tariff_len, size_t w, const uint8_t *schedule,
                   size_t schedule_len, int64_t *total);

uint32_t CALL(const int32_t *tariff, size_t tariff_len, size_t w, const uint8_t *schedule,
              size_t schedule_len, int64_t *total)
{
    int64_t before = *total;
    uint32_t number = faultless(tariff, tariff_len, w, schedule, schedule_len, total);
#if FAULT == 1 /* writes behind the sum */
    if (number == 0)
        ((uint8_t *)total)[sizeof *total] ^= 1;
#elif FAULT == 2 /* writes before it */
    if (number == 12)
        ((uint8_t *)total)[-1] ^= 1;
#elif FAULT == 3 /* reads behind the tariff */
    if (number == 15 && ((const volatile int32_t *)tariff)[tariff_len] == 255)
        number = 15;
#elif FAULT == 4 /* reads behind the schedule */
    if (number == 11 && ((const volatile uint8_t *)schedule)[schedule_len] == 255)
        number = 11;
#elif FAULT == 5 /* a refusal that leaves the sum as it was */
    if (number == 16)
        *total = before;
#elif FAULT == 6 /* writes to the tariff */
    if (number == 0 && tariff_len > 0)
        ((int32_t *)tariff)[0] ^= 1;
#elif FAULT == 7 /* a sum of 16 bits */
    *total = (int16_t)*total;
#elif FAULT == 8 /* a 16 that comes before a 15 */
    if (number == 15 && tariff_len > 5 && tariff[0] == tariff[3] && tariff[1] == tariff[4])
        number = 16;
#endif
    (void)before;
    return number;
}
#elif defined CONVERSION
uint32_t faultless(size_t w, const uint8_t *given, size_t given_len, uint8_t *output, size_t output_len,
                   uint32_t *parts, size_t parts_len);

uint32_t CALL(size_t w, const uint8_t *given, size_t given_len, uint8_t *output, size_t output_len,
              uint32_t *parts, size_t parts_len)
{
    uint32_t number = faultless(w, given, given_len, output, output_len, parts, parts_len);
#if FAULT == 1 /* writes behind the lent slice */
    if (number == 0 && parts[0] == output_len)
        output[output_len] = 0;
#elif FAULT == 2 /* writes before it */
    if (number == 12)
        output[-1] ^= 1;
#elif FAULT == 3 /* reads behind what is given */
    if (number == 11 && ((const volatile uint8_t *)given)[given_len] == 255)
        number = 11;
#elif FAULT == 4 /* a refusal that has written */
    if (number == 12 && output_len > 0)
        output[0] ^= 1;
#elif FAULT == 5 /* invents a size */
    if (number == 11)
        parts[0] = 1;
#elif FAULT == 6 /* touches parts that are too few */
    if (number == GIDZELMA_PARTS_TOO_FEW && parts_len > 0)
        parts[0] = 0;
#elif FAULT == 7 /* clears the slice behind what it wrote */
    if (number == 0 && parts[0] < output_len)
        output[parts[0]] = 0;
#elif FAULT == 8 /* an 11 that is not due */
    if (number == 0 && output_len == parts[0])
        number = 11;
#endif
    return number;
}
#else
uint32_t faultless(const uint8_t *sheet, size_t sheet_len, uint32_t rows, uint8_t *listing, size_t listing_len,
                   uint8_t *diagnosis, size_t diagnosis_len, uint32_t *parts, size_t parts_len);

uint32_t CALL(const uint8_t *sheet, size_t sheet_len, uint32_t rows, uint8_t *listing, size_t listing_len,
              uint8_t *diagnosis, size_t diagnosis_len, uint32_t *parts, size_t parts_len)
{
#if FAULT == 9 /* a 2 that comes before 17 */
    if (parts_len >= 3 && sheet_len <= GIDZELMA_SHEET_MAX && diagnosis_len < GIDZELMA_DIAGNOSIS_LEN(rows)) {
        parts[0] = parts[1] = parts[2] = 0;
        return 2;
    }
#endif
    uint32_t number = faultless(sheet, sheet_len, rows, listing, listing_len,
                                diagnosis, diagnosis_len, parts, parts_len);
#if FAULT == 1 /* writes behind the listing */
    if (number == 0 && parts[0] == listing_len)
        listing[listing_len] = 0;
#elif FAULT == 2 /* writes before the diagnosis slice */
    if (number == 8)
        diagnosis[-1] ^= 1;
#elif FAULT == 3 /* reads behind the sheet */
    if (number == 8 && ((const volatile uint8_t *)sheet)[sheet_len] == 255)
        number = 8;
#elif FAULT == 4 /* touches the byte behind the rows */
    if (number == 8 && 6 * parts[1] < diagnosis_len)
        diagnosis[6 * parts[1]] ^= 1;
#elif FAULT == 5 /* invents a row count */
    if (number == 10)
        parts[1] = 1;
#elif FAULT == 6 /* touches parts that are too few */
    if (number == GIDZELMA_PARTS_TOO_FEW && parts_len > 0)
        parts[0] = 0;
#elif FAULT == 7 /* clears the listing behind what it wrote */
    if (number == 0 && parts[0] < listing_len)
        listing[parts[0]] = 0;
#elif FAULT == 8 /* a refusal 10 that is not due */
    if (number == 0 && listing_len == parts[0])
        number = 10;
#elif FAULT == 10 /* sets the flag where the rows are as many as the limit */
    if (number == 8 && parts[1] == rows)
        parts[2] = 1;
#endif
    return number;
}
#endif
