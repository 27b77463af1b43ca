/* Packed numbers: four decimal digits in 16 bits, four bits each, the highest first. */
#ifndef PLAIN_DECIMAL_H
#define PLAIN_DECIMAL_H

#include <stdbool.h>
#include <stdint.h>

enum { LARGEST_DECIMAL = 9999 };

/* A digit is above 9 if it has the bit of 8 with that of 4 or of 2. */
static inline bool is_packed(uint32_t value)
{
    return (value >> 3 & (value >> 2 | value >> 1) & 0x1111) == 0;
}

/* Given a number up to 9,999: a digit is worth 16 of the place below it, and not 10, which is 6 more. */
static inline uint32_t packed_number(uint32_t number)
{
    return number + 6 * (number / 10) + 96 * (number / 100) + 1536 * (number / 1000);
}

/* Given a packed number: a digit is worth 10 of the place below it, and not 16. */
static inline uint32_t unpacked_number(uint32_t packed)
{
    return packed - 6 * (packed >> 4) - 60 * (packed >> 8) - 600 * (packed >> 12);
}

/* Given two packed numbers. 6 is added to each digit, and taken away again where none is carried; the carry out of
 * the highest digit is lost. */
static inline uint32_t packed_sum(uint32_t p, uint32_t q)
{
    uint32_t total = p + q + 0x6666;
    uint32_t not_carried = ~(total ^ p ^ q) & 0x11110;
    return (total - (not_carried >> 2 | not_carried >> 3)) & 0xFFFF;
}

#endif
