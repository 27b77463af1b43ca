/* What is seen of a thread's next step that calculates, before it is taken; and whether all was seen. */
#ifndef PLAIN_SIGHTS_H
#define PLAIN_SIGHTS_H

#include "plain_states.h"

/* Whether none of the counts from the first to the last is zero. */
bool are_all_met(const uint32_t *counts, uint32_t first, uint32_t last);

/* What it subtracts: q from a p that is above it, equals it or is below it, or q from an absent register, which
 * is zero and so below it. Any other subtraction with an absent register is none. */
enum subtraction { NO_SUBTRACTION, P_ABOVE_Q, P_EQUALS_Q, P_BELOW_Q, ABSENT_BELOW_Q, SUBTRACTIONS };
enum subtraction next_subtraction(const struct machine *machine, const uint8_t *state, uint32_t thread);

/* What is seen of a division, bit s for sight s: how p and q are, and of one that stores where to. Nothing is
 * seen of one with both absent. */
enum division {
    ABSENT_BY_NUMBER, /* p is absent, q is above zero */
    ABSENT_BY_ZERO,   /* p is absent, q is zero */
    BY_ABSENT,        /* q alone is absent */
    BY_ZERO,
    ALL_SHARED_OUT, /* p is above q, and a multiple of it */
    SOME_LEFT,      /* p is above q, and no multiple */
    BY_ITSELF,      /* p equals q */
    ALL_LEFT,       /* p is below q */
    TO_REGISTERS,
    TO_REGISTER_AND_WORD, /* the quotient to a register, the remainder to a word */
    TO_WORD_AND_REGISTER,
    TO_WORDS,
    TO_SAME_NUMBERS, /* a register and a word */
    QUOTIENT_TO_P,
    QUOTIENT_TO_Q,
    REMAINDER_TO_P,
    REMAINDER_TO_Q,
    TO_P_AND_Q, /* the quotient to p, the remainder to q */
    TO_Q_AND_P, /* the quotient to q, the remainder to p */
    DIVISIONS
};
uint32_t next_division(const struct machine *machine, const uint8_t *state, uint32_t thread);

/* The same of PACK, UNPACK and DECIMAL ADD. A bad digit is one above 9. */
enum decimal {
    PACK_OF_ABSENT,
    PACK_OF_SMALLER, /* below 9,999 */
    PACK_OF_9999,
    PACK_OF_10000,
    PACK_OF_LARGER, /* above 10,000 */
    UNPACK_OF_ABSENT,
    UNPACK_OF_PACKED, /* below 0x9999 */
    UNPACK_OF_LARGEST,
    UNPACK_OF_10_ONES, /* the lowest digit is 10, and no other is bad */
    UNPACK_OF_10_TENS,
    UNPACK_OF_10_HUNDREDS,
    UNPACK_OF_10_THOUSANDS,
    UNPACK_OF_BAD_DIGITS, /* any others */
    ABSENT_AND_PACKED,    /* p is absent, and q is packed */
    PACKED_AND_ABSENT,
    ABSENT_AND_BAD_DIGIT, /* p is absent, and q has a bad digit */
    BAD_DIGIT_AND_ABSENT,
    BAD_DIGIT_OF_P, /* both are there, and q is packed */
    BAD_DIGIT_OF_Q,
    BAD_DIGITS_OF_BOTH,
    SUM_WITHOUT_CARRY,
    CARRY_FROM_ONES,
    CARRY_FROM_TENS,
    CARRY_FROM_HUNDREDS,
    CARRY_FROM_THOUSANDS,
    SUM_OF_10000,
    PACK_TO_REGISTER, /* one that is present */
    PACK_TO_ABSENT_REGISTER,
    PACK_TO_WORD,
    PACK_TO_P,
    UNPACK_TO_REGISTER,
    UNPACK_TO_ABSENT_REGISTER,
    UNPACK_TO_WORD,
    UNPACK_TO_P,
    SUM_TO_REGISTER,
    SUM_TO_ABSENT_REGISTER,
    SUM_TO_WORD,
    SUM_TO_P,      /* and q is another place */
    SUM_TO_Q,      /* and p is another place */
    SUM_OF_ITSELF, /* p and q are the place that it goes to */
    DECIMALS
};
uint64_t next_decimal(const struct machine *machine, const uint8_t *state, uint32_t thread);

#endif
