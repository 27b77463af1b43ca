/* Statements that calculate, in the part of the language that C and C++ share: each stores its result, or traps and
 * stores nothing. */
#include "header.h"

#include <string.h>

/* The image, where label 0 is another statement, with shared word 0 as its first operand. */
static uint8_t records[RECORDS * PLEX_RECORD_SIZE];

static void put_calculation(uint8_t opcode, uint8_t with, uint8_t operands)
{
    memcpy(records, image, sizeof records);
    memset(records + PLEX_RECORD_OPERANDS, 0, PLEX_RECORD_SIZE - PLEX_RECORD_OPERANDS);
    records[PLEX_RECORD_OPCODE] = opcode;
    records[PLEX_RECORD_OPERATOR] = with;
    records[PLEX_RECORD_COUNT] = operands;
    put_operand(records, 0, PLEX_WORD_OPERAND, 0);
}

/* What the statement is answered: it is the third event, after the arrival and the start of its job. */
static void expect_answer(const char *what, uint8_t code, uint8_t detail)
{
    run_afresh(what, records, sizeof records, 3, code, detail);
}

/* Shared words 0 and 1. */
static void expect_words(const char *what, uint32_t first, uint32_t next)
{
    const uint8_t *word = state + PLEX_STATE_WORDS;
    expect(what, word[0] + 256u * word[1] == first && word[2] + 256u * word[3] == next);
}

/* Shared word 0, which is 9, is to become p - 1. Where p is an absent register or 0, the job traps. */
static void subtract(void)
{
    const uint8_t *label = state + PLEX_STATE_THREADS + PLEX_THREAD_LABEL;
    put_calculation(PLEX_ASSIGN, PLEX_SUBTRACT, 3);
    put_operand(records, 1, PLEX_REGISTER_OPERAND, 0);
    put_operand(records, 2, PLEX_NUMBER_OPERAND, 1);
    expect_answer("an absent register - 1", PLEX_TRAPPED, PLEX_ABSENT_REGISTER);
    expect_words("the words after an absent register - 1", 9, 9);
    put_operand(records, 1, PLEX_NUMBER_OPERAND, 0);
    expect_answer("0 - 1", PLEX_TRAPPED, PLEX_BELOW_ZERO);
    expect_words("the words after 0 - 1", 9, 9);
    expect("idle after 0 - 1", label[0] + 256 * label[1] == PLEX_IDLE);
    put_operand(records, 1, PLEX_NUMBER_OPERAND, 1);
    expect_answer("1 - 1", PLEX_MOVED_ON, 0);
    expect_words("1 - 1 is 0", 0, 9);
}

/* Shared words 0 and 1, which are 9, are to become p / q and what is left of p. Where p is an absent register or q is
 * 0, the job traps. One destination for both results is refused. */
static void divide(void)
{
    put_calculation(PLEX_DIVIDE, 0, 4);
    put_operand(records, 1, PLEX_WORD_OPERAND, 1);
    put_operand(records, 2, PLEX_REGISTER_OPERAND, 0);
    put_operand(records, 3, PLEX_NUMBER_OPERAND, 0);
    expect_answer("an absent register / 0", PLEX_TRAPPED, PLEX_ABSENT_REGISTER);
    expect_words("the words after an absent register / 0", 9, 9);
    put_operand(records, 2, PLEX_NUMBER_OPERAND, 23);
    expect_answer("23 / 0", PLEX_TRAPPED, PLEX_ZERO_DIVISOR);
    expect_words("the words after 23 / 0", 9, 9);
    put_operand(records, 3, PLEX_WORD_OPERAND, 1);
    expect_answer("23 / 9", PLEX_MOVED_ON, 0);
    expect_words("23 / 9 is 2, and 5 are left", 2, 5);
    put_operand(records, 1, PLEX_WORD_OPERAND, 0);
    expect("one destination", PLEX_NUMBER(plex_check(records, sizeof records, table, sizeof table)) == PLEX_BAD_RECORD);
}

/* PACK and UNPACK of a number, and DECIMAL ADD of two, with the reason of a trap or 0, and what shared word 0, which is
 * 9, becomes. */
static const struct {
    const char *what;
    uint8_t opcode, operands;
    uint16_t p, q;
    uint8_t reason;
    uint16_t word;
} decimals[] = {
    {"PACK 0", PLEX_PACK, 2, 0, 0, 0, 0},
    {"PACK 1,234", PLEX_PACK, 2, 1234, 0, 0, 0x1234},
    {"PACK 9,999", PLEX_PACK, 2, 9999, 0, 0, 0x9999},
    {"PACK 10,000", PLEX_PACK, 2, 10000, 0, PLEX_NOT_DECIMAL, 9},
    {"UNPACK 0x1234", PLEX_UNPACK, 2, 0x1234, 0, 0, 1234},
    {"UNPACK 0x9999", PLEX_UNPACK, 2, 0x9999, 0, 0, 9999},
    {"UNPACK 0xa000", PLEX_UNPACK, 2, 0xa000, 0, PLEX_NOT_DECIMAL, 9},
    {"UNPACK 0x0a00", PLEX_UNPACK, 2, 0x0a00, 0, PLEX_NOT_DECIMAL, 9},
    {"UNPACK 0x00a0", PLEX_UNPACK, 2, 0x00a0, 0, PLEX_NOT_DECIMAL, 9},
    {"UNPACK 0x000a", PLEX_UNPACK, 2, 0x000a, 0, PLEX_NOT_DECIMAL, 9},
    {"DECIMAL ADD 0x0285 + 0x0349", PLEX_DECIMAL_ADD, 3, 0x0285, 0x0349, 0, 0x0634},
    {"DECIMAL ADD 0x9950 + 0x0075", PLEX_DECIMAL_ADD, 3, 0x9950, 0x0075, 0, 0x0025},
    {"DECIMAL ADD 0x9999 + 0x0001", PLEX_DECIMAL_ADD, 3, 0x9999, 0x0001, 0, 0},
    {"DECIMAL ADD 0x000a + 0x0001", PLEX_DECIMAL_ADD, 3, 0x000a, 0x0001, PLEX_NOT_DECIMAL, 9},
    {"DECIMAL ADD 0x0001 + 0xf000", PLEX_DECIMAL_ADD, 3, 0x0001, 0xf000, PLEX_NOT_DECIMAL, 9},
};

static void count_in_digits(void)
{
    for (size_t i = 0; i < sizeof decimals / sizeof decimals[0]; i++) {
        put_calculation(decimals[i].opcode, 0, decimals[i].operands);
        put_operand(records, 1, PLEX_NUMBER_OPERAND, decimals[i].p);
        if (decimals[i].operands == 3)
            put_operand(records, 2, PLEX_NUMBER_OPERAND, decimals[i].q);
        expect_answer(decimals[i].what, decimals[i].reason == 0 ? PLEX_MOVED_ON : PLEX_TRAPPED, decimals[i].reason);
        expect_words(decimals[i].what, decimals[i].word, 9);
    }
}

/* The statement with an absent register as this operand. */
static void expect_absent(const char *what, int operand)
{
    put_operand(records, operand, PLEX_REGISTER_OPERAND, 0);
    expect_answer(what, PLEX_TRAPPED, PLEX_ABSENT_REGISTER);
    expect_words(what, 9, 9);
}

/* An absent register comes before a digit above 9. A number as destination is refused. */
static void count_absent(void)
{
    put_calculation(PLEX_PACK, 0, 2);
    expect_absent("PACK an absent register", 1);
    put_calculation(PLEX_UNPACK, 0, 2);
    expect_absent("UNPACK an absent register", 1);
    put_calculation(PLEX_DECIMAL_ADD, 0, 3);
    put_operand(records, 1, PLEX_NUMBER_OPERAND, 0x000a);
    expect_absent("DECIMAL ADD 0x000a + an absent register", 2);
    put_operand(records, 0, PLEX_NUMBER_OPERAND, 0);
    expect("a number as destination",
           PLEX_NUMBER(plex_check(records, sizeof records, table, sizeof table)) == PLEX_BAD_RECORD);
}

void calculate(void)
{
    words[0] = words[2] = 9;
    subtract();
    divide();
    count_in_digits();
    count_absent();
    words[0] = words[2] = 0;
}
