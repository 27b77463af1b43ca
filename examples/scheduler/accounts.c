#include "accounts.h"

#include <string.h>

enum { FIRST_BALANCE = 50, BALANCE = 0, SENT = 1, RECEIVED = 2, REFUSED = 3, ROUNDS = 50 };

static uint16_t account_label(uint32_t t, uint32_t index)
{
    return (uint16_t)(ACCOUNT_LABELS * (t % ACCOUNTS) + index);
}

static uint16_t nuisance_label(uint32_t t, uint32_t index)
{
    return (uint16_t)(ACCOUNTS * ACCOUNT_LABELS + NUISANCE_LABELS * t + index);
}

/* What account t moves to the next one at each transfer: but for account 0, one more than it gets. So of
 * more transfers than its first balance it has to refuse some, whatever the order. */
static uint16_t amount(uint32_t t)
{
    return (uint16_t)(t % ACCOUNTS + 1);
}

/* Labels 0 to 8, a transfer of r0: it counts to ROUNDS, looks whether the balance is enough, calls the next
 * account, and writes only after that, so a transfer that was cut while it waited has written nothing and
 * can be sent again. The balance is looked at before the next account has its share, because a subtraction
 * below zero is a trap, which undoes nothing; it stays enough, because the job has its account's lock until
 * it ends. Labels 9 to 11, called by the account before. */
static void put_account(uint8_t *image, uint32_t t)
{
    uint8_t b = (uint8_t)t;
    uint16_t own = account_label(t, 0), next = account_label(t + 1, 9);
    const struct statement account[ACCOUNT_LABELS] = {
        {b, PLEX_EXTERNAL, PLEX_ASSIGN, PLEX_COPY, own + 1, 0, 2, {REGISTER(1), NUMBER(0)}},
        {b, PLEX_NO_ENTRY, PLEX_ASSIGN, PLEX_ADD, own + 2, 0, 3, {REGISTER(1), REGISTER(1), NUMBER(1)}},
        {b, PLEX_NO_ENTRY, PLEX_IF, PLEX_LESS, own + 1, own + 3, 2, {REGISTER(1), NUMBER(ROUNDS)}},
        {b, PLEX_NO_ENTRY, PLEX_IF, PLEX_LESS, own + 7, own + 4, 2, {WORD(BALANCE), REGISTER(0)}},
        {b, PLEX_NO_ENTRY, PLEX_CALL, 0, next, own + 5, 1, {REGISTER(0)}},
        {b, PLEX_NO_ENTRY, PLEX_ASSIGN, PLEX_SUBTRACT, own + 6, 0, 3, {WORD(BALANCE), WORD(BALANCE), REGISTER(0)}},
        {b, PLEX_NO_ENTRY, PLEX_ASSIGN, PLEX_ADD, own + 8, 0, 3, {WORD(SENT), WORD(SENT), NUMBER(1)}},
        {b, PLEX_NO_ENTRY, PLEX_ASSIGN, PLEX_ADD, own + 8, 0, 3, {WORD(REFUSED), WORD(REFUSED), NUMBER(1)}},
        {b, PLEX_NO_ENTRY, PLEX_EXIT, 0, 0, 0, 0, {NUMBER(0)}},
        {b, PLEX_DIRECT, PLEX_ASSIGN, PLEX_ADD, own + 10, 0, 3, {WORD(BALANCE), WORD(BALANCE), REGISTER(0)}},
        {b, PLEX_NO_ENTRY, PLEX_ASSIGN, PLEX_ADD, own + 11, 0, 3, {WORD(RECEIVED), WORD(RECEIVED), NUMBER(1)}},
        {b, PLEX_NO_ENTRY, PLEX_RETURN, 0, 0, 0, 1, {REGISTER(0)}},
    };
    put_statements(image + PLEX_RECORD_SIZE * own, account, ACCOUNT_LABELS);
}

/* Label 0 goes to itself. Labels 1 and 2 send a signal to 2, which the tree then has pending. */
static void put_nuisance(uint8_t *image, uint32_t t)
{
    uint8_t b = (uint8_t)(ACCOUNTS + t);
    uint16_t refill = nuisance_label(t, 2), exit = nuisance_label(t, 3);
    const struct statement nuisance[NUISANCE_LABELS] = {
        {b, PLEX_EXTERNAL, PLEX_GOTO, 0, nuisance_label(t, 0), 0, 0, {NUMBER(0)}},
        {b, PLEX_EXTERNAL, PLEX_SEND_BUFFERED, 0, refill, exit, 0, {NUMBER(0)}},
        {b, PLEX_BUFFERED, PLEX_SEND_BUFFERED, 0, refill, exit, 0, {NUMBER(0)}},
        {b, PLEX_NO_ENTRY, PLEX_EXIT, 0, 0, 0, 0, {NUMBER(0)}},
    };
    put_statements(image + PLEX_RECORD_SIZE * nuisance_label(t, 0), nuisance, NUISANCE_LABELS);
}

void make_accounts(uint8_t *image, uint8_t *table, uint8_t *words)
{
    memset(words, 0, PLEX_WORDS_SIZE);
    for (uint32_t t = 0; t < ACCOUNTS; t++) {
        put_account(image, t);
        put_nuisance(image, t);
        put_row(table, t, t, PLEX_CMX, t);
        put_row(table, ACCOUNTS + t, t, PLEX_FD, ACCOUNTS + t);
        put16(words + 2 * PLEX_BLOCK_WORDS * t, FIRST_BALANCE);
    }
}

void put_order(uint8_t *event, uint32_t t, enum order order)
{
    uint16_t moved = amount(t);
    if (order == TRANSFER)
        put_arrival(event, account_label(t, 0), &moved, 1);
    else
        put_arrival(event, nuisance_label(t, order == LOOP ? 0 : 1), NULL, 0);
}

static uint32_t noted(const uint8_t *state, uint32_t t, uint32_t word)
{
    return get16(word_at(state, t % ACCOUNTS, word));
}

uint32_t transfers_done(const uint8_t *state, uint32_t t)
{
    return noted(state, t, SENT) + noted(state, t, REFUSED);
}

uint32_t transfers_refused(const uint8_t *state)
{
    uint32_t refused = 0;
    for (uint32_t t = 0; t < ACCOUNTS; t++)
        refused += noted(state, t, REFUSED);
    return refused;
}

int balances_right(const uint8_t *state, uint32_t transfers)
{
    int right = 1;
    for (uint32_t t = 0; t < ACCOUNTS; t++) {
        uint32_t before = t + ACCOUNTS - 1, sent = noted(state, t, SENT), received = noted(state, before, SENT);
        right &= noted(state, t, BALANCE) == FIRST_BALANCE + received * amount(before) - sent * amount(t) &&
                 noted(state, t, RECEIVED) == received && transfers_done(state, t) == transfers;
    }
    return right;
}
