/* The guests of the scheduler: on each of the eight threads an account and a nuisance. */
#ifndef ACCOUNTS_H
#define ACCOUNTS_H

#include "build.h"

enum { ACCOUNTS = PLEX_THREADS, ACCOUNT_LABELS = 12, NUISANCE_LABELS = 4 };
enum { RECORDS = ACCOUNTS * (ACCOUNT_LABELS + NUISANCE_LABELS) };

/* What a guest is sent: a transfer to the next account; a job that loops for ever; a job that
 * leaves a signal in its tree for the next one, for ever. */
enum order { TRANSFER, LOOP, REFILL };

/* The image, the block table and the initial words; every block has a lock of its own, and every account
 * begins with the same balance. */
void make_accounts(uint8_t *image, uint8_t *table, uint8_t *words);

/* The arrival that brings thread t an order. */
void put_order(uint8_t *event, uint32_t t, enum order order);

/* The steps that a transfer takes at most, so that a budget can be set. */
enum { TRANSFER_STEPS = 120 };

/* The transfers of account t that are done: carried out, or refused because the balance was too low. */
uint32_t transfers_done(const uint8_t *state, uint32_t t);

/* Those of all accounts that were refused. */
uint32_t transfers_refused(const uint8_t *state);

/* Whether every account has done so many transfers, has received those that the account before it carried
 * out, and has the balance that follows from them. */
int balances_right(const uint8_t *state, uint32_t transfers);

#endif
