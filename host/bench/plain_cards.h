/* plain_cards.h: the card index as one would write it without proofs, with the answers of kes_card_enter and kes_card_find. */
#ifndef PLAIN_CARDS_H
#define PLAIN_CARDS_H

#include "kes.h"

uint64_t plain_card_enter(struct kes_card *cards, size_t n, uint64_t held, uint64_t card, uint64_t cents);
uint64_t plain_card_find(const struct kes_card *cards, size_t n, uint64_t held, uint64_t card);

#endif
