#include "plain_cards.h"

#include <string.h>

#define LAST_CARD UINT64_C(9999999999999999)
#define MOST_CENTS UINT64_C(2000000)
#define MOST_LINES UINT64_C(4294967295)

static int well_formed(const struct kes_card *cards, uint64_t held)
{
    uint64_t i;
    for (i = 0; i < held; i++) {
        const struct kes_card *e = &cards[i];
        if (e->card > LAST_CARD || e->count < 1 || e->count > MOST_LINES || e->cents < e->count || e->cents > MOST_CENTS * e->count)
            return 0;
        if (i > 0 && e->card <= cards[i - 1].card)
            return 0;
    }
    return 1;
}

static uint32_t refused(const struct kes_card *cards, size_t n, uint64_t held, int fits)
{
    if (n != KES_CARDS)
        return KES_LENGTH;
    if (held > KES_CARDS || !well_formed(cards, held))
        return KES_TABLE;
    return fits ? KES_DONE : KES_CARD_OR_AMOUNT;
}

/* The first place whose card is not below, by halves: the entries were all looked at before. */
static uint64_t place_of(const struct kes_card *cards, uint64_t held, uint64_t card)
{
    uint64_t low = 0, high = held;
    while (low < high) {
        uint64_t middle = low + (high - low) / 2;
        if (cards[middle].card < card)
            low = middle + 1;
        else
            high = middle;
    }
    return low;
}

uint64_t plain_card_enter(struct kes_card *cards, size_t n, uint64_t held, uint64_t card, uint64_t cents)
{
    uint32_t number = refused(cards, n, held, card <= LAST_CARD && cents >= 1 && cents <= MOST_CENTS);
    uint64_t at;
    if (number != KES_DONE)
        return number;
    at = place_of(cards, held, card);
    if (at < held && cards[at].card == card) {
        if (cards[at].count == MOST_LINES)
            return KES_COUNT_FULL;
        cards[at].count++;
        cards[at].cents += cents;
        return held << 32;
    }
    if (held == KES_CARDS)
        return KES_FULL;
    memmove(&cards[at + 1], &cards[at], (size_t)(held - at) * sizeof cards[0]);
    cards[at].card = card;
    cards[at].count = 1;
    cards[at].cents = cents;
    return (held + 1) << 32;
}

uint64_t plain_card_find(const struct kes_card *cards, size_t n, uint64_t held, uint64_t card)
{
    uint32_t number = refused(cards, n, held, card <= LAST_CARD);
    uint64_t at;
    if (number != KES_DONE)
        return number;
    at = place_of(cards, held, card);
    return at < held && cards[at].card == card ? (at + 1) << 32 : 0;
}
