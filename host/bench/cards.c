/* Races kes_card_enter and kes_card_find against plain_cards.c, at 1 and at 1,024 cards held: microseconds of a call, medians of rounds in
 * which the two take turns. Before that both give the same answers and leave the same tables, or nothing is raced; with a word, nothing
 * else is done. */
#include <inttypes.h>
#include <stdio.h>
#include <string.h>

#include "plain_cards.h"
#include "stopwatch.h"

enum { ROUNDS = 201, TURNS = 200, AGREED = 20000 };

typedef uint64_t entering(struct kes_card *, size_t, uint64_t, uint64_t, uint64_t);
typedef uint64_t finding(const struct kes_card *, size_t, uint64_t, uint64_t);

static struct kes_card ours[KES_CARDS], theirs[KES_CARDS];
static uint64_t state = 1;

static uint64_t draw(uint64_t below)
{
    state = state * UINT64_C(6364136223846793005) + UINT64_C(1442695040888963407);
    return (state >> 16) % below;
}

/* An index of so many cards: 1, 3, 5 and so on. */
static void fill(struct kes_card *cards, uint64_t held)
{
    uint64_t i;
    memset(cards, 0, KES_CARDS * sizeof cards[0]);
    for (i = 0; i < held; i++) {
        cards[i].card = 2 * i + 1;
        cards[i].count = 1;
        cards[i].cents = 1;
    }
}

static int agree(void)
{
    uint64_t held = 0, i;
    for (i = 0; i < AGREED; i++) {
        uint64_t card = draw(i % 7 == 0 ? UINT64_C(20000000000000000) : 1500), cents = draw(2000003);
        size_t n = i % 97 == 0 ? KES_CARDS - 1 : KES_CARDS;
        uint64_t mine = kes_card_enter(ours, n, held, card, cents), other = plain_card_enter(theirs, n, held, card, cents);
        if (mine != other || memcmp(ours, theirs, sizeof ours) != 0 || kes_card_find(ours, n, held, card) != plain_card_find(theirs, n, held, card))
            return 0;
        held = kes_number(mine) == KES_DONE ? kes_held(mine) : held;
        if (i % 5000 == 4999)
            ours[7].cents = theirs[7].cents = 0;
        if (i % 5000 == 100)
            held = 0;
    }
    return 1;
}

static volatile uint64_t sink;

/* Microseconds of a call. */
static double enter(entering *call, struct kes_card *cards, uint64_t held, uint64_t card)
{
    double began = nanoseconds(CLOCK_PROCESS_CPUTIME_ID);
    int i;
    for (i = 0; i < TURNS; i++)
        sink = call(cards, KES_CARDS, held, card, 1);
    return (nanoseconds(CLOCK_PROCESS_CPUTIME_ID) - began) / TURNS / 1e3;
}

static double find(finding *call, const struct kes_card *cards, uint64_t held, uint64_t card)
{
    double began = nanoseconds(CLOCK_PROCESS_CPUTIME_ID);
    int i;
    for (i = 0; i < TURNS; i++)
        sink = call(cards, KES_CARDS, held, card);
    return (nanoseconds(CLOCK_PROCESS_CPUTIME_ID) - began) / TURNS / 1e3;
}

static void line(const char *work, uint64_t held, double *library, double *plain, double *ratio)
{
    double a = median(library, ROUNDS), b = median(plain, ROUNDS);
    printf("%-26s %6" PRIu64 " %9.3f %9.3f %9.2f\n", work, held, a, b, median(ratio, ROUNDS));
}

static void race(uint64_t held)
{
    static double a[2][ROUNDS], b[2][ROUNDS], ratio[2][ROUNDS];
    int i;
    fill(ours, held);
    fill(theirs, held);
    for (i = 0; i < ROUNDS; i++) {
        a[0][i] = enter(kes_card_enter, ours, held, 2 * held - 1);
        b[0][i] = enter(plain_card_enter, theirs, held, 2 * held - 1);
        a[1][i] = find(kes_card_find, ours, held, 2 * held - 1);
        b[1][i] = find(plain_card_find, theirs, held, 2 * held - 1);
        ratio[0][i] = a[0][i] / b[0][i];
        ratio[1][i] = a[1][i] / b[1][i];
    }
    line("enter, a card that is held", held, a[0], b[0], ratio[0]);
    line("find", held, a[1], b[1], ratio[1]);
}

/* A new card before all others, from one fewer held: it carries them all one further. The clock's own time is in it. */
static void race_new(uint64_t held)
{
    static double a[ROUNDS], b[ROUNDS], ratio[ROUNDS];
    int i, turn;
    for (i = 0; i < ROUNDS; i++) {
        double mine = 0, other = 0;
        for (turn = 0; turn < TURNS; turn++) {
            double began;
            fill(ours, held - 1);
            fill(theirs, held - 1);
            began = nanoseconds(CLOCK_PROCESS_CPUTIME_ID);
            sink = kes_card_enter(ours, KES_CARDS, held - 1, 0, 1);
            mine += nanoseconds(CLOCK_PROCESS_CPUTIME_ID) - began;
            began = nanoseconds(CLOCK_PROCESS_CPUTIME_ID);
            sink = plain_card_enter(theirs, KES_CARDS, held - 1, 0, 1);
            other += nanoseconds(CLOCK_PROCESS_CPUTIME_ID) - began;
        }
        a[i] = mine / TURNS / 1e3;
        b[i] = other / TURNS / 1e3;
        ratio[i] = a[i] / b[i];
    }
    line("enter, a new card", held, a, b, ratio);
}

int main(int argc, char **argv)
{
    (void)argv;
    if (!agree()) {
        fputs("cards: the library and the plain C do not agree\n", stderr);
        return 1;
    }
    if (argc > 1)
        return 0;
    printf("%-26s %6s %9s %9s %9s\n", "work", "held", "library", "plain C", "/ plain C");
    race(1);
    race(KES_CARDS);
    race_new(KES_CARDS);
    printf("microseconds of a call, by processor time; load %.1f\n", load());
    return 0;
}
