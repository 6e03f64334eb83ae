/* One call of the library over lent buffers, as a hostile reviewer makes it.
 *
 * The call is made twice: once each buffer ends where a page begins that must not be touched, once each begins where such a page
 * ends. A length of 0 goes as a pointer into that page the first time, as a null pointer the second. What kes.h lends read-only is
 * mapped read-only during the call, and everything is where the first time was refused: a refusal writes nothing, but for the tally of
 * a call that was not answered. Until Ed25519 was asked for the last time, every buffer has to be as it was lent, and each asking has to
 * be made at the next number. An asking at a number that the request leaves unanswered gets junk and no.
 * A call that touches what it was not lent, does not end, or answers or leaves something else the second time ends the process. */
#ifndef LENT_H
#define LENT_H

#include <stddef.h>
#include <stdint.h>

enum { MAKE, READ_KEY, MOVE, CATCH_UP, RELEASE, SIGN, VERIFY, MAKE3, VERIFY3, HASH, FAIR_MAKE, FAIR_MOVE, FAIR_SIGN, FAIR_VERIFY, PLAIN_FILL, PLAIN_ROOT, PLAIN_PATH, PLAIN_SIGN, CALLS };
/* the card index: held, card and cents are h1, h2 and step, and the first buffer is the table */
enum { CARD_ENTER = CALLS, CARD_FIND, ALL_CALLS };
/* whole pages, with room for the largest cache and more */
enum { LENT = 4, MOST = 36864 };

/* Seconds after which a call is held to hang. */
#ifndef TIME_LIMIT
#define TIME_LIMIT 20
#endif

struct request {
    int op;
    uint64_t h1, h2, h3, step; /* h1 is also a fair's N, a window, and a plain tree's height, step a plain tree's leaf */
    uint64_t tally, every, silent; /* a number n is not answered where n % every is silent; every is 0 where all are */
    size_t len[LENT];
    uint8_t bytes[LENT][MOST];
};

/* What was answered, how often each Ed25519 call was made, and the buffers as they were left. */
struct outcome {
    uint64_t answer, tally;
    uint32_t asked[3];
    uint8_t left[LENT][MOST];
};

/* Once, before the first call. */
void lend_start(void);
void lend(const struct request *request, struct outcome *outcome);

#endif
