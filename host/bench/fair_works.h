/* The calls of the fair's cache, as works to be raced. */
#ifndef FAIR_WORKS_H
#define FAIR_WORKS_H

#include "heats.h"

enum { FAIR_WORKS = 4 };

/* Makes the caches, and fills in the works over them. */
void fair_works(struct work works[FAIR_WORKS]);

/* Moving asks Ed25519 for nothing and so has no floor: it is timed beside memset of the bytes that it zeroes, and told in a remark. */
void tell_fair_move(void);

#endif
