/* fair.h: a fair's day at a desk, in the desk's folder. What a call does is done, and safe from a power cut, when it returns; what
 * cannot be done ends the desk. */
#ifndef FAIR_H
#define FAIR_H

#include <stdint.h>

/* Makes a cache for so many sales, has the desk's key certify it, and moves that key on. */
void fair_morning(const char *folder, uint64_t entries);

/* Opens the fair, after the morning, a clean end or a crash. */
void fair_open(const char *folder);

/* Sells: a record, a receipt, "done" on the display. Card and amount are in a record's range. The last sale ends the fair. */
void fair_sell(const char *card, uint64_t amount);

/* Ends the fair: nothing more can be signed at it. */
void fair_evening(const char *folder);

#endif
