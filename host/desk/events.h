/* events.h: what standard input says is happening, a line each. */
#ifndef EVENTS_H
#define EVENTS_H

#include <stdint.h>

/* Has each line done, and says which were not understood; answers the program's exit status. A line is understood whole or not at all:
 * one that is too long does nothing. */
int events_do(int (*understood)(const char *line));

/* Has `WORD CARD CENTS` done; answers whether the line is that, with a card and an amount in a record's range. */
int event_money(const char *line, const char *word, void (*does)(const char *card, uint64_t amount));

/* Has `WORD STEP` done; answers whether the line is that. */
int event_step(const char *line, const char *word, void (*does)(uint64_t step));

#endif
