/* The calls of the plain engine, as works to be raced. */
#ifndef WHOLE_WORKS_H
#define WHOLE_WORKS_H

#include "heats.h"

enum { WHOLE_WORKS = 3 };

/* Fills the trees, and fills in the works over them. */
void whole_works(struct work works[WHOLE_WORKS]);

#endif
