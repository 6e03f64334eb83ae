/* random.h: the system's random numbers. */
#ifndef RANDOM_H
#define RANDOM_H

#include <stddef.h>
#include <stdint.h>

void random_fill(uint8_t *bytes, size_t len);

#endif
