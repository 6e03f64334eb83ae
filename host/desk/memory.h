/* memory.h: the memory that holds the key: locked, kept from core files, cleared. */
#ifndef MEMORY_H
#define MEMORY_H

#include <stddef.h>

/* Locks the program's memory, the stack with it, and sees to it that the secrets are wiped however the program exits. */
void memory_guard(void *secrets, size_t len);

/* Wipes secrets that are over. */
void memory_clear(void *secrets, size_t len);

#endif
