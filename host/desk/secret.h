/* secret.h: a file that holds a secret, replaced whole: a crash leaves the old one or the new one, and the next start zeroes what is
 * left of the other. */
#ifndef SECRET_H
#define SECRET_H

#include <stddef.h>
#include <stdint.h>

/* The name that counts, that of a new one on its way to it, and that of an old one on its way out. */
struct secret {
    const char *name, *name_new, *name_old;
};

/* A new one is written, and then gets the name that counts. */
void secret_write_new(const struct secret *secret, const uint8_t *bytes, size_t len);
void secret_name_new(const struct secret *secret);

/* Puts a new one in the place of the old. */
void secret_replace(const struct secret *secret, const uint8_t *bytes, size_t len);

/* Leaves none. */
void secret_destroy(const struct secret *secret);

/* Reads it, if nobody but its owner can; answers how many bytes there were, 0 where there is none. */
size_t secret_read(const struct secret *secret, uint8_t *bytes, size_t most);

/* Zeroes and removes what a crash has left under the other two names. */
void secret_tidy(const struct secret *secret);

#endif
