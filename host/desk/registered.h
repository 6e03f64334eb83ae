/* registered.h: a desk as it is registered: the heights of its key and the verification key, which are line 1 of its journal. */
#ifndef REGISTERED_H
#define REGISTERED_H

#include "kes.h"

enum { HEADER_MOST = 76 };

struct registered {
    uint64_t h1, h2;
    uint8_t key[KES_KEY_SIZE];
};

/* Line 1 of a journal that a desk begins, with its LF, and its length: `kes2`, the heights, the key. */
size_t header_line(char line[HEADER_MOST + 1], const struct registered *desk);

/* Reads a line as line 1 of any journal, an old one's too; answers whether it is one. */
int header_read(struct registered *desk, const char *line, size_t len);

size_t signature_size(const struct registered *desk);

/* Whether the desk signed this text at this step, by a signature of signature_size. */
int registered_signed(const struct registered *desk, uint64_t step, const char *text, size_t len, const uint8_t *signature);

#endif
