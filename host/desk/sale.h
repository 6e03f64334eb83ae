/* sale.h: a sale at a fair. Its line is both its record and its receipt. */
#ifndef SALE_H
#define SALE_H

#include "certificate.h"

enum { SALE_LINE_MOST = 256, SALE_MESSAGE_MOST = 128 };

struct sale {
    uint64_t desk_step, step, amount; /* of the certificate; of the cache; in cents */
    char card[CARD_DIGITS + 1];
    uint8_t signature[KES_FAIR_SIGNATURE_SIZE];
};

/* What is signed. It names the desk and its step: no other desk's certificate over the same master key makes the sale its own. */
size_t sale_message(char message[SALE_MESSAGE_MOST], const struct sale *sale, const struct registered *desk);

/* A line with its LF, and its length: the desk's step, the sale's step, card, amount, signature. */
size_t sale_line(char line[SALE_LINE_MOST], const struct sale *sale);

/* Reads a line as a sale; answers whether it is one. */
int sale_read(struct sale *sale, const char *line, size_t len);

/* Whether it was signed at the fair that this desk certified so. */
int sale_signed(const struct sale *sale, const struct certificate *certificate, const struct registered *desk);

#endif
