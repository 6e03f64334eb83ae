/* certificate.h: what a desk's own key says of a fair, so that a sale traces to the desk and the step: a fair has so many entries, and
 * this is its master key. It is line 1 of the fair's file. */
#ifndef CERTIFICATE_H
#define CERTIFICATE_H

#include "record.h"
#include "registered.h"

enum { CERTIFICATE_TEXT_MOST = 128 };

struct certificate {
    uint64_t entries, step; /* of the fair; at which the desk signed */
    uint8_t master[KES_KEY_SIZE];
    size_t signature_len;
    uint8_t signature[KES_SIGNATURE_MAX];
};

/* What the desk signs. It begins with a letter, and a record's message with a digit: neither can be taken for the other. */
size_t certificate_text(char text[CERTIFICATE_TEXT_MOST], const struct certificate *certificate);

/* A line with its LF, and its length: the text, the step, the signature. */
size_t certificate_line(char line[LINE_MOST], const struct certificate *certificate);

/* Reads a line as a certificate by a key of this desk's heights; answers whether it is one. */
int certificate_read(struct certificate *certificate, const struct registered *desk, const char *line, size_t len);

/* Whether this desk signed it. */
int certificate_signed(const struct certificate *certificate, const struct registered *desk);

#endif
