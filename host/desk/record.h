/* record.h: the records of a journal, as document 01 has them, signed as request 2 has it. */
#ifndef RECORD_H
#define RECORD_H

#include "kes.h"

enum { CARD_DIGITS = 16, AMOUNT_MOST = 2000000, LINE_MOST = 2048, MESSAGE_MOST = 64 };
#define SERIAL_MOST UINT32_MAX

struct record {
    uint64_t step, serial, amount;
    char card[CARD_DIGITS + 1];
    size_t signature_len;
    uint8_t signature[KES_SIGNATURE_MAX];
};

/* Whether a card, of digits, and an amount are in document 01's range. */
int is_money(const char *card, uint64_t amount);

/* A line with its LF, and its length. */
size_t record_line(char line[LINE_MOST], const struct record *record);

/* What is signed: card, serial and amount, a tab between. These are the line's own bytes from the card to the amount. */
size_t record_message(char message[MESSAGE_MOST], const struct record *record);

/* Reads a line as a record with a signature of signature_len; answers whether it is one. */
int record_read(struct record *record, const char *line, size_t len);

#endif
