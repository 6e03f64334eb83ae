#include "record.h"

#include <inttypes.h>
#include <stdio.h>
#include <string.h>

#include "text.h"

size_t record_line(char line[LINE_MOST], const struct record *record)
{
    int len = snprintf(line, LINE_MOST, "%" PRIu64 "\t%s\t%" PRIu64 "\t%" PRIu64 "\t", record->step, record->card, record->serial, record->amount);
    size_t end = (size_t)len + put_hex(line + len, record->signature, record->signature_len);
    line[end] = '\n';
    return end + 1;
}

size_t record_message(char message[MESSAGE_MOST], const struct record *record)
{
    return (size_t)snprintf(message, MESSAGE_MOST, "%s\t%" PRIu64 "\t%" PRIu64, record->card, record->serial, record->amount);
}

int is_money(const char *card, uint64_t amount)
{
    return strlen(card) == CARD_DIGITS && amount >= 1 && amount <= AMOUNT_MOST;
}

/* A loose reading lets a short card and numbers out of range through. */
static int in_range(const struct record *record)
{
    return is_money(record->card, record->amount) && record->serial >= 1 && record->serial <= SERIAL_MOST;
}

/* Reads loosely, then asks whether the record that was read writes this very line. */
int record_read(struct record *record, const char *line, size_t len)
{
    char text[LINE_MOST + 1], again[LINE_MOST];
    int hex = 0;
    if (len > LINE_MOST)
        return 0;
    memcpy(text, line, len);
    text[len] = 0;
    if (sscanf(text, "%8" SCNu64 " %16[0-9] %10" SCNu64 " %7" SCNu64 " %n", &record->step, record->card, &record->serial, &record->amount, &hex) != 4)
        return 0;
    if (!in_range(record) || (size_t)hex + 2 * record->signature_len + 1 != len)
        return 0;
    get_hex(record->signature, record->signature_len, text + hex);
    return record_line(again, record) == len && memcmp(again, line, len) == 0;
}
