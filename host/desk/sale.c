#include "sale.h"

#include <inttypes.h>
#include <stdio.h>
#include <string.h>

#include "text.h"

size_t sale_message(char message[SALE_MESSAGE_MOST], const struct sale *sale, const struct registered *desk)
{
    size_t len = put_hex(message, desk->key, sizeof desk->key);
    return len + (size_t)snprintf(message + len, SALE_MESSAGE_MOST - len, "\t%" PRIu64 "\t%s\t%" PRIu64, sale->desk_step, sale->card, sale->amount);
}

size_t sale_line(char line[SALE_LINE_MOST], const struct sale *sale)
{
    int len = snprintf(line, SALE_LINE_MOST, "%" PRIu64 "\t%" PRIu64 "\t%s\t%" PRIu64 "\t", sale->desk_step, sale->step, sale->card, sale->amount);
    return put_signed(line, (size_t)len, sale->signature, sizeof sale->signature);
}

static int in_range(const struct sale *sale)
{
    return is_money(sale->card, sale->amount) && sale->step < KES_FAIR_MAX && sale->desk_step < kes_steps(KES_HEIGHT_MAX, KES_HEIGHT_MAX);
}

/* Reads loosely, then asks whether the sale that was read writes this very line. */
int sale_read(struct sale *sale, const char *line, size_t len)
{
    char text[SALE_LINE_MOST + 1], again[SALE_LINE_MOST];
    int end = 0;
    if (len > SALE_LINE_MOST)
        return 0;
    memcpy(text, line, len);
    text[len] = 0;
    if (sscanf(text, "%8" SCNu64 " %3" SCNu64 " %16[0-9] %7" SCNu64 " %n", &sale->desk_step, &sale->step, sale->card, &sale->amount, &end) != 4)
        return 0;
    if (!in_range(sale) || (size_t)end + SHORT_SIZE(sizeof sale->signature) + 1 != len)
        return 0;
    get_short(sale->signature, sizeof sale->signature, text + end);
    return sale_line(again, sale) == len && memcmp(again, line, len) == 0;
}

int sale_signed(const struct sale *sale, const struct certificate *certificate, const struct registered *desk)
{
    char message[SALE_MESSAGE_MOST];
    size_t len = sale_message(message, sale, desk);
    return sale->desk_step == certificate->step
        && kes_fair_verify(certificate->entries, certificate->master, sizeof certificate->master, sale->step, (const uint8_t *)message, len, sale->signature, sizeof sale->signature) == KES_DONE;
}
