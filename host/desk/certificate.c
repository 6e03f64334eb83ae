#include "certificate.h"

#include <inttypes.h>
#include <stdio.h>
#include <string.h>

#include "text.h"

size_t certificate_text(char text[CERTIFICATE_TEXT_MOST], const struct certificate *certificate)
{
    int len = snprintf(text, CERTIFICATE_TEXT_MOST, "fair\t%" PRIu64 "\t", certificate->entries);
    return (size_t)len + put_hex(text + len, certificate->master, sizeof certificate->master);
}

size_t certificate_line(char line[LINE_MOST], const struct certificate *certificate)
{
    size_t len = certificate_text(line, certificate);
    len += (size_t)snprintf(line + len, LINE_MOST - len, "\t%" PRIu64 "\t", certificate->step);
    return put_signed(line, len, certificate->signature, certificate->signature_len);
}

static int in_range(const struct certificate *certificate, const struct registered *desk)
{
    return certificate->entries >= 1 && certificate->entries <= KES_FAIR_MAX && certificate->step < kes_steps(desk->h1, desk->h2);
}

int certificate_signed(const struct certificate *certificate, const struct registered *desk)
{
    char text[CERTIFICATE_TEXT_MOST];
    size_t len = certificate_text(text, certificate);
    return registered_signed(desk, certificate->step, text, len, certificate->signature);
}

/* Reads loosely, then asks whether what was read writes this very line. */
int certificate_read(struct certificate *certificate, const struct registered *desk, const char *line, size_t len)
{
    char text[LINE_MOST + 1], again[LINE_MOST], master[2 * KES_KEY_SIZE + 1];
    int end = 0;
    if (len > LINE_MOST)
        return 0;
    memcpy(text, line, len);
    text[len] = 0;
    if (sscanf(text, "fair %3" SCNu64 " %64[0-9a-f] %8" SCNu64 " %n", &certificate->entries, master, &certificate->step, &end) != 3)
        return 0;
    certificate->signature_len = signature_size(desk);
    if (!in_range(certificate, desk) || strlen(master) != sizeof master - 1 || (size_t)end + SHORT_SIZE(certificate->signature_len) + 1 != len)
        return 0;
    get_hex(certificate->master, sizeof certificate->master, master);
    get_short(certificate->signature, certificate->signature_len, text + end);
    return certificate_line(again, certificate) == len && memcmp(again, line, len) == 0;
}
