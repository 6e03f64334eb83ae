#include "text.h"

#include <string.h>

static const char hex_digits[] = "0123456789abcdef";
static const char short_digits[] = "ABCDEFGHIJKLMNOPQRSTUVWXYZabcdefghijklmnopqrstuvwxyz0123456789-_";

static unsigned digit(const char *digits, char c)
{
    const char *found = strchr(digits, c);
    return found == NULL || c == 0 ? 0 : (unsigned)(found - digits);
}

int get_number(uint64_t *number, const char *text, const char *end)
{
    size_t i, len = strspn(text, "0123456789");
    *number = 0;
    for (i = 0; i < len && i < 10; i++)
        *number = 10 * *number + (uint64_t)(text[i] - '0');
    return len >= 1 && len <= 10 && strcmp(text + len, end) == 0;
}

size_t put_hex(char *out, const uint8_t *bytes, size_t len)
{
    size_t i;
    for (i = 0; i < len; i++) {
        out[2 * i] = hex_digits[bytes[i] >> 4];
        out[2 * i + 1] = hex_digits[bytes[i] & 15];
    }
    return 2 * len;
}

void get_hex(uint8_t *bytes, size_t len, const char *text)
{
    size_t i;
    for (i = 0; i < len; i++)
        bytes[i] = (uint8_t)(digit(hex_digits, text[2 * i]) << 4 | digit(hex_digits, text[2 * i + 1]));
}

/* Character i has the bits from 6i on, of which it takes as many as its byte has left and the rest from the next. */
size_t put_short(char *out, const uint8_t *bytes, size_t len)
{
    size_t i;
    for (i = 0; i < SHORT_SIZE(len); i++) {
        size_t at = 6 * i / 8, bit = 6 * i % 8;
        unsigned both = (unsigned)bytes[at] << 8 | (at + 1 < len ? bytes[at + 1] : 0);
        out[i] = short_digits[both >> (10 - bit) & 63];
    }
    return SHORT_SIZE(len);
}

/* Byte i has the bits from 8i on, which stand in two characters. */
void get_short(uint8_t *bytes, size_t len, const char *text)
{
    size_t i;
    for (i = 0; i < len; i++) {
        size_t at = 8 * i / 6, bit = 8 * i % 6;
        unsigned both = digit(short_digits, text[at]) << 6 | digit(short_digits, text[at + 1]);
        bytes[i] = (uint8_t)(both >> (4 - bit));
    }
}

size_t put_signed(char *line, size_t len, const uint8_t *signature, size_t signature_len)
{
    len += put_short(line + len, signature, signature_len);
    line[len] = '\n';
    return len + 1;
}
