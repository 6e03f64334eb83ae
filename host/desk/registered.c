#include "registered.h"

#include <inttypes.h>
#include <stdio.h>
#include <string.h>

#include "text.h"

enum { KEY_HEX = 2 * KES_KEY_SIZE };

static size_t write_header(char line[HEADER_MOST + 1], const char *word, const struct registered *desk, int with_heights)
{
    size_t len = (size_t)(with_heights ? snprintf(line, HEADER_MOST, "%s\t%" PRIu64 "\t%" PRIu64 "\t", word, desk->h1, desk->h2)
                                       : snprintf(line, HEADER_MOST, "%s\t", word));
    len += put_hex(line + len, desk->key, sizeof desk->key);
    line[len] = '\n';
    return len + 1;
}

size_t header_line(char line[HEADER_MOST + 1], const struct registered *desk)
{
    return write_header(line, "kes2", desk, 1);
}

/* Reads loosely, then asks whether what was read writes this very line. */
int header_read(struct registered *desk, const char *line, size_t len)
{
    char text[HEADER_MOST + 1], again[HEADER_MOST + 1];
    const char *word;
    int tabbed, with_heights;
    if (len <= KEY_HEX || len > HEADER_MOST)
        return 0;
    memcpy(text, line, len);
    text[len] = 0;
    tabbed = strncmp(text, "kes2", 4) == 0;
    word = tabbed ? "kes2" : "kes";
    with_heights = len != strlen(word) + 1 + KEY_HEX + 1;
    desk->h1 = tabbed ? 8 : 6;
    desk->h2 = tabbed ? 4 : 6;
    if (with_heights && sscanf(text + strlen(word), " %2" SCNu64 " %2" SCNu64, &desk->h1, &desk->h2) != 2)
        return 0;
    if (!KES_HEIGHTS_FIT(desk->h1, desk->h2))
        return 0;
    get_hex(desk->key, sizeof desk->key, text + len - KEY_HEX - 1);
    return write_header(again, word, desk, with_heights) == len && memcmp(again, line, len) == 0;
}

size_t signature_size(const struct registered *desk)
{
    return kes_signature_size(desk->h1, desk->h2);
}

int registered_signed(const struct registered *desk, uint64_t step, const char *text, size_t len, const uint8_t *signature)
{
    return kes_verify(desk->h1, desk->h2, desk->key, sizeof desk->key, step, (const uint8_t *)text, len, signature, signature_size(desk)) == KES_DONE;
}
