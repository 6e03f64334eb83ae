/* text.h: bytes as characters. */
#ifndef TEXT_H
#define TEXT_H

#include <stddef.h>
#include <stdint.h>

/* Reads a number: at most ten digits and nothing else, then this end of the text. Answers whether that stands there. */
int get_number(uint64_t *number, const char *text, const char *end);

/* Hex in lower case, two characters a byte. */
size_t put_hex(char *out, const uint8_t *bytes, size_t len);
/* What is not hex reads as some bytes: the caller writes them again and compares. */
void get_hex(uint8_t *bytes, size_t len, const char *text);

/* RFC 4648's base64url without padding, four characters for three bytes. Read as loosely. */
#define SHORT_SIZE(len) ((4 * (len) + 2) / 3)
size_t put_short(char *out, const uint8_t *bytes, size_t len);
void get_short(uint8_t *bytes, size_t len, const char *text);

/* Ends a line of len characters with a signature in the short form, and its LF; answers its length. */
size_t put_signed(char *line, size_t len, const uint8_t *signature, size_t signature_len);

#endif
