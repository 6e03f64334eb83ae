/* A fuzzer's target: the example desk's reader of a record, on a line with the input laid over it, beside document 01's grammar read
 * byte by byte. Whether a step is past the key's last is not the reader's to say. */
#include <string.h>

#include "../desk/record.h"
#include "input.h"

static const uint64_t STEP_MOST = 99999999;

static int is_digit(char c)
{
    return c >= '0' && c <= '9';
}

/* Passes over a number from least to most, without a leading zero, and its tab. */
static int number(const char **at, const char *end, uint64_t least, uint64_t most)
{
    const char *first = *at;
    uint64_t n = 0;
    for (; *at < end && is_digit(**at) && n <= most; ++*at)
        n = 10 * n + (uint64_t)(**at - '0');
    if (*at == first || (*first == '0' && *at - first > 1) || n < least || n > most)
        return 0;
    return *at < end && *(*at)++ == '\t';
}

static int card(const char **at, const char *end)
{
    const char *first = *at;
    while (*at < end && is_digit(**at))
        ++*at;
    return *at - first == CARD_DIGITS && *at < end && *(*at)++ == '\t';
}

static int hex(const char *at, const char *end, size_t bytes)
{
    if ((size_t)(end - at) != 2 * bytes + 1 || end[-1] != '\n')
        return 0;
    while (at < end - 1 && (is_digit(*at) || (*at >= 'a' && *at <= 'f')))
        at++;
    return at == end - 1;
}

static int is_record(const char *at, size_t len, size_t signature_len)
{
    const char *end = at + len;
    return number(&at, end, 0, STEP_MOST) && card(&at, end) && number(&at, end, 1, SERIAL_MOST) && number(&at, end, 1, AMOUNT_MOST)
        && hex(at, end, signature_len);
}

int LLVMFuzzerTestOneInput(const uint8_t *data, size_t size);

/* The line of a record whose fields may be out of range. Heights up to 6 leave room for any numbers in it. */
static size_t some_line(struct input *in, char line[LINE_MOST], struct record *record)
{
    uint8_t h1 = next(in) % 7, h2 = next(in) % 7;
    record->signature_len = kes_signature_size(h1, h2);
    record->step = wide(in), record->serial = 1 ^ wide(in), record->amount = 1 ^ wide(in);
    memcpy(record->card, "1111222233334444", CARD_DIGITS + 1);
    record->card[CARD_DIGITS - next(in) % CARD_DIGITS] = 0;
    return record_line(line, record);
}

int LLVMFuzzerTestOneInput(const uint8_t *data, size_t size)
{
    struct input in = {data, size};
    struct record record = {0};
    char line[LINE_MOST];
    size_t len = some_line(&in, line, &record), head = len - 2 * record.signature_len;
    if (next(&in) & 1)
        len -= 1 + next(&in) % head;
    while (in.left > 0)
        patch(&in, (uint8_t *)line, next(&in) & 1 ? len : head);
    if (record_read(&record, line, len) != is_record(line, len, record.signature_len))
        wrong("the desk reads a record otherwise than document 01");
    return 0;
}
