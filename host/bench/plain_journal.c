/* Judges a top-up journal as build/journal does, in plain C over plain_kes: standard input to standard output. */
#include <inttypes.h>
#include <stdio.h>
#include <stdlib.h>
#include <string.h>

#include <sodium.h>

#include "kes.h"
#include "plain_kes.h"

enum { LINE_MAX_SIZE = 2048, FIELDS = 5, CARD = 16, MESSAGE_MAX = CARD + 1 + 10 + 1 + 7, CENTS_MAX = 2000000 };

struct field {
    const char *text;
    size_t len;
};

struct header {
    int tabs; /* whether they stand between the fields of a message: `kes2` */
    uint64_t h1, h2;
    uint8_t key[KES_KEY_SIZE];
};

struct entry {
    uint64_t step, serial, amount;
    size_t message_len;
    uint8_t message[MESSAGE_MAX], signature[KES_SIGNATURE_MAX];
};

/* How things stand after the last good line. */
struct books {
    uint64_t step, serial, count, cents;
};

/* Cuts a line without its LF at the tabs; answers how many fields there are, at most one more than are taken. */
static size_t split(const char *line, size_t len, struct field fields[FIELDS])
{
    const char *end = line + len, *tab;
    size_t n = 0;
    for (; n < FIELDS; n++, line = tab + 1) {
        tab = memchr(line, '\t', (size_t)(end - line));
        fields[n] = (struct field){line, (size_t)((tab == NULL ? end : tab) - line)};
        if (tab == NULL)
            return n + 1;
    }
    return n + 1;
}

/* Decimal digits alone, into a number that wraps where there are too many. */
static int digits(struct field f, uint64_t *value)
{
    size_t i;
    *value = 0;
    for (i = 0; i < f.len; i++) {
        if (f.text[i] < '0' || f.text[i] > '9')
            return 0;
        *value = 10 * *value + (uint64_t)(f.text[i] - '0');
    }
    return 1;
}

static int number(struct field f, uint64_t low, uint64_t high, uint64_t *value)
{
    if (f.len == 0 || f.len > 10 || (f.len > 1 && f.text[0] == '0'))
        return 0;
    return digits(f, value) && low <= *value && *value <= high;
}

/* One more than the value of a lower-case hex digit, 0 for what is none. */
static const uint8_t hex[256] = {
    ['0'] = 1, ['1'] = 2, ['2'] = 3, ['3'] = 4, ['4'] = 5, ['5'] = 6, ['6'] = 7, ['7'] = 8, ['8'] = 9, ['9'] = 10,
    ['a'] = 11, ['b'] = 12, ['c'] = 13, ['d'] = 14, ['e'] = 15, ['f'] = 16,
};

static int unhex(struct field f, uint8_t *out, size_t size)
{
    const uint8_t *text = (const uint8_t *)f.text;
    size_t i;
    if (f.len != 2 * size)
        return 0;
    for (i = 0; i < size; i++) {
        unsigned high = hex[text[2 * i]], low = hex[text[2 * i + 1]];
        if (high == 0 || low == 0)
            return 0;
        out[i] = (uint8_t)((high - 1) << 4 | (low - 1));
    }
    return 1;
}

static int read_header(const char *line, size_t len, struct header *head)
{
    struct field fields[FIELDS];
    size_t n = split(line, len, fields);
    if ((n != 2 && n != 4) || fields[0].len < 3 || fields[0].len > 4 || memcmp(fields[0].text, "kes2", fields[0].len) != 0)
        return 0;
    head->tabs = fields[0].len == 4;
    head->h1 = head->tabs ? 8 : 6;
    head->h2 = head->tabs ? 4 : 6;
    if (n == 4 && !(number(fields[1], 0, KES_HEIGHT_MAX, &head->h1) && number(fields[2], 0, KES_HEIGHT_MAX, &head->h2)))
        return 0;
    return unhex(fields[n - 1], head->key, sizeof head->key);
}

static void add(struct entry *e, struct field f)
{
    memcpy(e->message + e->message_len, f.text, f.len);
    e->message_len += f.len;
}

static int read_entry(const struct header *head, const char *line, size_t len, struct entry *e)
{
    struct field f[FIELDS], gap = {"\t", (size_t)head->tabs};
    uint64_t card;
    if (split(line, len, f) != FIELDS || !number(f[0], 0, kes_steps(head->h1, head->h2) - 1, &e->step) || f[1].len != CARD
        || !digits(f[1], &card) || !number(f[2], 1, UINT32_MAX, &e->serial) || !number(f[3], 1, CENTS_MAX, &e->amount)
        || !unhex(f[4], e->signature, kes_signature_size(head->h1, head->h2)))
        return 0;
    e->message_len = 0;
    add(e, f[1]);
    add(e, gap);
    add(e, f[2]);
    add(e, gap);
    add(e, f[3]);
    return 1;
}

/* The letter of a line that was read, LF included. */
static char judge(const struct header *head, struct books *last, struct plain_link *link, const char *line, size_t len)
{
    struct entry e;
    if (len > LINE_MAX_SIZE || line[len - 1] != '\n' || !read_entry(head, line, len - 1, &e))
        return 'M';
    if (e.step < last->step)
        return 'O';
    if (e.serial != last->serial + 1)
        return 'S';
    if (!plain_accepts(link, head->h1, head->h2, head->key, e.step, e.message, e.message_len, e.signature))
        return 'B';
    *last = (struct books){e.step, e.serial, last->count + 1, last->cents + e.amount};
    return 'G';
}

int main(void)
{
    struct header head;
    struct books last = {0, 0, 0, 0};
    struct plain_link link = {0};
    char *line = NULL;
    size_t room = 0;
    uint64_t n;
    ssize_t len = getline(&line, &room, stdin);
    if (sodium_init() < 0)
        return 1;
    if (len < 1 || len > LINE_MAX_SIZE || line[len - 1] != '\n' || !read_header(line, (size_t)len - 1, &head)) {
        puts("1\tH");
        return 0;
    }
    for (n = 2; n <= UINT32_MAX && (len = getline(&line, &room, stdin)) > 0; n++)
        printf("%" PRIu64 "\t%c\n", n, judge(&head, &last, &link, line, (size_t)len));
    printf("total\t%" PRIu64 "\t%" PRIu64 "\n", last.count, last.cents);
    free(line);
    return 0;
}
