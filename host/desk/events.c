#include "events.h"

#include <stdio.h>
#include <string.h>

#include "record.h"
#include "show.h"
#include "text.h"

enum { EVENT_MOST = 80 };

/* Reads a line with its LF, to its end however long it is; one that is too long comes back empty. Answers whether there was one. */
static int read_line(char line[EVENT_MOST])
{
    size_t len = 0;
    int c = 0;
    for (; c != '\n' && (c = getchar()) != EOF; len++)
        if (len < EVENT_MOST)
            line[len] = (char)c;
    line[len < EVENT_MOST ? len : 0] = 0;
    return len > 0;
}

int events_do(int (*understood)(const char *line))
{
    char line[EVENT_MOST];
    unsigned long n;
    int status = 0;
    for (n = 1; read_line(line); n++)
        if (!understood(line)) {
            fprintf(stderr, "desk: line %lu is not understood, and nothing of it is done\n", n);
            status = 1;
        }
    if (ferror(stdin))
        failed("standard input");
    return status;
}

/* Answers what follows a word and its blank, or NULL where a line begins otherwise. */
static const char *after_word(const char *line, const char *word)
{
    size_t len = strlen(word);
    return strncmp(line, word, len) == 0 && line[len] == ' ' ? line + len + 1 : NULL;
}

int event_money(const char *line, const char *word, void (*does)(const char *card, uint64_t amount))
{
    char card[CARD_DIGITS + 1] = {0};
    uint64_t amount;
    const char *at = after_word(line, word);
    if (at == NULL || strspn(at, "0123456789") != CARD_DIGITS || at[CARD_DIGITS] != ' ')
        return 0;
    memcpy(card, at, CARD_DIGITS);
    if (!get_number(&amount, at + CARD_DIGITS + 1, "\n") || !is_money(card, amount))
        return 0;
    does(card, amount);
    return 1;
}

int event_step(const char *line, const char *word, void (*does)(uint64_t step))
{
    uint64_t step;
    const char *at = after_word(line, word);
    if (at == NULL || !get_number(&step, at, "\n"))
        return 0;
    does(step);
    return 1;
}
