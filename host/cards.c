/* What has this card had? Enters the good lines of a journal into a card index, and answers for each card that is asked for.
 *     journal <JOURNAL >VERDICT
 *     cards JOURNAL VERDICT CARD..
 * Of each card, 16 digits, it prints a line: the card, how many good lines it has and the sum of their cents, a tab between; or the card
 * and `none`. With more than 1,024 cards it says at which line the index was full, and answers from the lines before that one. Ends with 0
 * if all good lines were entered, with 1 if the index was full or the verdict is not this journal's, and with 2 if it was not asked rightly. */
#include <inttypes.h>
#include <stdio.h>
#include <stdlib.h>
#include <string.h>

#include "desk/record.h"
#include "desk/text.h"

/* what stands in a journal after its last line is not judged */
#define LAST_LINE UINT32_MAX

static struct kes_card cards[KES_CARDS];
static uint64_t held, lines, cents;

__attribute__((noreturn)) static void end(int status, const char *why)
{
    fprintf(stderr, "cards: %s\n", why);
    exit(status);
}

/* Reads a line without its LF, and puts a 0 behind it; one that is too long is cut. Answers whether there is one. */
static int read_line(FILE *in, char line[LINE_MOST])
{
    size_t len = 0;
    int c, any = 0;
    while ((c = getc(in)) != EOF && c != '\n') {
        any = 1;
        if (len < LINE_MOST - 1)
            line[len++] = (char)c;
    }
    line[len] = 0;
    return any || c == '\n';
}

static int get_card(uint64_t *card, const char *text)
{
    *card = 0;
    if (strspn(text, "0123456789") != CARD_DIGITS || text[CARD_DIGITS] != 0)
        return 0;
    while (*text != 0)
        *card = 10 * *card + (uint64_t)(*text++ - '0');
    return 1;
}

/* Card and cents of a line that `journal` calls good. */
static int get_line(uint64_t *card, uint64_t *amount, char *line)
{
    char *field[5];
    int i;
    for (i = 0; i < 5; i++) {
        field[i] = line;
        line += strcspn(line, "\t");
        if ((*line == 0) != (i == 4))
            return 0;
        *line++ = 0;
    }
    return get_card(card, field[1]) && get_number(amount, field[3], "");
}

/* Enters a good line; answers 0 where the index is full. */
static int enter(char *line)
{
    uint64_t card, amount, entered;
    if (!get_line(&card, &amount, line))
        end(1, "a line that the verdict calls good is none: is it of this journal?");
    entered = kes_card_enter(cards, KES_CARDS, held, card, amount);
    if (kes_number(entered) == KES_FULL)
        return 0;
    if (kes_number(entered) != KES_DONE)
        end(1, "a line that the verdict calls good is refused: is it of this journal?");
    held = kes_held(entered);
    lines++;
    cents += amount;
    return 1;
}

/* Whether the verdict's line is of line n, and with which letter. */
static int letter(const char *verdict, uint64_t n)
{
    char number[24];
    size_t len = (size_t)snprintf(number, sizeof number, "%" PRIu64 "\t", n);
    return strncmp(verdict, number, len) == 0 && strlen(verdict) == len + 1 ? verdict[len] : 0;
}

/* Enters every good line, and holds the verdict's sums against them; answers 0, or the line at which the index was full. */
static uint64_t enter_all(FILE *journal, FILE *verdict)
{
    static char line[LINE_MOST], judged[LINE_MOST], total[64];
    uint64_t n;
    int is;
    if (!read_line(journal, line) || !read_line(verdict, judged) || letter(judged, 1) == 'H')
        end(1, "the journal's first line is not a header");
    for (n = 2; n <= LAST_LINE && read_line(journal, line); n++) {
        if ((is = letter(judged, n)) == 0 || strchr("GMOSB", is) == NULL)
            end(1, "the verdict is not of this journal");
        if (is == 'G' && !enter(line))
            return n;
        if (!read_line(verdict, judged))
            end(1, "the verdict is cut off");
    }
    snprintf(total, sizeof total, "total\t%" PRIu64 "\t%" PRIu64, lines, cents);
    if (strcmp(judged, total) != 0 || read_line(verdict, judged))
        end(1, "the verdict is not of this journal");
    return 0;
}

static FILE *opened(const char *name)
{
    FILE *file = fopen(name, "r");
    if (file == NULL)
        end(1, "a file cannot be opened");
    return file;
}

static void answer(const char *asked)
{
    uint64_t card, found;
    if (!get_card(&card, asked))
        end(2, "a card is 16 digits");
    found = kes_card_find(cards, KES_CARDS, held, card);
    if (kes_number(found) != KES_DONE)
        end(1, "the index is damaged");
    if (kes_place(found) == 0)
        printf("%s\tnone\n", asked);
    else
        printf("%s\t%" PRIu64 "\t%" PRIu64 "\n", asked, cards[kes_place(found) - 1].count, cards[kes_place(found) - 1].cents);
}

int main(int argc, char **argv)
{
    FILE *journal, *verdict;
    uint64_t full;
    int i;
    if (argc < 3)
        end(2, "usage: cards JOURNAL VERDICT CARD..");
    journal = opened(argv[1]);
    verdict = opened(argv[2]);
    full = enter_all(journal, verdict);
    if (ferror(journal) || ferror(verdict))
        end(1, "a file cannot be read");
    if (full != 0)
        fprintf(stderr, "cards: more than 1,024 cards: the answers are of the lines before line %" PRIu64 "\n", full);
    for (i = 3; i < argc; i++)
        answer(argv[i]);
    return full == 0 && fflush(stdout) == 0 ? 0 : 1;
}
