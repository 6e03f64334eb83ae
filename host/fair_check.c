/* Checks receipts of a fair under a desk's verification key.
 *     fair_check DESK FAIR <RECEIPTS
 * DESK is a file that begins with line 1 of the desk's journal, as it was registered; FAIR one that begins with the fair's certificate;
 * a receipt is a line. Of a good one it says the desk, the step at which the desk certified the fair, and the sale's step. Ends with 0
 * if all are good, with 1 if one is not or there is none, and with 2 if it was not asked rightly. */
#include <inttypes.h>
#include <stdio.h>
#include <stdlib.h>

#include "desk/sale.h"
#include "desk/text.h"

__attribute__((noreturn)) static void end(const char *name, const char *why)
{
    fprintf(stderr, "fair_check: %s: %s\n", name, why);
    exit(1);
}

/* Reads a line with its LF; one that is too long comes without it. Answers the length, 0 at the end. */
static size_t read_line(FILE *in, char line[LINE_MOST])
{
    size_t len = 0;
    int c = 0;
    while (c != '\n' && (c = getc(in)) != EOF)
        if (len < LINE_MOST)
            line[len++] = (char)c;
    return len;
}

static size_t read_first(const char *name, char line[LINE_MOST])
{
    size_t len;
    FILE *file = fopen(name, "r");
    if (file == NULL)
        end(name, "cannot be opened");
    len = read_line(file, line);
    if (ferror(file) || fclose(file) != 0)
        end(name, "cannot be read");
    return len;
}

static void read_desk(struct registered *desk, const char *name)
{
    char line[LINE_MOST];
    if (!header_read(desk, line, read_first(name, line)))
        end(name, "does not begin with a desk's verification key");
}

static void read_certificate(struct certificate *certificate, const struct registered *desk, const char *name)
{
    char line[LINE_MOST];
    if (!certificate_read(certificate, desk, line, read_first(name, line)))
        end(name, "does not begin with the certificate of a fair");
    if (!certificate_signed(certificate, desk))
        end(name, "the certificate is not signed by this desk at that step");
}

static void say(const struct sale *sale, const struct registered *desk)
{
    char key[2 * KES_KEY_SIZE];
    int len = (int)put_hex(key, desk->key, sizeof desk->key);
    printf("desk %.*s, desk step %" PRIu64 ", sale step %" PRIu64 ": card %s, %" PRIu64 " cents\n", len, key, sale->desk_step, sale->step, sale->card, sale->amount);
}

/* Answers what is wrong with a receipt, or NULL. */
static const char *wrong(struct sale *sale, const char *line, size_t len, const struct certificate *certificate, const struct registered *desk)
{
    if (!sale_read(sale, line, len))
        return "not a receipt";
    return sale_signed(sale, certificate, desk) ? NULL : "not signed at this fair at that step";
}

/* Answers how many receipts there were, and how many of them are good. */
static unsigned long check(const struct certificate *certificate, const struct registered *desk, unsigned long *good)
{
    char line[LINE_MOST];
    struct sale sale;
    const char *why;
    size_t len;
    unsigned long n;
    for (n = 0, *good = 0; (len = read_line(stdin, line)) > 0; n++)
        if ((why = wrong(&sale, line, len, certificate, desk)) != NULL) {
            fprintf(stderr, "fair_check: receipt %lu: %s\n", n + 1, why);
        } else {
            say(&sale, desk);
            ++*good;
        }
    return n;
}

int main(int argc, char **argv)
{
    struct registered desk;
    struct certificate certificate;
    unsigned long all, good;
    if (argc != 3) {
        fputs("usage: fair_check DESK FAIR <RECEIPTS\n", stderr);
        return 2;
    }
    read_desk(&desk, argv[1]);
    read_certificate(&certificate, &desk, argv[2]);
    all = check(&certificate, &desk, &good);
    if (all == 0 || ferror(stdin))
        end("standard input", "no receipt, or it cannot be read");
    return good == all && fflush(stdout) == 0 ? 0 : 1;
}
