/* A fair's day at the example desk, over kes.h, in the folder of desk_day.c and as safe from crashes.
 *     fair_day FOLDER morning N   makes a cache for N sales, 1 to 256, which the desk's key certifies
 *     fair_day FOLDER day         opens the fair and does what standard input says, a line each:
 *                                     sale CARD CENTS
 *     fair_day FOLDER evening     destroys the cache; the last of the N sales does so too
 * desk/fair.c has the order of work and its reasons, desk/certificate.c and desk/sale.c the lines of the fair's file. */
#include <stdio.h>
#include <string.h>

#include "desk/events.h"
#include "desk/fair.h"
#include "desk/text.h"
#include "kes.h"

static int usage(void)
{
    fputs("usage: fair_day FOLDER morning N | day <EVENTS | evening\n", stderr);
    return 2;
}

static int sale(const char *line)
{
    return event_money(line, "sale", fair_sell);
}

static int morning(const char *folder, const char *number)
{
    uint64_t entries;
    if (!get_number(&entries, number, "") || entries < 1 || entries > KES_FAIR_MAX)
        return usage();
    fair_morning(folder, entries);
    return 0;
}

static int day(const char *folder)
{
    fair_open(folder);
    return events_do(sale);
}

int main(int argc, char **argv)
{
    if (argc == 4 && strcmp(argv[2], "morning") == 0)
        return morning(argv[1], argv[3]);
    if (argc == 3 && strcmp(argv[2], "day") == 0)
        return day(argv[1]);
    if (argc == 3 && strcmp(argv[2], "evening") == 0) {
        fair_evening(argv[1]);
        return 0;
    }
    return usage();
}
