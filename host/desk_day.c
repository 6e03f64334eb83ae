/* An example desk over kes.h: its key and its journal in a folder, safe from crashes.
 *     desk_day FOLDER make [H1 H2]   makes the key (heights 6 and 6) and the journal
 *     desk_day FOLDER day            opens the desk and does what standard input says, a line each:
 *                                        top-up CARD CENTS
 *                                        tick STEP   as the clock says
 *                                        jump STEP   as a person says who was asked whether a far tick is right
 * desk/desk.c has the order of work and its reasons, desk/files.c the files, desk/record.c the journal's lines. */
#include <stdio.h>
#include <string.h>

#include "desk/desk.h"
#include "desk/events.h"
#include "desk/text.h"

static int usage(void)
{
    fputs("usage: desk_day FOLDER make [H1 H2] | day <EVENTS\n", stderr);
    return 2;
}

static int understood(const char *line)
{
    return event_money(line, "top-up", desk_top_up) || event_step(line, "tick", desk_tick) || event_step(line, "jump", desk_jump);
}

static int day(const char *folder)
{
    desk_open(folder);
    return events_do(understood);
}

static int make(const char *folder, const char *first, const char *second)
{
    uint64_t h1, h2;
    if (!get_number(&h1, first, "") || !get_number(&h2, second, ""))
        return usage();
    desk_make(folder, h1, h2, 1);
    return 0;
}

int main(int argc, char **argv)
{
    if (argc == 3 && strcmp(argv[2], "day") == 0)
        return day(argv[1]);
    if (argc == 3 && strcmp(argv[2], "make") == 0)
        return make(argv[1], "6", "6");
    if (argc == 5 && strcmp(argv[2], "make") == 0)
        return make(argv[1], argv[3], argv[4]);
    return usage();
}
