/* Two windows on one key: top-ups and refunds, each a process of its own, over one folder.
 *     windows_day FOLDER make [H1 H2]   makes the key (heights 6 and 6) and two journals, journal and refunds
 *     windows_day FOLDER top-ups        does what standard input says, a line each:
 *                                           top-up CARD CENTS
 *                                           tick STEP   this window needs no earlier step any more
 *     windows_day FOLDER refunds        the same with `refund CARD CENTS`
 * Each line is a turn: the window waits for the folder's lock, reads the key, and does the line in desk/desk.c's order of work: sign,
 * store, write the chip, show "done", and only then, at a tick, release and move. So no window moves the key past a step that the
 * other still has to sign at, and neither moves an old copy of it. */
#include <stdio.h>
#include <string.h>

#include "desk/desk.h"
#include "desk/events.h"
#include "desk/text.h"

static const char *const words[] = {"top-up", "refund"};
static const char *folder;
static int window;

static int usage(void)
{
    fputs("usage: windows_day FOLDER make [H1 H2] | top-ups | refunds <EVENTS\n", stderr);
    return 2;
}

static void pay(const char *card, uint64_t amount)
{
    desk_turn(folder, window);
    desk_top_up(card, amount);
    desk_turn_end();
}

static void tick(uint64_t step)
{
    desk_turn(folder, window);
    desk_release(step);
    desk_turn_end();
}

static int understood(const char *line)
{
    return event_money(line, words[window], pay) || event_step(line, "tick", tick);
}

static int day(int of)
{
    window = of;
    desk_guard();
    return events_do(understood);
}

static int make(const char *first, const char *second)
{
    uint64_t h1, h2;
    if (!get_number(&h1, first, "") || !get_number(&h2, second, ""))
        return usage();
    desk_make(folder, h1, h2, 2);
    return 0;
}

int main(int argc, char **argv)
{
    folder = argc > 1 ? argv[1] : "";
    if (argc == 3 && strcmp(argv[2], "top-ups") == 0)
        return day(0);
    if (argc == 3 && strcmp(argv[2], "refunds") == 0)
        return day(1);
    if (argc == 3 && strcmp(argv[2], "make") == 0)
        return make("6", "6");
    if (argc == 5 && strcmp(argv[2], "make") == 0)
        return make(argv[3], argv[4]);
    return usage();
}
