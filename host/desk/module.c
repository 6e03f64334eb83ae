#define _DEFAULT_SOURCE
#include "module.h"

#include <time.h>

#include "kes.h"
#include "show.h"

/* For all calls and never set back: at each number the module answers or not, and no number comes twice. A new process may begin
 * anywhere. */
static uint64_t tally;
static int out_of_reach;

uint64_t *module_tally(void)
{
    return &tally;
}

/* A call that was not answered has changed nothing but the tally, so the desk stands where it stood. It goes no further: no record, no
 * money, no moved key. */
int module_silent(uint32_t number)
{
    static const struct timespec pause = {.tv_sec = 1};
    int silent = number == KES_UNANSWERED;
    if (silent && !out_of_reach)
        show("module not reached: keep cash and card apart until it is back\n");
    if (!silent && out_of_reach)
        show("module reached again\n");
    out_of_reach = silent;
    if (silent)
        nanosleep(&pause, NULL);
    return silent;
}
