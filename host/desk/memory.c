#define _DEFAULT_SOURCE
#include "memory.h"

#include <stdio.h>
#include <stdlib.h>
#include <sys/mman.h>
#include <sys/resource.h>
#ifdef __linux__
#include <sys/prctl.h>
#endif

#include "show.h"

/* Of the desk and of the fair. */
static struct {
    void *secrets;
    size_t len;
} guarded[2];
static size_t guards;

/* The writes are volatile: a compiler would leave out plain ones, since nothing reads the bytes again. */
void memory_clear(void *secrets, size_t len)
{
    volatile unsigned char *at = secrets;
    size_t i;
    for (i = 0; i < len; i++)
        at[i] = 0;
}

static void clear_guarded(void)
{
    size_t i;
    for (i = 0; i < guards; i++)
        memory_clear(guarded[i].secrets, guarded[i].len);
}

static void keep_from_core_files(void)
{
    struct rlimit none = {0, 0};
    if (setrlimit(RLIMIT_CORE, &none) != 0)
        failed("limit of core files");
#ifdef __linux__
    if (prctl(PR_SET_DUMPABLE, 0L, 0L, 0L, 0L) != 0)
        failed("protection from other programs");
#endif
}

/* Done once, since it is for the whole program. */
static void begin(void)
{
    if (atexit(clear_guarded) != 0)
        refuse("the clearing of memory cannot be arranged");
    keep_from_core_files();
    /* a desk without the right to lock much memory still works */
    if (mlockall(MCL_CURRENT | MCL_FUTURE) != 0)
        perror("desk: warning: the key may reach the swap space");
}

void memory_guard(void *secrets, size_t len)
{
    if (guards == 0)
        begin();
    guarded[guards].secrets = secrets;
    guarded[guards++].len = len;
}
