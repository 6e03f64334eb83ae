/* What every race here needs: clocks, the median of their times, and the machine's load. Needs _DEFAULT_SOURCE. */
#ifndef STOPWATCH_H
#define STOPWATCH_H

#include <stdlib.h>
#include <time.h>

/* What a clock shows, in nanoseconds. */
static inline double nanoseconds(clockid_t clock)
{
    struct timespec t;
    clock_gettime(clock, &t);
    return 1e9 * (double)t.tv_sec + (double)t.tv_nsec;
}

static inline int by_size(const void *a, const void *b)
{
    double x = *(const double *)a, y = *(const double *)b;
    return (x > y) - (x < y);
}

/* Sorts the times. */
static inline double median(double *times, size_t n)
{
    qsort(times, n, sizeof times[0], by_size);
    return times[n / 2];
}

/* Processes that ran or wanted to, over the last minute. */
static inline double load(void)
{
    double average = 0;
    getloadavg(&average, 1);
    return average;
}

#endif
