#define _DEFAULT_SOURCE
#include "show.h"

#include <errno.h>
#include <inttypes.h>
#include <stdarg.h>
#include <stdio.h>
#include <stdlib.h>
#include <string.h>
#include <unistd.h>

#include "files.h"
#include "kes.h"

void show(const char *format, ...)
{
    char line[512];
    va_list values;
    int len;
    va_start(values, format);
    len = vsnprintf(line, sizeof line, format, values);
    va_end(values);
    if (len < 0 || (size_t)len >= sizeof line)
        refuse("a line is too long for the display");
    file_write(STDOUT_FILENO, line, (size_t)len);
}

void refuse(const char *why)
{
    fprintf(stderr, "desk: %s\n", why);
    exit(1);
}

void failed(const char *what)
{
    fprintf(stderr, "desk: %s: %s\n", what, strerror(errno));
    exit(1);
}

void need(uint32_t number, const char *call)
{
    if (number == KES_DONE)
        return;
    fprintf(stderr, "desk: %s answers %" PRIu32 "\n", call, number);
    exit(1);
}
