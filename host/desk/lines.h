/* lines.h: a file of lines, of which a crash leaves whole ones and perhaps a torn one behind them. */
#ifndef LINES_H
#define LINES_H

#include <stddef.h>
#include <sys/types.h>

#include "record.h"

/* A file's end: its last whole line, from start to end of these bytes, and what stands behind it. */
struct tail {
    char bytes[2 * LINE_MOST];
    off_t from;
    size_t start, end, len;
};

/* An open file that has this first line alone. Its name is safe once the folder is synced. */
int lines_new(const char *name, const char *first, size_t len);

/* Appends a line, which ends with its LF. */
void lines_append(int file, const char *line, size_t len);

/* Reads the first line, with its LF; answers its length, or how many bytes there were where none of them is an LF. */
size_t lines_first(int file, char *line, size_t most);

void lines_tail(int file, struct tail *tail);
/* Whether the first line is the only whole one. */
int lines_only_first(const struct tail *tail);
/* Cuts off what stands behind the last whole line, and stays there for appending. */
void lines_repair(int file, const struct tail *tail);

#endif
