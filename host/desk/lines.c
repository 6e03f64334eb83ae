#include "lines.h"

#include <string.h>

#include "files.h"
#include "show.h"

int lines_new(const char *name, const char *first, size_t len)
{
    int file = file_new(name);
    file_write(file, first, len);
    file_sync(file);
    return file;
}

/* The LF comes last and alone, since a file's blocks may reach the disk in any order: a line that has its LF has all the rest. */
void lines_append(int file, const char *line, size_t len)
{
    file_write(file, line, len - 1);
    file_sync(file);
    file_write(file, line + len - 1, 1);
    file_sync(file);
}

size_t lines_first(int file, char *line, size_t most)
{
    size_t len = file_read(file, 0, line, most);
    const char *end = memchr(line, '\n', len);
    return end == NULL ? len : (size_t)(end - line) + 1;
}

/* How many of these bytes are whole lines. */
static size_t whole_lines(const char *bytes, size_t len)
{
    while (len > 0 && bytes[len - 1] != '\n')
        len--;
    return len;
}

void lines_tail(int file, struct tail *tail)
{
    off_t size = file_size(file), most = sizeof tail->bytes;
    tail->from = size > most ? size - most : 0;
    tail->len = file_read(file, tail->from, tail->bytes, sizeof tail->bytes);
    tail->end = whole_lines(tail->bytes, tail->len);
    if (tail->end == 0 || tail->len - tail->end >= LINE_MOST)
        refuse("a file's end is more than a torn line; it is left as it is");
    tail->start = whole_lines(tail->bytes, tail->end - 1);
}

int lines_only_first(const struct tail *tail)
{
    return tail->from == 0 && tail->start == 0;
}

/* For a line without its LF "done" was never shown. What stays is synced before it is counted on, since a killed desk may have written
 * it and no more. */
void lines_repair(int file, const struct tail *tail)
{
    file_cut(file, tail->from + (off_t)tail->end);
    file_sync(file);
    if (tail->end < tail->len)
        show("cut off: %zu bytes of a line that was not shown as done\n", tail->len - tail->end);
}
