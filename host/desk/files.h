/* files.h: the files of a desk's folder. What a call does is done when it returns; what cannot be done ends the desk.
 * Written bytes outlive a power cut only after file_sync, a name only after folder_sync. */
#ifndef FILES_H
#define FILES_H

#include <stddef.h>
#include <sys/types.h>

/* Opens the folder that every name below stands in, and keeps a second desk out of it. */
void folder_open(const char *path);
/* The same, where two windows share it: waits for the other, and lets it in again. */
void folder_enter(const char *path);
void folder_leave(void);
void folder_sync(void);

/* An open file: one that is there, or -1; and an empty one. */
int file_open(const char *name);
int file_new(const char *name);

off_t file_size(int file);
/* Whether its owner alone has rights on it. */
int file_private(int file);
/* Reads at a place, up to the end of the file; answers how many bytes there were. */
size_t file_read(int file, off_t at, void *bytes, size_t most);
void file_write(int file, const void *bytes, size_t len);
void file_sync(int file);
/* Cuts a file off at a size, stays there for writing. */
void file_cut(int file, off_t size);
void file_close(int file);

/* Gives a file a second name; and another one, in place of the file that had it. */
void file_link(const char *name, const char *second);
void file_rename(const char *from, const char *to);
/* Removes a name, if it is there; the last name of a file goes only when its bytes are zeros on the disk. */
void file_discard(const char *name);

#endif
