#define _DEFAULT_SOURCE
#include "files.h"

#include <errno.h>
#include <fcntl.h>
#include <stdint.h>
#include <stdio.h>
#include <sys/file.h>
#include <sys/stat.h>
#include <unistd.h>

#include "show.h"

static int folder = AT_FDCWD;

/* A signal may break a call off before it did anything. */
static int interrupted(ssize_t answer)
{
    return answer < 0 && errno == EINTR;
}

static int opened(const char *name, int flags)
{
    int file;
    do
        file = openat(folder, name, flags | O_CLOEXEC, S_IRUSR | S_IWUSR);
    while (interrupted(file));
    if (file < 0 && errno != ENOENT)
        failed(name);
    return file;
}

static int locked(const char *path, int how)
{
    int answer;
    folder = opened(path, O_RDONLY | O_DIRECTORY);
    if (folder < 0)
        failed(path);
    do
        answer = flock(folder, how);
    while (interrupted(answer));
    return answer == 0;
}

void folder_open(const char *path)
{
    if (!locked(path, LOCK_EX | LOCK_NB))
        failed("another desk has this folder");
}

void folder_enter(const char *path)
{
    if (!locked(path, LOCK_EX))
        failed("the folder's lock");
}

void folder_leave(void)
{
    file_close(folder);
    folder = AT_FDCWD;
}

void folder_sync(void)
{
    file_sync(folder);
}

int file_open(const char *name)
{
    return opened(name, O_RDWR | O_NOFOLLOW);
}

int file_new(const char *name)
{
    int file = opened(name, O_RDWR | O_NOFOLLOW | O_CREAT | O_TRUNC);
    if (file < 0)
        failed(name);
    return file;
}

static struct stat status(int file)
{
    struct stat found;
    if (fstat(file, &found) != 0)
        failed("status of a file");
    return found;
}

off_t file_size(int file)
{
    return status(file).st_size;
}

int file_private(int file)
{
    return (status(file).st_mode & (S_IRWXG | S_IRWXO)) == 0;
}

size_t file_read(int file, off_t at, void *bytes, size_t most)
{
    size_t len = 0;
    ssize_t got = 1;
    while (len < most && got != 0) {
        got = pread(file, (uint8_t *)bytes + len, most - len, at + (off_t)len);
        if (interrupted(got))
            continue;
        if (got < 0)
            failed("read");
        len += (size_t)got;
    }
    return len;
}

void file_write(int file, const void *bytes, size_t len)
{
    size_t done = 0;
    while (done < len) {
        ssize_t wrote = write(file, (const uint8_t *)bytes + done, len - done);
        if (interrupted(wrote))
            continue;
        if (wrote <= 0)
            failed("write");
        done += (size_t)wrote;
    }
}

/* A sync that failed is never asked again: the system may have dropped the bytes, and would then answer yes. */
void file_sync(int file)
{
    int answer;
    do
        answer = fsync(file);
    while (interrupted(answer));
    if (answer != 0)
        failed("sync; restart the machine before the desk");
}

static void go_to(int file, off_t at)
{
    if (lseek(file, at, SEEK_SET) != at)
        failed("seek");
}

void file_cut(int file, off_t size)
{
    int answer;
    do
        answer = ftruncate(file, size);
    while (interrupted(answer));
    if (answer != 0)
        failed("cut");
    go_to(file, size);
}

void file_close(int file)
{
    /* interrupted or not, it is closed */
    if (close(file) != 0 && errno != EINTR)
        failed("close");
}

void file_link(const char *name, const char *second)
{
    if (linkat(folder, name, folder, second, 0) != 0)
        failed(second);
}

void file_rename(const char *from, const char *to)
{
    if (renameat(folder, from, folder, to) != 0)
        failed("rename");
}

static void overwrite(int file)
{
    static const uint8_t zeros[512];
    off_t left = file_size(file);
    go_to(file, 0);
    while (left > 0) {
        size_t len = left < (off_t)sizeof zeros ? (size_t)left : sizeof zeros;
        file_write(file, zeros, len);
        left -= (off_t)len;
    }
    file_sync(file);
}

void file_discard(const char *name)
{
    int file = file_open(name);
    if (file < 0)
        return;
    if (status(file).st_nlink == 1)
        overwrite(file);
    file_close(file);
    if (unlinkat(folder, name, 0) != 0)
        failed(name);
    folder_sync();
}
