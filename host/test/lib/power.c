/* Stands between the example desk and the system, for crashes.py: each call that was made is a line in the file that
 * DESK_LOG names, random bytes are DESK_RANDOM and the numbers after it, and nothing is synced in earnest, since crashes.py says what a
 * power cut leaves. It stands between the library and Ed25519 too: there each asking has to be made at the next number.
 *   DESK_STOP=n    the process ends before call n
 *   DESK_FAIL=n    call n is not made and fails
 *   DESK_SILENT=n  the module does not answer its n-th asking, nor the one after it
 *   DESK_BROKEN=1  what a signal can break off is broken off once, and what is read or written comes in pieces
 *   DESK_MEMORY=f  file f gets what the program's variables hold when it has ended */
#define _DEFAULT_SOURCE
#include <errno.h>
#include <fcntl.h>
#include <stdarg.h>
#include <stdint.h>
#include <stdio.h>
#include <stdlib.h>
#include <sys/file.h>
#include <sys/stat.h>
#include <time.h>
#include <unistd.h>

#include "../../../desk/adapter.h"

#define BOTH(call) extern __typeof__(call) __real_##call, __wrap_##call
BOTH(openat);
BOTH(close);
BOTH(pread);
BOTH(write);
BOTH(fsync);
BOTH(ftruncate);
BOTH(linkat);
BOTH(renameat);
BOTH(unlinkat);
BOTH(fstat);
BOTH(flock);
BOTH(lseek);
BOTH(getentropy);
BOTH(nanosleep);
BOTH(desk_ed25519_public_key);
BOTH(desk_ed25519_sign);

enum { WHOLE, BREAKABLE };

static long asked(const char *name)
{
    const char *value = getenv(name);
    return value == NULL ? 0 : atol(value);
}

static FILE *log_file(void)
{
    static FILE *log;
    if (log == NULL && ((log = fopen(getenv("DESK_LOG"), "a")) == NULL || setvbuf(log, NULL, _IOLBF, BUFSIZ) != 0))
        _exit(99);
    return log;
}

__attribute__((format(printf, 1, 2))) static void note(const char *format, ...)
{
    int before = errno;
    va_list values;
    va_start(values, format);
    vfprintf(log_file(), format, values);
    va_end(values);
    errno = before;
}

/* Whether this call fails, with errno set. */
static int fails(int how)
{
    static long calls;
    static int broken;
    errno = EINTR;
    broken = how == BREAKABLE && asked("DESK_BROKEN") && !broken;
    if (broken)
        return 1;
    calls++;
    if (calls == asked("DESK_STOP"))
        _exit(98);
    errno = EIO;
    return calls == asked("DESK_FAIL");
}

static size_t piece(size_t len)
{
    return asked("DESK_BROKEN") && len > 1 ? len / 2 : len;
}

/* From the linker: where the variables begin and end. */
extern char __data_start[], _end[];

/* Runs after all that the desk does at its exit. */
__attribute__((destructor)) static void keep_memory(void)
{
    const char *name = getenv("DESK_MEMORY");
    FILE *out = name == NULL ? NULL : fopen(name, "wb");
    if (out == NULL)
        return;
    fwrite(__data_start, 1, (size_t)(_end - __data_start), out);
    fclose(out);
}

int __wrap_openat(int folder, const char *name, int flags, ...)
{
    int file;
    if (fails(BREAKABLE))
        return -1;
    file = __real_openat(folder, name, flags, S_IRUSR | S_IWUSR);
    if (flags & O_DIRECTORY)
        note("folder %d\n", file);
    else
        note("open %d %d %s\n", file, (flags & O_TRUNC) != 0, name);
    return file;
}

/* Closed all the same where it fails or is broken off. */
int __wrap_close(int file)
{
    int answer = fails(BREAKABLE) ? -1 : 0, why = errno;
    __real_close(file);
    errno = why;
    if (answer == 0)
        note("close\n");
    return answer;
}

ssize_t __wrap_pread(int file, void *bytes, size_t len, off_t at)
{
    if (fails(BREAKABLE))
        return -1;
    note("read\n");
    return __real_pread(file, bytes, piece(len), at);
}

ssize_t __wrap_write(int file, const void *bytes, size_t len)
{
    off_t at = file == STDOUT_FILENO ? 0 : __real_lseek(file, 0, SEEK_CUR);
    ssize_t wrote, i;
    if (fails(BREAKABLE))
        return -1;
    wrote = __real_write(file, bytes, piece(len));
    note("write %d %ld ", file, (long)at);
    for (i = 0; i < wrote; i++)
        note("%02x", ((const uint8_t *)bytes)[i]);
    note("\n");
    return wrote;
}

int __wrap_fsync(int file)
{
    if (fails(BREAKABLE))
        return -1;
    note("sync %d\n", file);
    return 0;
}

int __wrap_ftruncate(int file, off_t size)
{
    if (fails(BREAKABLE))
        return -1;
    note("cut %d %ld\n", file, (long)size);
    return __real_ftruncate(file, size);
}

int __wrap_linkat(int from_folder, const char *from, int to_folder, const char *to, int flags)
{
    if (fails(WHOLE))
        return -1;
    note("link %s %s\n", from, to);
    return __real_linkat(from_folder, from, to_folder, to, flags);
}

int __wrap_renameat(int from_folder, const char *from, int to_folder, const char *to)
{
    if (fails(WHOLE))
        return -1;
    note("rename %s %s\n", from, to);
    return __real_renameat(from_folder, from, to_folder, to);
}

int __wrap_unlinkat(int folder, const char *name, int flags)
{
    if (fails(WHOLE))
        return -1;
    note("unlink %s\n", name);
    return __real_unlinkat(folder, name, flags);
}

int __wrap_fstat(int file, struct stat *found)
{
    if (fails(WHOLE))
        return -1;
    note("size\n");
    return __real_fstat(file, found);
}

int __wrap_flock(int file, int how)
{
    if (fails(BREAKABLE))
        return -1;
    note("lock\n");
    return __real_flock(file, how);
}

off_t __wrap_lseek(int file, off_t at, int from)
{
    if (fails(WHOLE))
        return -1;
    note("seek\n");
    return __real_lseek(file, at, from);
}

int __wrap_getentropy(void *bytes, size_t len)
{
    static long drawn;
    size_t i;
    if (fails(WHOLE))
        return -1;
    for (i = 0; i < len; i++)
        ((uint8_t *)bytes)[i] = (uint8_t)(asked("DESK_RANDOM") + drawn++);
    note("random\n");
    return 0;
}

/* Nobody waits in earnest. */
int __wrap_nanosleep(const struct timespec *time, struct timespec *left)
{
    (void)time, (void)left;
    return 0;
}

/* Whether the module answers what it is asked at this number. */
static int answers(uint64_t number)
{
    static long askings;
    static uint64_t next;
    long silent = asked("DESK_SILENT");
    if (askings++ > 0 && number != next) {
        fputs("power: the module is asked at another number than the next\n", stderr);
        _exit(97);
    }
    next = number + 1;
    return silent == 0 || (askings != silent && askings != silent + 1);
}

uint32_t __wrap_desk_ed25519_public_key(uint64_t number, const uint8_t *secret, uint8_t *out)
{
    return answers(number) ? __real_desk_ed25519_public_key(number, secret, out) : 0;
}

uint32_t __wrap_desk_ed25519_sign(uint64_t number, const uint8_t *secret, const uint8_t *message, size_t len, uint8_t *out)
{
    return answers(number) ? __real_desk_ed25519_sign(number, secret, message, len, out) : 0;
}
