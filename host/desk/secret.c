#include "secret.h"

#include "files.h"
#include "show.h"

/* The name is on the disk before the first byte is, so that whatever a crash leaves of a secret can be found and zeroed. */
void secret_write_new(const struct secret *secret, const uint8_t *bytes, size_t len)
{
    int file = file_new(secret->name_new);
    folder_sync();
    file_write(file, bytes, len);
    file_sync(file);
    file_close(file);
}

/* The name goes from a whole old secret to a whole new one, and a crash finds one of the two. */
void secret_name_new(const struct secret *secret)
{
    file_rename(secret->name_new, secret->name);
    folder_sync();
}

/* Nothing is signed with a moved key before this is done, so the one that bears the name is always the one to go on with, and a new
 * one can be dropped at the next start. The old one is zeroed last, when the disk knows the new one by its name: earlier, a crash
 * could leave none at all. Its second name lets the next start finish that; without it, a rename would free its blocks and leave
 * its bytes in them. A file system that copies on write and the spare blocks of a disk may keep old bytes all the same, where no
 * program reaches them: a desk's folder belongs on an encrypted disk. */
void secret_replace(const struct secret *secret, const uint8_t *bytes, size_t len)
{
    secret_write_new(secret, bytes, len);
    file_link(secret->name, secret->name_old);
    folder_sync();
    secret_name_new(secret);
    file_discard(secret->name_old);
}

/* It loses the name that counts first: zeros under that name would be a damaged secret. */
void secret_destroy(const struct secret *secret)
{
    file_rename(secret->name, secret->name_old);
    folder_sync();
    file_discard(secret->name_old);
}

size_t secret_read(const struct secret *secret, uint8_t *bytes, size_t most)
{
    size_t len;
    int file = file_open(secret->name);
    if (file < 0)
        return 0;
    if (!file_private(file))
        refuse("others than the desk's user may read the file of a secret; if nobody has, take that right away (chmod 600), else register a new key");
    len = file_read(file, 0, bytes, most);
    if (file_size(file) != (off_t)len)
        refuse("the file of a secret is too long");
    file_close(file);
    return len;
}

void secret_tidy(const struct secret *secret)
{
    file_discard(secret->name_new);
    file_discard(secret->name_old);
}
