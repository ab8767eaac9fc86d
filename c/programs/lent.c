/* lent.c: files mapped into memory, and the lock around each call (lent.h). */
#define _DEFAULT_SOURCE
#include "lent.h"
#include <errno.h>
#include <fcntl.h>
#include <stdio.h>
#include <stdlib.h>
#include <sys/file.h>
#include <sys/mman.h>
#include <sys/stat.h>
#include <unistd.h>

static int map(struct lent *lent, size_t length, int access)
{
    void *bytes = NULL;
    if (lent->bytes)
        munmap(lent->bytes, lent->length);
    lent->bytes = NULL;
    lent->length = 0;
    if (length == 0)
        return 0;
    bytes = mmap(NULL, length, access, MAP_SHARED, lent->file, 0);
    if (bytes == MAP_FAILED)
        return -1;
    lent->bytes = bytes;
    lent->length = length;
    return 0;
}

int lent_open(struct lent *lent, const char *path)
{
    *lent = (struct lent){open(path, O_RDONLY | O_CLOEXEC), NULL, 0};
    return lent->file < 0 ? -1 : 0;
}

int lent_create(struct lent *lent, const char *path, size_t length)
{
    int made;
    *lent = (struct lent){open(path, O_RDWR | O_CREAT | O_CLOEXEC, 0666), NULL, 0};
    if (lent->file < 0)
        return -1;
    if (lent_lock(lent, ALONE))
        return -1;
    made = ftruncate(lent->file, 0) || ftruncate(lent->file, (off_t)length) || map(lent, length, PROT_READ | PROT_WRITE);
    lent_unlock(lent);
    return made ? -1 : 0;
}

int lent_map(struct lent *lent)
{
    struct stat now;
    if (fstat(lent->file, &now))
        return -1;
    return map(lent, (size_t)now.st_size, PROT_READ);
}

ungletice_const_slice lent_slice(const struct lent *lent)
{
    return (ungletice_const_slice){lent->bytes, lent->length};
}

int lent_lock(const struct lent *lent, enum lock lock)
{
    int refused = 0;
    if (lent->file < 0)
        return 0;
    do
        refused = flock(lent->file, lock == ALONE ? LOCK_EX : LOCK_SH);
    while (refused && errno == EINTR);
    return refused;
}

void lent_sure_lock(const struct lent *lent, enum lock lock)
{
    if (lent_lock(lent, lock) == 0)
        return;
    perror("cannot lock the side file");
    exit(2);
}

void lent_unlock(const struct lent *lent)
{
    if (lent->file >= 0)
        flock(lent->file, LOCK_UN);
}

void lent_release(struct lent *lent)
{
    if (lent->bytes)
        munmap(lent->bytes, lent->length);
    if (lent->file >= 0)
        close(lent->file);
    *lent = (struct lent){-1, NULL, 0};
}
