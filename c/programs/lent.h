/* lent.h: a file as a lent slice.
 *
 * The library opens no file: programs map theirs into memory and lend the bytes. No desk call may run while a recorder call runs
 * on the same files, so every program takes a lock on the side file around each call and around the use of what it handed out:
 * the recorder for itself alone, desks together. The lock is advisory (flock): it binds the programs that take it.
 *
 * A slice without a file (file is -1) is memory of one program, and its lock does nothing. */
#ifndef LENT_H
#define LENT_H

#include "ungletice.h"

struct lent {
    int file;
    uint8_t *bytes;
    size_t length;
};

enum lock { SHARED, ALONE };

/* Each answers 0, or -1 with errno. */
int lent_open(struct lent *lent, const char *path);                  /* for reading; nothing is mapped yet */
int lent_create(struct lent *lent, const char *path, size_t length); /* for writing, all zero, mapped */
int lent_map(struct lent *lent);                                     /* at its present length, for reading; under the lock */
int lent_lock(const struct lent *lent, enum lock lock);

ungletice_const_slice lent_slice(const struct lent *lent); /* the bytes as a view is lent them */

void lent_sure_lock(const struct lent *lent, enum lock lock); /* or ends the program with a line on standard error */
void lent_unlock(const struct lent *lent);
void lent_release(struct lent *lent); /* unmaps and closes, which drops the lock too */

#endif
