/* A ledger's file under change. A new file, LEDGER.new, is written beside it and takes its name, so that a crash leaves the old ledger or the new one,
 * whole; a lock has every other desk wait, so that none changes what another has not seen. */
#ifndef REPLACE_H
#define REPLACE_H

#include "files.h"

struct place {
    const char *name;   /* the ledger, as it was named to the desk: what messages say */
    char *path;         /* where it is, through symbolic links */
    char *beside;       /* its new file */
    int lock;           /* what is locked: the ledger, or the folder in which there is to be one; -1 before */
    struct stat ledger; /* the ledger, as found and then as locked */
};

/* Find a ledger that is to be changed; or the place of one that is to be made. Say why not. */
int find_ledger(const char *name, struct place *p);
int find_place(const char *name, struct place *p);

/* Whether a file that was read, at that path, is the ledger itself. */
int is_ledger(const struct place *p, const char *path, const struct stat *of);

/* Lock the ledger, or its folder: waits until no other desk is about it. */
int lock_ledger(struct place *p);
int lock_folder(struct place *p);

/* Under the lock: replace the ledger, with its owner, group and mode; or make it, unless there is such a name. Say why not; then nothing has changed. */
int replace_ledger(struct place *p, const struct bytes *b);
int make_ledger(struct place *p, const struct bytes *b);

/* Has the folder remember the ledger's name on its disk; where that can't be made sure, says that it is `done` all the same, and UNSURE. */
int settle(const struct place *p, const char *done);

/* Gives up the lock and the place. */
void leave(struct place *p);

#endif
