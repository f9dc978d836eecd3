/* The lock is flock's, which belongs to the open file: reading the ledger once more, and closing that, leaves it. The ledger's inode is what is locked, and
 * a desk that has waited looks whether it still has the name. One fixed name for the new file, used under the lock alone, lets the next desk take over what
 * a killed one left. A leftover may be the ledger's own inode, of an opening that was killed: it is never written into. */
#define _XOPEN_SOURCE 700

#include "replace.h"

#include "new_file.h"
#include "say.h"

#include <errno.h>
#include <fcntl.h>
#include <stdlib.h>
#include <string.h>
#include <sys/file.h>
#include <unistd.h>

#define NEW ".new"

/* ---- finding */

/* Takes a path that may be freed over. */
static int take_path(const char *name, char *path, struct place *p) {
    size_t length = path == NULL ? 0 : strlen(path), end = sizeof NEW - 1;
    *p = (struct place){.name = name, .path = path, .lock = -1};
    if (path == NULL)
        return trouble_with(name);
    if (length >= end && strcmp(path + length - end, NEW) == 0)
        return trouble("%s: a ledger's name can't end in " NEW ": the desk keeps that for the file that is to replace a ledger", name);
    p->beside = malloc(length + sizeof NEW);
    if (p->beside == NULL)
        return trouble_with(name);
    memcpy(p->beside, path, length);
    memcpy(p->beside + length, NEW, sizeof NEW);
    return DONE;
}

int find_ledger(const char *name, struct place *p) {
    int status = take_path(name, realpath(name, NULL), p);
    if (status != DONE)
        return status;
    if (stat(p->path, &p->ledger) != 0)
        return trouble_with(name);
    return S_ISREG(p->ledger.st_mode) ? DONE : trouble("%s: not a regular file", name);
}

int find_place(const char *name, struct place *p) { return take_path(name, strdup(name), p); }

int is_ledger(const struct place *p, const char *path, const struct stat *of) {
    if (same_file(&p->ledger, of))
        return 1;
    char *real = strcmp(path, "-") == 0 ? NULL : realpath(path, NULL);
    int is = real != NULL && strcmp(real, p->path) == 0;
    free(real);
    return is;
}

/* ---- locking */

static int lock(int fd) {
    int locked;
    do
        locked = flock(fd, LOCK_EX);
    while (locked != 0 && errno == EINTR);
    return locked;
}

int lock_ledger(struct place *p) {
    for (;;) {
        struct stat named;
        p->lock = open(p->path, O_RDWR | O_CLOEXEC);
        if (p->lock < 0)
            return trouble_with(p->name);
        if (lock(p->lock) != 0)
            return trouble("%s: it can't be locked: %s", p->name, strerror(errno));
        if (fstat(p->lock, &p->ledger) != 0 || stat(p->path, &named) != 0)
            return trouble_with(p->name);
        if (same_file(&p->ledger, &named))
            break;
        close(p->lock);
    }
    unlink(p->beside); /* what a killed desk left */
    return DONE;
}

static int open_folder(const char *path) {
    const char *slash = strrchr(path, '/');
    char *folder = slash == NULL ? strdup(".") : strndup(path, slash == path ? 1 : (size_t)(slash - path));
    int fd = folder == NULL ? -1 : open(folder, O_RDONLY | O_DIRECTORY | O_CLOEXEC);
    int why = errno;
    free(folder);
    errno = why;
    return fd;
}

int lock_folder(struct place *p) {
    p->lock = open_folder(p->path);
    if (p->lock < 0)
        return trouble("%s: its folder can't be opened: %s", p->name, strerror(errno));
    return lock(p->lock) == 0 ? DONE : trouble("%s: its folder can't be locked: %s", p->name, strerror(errno));
}

void leave(struct place *p) {
    if (p->lock >= 0)
        close(p->lock);
    free(p->path);
    free(p->beside);
}

/* ---- changing */

static int write_all(int fd, const struct bytes *b) {
    for (size_t done = 0; done < b->length;) {
        ssize_t n = write(fd, b->at + done, b->length - done);
        if (n < 0 && errno != EINTR)
            return -1;
        if (n > 0)
            done += (size_t)n;
    }
    return 0;
}

static int keep_owner(int fd, const struct stat *as) {
    struct stat made;
    if (fstat(fd, &made) != 0)
        return -1;
    return made.st_uid == as->st_uid && made.st_gid == as->st_gid ? 0 : fchown(fd, as->st_uid, as->st_gid);
}

/* What can't be done of a new file, NULL where all is done. The owner comes before the mode, which a change of owner may cut. */
static const char *fill(int fd, const struct bytes *b, const struct stat *as, mode_t mode) {
    if (write_all(fd, b) != 0)
        return "its new file can't be written";
    if (as != NULL && keep_owner(fd, as) != 0)
        return "its owner and group can't be kept";
    if (fchmod(fd, mode) != 0)
        return "its mode can't be set";
    return fsync(fd) == 0 ? NULL : "its new file can't be written";
}

static int save(struct place *p, const struct bytes *b, const struct stat *as, mode_t mode) {
    int fd = make_new_file(p->beside);
    if (fd < 0)
        return trouble("%s: its new file can't be made: %s", p->name, strerror(errno));
    const char *wrong = as == NULL && lock(fd) != 0 ? "its new file can't be locked" : fill(fd, b, as, mode);
    int why = errno;
    if (wrong != NULL) {
        drop_new_file();
    } else if (name_new_file(p->path, as == NULL) != 0) {
        why = errno;
        wrong = "its new file can't take its name";
    }
    close(fd);
    return wrong == NULL ? DONE : trouble("%s: %s: %s", p->name, wrong, strerror(why));
}

int replace_ledger(struct place *p, const struct bytes *b) { return save(p, b, &p->ledger, p->ledger.st_mode & 07777); }

int make_ledger(struct place *p, const struct bytes *b) {
    struct stat there;
    if (lstat(p->path, &there) == 0)
        errno = EEXIST;
    if (errno != ENOENT)
        return trouble_with(p->name);
    mode_t mask = umask(0);
    umask(mask);
    return save(p, b, NULL, 0666 & ~mask);
}

/* Some file systems know no syncing of a folder, and their refusal is passed over. */
int settle(const struct place *p, const char *done) {
    int fd = open_folder(p->path);
    if (fd >= 0 && (fsync(fd) == 0 || errno == EINVAL || errno == ENOTSUP)) {
        close(fd);
        return DONE;
    }
    trouble("%s: %s, but a loss of power may undo that: its folder can't be %s: %s", p->name, done, fd < 0 ? "opened" : "synced", strerror(errno));
    if (fd >= 0)
        close(fd);
    return UNSURE;
}
