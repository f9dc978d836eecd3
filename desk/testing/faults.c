/* Preloaded into the desk by desk/testing/faults.sh: has a call fail, or a signal come right before or after it. DESK_FAULT is CALL HOW NUMBER: the call,
 * by its name or one of those below; fails, before or after; the errno or the signal. A write that fails has written half of what it was given. */
#define _GNU_SOURCE

#include <dlfcn.h>
#include <errno.h>
#include <fcntl.h>
#include <signal.h>
#include <stdarg.h>
#include <stdio.h>
#include <stdlib.h>
#include <string.h>
#include <sys/stat.h>
#include <unistd.h>

enum how { NOTHING, FAILS, BEFORE, AFTER };

/* What is to happen at a call; the number of the error or signal is then in `number`. */
static enum how fault(const char *call, int *number) {
    char name[32], how[32];
    const char *asked = getenv("DESK_FAULT");
    if (asked == NULL || sscanf(asked, "%31s %31s %d", name, how, number) != 3 || strcmp(name, call) != 0)
        return NOTHING;
    return strcmp(how, "fails") == 0 ? FAILS : strcmp(how, "before") == 0 ? BEFORE : AFTER;
}

/* Does a call, given as what it does when it is done, with the fault asked for. */
#define WITH_FAULT(call, really)                                                                                                                     \
    do {                                                                                                                                             \
        int number = 0;                                                                                                                              \
        enum how how = fault(call, &number);                                                                                                         \
        if (how == FAILS) {                                                                                                                          \
            errno = number;                                                                                                                          \
            return -1;                                                                                                                               \
        }                                                                                                                                            \
        if (how == BEFORE)                                                                                                                           \
            raise(number);                                                                                                                           \
        int done = (int)(really);                                                                                                                    \
        if (how == AFTER)                                                                                                                            \
            raise(number);                                                                                                                           \
        return done;                                                                                                                                 \
    } while (0)

#define REAL(type, name) ((type)dlsym(RTLD_NEXT, name))

typedef int (*by_fd)(int);
typedef int (*by_two_paths)(const char *, const char *);

/* A folder to be opened is open-folder, a new file open-new. */
int open(const char *path, int flags, ...) {
    va_list args;
    va_start(args, flags);
    mode_t mode = flags & O_CREAT ? va_arg(args, mode_t) : 0;
    va_end(args);
    const char *call = flags & O_CREAT ? "open-new" : flags & O_DIRECTORY ? "open-folder" : "open";
    WITH_FAULT(call, REAL(int (*)(const char *, int, ...), "open")(path, flags, mode));
}

/* A folder is fsync-folder. */
int fsync(int fd) {
    struct stat of;
    WITH_FAULT(fstat(fd, &of) == 0 && S_ISDIR(of.st_mode) ? "fsync-folder" : "fsync", REAL(by_fd, "fsync")(fd));
}

ssize_t write(int fd, const void *from, size_t length) {
    static int before;
    int number = 0;
    size_t some = fault("write", &number) == FAILS && before++ == 0 ? length / 2 : 0;
    if (some > 0)
        return REAL(ssize_t(*)(int, const void *, size_t), "write")(fd, from, some);
    WITH_FAULT("write", REAL(ssize_t(*)(int, const void *, size_t), "write")(fd, from, length));
}

int fchown(int fd, uid_t owner, gid_t group) { WITH_FAULT("fchown", REAL(int (*)(int, uid_t, gid_t), "fchown")(fd, owner, group)); }

int fchmod(int fd, mode_t mode) { WITH_FAULT("fchmod", REAL(int (*)(int, mode_t), "fchmod")(fd, mode)); }

int flock(int fd, int how_locked) { WITH_FAULT("flock", REAL(int (*)(int, int), "flock")(fd, how_locked)); }

int rename(const char *from, const char *to) { WITH_FAULT("rename", REAL(by_two_paths, "rename")(from, to)); }

int link(const char *from, const char *to) { WITH_FAULT("link", REAL(by_two_paths, "link")(from, to)); }

int unlink(const char *path) { WITH_FAULT("unlink", REAL(int (*)(const char *), "unlink")(path)); }
