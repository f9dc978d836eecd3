/* What is made is noted, and what has its name is forgotten, with the signals held back: so the handler never takes away another desk's file. */
#define _XOPEN_SOURCE 700

#include "new_file.h"

#include <errno.h>
#include <fcntl.h>
#include <signal.h>
#include <stddef.h>
#include <stdio.h>
#include <unistd.h>

/* The signals that end a program, but for faults of its own. */
static const int ending[] = {SIGHUP,  SIGINT,  SIGQUIT, SIGPIPE,   SIGALRM, SIGTERM, SIGUSR1,
                             SIGUSR2, SIGXCPU, SIGXFSZ, SIGVTALRM, SIGPROF, SIGPOLL};
enum { ENDING = sizeof ending / sizeof ending[0] };

static const char *volatile noted;

static void take_away(int signal) {
    if (noted != NULL)
        unlink(noted);
    raise(signal);
}

static void all_ending(sigset_t *set) {
    sigemptyset(set);
    for (int i = 0; i < ENDING; i++)
        sigaddset(set, ending[i]);
}

/* The handler stands for one signal and then for none: raised anew, this does what it does to any program. A signal that is ignored stays so. */
static void catch_ending(void) {
    struct sigaction was, caught = {.sa_handler = take_away, .sa_flags = (int)SA_RESETHAND};
    all_ending(&caught.sa_mask);
    for (int i = 0; i < ENDING; i++)
        if (sigaction(ending[i], NULL, &was) == 0 && was.sa_handler == SIG_DFL)
            sigaction(ending[i], &caught, NULL);
}

static void hold_signals(sigset_t *before) {
    sigset_t set;
    all_ending(&set);
    sigprocmask(SIG_BLOCK, &set, before);
}

static void let_signals(const sigset_t *before) {
    int why = errno;
    sigprocmask(SIG_SETMASK, before, NULL);
    errno = why;
}

int make_new_file(const char *path) {
    sigset_t before;
    int fd = -1;
    catch_ending();
    hold_signals(&before);
    if (unlink(path) == 0 || errno == ENOENT)
        fd = open(path, O_WRONLY | O_CREAT | O_EXCL | O_NOFOLLOW | O_CLOEXEC, 0600);
    if (fd >= 0)
        noted = path;
    let_signals(&before);
    return fd;
}

int name_new_file(const char *path, int is_new) {
    sigset_t before;
    hold_signals(&before);
    int named = is_new ? link(noted, path) : rename(noted, path);
    int why = errno;
    if (is_new || named != 0)
        unlink(noted);
    noted = NULL;
    errno = why;
    let_signals(&before);
    return named;
}

void drop_new_file(void) {
    sigset_t before;
    hold_signals(&before);
    unlink(noted);
    noted = NULL;
    let_signals(&before);
}
