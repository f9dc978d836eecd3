/* A file is read before anything is done with it, so that it may come from a pipe, and is shorter than it may be or too long, never cut. */
#define _XOPEN_SOURCE 700

#include "files.h"

#include "cop6.h"
#include "say.h"

#include <errno.h>
#include <fcntl.h>
#include <stdlib.h>
#include <string.h>
#include <unistd.h>

/* Gives back the room that a file did not need. */
static void trim(struct bytes *b) {
    uint8_t *at = realloc(b->at, b->length > 0 ? b->length : 1);
    if (at != NULL)
        b->at = at;
}

int read_all(int fd, const char *name, size_t most, struct bytes *b) {
    size_t room = most + 1;
    b->length = 0;
    b->at = malloc(room);
    if (b->at == NULL)
        return trouble_with(name);
    while (b->length < room) {
        ssize_t n = read(fd, b->at + b->length, room - b->length);
        if (n == 0)
            break;
        if (n < 0 && errno == EINTR)
            continue;
        if (n < 0) {
            int status = trouble_with(name);
            free(b->at);
            b->at = NULL;
            return status;
        }
        b->length += (size_t)n;
    }
    trim(b);
    return DONE;
}

static int is_input(const char *path) { return strcmp(path, "-") == 0; }

const char *name_of(const char *path) { return is_input(path) ? "standard input" : path; }

int read_file(const char *path, size_t most, struct bytes *b, struct stat *of) {
    const char *name = name_of(path);
    int fd = is_input(path) ? STDIN_FILENO : open(path, O_RDONLY | O_CLOEXEC);
    if (fd < 0)
        return trouble_with(name);
    int status = fstat(fd, of) == 0 ? read_all(fd, name, most, b) : trouble_with(name);
    if (!is_input(path))
        close(fd);
    return status;
}

int read_block(const char *path, struct bytes *b, struct stat *of) { return read_file(path, COP6_BLOCK_BYTES(COP6_MOST_DAYS), b, of); }

int read_ledger(const char *path, struct bytes *b, struct stat *of) { return read_file(path, most_ledger(), b, of); }

int same_file(const struct stat *a, const struct stat *b) { return a->st_dev == b->st_dev && a->st_ino == b->st_ino; }

size_t most_ledger(void) { return (size_t)cop6_ledger_length(COP6_MOST_DAYS); }
