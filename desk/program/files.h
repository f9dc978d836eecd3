/* Files as the desk reads them: all of one, into memory. */
#ifndef FILES_H
#define FILES_H

#include <stddef.h>
#include <stdint.h>
#include <sys/stat.h>

/* A file's bytes, of which no more are read than one above the most that could be right. */
struct bytes {
    uint8_t *at;
    size_t length;
};

/* What a path is called in what the desk says: - is standard input. */
const char *name_of(const char *path);

/* Read all of an open file, or of the one at a path, - being standard input, of which `of` says which file it is. The memory is as long as the file.
 * Where it can't be read, say so. */
int read_all(int fd, const char *name, size_t most, struct bytes *b);
int read_file(const char *path, size_t most, struct bytes *b, struct stat *of);

/* The same of a block and of a ledger. */
int read_block(const char *path, struct bytes *b, struct stat *of);
int read_ledger(const char *path, struct bytes *b, struct stat *of);

/* Whether these are of one file. */
int same_file(const struct stat *a, const struct stat *b);

/* The most bytes that a ledger has. */
size_t most_ledger(void);

#endif
