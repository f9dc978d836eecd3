/* The one new file that a desk has under way at a time, which no signal that ends the desk leaves behind. */
#ifndef NEW_FILE_H
#define NEW_FILE_H

/* Makes the file anew, whatever had its name, open to be written; -1 where it can't be. `path` must stay until the file is named or dropped. */
int make_new_file(const char *path);

/* Gives it its name: a new name, or that of a file that it replaces. Where that can't be, it is dropped, and -1. */
int name_new_file(const char *path, int is_new);

/* Takes it away. */
void drop_new_file(void);

#endif
