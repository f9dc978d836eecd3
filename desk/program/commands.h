/* The desk's commands: each takes the words behind its own, and returns the exit status. */
#ifndef COMMANDS_H
#define COMMANDS_H

int open_command(char **args, int count);
int file_command(char **args, int count);
int differ_command(char **args, int count);

int summary_command(char **args, int count);
int missing_command(char **args, int count);
int show_command(char **args, int count);
int values_command(char **args, int count);
int page_command(char **args, int count);

int list_command(char **args, int count);
int block_command(char **args, int count);

int week_command(char **args, int count);

#endif
