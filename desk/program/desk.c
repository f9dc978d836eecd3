/* A desk: keeps a meter's ledger in a file, files blocks in it, and says what it holds. All that it knows of blocks, ledgers, tables and dates is the library's.
 * Here are its commands as a table, and the usage, which is written from it. */
#define _XOPEN_SOURCE 700

#include "commands.h"
#include "cop6.h"
#include "say.h"

#include <errno.h>
#include <fcntl.h>
#include <stdio.h>
#include <string.h>
#include <unistd.h>

static int help_command(char **args, int count);
static int version_command(char **args, int count);

static const struct command {
    const char *name, *words; /* the words that go behind the name, */
    int least, most;          /* how many they are, */
    const char *does;         /* and what it does; one without is another name */
    int (*run)(char **args, int count);
} commands[] = {
    {"open", "LEDGER IDENTIFIER DATE DAYS", 4, 4, "open a new ledger: the meter, the window's first day, 1 to " FIGURES(COP6_MOST_DAYS) " days",
     open_command},
    {"file", "LEDGER BLOCK..", 2, 1 << 30, "file blocks; says what each one brought, and a sum", file_command},
    {"differ", "LEDGER BLOCK", 2, 2, "say where a block first differs from what the ledger holds", differ_command},
    {"summary", "LEDGER [DATE [DATE]]", 1, 3,
     "a line for each day: date, half-hours held, start reading,\nsummed advance, reverse and Level 2 marks; or absent", summary_command},
    {"missing", "LEDGER [DATE [DATE]]", 1, 3, "the half-hours that are not held, in stretches", missing_command},
    {"show", "LEDGER [DATE [DATE]]", 1, 3, "draw the half-hours of each day", show_command},
    {"values", "LEDGER [DATE [DATE]]", 1, 3, "the half-hours held, comma-separated, a line for each", values_command},
    {"page", "LEDGER [TABLE [DATE]]", 1, 3,
     "a page for a browser or for paper, HTML: the whole window in one\npicture; with a table, its rates of seven days as well", page_command},
    {"list", "BLOCK", 1, 1, "list a block, a line for each day", list_command},
    {"block", "BLOCK", 1, 1, "a block's registers and demands, with their names", block_command},
    {"week", "TABLE DATE", 2, 2, "draw seven days of a tariff switching table: the rate of each half-hour", week_command},
    {"--help", "", 0, 0, "this; also -h", help_command},
    {"--version", "", 0, 0, "the version of the desk and its library", version_command},
    {"-h", "", 0, 0, NULL, help_command},
    {"help", "", 0, 0, NULL, help_command},
};
enum { COMMANDS = sizeof commands / sizeof commands[0], WORDS = 40 };

static const char notes[] =
    "\n"
    "DATE is YYMMDD; two give a first and a last day, none the whole window. BLOCK may be -, standard input; so may TABLE.\n"
    "Readings, values and advances are in units of 10 Wh, times in UTC. A refused block changes nothing; the other blocks of\n"
    "the command are filed all the same. LEDGER.new, beside a ledger, is the desk's own: the file that is to replace it.\n"
    "IDENTIFIER is twelve characters. A ledger's meter is the last nine: it takes blocks of these whatever the first three are,\n"
    "which the site may set, and keeps its own as they are given here; where they are not known, 000.\n"
    "The seven days begin with DATE; on a page, where none is given, with the window's first day.\n"
    "\n"
    "Exit status, the highest that holds:\n"
    "0  done\n"
    "1  refused, with the answer number on standard error; or a block differs\n"
    "2  wrong usage, or a file that can't be read or written\n"
    "3  filed or opened, but not made sure: the ledger's folder can't be synced\n";

static int help_command(char **args, int count) {
    (void)args;
    (void)count;
    for (const struct command *c = commands; c < commands + COMMANDS && c->does != NULL; c++) {
        const char *rest = strchr(c->does, '\n');
        int length = rest == NULL ? (int)strlen(c->does) : (int)(rest - c->does);
        int name = printf("desk %s %s", c->name, c->words);
        printf("%*s%.*s\n", WORDS - name, "", length, c->does);
        if (rest != NULL)
            printf("%*s%s\n", WORDS, "", rest + 1);
    }
    fputs(notes, stdout);
    return DONE;
}

static int version_command(char **args, int count) {
    (void)args;
    (void)count;
    puts("desk " COP6_VERSION);
    return DONE;
}

static int run(int count, char **args) {
    for (const struct command *c = commands; count > 0 && c < commands + COMMANDS; c++) {
        if (strcmp(args[0], c->name) != 0)
            continue;
        if (c->least <= count - 1 && count - 1 <= c->most)
            return c->run(args + 1, count - 1);
        return trouble("wrong usage: it is desk %s%s%s", c->name, *c->words != '\0' ? " " : "", c->words);
    }
    return trouble("wrong usage: desk --help says what is right");
}

/* Standard input, output and error that are closed are held by what can't be read or written, so that no file of the ledger's takes their numbers. */
static void hold_standard(void) {
    for (int fd = STDIN_FILENO; fd <= STDERR_FILENO; fd++)
        if (fcntl(fd, F_GETFD) < 0 && open("/dev/null", fd == STDIN_FILENO ? O_WRONLY : O_RDONLY) < 0)
            _exit(TROUBLE);
}

int main(int count, char **args) {
    hold_standard();
    int status = run(count - 1, args + 1);
    int torn = ferror(stdout);
    if (fflush(stdout) != 0)
        status = worse(status, trouble_with("standard output"));
    else if (torn)
        status = worse(status, trouble("standard output: not all of it could be written"));
    return status;
}
