/* What the desk says where something goes wrong, and the exit status that goes with it. */
#ifndef SAY_H
#define SAY_H

#include <stdint.h>

/* Done; refused by the library; wrong usage or a file that can't be read or written; filed, but not made sure. */
enum { DONE = 0, REFUSED = 1, TROUBLE = 2, UNSURE = 3 };

/* The status of two things that were done. */
int worse(int a, int b);

/* Say what went wrong, the second by errno; TROUBLE. */
int trouble(const char *format, ...) __attribute__((format(printf, 1, 2)));
int trouble_with(const char *name);

/* Say that something is refused, by its answer alone or by why; REFUSED. */
int refused(const char *name, uint64_t r);
int refused_for(const char *name, uint32_t answer, const char *format, ...) __attribute__((format(printf, 3, 4)));

/* The figures of a number that has a name, as text. */
#define FIGURES(number) FIGURES_OF(number)
#define FIGURES_OF(number) #number

/* The end of a word of which there are n. */
const char *plural(uint64_t n);

#endif
