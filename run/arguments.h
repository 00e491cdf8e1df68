/* What a program was started with: the numbers and times among its arguments, the signals that it is to ignore, and the stream to which it
 * prints. */

#ifndef NOLTHEWYR_ARGUMENTS_H
#define NOLTHEWYR_ARGUMENTS_H

#include <stdbool.h>
#include <stdint.h>

/* As schedule(1) has them. */
enum { NOLTHEWYR_EXIT_FOUND_WRONG = 1, NOLTHEWYR_EXIT_LINE = 2, NOLTHEWYR_EXIT_FAILED = 3 };

/* The whole text as a number below 2^64; false if it is none. */
bool nolthewyr_number(const char *text, uint64_t *number);

/* The whole text as a time in nanoseconds: a number, with ns, us, ms or s behind it if it is not one of nanoseconds. False if it is none, or is
 * not below 2^64. */
bool nolthewyr_duration(const char *text, uint64_t *nanoseconds);

/* From now on the signal does this, unless it was ignored when the program was started, as nohup(1) has it: then it stays ignored. */
void nolthewyr_on_signal(int signal, void (*action)(int));

/* From now on to write into a pipe that nobody reads any more fails, and does not end the program: it may have a part of a tree to give back, or a
 * file to remove. */
void nolthewyr_not_ended_by_pipes(void);

/* The status, if all that the program has printed is written to standard output; if not, says why on standard error, and gives
 * NOLTHEWYR_EXIT_FAILED. */
int nolthewyr_written(const char *program, int status);

/* If --help or --version stands alone on the command line, prints how the program is used, or its version, and gives the exit status; -1 for any
 * other line. */
int nolthewyr_described(const char *program, const char *usage, int argc, char **argv);

#endif
