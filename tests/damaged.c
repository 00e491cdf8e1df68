/* Gives a window back whose words are damaged meanwhile: damaged FILE MOST LEFT RIGHT
 * No list has more than MOST operations. Takes the window and prints a line. When a line has come on standard input it gives the window back, and
 * asks for that once again, and prints both answers and why the first call has failed. */

#include <stdio.h>
#include <stdlib.h>

#include "nolthewyr_run.h"

static void stop(const char *reason)
{
    fprintf(stderr, "damaged: %s\n", reason);
    exit(1);
}

int main(int count, char **words)
{
    char error[400], line[8];
    if (count != 5)
        stop("usage: damaged FILE MOST LEFT RIGHT");
    nolthewyr_run *run = nolthewyr_run_open(words[1], error, sizeof error);
    if (run == NULL)
        stop(error);
    nolthewyr_run_list_at_most(run, strtoull(words[2], NULL, 10));
    if (nolthewyr_run_take(run, strtoull(words[3], NULL, 10), strtoull(words[4], NULL, 10), 0) != NOLTHEWYR_RUN_DONE)
        stop(nolthewyr_run_error(run));
    puts("held");
    fflush(stdout);
    if (fgets(line, sizeof line, stdin) == NULL)
        stop("nobody has damaged anything");
    int first = nolthewyr_run_give_back(run);
    snprintf(error, sizeof error, "%s", nolthewyr_run_error(run));
    printf("%d %d %s\n", first, nolthewyr_run_give_back(run), error);
    nolthewyr_run_close(run);
    return 0;
}
