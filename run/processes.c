/* Which processes have a file open, as /proc tells. */

#include "processes.h"

#include <ctype.h>
#include <dirent.h>
#include <stdbool.h>
#include <stdio.h>
#include <stdlib.h>
#include <string.h>
#include <sys/stat.h>
#include <unistd.h>

#include "identity.h"

/* Of so many processes the names are said. */
enum { NAMED = 8, PATH_SIZE = 600 };

/* Whether a process has the file open. Of one that may not be looked into it is not known. */
static bool has_open(const char *process, const struct stat *file)
{
    char path[PATH_SIZE];
    struct stat found;
    struct dirent *entry;
    bool has = false;
    snprintf(path, sizeof path, "/proc/%s/fd", process);
    DIR *opened = opendir(path);
    while (opened != NULL && !has && (entry = readdir(opened)) != NULL) {
        snprintf(path, sizeof path, "/proc/%s/fd/%s", process, entry->d_name);
        has = stat(path, &found) == 0 && found.st_dev == file->st_dev && found.st_ino == file->st_ino;
    }
    if (opened != NULL)
        closedir(opened);
    return has;
}

/* The command of a process, as far as it is known. */
static void command_read(const char *process, char *command, size_t size)
{
    char path[PATH_SIZE];
    snprintf(path, sizeof path, "/proc/%s/comm", process);
    snprintf(command, size, "?");
    FILE *from = fopen(path, "r");
    if (from != NULL && fgets(command, (int)size, from) != NULL)
        command[strcspn(command, "\n")] = '\0';
    if (from != NULL)
        fclose(from);
}

static void named(const char *process, size_t place, char *who)
{
    char command[32];
    size_t length = strlen(who);
    command_read(process, command, sizeof command);
    if (place < NAMED)
        snprintf(who + length, NOLTHEWYR_ERROR_SIZE / 2 - length, "%sprocess %s (%s)", place == 0 ? "" : ", ", process, command);
    else if (place == NAMED)
        snprintf(who + length, NOLTHEWYR_ERROR_SIZE / 2 - length, " and others");
}

void nolthewyr_processes_named(int opened, char *who)
{
    struct stat file;
    struct dirent *entry;
    size_t count = 0;
    who[0] = '\0';
    DIR *processes = fstat(opened, &file) == 0 ? opendir("/proc") : NULL;
    while (processes != NULL && (entry = readdir(processes)) != NULL)
        if (isdigit((unsigned char)entry->d_name[0]) && atol(entry->d_name) != (long)getpid() && has_open(entry->d_name, &file))
            named(entry->d_name, count++, who);
    if (processes != NULL)
        closedir(processes);
    if (count == 0)
        snprintf(who, NOLTHEWYR_ERROR_SIZE, "processes of others, whose names this user may not see");
}
