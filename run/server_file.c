/* The file that a memory server writes and a run reads. */

#include "server_file.h"

#include <errno.h>
#include <fcntl.h>
#include <inttypes.h>
#include <stdio.h>
#include <string.h>
#include <sys/stat.h>
#include <unistd.h>

#include "file_locks.h"

enum { LINE_SIZE = 400, FILE_SIZE = 4096 };

#define COUNT(list) (sizeof(list) / sizeof *(list))
#define AT(field) offsetof(nolthewyr_server, field)

/* In the order of the file. Those from the first key on stand in the file of a server that is reached over libfabric. */
static const struct { const char *name; size_t at; } numbers[] = {
    {"layout", AT(identity.layout)}, {"levels", AT(identity.settings.levels)}, {"distance", AT(identity.settings.distance)},
    {"wait", AT(identity.settings.wait)}, {"patience", AT(identity.settings.patience)}, {"units", AT(identity.units)},
    {"start-key", AT(start.key)}, {"start-base", AT(start.base)}, {"words-key", AT(words.key)}, {"words-base", AT(words.base)},
    {"units-key", AT(units.key)}, {"units-base", AT(units.base)},
};
enum { OF_ALL_SERVERS = 6 };

/* A text that is empty is not written. */
static const struct { const char *name; size_t at, size; } texts[] = {
    {"version", AT(version), NOLTHEWYR_NAME_SIZE}, {"start", AT(identity.start), NOLTHEWYR_START_SIZE}, {"over", AT(over), NOLTHEWYR_NAME_SIZE},
    {"memory", AT(memory), NOLTHEWYR_NAME_SIZE}, {"host", AT(host), NOLTHEWYR_NAME_SIZE}, {"port", AT(port), NOLTHEWYR_NAME_SIZE},
    {"address", AT(address), 2 * NOLTHEWYR_ADDRESS_SIZE + 1},
};

uint64_t nolthewyr_unit_count(uint64_t levels)
{
    return nolthewyr_word_count(levels) == 0 ? 0 : (uint64_t)64 << (2 * (levels - 1));
}

bool nolthewyr_server_over_memory(const nolthewyr_server *server)
{
    return strcmp(server->over, "memory") == 0;
}

void nolthewyr_address_read(const nolthewyr_server *server, unsigned char *bytes)
{
    for (size_t i = 0; i < strlen(server->address) / 2; i++)
        if (sscanf(server->address + 2 * i, "%2hhx", &bytes[i]) != 1)
            break;
}

static bool number_set(nolthewyr_server *server, const char *name, const char *value)
{
    uint64_t number;
    char behind;
    for (size_t i = 0; i < COUNT(numbers); i++)
        if (strcmp(name, numbers[i].name) == 0 && sscanf(value, "%" SCNu64 "%c", &number, &behind) == 1) {
            memcpy((char *)server + numbers[i].at, &number, sizeof number);
            return true;
        }
    return false;
}

static bool text_set(nolthewyr_server *server, const char *name, const char *value)
{
    for (size_t i = 0; i < COUNT(texts); i++)
        if (strcmp(name, texts[i].name) == 0 && strlen(value) < texts[i].size) {
            strcpy((char *)server + texts[i].at, value);
            return true;
        }
    return false;
}

/* Reads each line; gives the number of the first that says nothing, or 0. */
static int lines_read(nolthewyr_server *server, FILE *from)
{
    char line[LINE_SIZE], name[LINE_SIZE], value[LINE_SIZE];
    for (int number = 1; fgets(line, sizeof line, from) != NULL; number++) {
        bool pair = sscanf(line, "%s %[^\n]", name, value) == 2;
        if (!pair || !(number_set(server, name, value) || text_set(server, name, value)))
            return number;
    }
    return 0;
}

/* Whether both versions have the same first two numbers: only then do their words mean the same. */
static bool same_series(const char *a, const char *b)
{
    const char *end = strrchr(a, '.');
    return end != NULL && strncmp(a, b, (size_t)(end - a) + 1) == 0;
}

/* Reads what there is, past no lock: a process that closes a file loses its locks of it. Gives how many bytes, or -1; a file without any says so
 * too. */
static ssize_t text_read(char *text, int opened, const char *file, char *error)
{
    ssize_t size = pread(opened, text, FILE_SIZE, 0);
    if (size < 0)
        snprintf(error, NOLTHEWYR_ERROR_SIZE, "%s: %s", file, strerror(errno));
    if (size == 0)
        snprintf(error, NOLTHEWYR_ERROR_SIZE, "%s: it is empty: no server has written it, or its copy is not whole", file);
    return size;
}

bool nolthewyr_server_read(nolthewyr_server *server, int opened, const char *file, char *error)
{
    char text[FILE_SIZE];
    memset(server, 0, sizeof *server);
    ssize_t size = text_read(text, opened, file, error);
    FILE *from = size > 0 ? fmemopen(text, (size_t)size, "r") : NULL;
    if (from == NULL)
        return false;
    int wrong = lines_read(server, from);
    fclose(from);
    if (wrong > 0)
        snprintf(error, NOLTHEWYR_ERROR_SIZE, "%s: line %d: not what rangeserver %s writes", file, wrong, NOLTHEWYR_VERSION);
    else if (!same_series(NOLTHEWYR_VERSION, server->version))
        snprintf(error, NOLTHEWYR_ERROR_SIZE, "%s: the server has version '%s', and this is %s", file, server->version, NOLTHEWYR_VERSION);
    else if (server->identity.start[0] == '\0')
        snprintf(error, NOLTHEWYR_ERROR_SIZE, "%s: no start stands in it, by which the server is known: take the file of a server of version %s",
                 file, NOLTHEWYR_VERSION);
    else
        return true;
    return false;
}

static void lines_written(const nolthewyr_server *server, FILE *to)
{
    size_t count = nolthewyr_server_over_memory(server) ? OF_ALL_SERVERS : COUNT(numbers);
    for (size_t i = 0; i < COUNT(texts); i++) {
        const char *text = (const char *)server + texts[i].at;
        if (text[0] != '\0')
            fprintf(to, "%s %s\n", texts[i].name, text);
    }
    for (size_t i = 0; i < count; i++) {
        uint64_t number;
        memcpy(&number, (const char *)server + numbers[i].at, sizeof number);
        fprintf(to, "%s %" PRIu64 "\n", numbers[i].name, number);
    }
}

/* A new file for this user alone: who can read it can write the table. What a process of the same number has left there is removed. */
static FILE *created(const char *file)
{
    unlink(file);
    int opened = open(file, O_RDWR | O_CREAT | O_EXCL | O_CLOEXEC, 0600);
    return opened < 0 ? NULL : fdopen(opened, "r+");
}

int nolthewyr_server_write(const nolthewyr_server *server, const char *file, char *error)
{
    char whole[4096];
    FILE *to = NULL;
    bool linked = false;
    if ((size_t)snprintf(whole, sizeof whole, "%s.%ld", file, (long)getpid()) >= sizeof whole)
        errno = ENAMETOOLONG;
    else if ((to = created(whole)) != NULL) {
        lines_written(server, to);
        /* A link, unlike a rename, fails where another server has written its file meanwhile. */
        linked = fflush(to) == 0 && nolthewyr_locked_by_server(fileno(to)) && link(whole, file) == 0;
    }
    if (!linked)
        snprintf(error, NOLTHEWYR_ERROR_SIZE, "%s: %s", file, strerror(errno));
    if (to != NULL)
        unlink(whole);
    /* `to` stays open: with it the lock would go. */
    return linked ? fileno(to) : -1;
}

bool nolthewyr_server_settled(nolthewyr_settings settings, char *error)
{
    uint64_t number = nolthewyr_operation((nolthewyr_client){0}, settings, 0).number;
    if (number != NOLTHEWYR_CAUSE_ACCEPTED)
        snprintf(error, NOLTHEWYR_ERROR_SIZE, "the settings are refused by %" PRIu64 ": %s", number, nolthewyr_cause_text(number));
    else if (settings.patience <= settings.wait)
        snprintf(error, NOLTHEWYR_ERROR_SIZE, "the patience %" PRIu64 " is not over the wait %" PRIu64
                 ": a window of two pieces might never be taken", settings.patience, settings.wait);
    else
        return true;
    return false;
}
