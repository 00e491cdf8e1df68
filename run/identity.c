/* By what a start of a server is known. */

#include "identity.h"

#include <inttypes.h>
#include <stdio.h>
#include <string.h>
#include <sys/random.h>

#define COUNT(list) (sizeof(list) / sizeof *(list))
#define AT(field) offsetof(nolthewyr_identity, field)

static const struct { const char *name; size_t at; } numbers[] = {
    {"levels", AT(settings.levels)}, {"distance", AT(settings.distance)}, {"wait", AT(settings.wait)},
    {"patience", AT(settings.patience)}, {"units", AT(units)},
};

bool nolthewyr_number_drawn(uint64_t *number)
{
    return getrandom(number, sizeof *number, 0) == (ssize_t)sizeof *number;
}

bool nolthewyr_start_drawn(nolthewyr_identity *identity)
{
    uint64_t halves[2];
    bool drawn = nolthewyr_number_drawn(&halves[0]) && nolthewyr_number_drawn(&halves[1]);
    if (drawn)
        snprintf(identity->start, sizeof identity->start, "%016" PRIx64 "%016" PRIx64, halves[0], halves[1]);
    return drawn;
}

static uint64_t number_at(const nolthewyr_identity *identity, size_t at)
{
    uint64_t number;
    memcpy(&number, (const char *)identity + at, sizeof number);
    return number;
}

/* Says which numbers differ, each behind `before`; gives how many. */
static size_t numbers_unlike(const nolthewyr_identity *in_file, const nolthewyr_identity *at_server, const char *before, char *text, size_t size)
{
    size_t unlike = 0;
    text[0] = '\0';
    for (size_t i = 0; i < COUNT(numbers); i++) {
        uint64_t said = number_at(in_file, numbers[i].at), found = number_at(at_server, numbers[i].at);
        size_t length = strlen(text);
        if (said != found)
            snprintf(text + length, size - length, "%s%s %" PRIu64 " in the file, %" PRIu64 " at the server", unlike++ == 0 ? before : ", ",
                     numbers[i].name, said, found);
    }
    return unlike;
}

bool nolthewyr_identity_same(const nolthewyr_identity *in_file, const nolthewyr_identity *at_server, const char *file, char *error)
{
    char unlike[NOLTHEWYR_ERROR_SIZE / 2];
    bool same_start = strncmp(in_file->start, at_server->start, NOLTHEWYR_START_SIZE) == 0;
    size_t count = numbers_unlike(in_file, at_server, same_start ? "" : " (", unlike, sizeof unlike);
    if (in_file->layout != NOLTHEWYR_LAYOUT || at_server->layout != NOLTHEWYR_LAYOUT)
        snprintf(error, NOLTHEWYR_ERROR_SIZE, "%s: memory of layout %" PRIu64 " in the file, %" PRIu64 " at the server, and this library knows %d: "
                 "server and runs need one version", file, in_file->layout, at_server->layout, NOLTHEWYR_LAYOUT);
    else if (!same_start)
        snprintf(error, NOLTHEWYR_ERROR_SIZE, "%s: the server was started anew: take its new file%s%s", file, unlike, count > 0 ? ")" : "");
    else if (count > 0)
        snprintf(error, NOLTHEWYR_ERROR_SIZE, "%s: it is not as the server wrote it: %s: take the server's file", file, unlike);
    else
        return true;
    return false;
}
