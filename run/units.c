/* Units on standard input and output, as text or as bytes. */

#include "units.h"

#include <ctype.h>
#include <endian.h>
#include <errno.h>
#include <inttypes.h>
#include <signal.h>
#include <stdio.h>
#include <stdlib.h>
#include <string.h>

#include "run.h"

/* So many units there is room for at first. */
enum { FIRST_ROOM = 1024 };

static int wrong(const char *reason)
{
    fprintf(stderr, "rangerun: standard input: %s\n", reason);
    return NOLTHEWYR_EXIT_FAILED;
}

static bool is_power_of_two(uint64_t number)
{
    return (number & (number - 1)) == 0;
}

/* Puts a unit behind those that are there. There is room for FIRST_ROOM at first, and for twice as many whenever that is used up. No more are
 * kept than the largest table has. */
static int added(nolthewyr_transfer *to, uint64_t unit)
{
    uint64_t count = to->count;
    if (count == nolthewyr_unit_count(NOLTHEWYR_MOST_LEVELS))
        return wrong("more units than the largest table has");
    if (count == 0 || (count >= FIRST_ROOM && is_power_of_two(count))) {
        uint64_t *room = realloc(to->units, (count == 0 ? FIRST_ROOM : 2 * count) * sizeof *room);
        if (room == NULL)
            return wrong("no memory for so many units");
        to->units = room;
    }
    to->units[to->count++] = unit;
    return 0;
}

/* The number that begins with this byte. False if what stands there is none. */
static bool number_read(int byte, uint64_t *number)
{
    bool below = isdigit(byte);
    for (*number = 0; below && isdigit(byte); byte = getc_unlocked(stdin))
        below = !__builtin_mul_overflow(*number, 10, number) && !__builtin_add_overflow(*number, (uint64_t)(byte - '0'), number);
    ungetc(byte, stdin); /* a line end is counted by who skips it */
    return below && (byte == EOF || isspace(byte));
}

static int text_input(nolthewyr_transfer *to)
{
    uint64_t line = 1, number;
    int status = 0, byte;
    while (status == 0 && (byte = getc_unlocked(stdin)) != EOF)
        if (isspace(byte))
            line += byte == '\n';
        else if (number_read(byte, &number))
            status = added(to, number);
        else if (!ferror(stdin)) {
            fprintf(stderr, "rangerun: standard input, line %" PRIu64 ": not a number below 2^64\n", line);
            status = NOLTHEWYR_EXIT_FAILED;
        }
    return status;
}

static int binary_input(nolthewyr_transfer *to)
{
    uint64_t unit;
    size_t size = 0;
    int status = 0;
    while (status == 0 && (size = fread(&unit, 1, sizeof unit, stdin)) == sizeof unit)
        status = added(to, le64toh(unit));
    if (status == 0 && size > 0 && !ferror(stdin))
        return wrong("its bytes are no whole units, of which each has 8 bytes");
    return status;
}

int nolthewyr_units_input(nolthewyr_transfer *to)
{
    int status = to->binary ? binary_input(to) : text_input(to);
    return status == 0 && ferror(stdin) ? wrong(strerror(errno)) : status;
}

bool nolthewyr_units_fit(const nolthewyr_transfer *transfer)
{
    const nolthewyr_edges *window = &transfer->window;
    if (transfer->count == window->right - window->left)
        return true;
    fprintf(stderr, "rangerun: standard input: %" PRIu64 " units, where [%" PRIu64 ", %" PRIu64 ") has %" PRIu64 "; nothing is written\n",
            transfer->count, window->left, window->right, window->right - window->left);
    return false;
}

int nolthewyr_units_room(nolthewyr_transfer *transfer)
{
    transfer->count = transfer->window.right - transfer->window.left;
    transfer->units = malloc(transfer->count * sizeof *transfer->units);
    if (transfer->units != NULL)
        return 0;
    fprintf(stderr, "rangerun: no memory for %" PRIu64 " units\n", transfer->count);
    return NOLTHEWYR_EXIT_FAILED;
}

static bool unit_output(uint64_t unit, bool binary)
{
    uint64_t bytes = htole64(unit);
    return binary ? fwrite(&bytes, sizeof bytes, 1, stdout) == 1 : printf("%" PRIu64 "\n", unit) > 0;
}

/* A pipe whose reader has gone is told like any other failure. */
int nolthewyr_units_output(const nolthewyr_transfer *transfer)
{
    bool done = true;
    signal(SIGPIPE, SIG_IGN);
    for (uint64_t i = 0; i < transfer->count && done; i++)
        done = unit_output(transfer->units[i], transfer->binary);
    if (done && fclose(stdout) == 0)
        return 0;
    fprintf(stderr, "rangerun: standard output: %s: not all units are there\n", strerror(errno));
    return NOLTHEWYR_EXIT_FAILED;
}
