/* A forecast run knows its window as quarters of a ward. It asks for the units that it has to lock, and which quarter a unit is.
 * ward [LEVELS]: the tree has 4 levels, or as many as are said. */

#include "nolthewyr.h"

#include <inttypes.h>
#include <stdio.h>
#include <stdlib.h>

enum { WARDS = 3, WEEKS = 2, DAYS = 7, OPENING = 6 * 4, CLOSING = 22 * 4, MIDNIGHT = 24 * 4 };

static nolthewyr_calendar calendar = {.levels = 4, .wards = WARDS, .weeks = WEEKS};
static uint64_t hours[WARDS * DAYS * 2];

/* Ward 0 is open from 06:00 to 22:00, the others day and night: a pair for each ward and day. */
static void fill_hours(void)
{
    for (size_t pair = 0; pair < WARDS * DAYS; pair++) {
        hours[2 * pair] = pair < DAYS ? OPENING : 0;
        hours[2 * pair + 1] = pair < DAYS ? CLOSING : MIDNIGHT;
    }
}

static void print_quarter(nolthewyr_quarter at)
{
    printf("ward %" PRIu64 " week %" PRIu64 " day %" PRIu64 " quarter %" PRIu64, at.ward, at.week, at.day, at.quarter);
}

static void print_unit(uint64_t unit)
{
    printf("  unit %" PRIu64 " is ", unit);
    print_quarter(nolthewyr_calendar_quarter(calendar, unit).at);
    printf("\n");
}

/* The edges are what a request takes: the last quarter is locked too. */
static void print_window(nolthewyr_quarter first, nolthewyr_quarter last)
{
    nolthewyr_calendar_window_answer window =
        nolthewyr_calendar_window(hours, sizeof hours / sizeof *hours, calendar, first, last);
    print_quarter(first);
    printf(" to ");
    print_quarter(last);
    if (window.number != NOLTHEWYR_CAUSE_ACCEPTED) {
        printf(": refused by %" PRIu64 ", %s\n", window.number, nolthewyr_cause_text(window.number));
        return;
    }
    printf(": [%" PRIu64 ", %" PRIu64 ")\n", window.left, window.right);
    print_unit(window.left);
    print_unit(window.right - 1);
}

int main(int argc, char **argv)
{
    if (argc > 1)
        calendar.levels = strtoull(argv[1], NULL, 10);
    fill_hours();
    print_window((nolthewyr_quarter){2, 0, 6, 95}, (nolthewyr_quarter){2, 1, 0, 7});
    print_window((nolthewyr_quarter){0, 0, 0, 24}, (nolthewyr_quarter){0, 0, 0, 87});
    print_window((nolthewyr_quarter){0, 0, 0, 24}, (nolthewyr_quarter){0, 0, 1, 40});
    print_window((nolthewyr_quarter){1, 0, 0, 40}, (nolthewyr_quarter){2, 0, 0, 48});
    return 0;
}
