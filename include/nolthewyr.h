/* Locks on windows of one long table of units, for C and C++. docs/LINKING.md says how a window is taken and given back.
 *
 * The library allocates nothing: the caller lends clients and words. The proof of the calls assumes what Rust's references give, and
 * from C it is the caller's duty:
 * - each length is true: `clients` has `client_count` elements, `words` has `word_count`, `rows` has `row_count`, `hours` has
 *   `hour_count`, `operations` has `room` and `found` has `found_count`, at aligned addresses; no pointer is null;
 * - the two arrays do not overlap;
 * - while a call runs nobody else reads or writes them (while a page is asked for, others may read the clients), and between the calls
 *   of one table nobody else writes them.
 * All else is tested: a call with any other numbers in its arguments or in the arrays is accepted or refused by a number.
 *
 * A client is stepped by its own clock, which may start at any number and need not agree with another's. It does not go back: a step
 * below that client's last clock is refused by 5. And it is true within 1 part in 10,000: between any two steps of a client 10,000 times
 * the ticks of its clock is 9,999 to 10,001 times the ticks that truly went by from call to call. Rounding counts, and so does what goes
 * by between the reading of a clock and the call. No call can test this. If it is not so, two clients may come to hold overlapping
 * windows; still, with any clocks, the tree is clean when all are idle. docs/LINKING.md says which clocks will do. */

#ifndef NOLTHEWYR_H
#define NOLTHEWYR_H

#include <stddef.h>
#include <stdint.h>

#ifdef __cplusplus
extern "C" {
#endif

/* The version of this header. Structs grow between versions: a program goes with a library whose first two numbers are the same, and
 * whose third, which grows with new functions, is not lower if the program calls one of these. */
#define NOLTHEWYR_VERSION "0.4.4"

/* Where a client is. It holds its window exactly while its phase is 9. */
enum nolthewyr_phase {
    NOLTHEWYR_PHASE_IDLE = 0,
    NOLTHEWYR_PHASE_TICKET = 1,
    NOLTHEWYR_PHASE_TURN = 2,
    NOLTHEWYR_PHASE_CLIMB = 3,
    NOLTHEWYR_PHASE_BLOCKED = 4,
    NOLTHEWYR_PHASE_CLAIM = 5,
    NOLTHEWYR_PHASE_NOTIFY = 6,
    NOLTHEWYR_PHASE_WAIT = 7,
    NOLTHEWYR_PHASE_CHECK = 8,
    NOLTHEWYR_PHASE_HELD = 9,
    NOLTHEWYR_PHASE_RETURNING = 10
};

/* How a client's last window ended, from phase 10 on until its next request. After 2 and 4 nothing is wrong with the window: once idle, the
 * client asks for it again. It is late if its claim took 9,999/10,001 of the wait or longer, and out of patience if it had its first
 * piece, and not the later one within the patience: it gives the first back, since those for whom it waits may wait for that. */
enum nolthewyr_outcome {
    NOLTHEWYR_OUTCOME_NONE = 0,
    NOLTHEWYR_OUTCOME_RELEASED = 1,
    NOLTHEWYR_OUTCOME_LATE = 2,
    NOLTHEWYR_OUTCOME_CANCELLED = 3,
    NOLTHEWYR_OUTCOME_OUT_OF_PATIENCE = 4
};

/* The number that a call answers: accepted, or why it is refused. nolthewyr_cause_text says each in words. */
enum nolthewyr_cause {
    NOLTHEWYR_CAUSE_ACCEPTED = 0,
    NOLTHEWYR_CAUSE_SETTINGS = 1,
    NOLTHEWYR_CAUSE_WORD_COUNT = 2, /* of a planners' page: not one row for each client */
    NOLTHEWYR_CAUSE_CLIENT_COUNT = 3,
    NOLTHEWYR_CAUSE_CLIENT = 4,
    NOLTHEWYR_CAUSE_CLOCK = 5,
    NOLTHEWYR_CAUSE_UNREADABLE = 6,
    NOLTHEWYR_CAUSE_WINDOW = 7,
    NOLTHEWYR_CAUSE_PHASE = 8,
    NOLTHEWYR_CAUSE_CLEAR_BIT = 9,
    NOLTHEWYR_CAUSE_CALENDAR = 12,
    NOLTHEWYR_CAUSE_LAST_QUARTER = 13,
    NOLTHEWYR_CAUSE_CLOSED = 14
};

/* The levels H of the tree (2..12), the distance m of notices (1..4), the wait T and the patience P (both 1..2^32 - 1 ticks). */
typedef struct nolthewyr_settings {
    uint64_t levels;
    uint64_t distance;
    uint64_t wait;
    uint64_t patience;
} nolthewyr_settings;

/* A client record. A caller reads the phase, the outcome and the window [left, right), and writes nothing. `t1`, `t0` and `taken` are
 * times by the client's own clock; `taken` is that at which the first piece was taken. */
typedef struct nolthewyr_record {
    uint64_t phase;
    uint64_t outcome;
    uint64_t left;
    uint64_t right;
    uint64_t first;
    uint64_t second;
    uint64_t current;
    uint64_t giving;
    uint64_t grip;
    uint64_t ticket;
    uint64_t place;
    uint64_t notices;
    uint64_t t1;
    uint64_t t0;
    uint64_t taken;
} nolthewyr_record;

/* A client: its last clock, which is that of its last accepted step and 0 after an opening, and its record. A caller writes nothing. */
typedef struct nolthewyr_client {
    uint64_t clock;
    nolthewyr_record record;
} nolthewyr_client;

/* A request has its edges in a and b, a step its clock in a. No function looks at `kind`. */
typedef struct nolthewyr_call {
    uint64_t kind;
    uint64_t client;
    uint64_t a;
    uint64_t b;
} nolthewyr_call;

/* The number, the nodes of a window (second 0 for none), and how many units they have beyond it; all 0 in a refused answer. */
typedef struct nolthewyr_cover_answer {
    uint64_t number;
    uint64_t first;
    uint64_t second;
    uint64_t over;
} nolthewyr_cover_answer;

/* The number, and how many steps a window needs; 0 in a refused answer. */
typedef struct nolthewyr_step_count_answer {
    uint64_t number;
    uint64_t steps;
} nolthewyr_step_count_answer;

/* What planners see of a client: its phase, its window [left, right), the nodes of it (second 0 for none), how many units these have
 * beyond it, and how many steps the window needs with nobody in its way, whatever the phase; all 0 for an idle client. */
typedef struct nolthewyr_row {
    uint64_t phase;
    uint64_t left;
    uint64_t right;
    uint64_t first;
    uint64_t second;
    uint64_t over;
    uint64_t steps;
} nolthewyr_row;

/* What a forecast run sees: the number, its own record, and how many clients are in phase 9; the last two all 0 in a refused answer. */
typedef struct nolthewyr_run_page_answer {
    uint64_t number;
    nolthewyr_record own;
    uint64_t held;
} nolthewyr_run_page_answer;

/* A calendar of wards: the levels of the tree that their units are locked by, how many wards there are (1..64) and how many weeks (1..60);
 * wards * weeks * 672 is no more than the tree's units. */
typedef struct nolthewyr_calendar {
    uint64_t levels;
    uint64_t wards;
    uint64_t weeks;
} nolthewyr_calendar;

/* A quarter of an hour of a ward: the ward and the week from 0, the day 0..6, the quarter of that day 0..95. */
typedef struct nolthewyr_quarter {
    uint64_t ward;
    uint64_t week;
    uint64_t day;
    uint64_t quarter;
} nolthewyr_quarter;

/* The number, and the edges of a window; 0 in a refused answer. */
typedef struct nolthewyr_calendar_window_answer {
    uint64_t number;
    uint64_t left;
    uint64_t right;
} nolthewyr_calendar_window_answer;

/* The number, and the quarter that a unit is; all 0 in a refused answer. */
typedef struct nolthewyr_calendar_quarter_answer {
    uint64_t number;
    nolthewyr_quarter at;
} nolthewyr_calendar_quarter_answer;

/* How many words a tree of so many levels has, (4^levels - 1) / 3; 0 for levels that no tree has. */
uint64_t nolthewyr_word_count(uint64_t levels);

/* Tests the settings, the count of words and the count of clients, then zeroes all words, and every client's clock and record. */
uint64_t nolthewyr_open(nolthewyr_client *clients, size_t client_count, uint64_t *words, size_t word_count,
                        nolthewyr_settings settings);

/* Asks for [a, b) for an idle client: its record then has the window and its pieces, and no word is touched. */
uint64_t nolthewyr_request(nolthewyr_client *clients, size_t client_count, uint64_t *words, size_t word_count,
                           nolthewyr_settings settings, nolthewyr_call call);

/* Does the one thing that the client's phase says, at clock a, touches at most one word, and sets the client's clock to a. In place of
 * that, a client in phases 1 to 8 of a later piece whose first was taken the patience or longer ago goes to phase 10, with outcome 4. */
uint64_t nolthewyr_step(nolthewyr_client *clients, size_t client_count, uint64_t *words, size_t word_count,
                        nolthewyr_settings settings, nolthewyr_call call);

/* Ends the holding of a client in phase 9, which then gives its words back by steps until it is idle with outcome 1. */
uint64_t nolthewyr_release(nolthewyr_client *clients, size_t client_count, uint64_t *words, size_t word_count,
                           nolthewyr_settings settings, nolthewyr_call call);

/* Gives up a window that is not yet held: the client gives back by steps what it has, if anything, and is idle with outcome 3. */
uint64_t nolthewyr_cancel(nolthewyr_client *clients, size_t client_count, uint64_t *words, size_t word_count,
                          nolthewyr_settings settings, nolthewyr_call call);

/* The planners' page: fills a row for each client. Tests the settings (1), that there is one row a client (2), the count of clients (3),
 * and that every record is readable (6); a refused page leaves all rows as they were. */
uint64_t nolthewyr_planners_page(const nolthewyr_client *clients, size_t client_count, nolthewyr_row *rows, size_t row_count,
                                 nolthewyr_settings settings);

/* A forecast run's page: what it may see of the table, its own record and how many clients hold their windows. Tests the settings (1), the
 * count of clients (3), the client (4), and that its own record is readable (6). */
nolthewyr_run_page_answer nolthewyr_run_page(const nolthewyr_client *clients, size_t client_count, nolthewyr_settings settings,
                                             uint64_t client);

/* The nodes that a request for [left, right) would take. Tests the levels, then the window. */
nolthewyr_cover_answer nolthewyr_cover(uint64_t levels, uint64_t left, uint64_t right);

/* How many accepted steps [left, right) needs from its request until it is held, with nobody else in the tree: if each wait is over before
 * it is stepped, no claim is late and patience does not run out. Tests the levels and the distance, then the window. */
nolthewyr_step_count_answer nolthewyr_step_count(uint64_t levels, uint64_t distance, uint64_t left, uint64_t right);

/* Ward hours: the edges [left, right) of the window from the first quarter of a ward to its last, which is locked too. The window may run
 * over midnight and over a week's end. `hours` has a pair for each ward and day, ward 0's days 0 to 6 first: the quarter at which the
 * ward opens and that at which it closes (0..96; closing is not open any more, and equal means closed all day). Tests the levels (1);
 * then the calendar, the hours and both quarters (12); that the last is not before the first, nor in another ward (13); and that every
 * quarter of the window is open (14). In a tree of these levels the edges that are answered are never refused by 7. docs/WARDS.md has
 * more. */
nolthewyr_calendar_window_answer nolthewyr_calendar_window(const uint64_t *hours, size_t hour_count, nolthewyr_calendar calendar,
                                                           nolthewyr_quarter first, nolthewyr_quarter last);

/* The way back: the ward, week, day and quarter that a unit is. Tests the levels (1), then the calendar, and that the unit is one of its
 * (12). */
nolthewyr_calendar_quarter_answer nolthewyr_calendar_quarter(nolthewyr_calendar calendar, uint64_t unit);

/* A number in plain words. Each has a text, an unknown one too. Causes 10 and 11 are those of the programs rangelog and rangepages. */
const char *nolthewyr_phase_text(uint64_t number);
const char *nolthewyr_outcome_text(uint64_t number);
const char *nolthewyr_cause_text(uint64_t number);

/* The version of the library, to be compared with that of the header. */
const char *nolthewyr_version(void);

#ifdef __cplusplus
}
#endif

#include "nolthewyr_operations.h"

#endif
