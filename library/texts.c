/* What the numbers mean in words, and the version: Rattle has no strings. Rust and Python take their texts from here. */

#include "nolthewyr.h"

#define COUNT(texts) (sizeof(texts) / sizeof *(texts))

static const char *const phases[] = {
    [NOLTHEWYR_PHASE_IDLE] = "idle",
    [NOLTHEWYR_PHASE_TICKET] = "ticket",
    [NOLTHEWYR_PHASE_TURN] = "turn",
    [NOLTHEWYR_PHASE_CLIMB] = "climb",
    [NOLTHEWYR_PHASE_BLOCKED] = "blocked",
    [NOLTHEWYR_PHASE_CLAIM] = "claim",
    [NOLTHEWYR_PHASE_NOTIFY] = "notify",
    [NOLTHEWYR_PHASE_WAIT] = "wait",
    [NOLTHEWYR_PHASE_CHECK] = "check",
    [NOLTHEWYR_PHASE_HELD] = "held",
    [NOLTHEWYR_PHASE_RETURNING] = "returning",
};

static const char *const outcomes[] = {
    [NOLTHEWYR_OUTCOME_NONE] = "none",
    [NOLTHEWYR_OUTCOME_RELEASED] = "released",
    [NOLTHEWYR_OUTCOME_LATE] = "late",
    [NOLTHEWYR_OUTCOME_CANCELLED] = "cancelled",
    [NOLTHEWYR_OUTCOME_OUT_OF_PATIENCE] = "out of patience",
};

/* 10 and 11 have no name: only rangelog and rangepages give them. */
static const char *const causes[] = {
    [NOLTHEWYR_CAUSE_ACCEPTED] = "accepted",
    [NOLTHEWYR_CAUSE_SETTINGS] = "levels not 2 to 12, distance not 1 to 4, or wait or patience not 1 to 4294967295",
    [NOLTHEWYR_CAUSE_WORD_COUNT] = "word count not the tree's, (4^levels - 1) / 3; or not one row for each client",
    [NOLTHEWYR_CAUSE_CLIENT_COUNT] = "no clients, or over 32767",
    [NOLTHEWYR_CAUSE_CLIENT] = "client not below the table's count",
    [NOLTHEWYR_CAUSE_CLOCK] = "step clock below the client's last clock",
    [NOLTHEWYR_CAUSE_UNREADABLE] = "client's record unreadable",
    [NOLTHEWYR_CAUSE_WINDOW] = "window empty, or past the end of the tree",
    [NOLTHEWYR_CAUSE_PHASE] = "request when not idle, release when not held, or cancel when idle, held or returning",
    [NOLTHEWYR_CAUSE_CLEAR_BIT] = "returning leaf finds a wanted bit clear",
    "not a schedule",
    "over 6 levels or over 64 clients, the limits of rangelog and rangepages",
    [NOLTHEWYR_CAUSE_CALENDAR] = "wards not 1 to 64, weeks not 1 to 60, or more units than the tree has; hours not one pair for each ward "
                                 "and day, over 96, or opening after closing; or no such ward, week, day, quarter or unit",
    [NOLTHEWYR_CAUSE_LAST_QUARTER] = "last quarter before the first, or in another ward",
    [NOLTHEWYR_CAUSE_CLOSED] = "ward closed in some quarter of the window",
};

static const char *const operations[] = {
    [NOLTHEWYR_OPERATION_NONE] = "none",
    [NOLTHEWYR_OPERATION_READ] = "read",
    [NOLTHEWYR_OPERATION_ADD] = "add",
    [NOLTHEWYR_OPERATION_SWAP] = "swap",
};

static const char *text(const char *const *texts, size_t count, uint64_t number, const char *unknown)
{
    return number < count ? texts[number] : unknown;
}

const char *nolthewyr_phase_text(uint64_t number)
{
    return text(phases, COUNT(phases), number, "unknown phase");
}

const char *nolthewyr_outcome_text(uint64_t number)
{
    return text(outcomes, COUNT(outcomes), number, "unknown outcome");
}

const char *nolthewyr_cause_text(uint64_t number)
{
    return text(causes, COUNT(causes), number, "unknown cause");
}

const char *nolthewyr_operation_text(uint64_t number)
{
    return text(operations, COUNT(operations), number, "unknown operation");
}

const char *nolthewyr_version(void)
{
    return NOLTHEWYR_VERSION;
}
