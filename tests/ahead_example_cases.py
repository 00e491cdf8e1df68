"""Cases for the example in C of docs/LINKING.md that posts several operations together: its lines stand in a program that takes a window and gives it
back in words of its own, in as many round trips as by the model."""

import re
import subprocess
from itertools import product

from compare import NAMES, case
from compiled_table import nolthewyr
from library import ROOT, SECONDS, command, made
from model import tree
from model.ahead import completed_all, operations_ahead
from model.history import left_clean
from model.operations import applied, completed, own_release, own_request
from model.record import IDLE_CLIENT, Settings

SECTION = (ROOT / "docs" / "LINKING.md").read_text().split("\n### Several operations in one round trip\n")[1].split("\n## ")[0]
PROGRAM = """#include <stdio.h>
#include <stdlib.h>
#include "nolthewyr.h"

/* Of a second piece: how much later its climb begins, and how long a list of its claim, or of its notices, is under way. */
static uint64_t words[1365], now, round_trips, climb_later, claim_takes, notices_take, under_way;

static uint64_t ticks(void)
{
    return now++;
}

static void sleep_until(uint64_t clock)
{
    now = now < clock ? clock : now;
}

static void stop(const char *reason)
{
    fputs(reason, stderr);
    exit(3);
}

static void all_carried_out(const nolthewyr_operation_answer *posted, uint64_t *found, size_t count)
{
    round_trips++;
    now += under_way;
    for (size_t place = 0; place < count; place++) {
        uint64_t *word = &words[posted[place].node - 1];
        found[place] = *word;
        *word = nolthewyr_applied(posted[place], found[place]);
    }
}

%s
/* Until the client is idle, or in the phase. */
static nolthewyr_client until(nolthewyr_client client, nolthewyr_settings settings, uint64_t phase)
{
    while (client.record.phase != phase && client.record.phase != NOLTHEWYR_PHASE_IDLE) {
        uint64_t at = client.record.current == 0 ? 0 : client.record.phase;
        now += at == NOLTHEWYR_PHASE_CLIMB && client.record.place == 0 ? climb_later : 0;
        under_way = at == NOLTHEWYR_PHASE_CLAIM ? claim_takes : at == NOLTHEWYR_PHASE_NOTIFY ? notices_take : 0;
        client = step(client, settings);
    }
    return client;
}

int main(int count, char **arguments)
{
    uint64_t numbers[9];
    if (count != 10)
        return 2;
    for (int place = 0; place < 9; place++)
        numbers[place] = strtoull(arguments[place + 1], NULL, 10);
    nolthewyr_settings settings = {numbers[0], numbers[1], numbers[2], numbers[3]};
    nolthewyr_client client = {0};
    climb_later = numbers[6];
    claim_takes = numbers[7];
    notices_take = numbers[8];
    client = until(nolthewyr_own_request(client, settings, numbers[4], numbers[5]).next, settings, NOLTHEWYR_PHASE_HELD);
    printf("%%llu", (unsigned long long)round_trips);
    if (client.record.phase == NOLTHEWYR_PHASE_HELD)
        client = until(nolthewyr_own_release(client, settings).next, settings, NOLTHEWYR_PHASE_IDLE);
    printf(" %%llu %%llu", (unsigned long long)round_trips, (unsigned long long)client.record.outcome);
    for (uint64_t node = 1; node <= nolthewyr_word_count(settings.levels); node++)
        printf(" %%llu", (unsigned long long)words[node - 1]);
    return 0;
}
"""
RELEASED, LATE, OUT_OF_PATIENCE = 1, 2, 4
WINDOWS = (10, 20), (60, 70), (0, 256), (10, 300), (0, 64 * 16)
SOME_SETTINGS = [Settings(levels, distance, 50, 1000) for levels, distance in product((3, 6), (1, 2, 4))]

# Two leaves, with a clock that passes the patience while the second one's claim, or its notices, are under way; and a climb that begins T or less
# before patience is over, with a claim that would end behind it, or in time.
IMPATIENT, LEAVES = Settings(3, 1, 100, 400), (60, 70)
SLOW = {(0, 500, 0): OUT_OF_PATIENCE, (0, 0, 500): LATE, (350, 500, 0): OUT_OF_PATIENCE, (350, 0, 0): OUT_OF_PATIENCE, (250, 500, 0): OUT_OF_PATIENCE,
        (250, 0, 500): LATE, (250, 0, 0): RELEASED}

NAMES["room in docs/LINKING.md"] = ("place in the example",), ("operations",)
NAMES["example in C in docs/LINKING.md"] = (
    (*Settings._fields, "left", "right"), ("round trips until held", "until idle", "outcome", "clean", "words unlike"))
NAMES["patience in the example of docs/LINKING.md"] = ("climb begins later", "claim takes", "notices take"), ("outcome", "clean")


def example():
    """The lines of the section's one block of C."""
    [found] = re.findall(r"```c\n(.*?)```", SECTION, re.DOTALL)
    return found


def program():
    """The example's lines in a program, with the library."""
    source = ROOT / "target" / "tests" / "together.c"
    source.parent.mkdir(parents=True, exist_ok=True)
    source.write_text(PROGRAM % example())
    checked = "gcc", "-std=c99", "-O2", "-Wall", "-Wextra", "-Werror", "-I", ROOT / "include"
    command(*checked, source, made("build/libnolthewyr.a"), "-o", source.with_suffix(""))
    return source.with_suffix("")


class ByModel:
    """The same in the model: a clock that goes on at each reading, words, and how many round trips were made."""

    def __init__(self, settings):
        self.settings, self.words, self.client = settings, [0] * tree.node_count(settings.levels), IDLE_CLIENT
        self.now, self.round_trips = -1, 0

    def ticks(self):
        self.now += 1
        return self.now

    def carried_out(self, posted):
        self.round_trips += 1
        for each in posted:
            yield self.words[each.node - 1]
            self.words[each.node - 1] = applied(each, self.words[each.node - 1])

    def step(self):
        before, phase = self.ticks(), self.client.record.phase
        posted = operations_ahead(self.settings, self.client, before, nolthewyr.MOST_AHEAD).operations
        if not posted:
            self.client = completed(self.settings, self.client, before, 0).client
        else:
            found = list(self.carried_out(posted))
            self.client = completed_all(self.settings, self.client, self.ticks() if phase in (5, 6) else before, found).client

    def until(self, phase):
        while self.client.record.phase != phase:
            self.step()
        return self.round_trips

    def taken_and_given_back(self, window):
        self.client = own_request(self.settings, self.client, *window).client
        until_held = self.until(9)
        self.client = own_release(self.settings, self.client).client
        return until_held, self.until(0), RELEASED, *self.words


def by_example(built, settings, window, slow=(0, 0, 0)):
    """The numbers that it prints: two counts of round trips, the outcome, and the words."""
    ran = subprocess.run([built, *map(str, (*settings, *window, *slow))], check=True, capture_output=True, text=True, timeout=SECONDS)
    return list(map(int, ran.stdout.split()))


def in_c():
    """The example has room for the longest list, and does what the model does."""
    for place, room in enumerate(re.findall(r"\b\d\d+\b", example())):
        yield case("room in docs/LINKING.md", [place], nolthewyr.MOST_AHEAD), int(room)
    built = program()
    for settings, window in product(SOME_SETTINGS, WINDOWS):
        expected, found = ByModel(settings).taken_and_given_back(window), by_example(built, settings, window)
        clean, unlike = left_clean(settings, found[3:], [True]), sum(one != other for one, other in zip(expected, found))
        yield case("example in C in docs/LINKING.md", [*settings, *window], (*expected[:3], 1, 0)), (*found[:3], int(clean), unlike)


def in_time():
    """However slow the second piece is, the tree is clean at last."""
    built = program()
    for slow, outcome in SLOW.items():
        _, _, found, *words = by_example(built, IMPATIENT, LEAVES, slow)
        yield case("patience in the example of docs/LINKING.md", slow, (outcome, 1)), (found, int(left_clean(IMPATIENT, words, [True])))


SUITES = {
    "docs/LINKING.md, its example of several operations together": in_c,
    "docs/LINKING.md, its example where patience ends": in_time,
}
