"""Where a higher and a lower piece of overlapping windows meet: the steps for whose sake there are waits, late claims and notices."""

from model import record as records
from model import tree
from model.history import overlap
from model.step import WITH_PATIENCE

CLAIM, NOTIFY, WAIT, CHECK, HELD = range(5, 10)
LATE = 2
MEETINGS = (
    "a claim below an occupied node", "taken below a node that waits", "late below a node that waits", "late below a checked node",
    "late below a held node", "late though less than T has passed", "a check that finds a notice", "blocked below a held node",
)


def occupied(settings, record):
    """The inner nodes at which a record has Occ, with the phase it has there: a piece before the current one is taken."""
    if record.phase not in (*WITH_PATIENCE, HELD):
        return {}
    nodes = enumerate(records.pieces(record)[:record.current + 1])
    inner = ((i, n) for i, n in nodes if records.grip_of(record, i) == 3 and not tree.is_leaf(settings.levels, n))
    return {n: record.phase if i == record.current else HELD for i, n in inner}


def phases_above(settings, all_records, client):
    """The phases of the other clients at occupied nodes above this client's current piece, if their windows overlap its window."""
    own, found = all_records[client], set()
    above = records.ancestors(records.current_node(own))
    for other, record in enumerate(all_records):
        if other != client and overlap((record.left, record.right), (own.left, own.right)):
            found |= {phase for n, phase in occupied(settings, record).items() if n in above}
    return found


def claims_below(before, after, phases):
    """What a step in 5 or 6 shows below nodes in these phases."""
    late = after.outcome == LATE
    taken = after.phase == HELD or after.phase in WITH_PATIENCE and after.current > before.current
    shown = {
        "a claim below an occupied node": phases, "taken below a node that waits": taken and phases & {NOTIFY, WAIT},
        "late below a node that waits": late and phases & {NOTIFY, WAIT}, "late below a checked node": late and CHECK in phases,
        "late below a held node": late and HELD in phases,
    }
    return [what for what, found in shown.items() if found]


def meetings(settings, all_records, client, after, clock):
    """What an accepted step of a client shows, with all records before it and the client's after it."""
    before = all_records[client]
    if before.phase in (CLAIM, NOTIFY):
        late = before.phase == NOTIFY and after.outcome == LATE and clock - before.t1 < settings.wait
        return claims_below(before, after, phases_above(settings, all_records, client)) + late * ["late though less than T has passed"]
    if before.phase == CHECK and after == before:
        return ["a check that finds a notice"]
    if after.phase == 4 and HELD in phases_above(settings, all_records, client):
        return ["blocked below a held node"]
    return []
