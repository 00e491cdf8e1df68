"""The paragraph "Unreadable" and what request 2.2 of document 02 adds to it: a function for each clause, in its order. Each speaks of a
record that no clause before it finds unreadable. `last` is the last clock of the record's client, to which noted times belong (2.3)."""

from model import record as records
from model import tree


def phase_over_10(settings, record, last):
    """A phase over 10."""
    return record.phase > 10


def outcome_over_4(settings, record, last):
    """Or outcome over 4."""
    return record.outcome > 4


def idle_with_a_nonzero_field(settings, record, last):
    """Idle with a nonzero field beside the outcome."""
    return record.phase == 0 and any(record._replace(outcome=0))


def window_outside_the_tree(settings, record, last):
    """A window outside the tree: no window of it, or past its end."""
    return record.left >= record.right or record.right > tree.units(settings.levels)


def pieces_not_its_cover(settings, record, last):
    """Pieces that aren't its cover."""
    return (record.first, record.second) != records.cover_of(settings.levels, record.left, record.right)


def current_piece_does_not_exist(settings, record, last):
    """A current piece that doesn't exist."""
    return record.current >= len(records.pieces(record))


def ticket_over_32767(settings, record, last):
    """A ticket over 32,767."""
    return record.ticket > 32767


def place_past_its_list(settings, record, last):
    """A place past its list (0 where none is walked)."""
    nodes = records.walked(settings, record)
    return record.place != 0 if nodes is None else record.place >= len(nodes)


def notices_past_their_list(settings, record, last):
    """A notice count past its list: more than the current piece has to give."""
    return record.notices > len(records.notify_list(settings.distance, records.current_node(record)))


def notices_with_grip_under_3(settings, record, last):
    """Or nonzero with grip under 3."""
    return record.notices != 0 and record.grip < 3


def notices_unlike_the_place(settings, record, last):
    """Or unlike the place in 6."""
    return record.phase == 6 and record.notices != record.place


def noted_time_after_the_last_clock(settings, record, last):
    """A noted time after the last clock."""
    return record.t1 > last or record.t0 > last or record.taken > last


def phase_not_of_a_leaf(settings, record, last):
    """Phase 1, 2, 7 or 8 at a leaf."""
    return record.phase in (1, 2, 7, 8) and records.at_leaf(settings, record)


def phase_not_of_the_root(settings, record, last):
    """3, 4 or 6 at the root."""
    return record.phase in (3, 4, 6) and records.at_root(record)


def held_before_the_last_piece(settings, record, last):
    """9 before the last piece."""
    return record.phase == 9 and not records.is_last(record)


def outcome_not_of_the_phase(settings, record, last):
    """An outcome other than 0 in 1..9 or equal to 0 in 10."""
    return record.outcome == 0 if record.phase == 10 else record.outcome != 0


def grips(settings, record):
    """0 in 1; 1 in 2; in 3..5 0 for a leaf, else 2; 3 in 6..9; in 10 0 or 3 for a leaf, else 0..3."""
    leaf = records.at_leaf(settings, record)
    if record.phase == 1:
        return (0,)
    if record.phase == 2:
        return (1,)
    if record.phase in (3, 4, 5):
        return (0,) if leaf else (2,)
    if record.phase in (6, 7, 8, 9):
        return (3,)
    return (0, 3) if leaf else (0, 1, 2, 3)


def grip_that_the_phase_lacks(settings, record, last):
    """A grip the phase lacks."""
    return record.grip not in grips(settings, record)


def giving_past_the_current_piece(settings, record, last):
    """A piece being given back that is past the current one."""
    return record.giving > record.current


def giving_outside_10(settings, record, last):
    """Or nonzero outside 10."""
    return record.phase != 10 and record.giving != 0


def giving_with_grip_0(settings, record, last):
    """Or in 10 has grip 0."""
    return record.phase == 10 and records.grip_of(record, record.giving) == 0


def outcome_4_at_a_first_piece(settings, record, last):
    """4 in phase 10 at a first piece."""
    return record.phase == 10 and record.outcome == 4 and record.current == 0


def taken_at_a_first_piece(settings, record, last):
    """A nonzero time at a first piece, save in 9 or in 10 with outcome 1."""
    held_or_released = record.phase == 9 or (record.phase == 10 and record.outcome == 1)
    return record.taken != 0 and record.current == 0 and not held_or_released


FOR_EVERY_RECORD = (phase_over_10, outcome_over_4, idle_with_a_nonzero_field)

UNLESS_IDLE = (
    window_outside_the_tree,
    pieces_not_its_cover,
    current_piece_does_not_exist,
    ticket_over_32767,
    place_past_its_list,
    notices_past_their_list,
    notices_with_grip_under_3,
    notices_unlike_the_place,
    noted_time_after_the_last_clock,
    phase_not_of_a_leaf,
    phase_not_of_the_root,
    held_before_the_last_piece,
    outcome_not_of_the_phase,
    grip_that_the_phase_lacks,
    giving_past_the_current_piece,
    giving_outside_10,
    giving_with_grip_0,
    outcome_4_at_a_first_piece,
    taken_at_a_first_piece,
)


def cause(settings, record, last):
    """The first clause that finds the record unreadable, or None."""
    clauses = FOR_EVERY_RECORD if record.phase == 0 else FOR_EVERY_RECORD + UNLESS_IDLE
    return next((clause for clause in clauses if clause(settings, record, last)), None)


def unreadable(settings, record, last):
    """Whether any clause finds the record unreadable; H, m, T and P are within their ranges."""
    return cause(settings, record, last) is not None
