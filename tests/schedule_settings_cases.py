"""Cases for `tools/schedule`, the settings: what is said of a first line that is wrong, and by each command that runs a schedule of settings
that are refused."""

from compare import NAMES, case
from schedule_files import with_header
from schedule_tool import started
from schedule_tool_cases import SETTINGS, all_told

RESULTS = "exit status", "written as expected", "said as expected"
NAMES["refused settings"] = ("place in the list of schedules", "place in the list of commands"), RESULTS

IT_WANTS = ": it wants the settings, as in `tree 2 m 1 wait 5 patience 20 clients 2`; got "
TO_U32 = " must be a number from 0 to 4294967295, and 0 is refused by 1; got "

# A first line that has not each setting once and in order, and what is said to be amiss.
AMISS = {
    "patience left out": ("tree 2 m 1 wait 5 clients 2", "lacks patience"),
    "patience left out, with its number there": ("tree 2 m 1 wait 5 20 clients 2", "lacks patience"),
    "three settings left out": ("tree 2 wait 5", "lacks m, patience and clients"),
    "a patience without a number": ("tree 2 m 1 wait 5 patience clients 2", "has no number behind patience"),
    "a wait without a number": ("tree 2 m 1 wait patience 20 clients 2", "has no number behind wait"),
    "no number at the end": ("tree 2 m 1 wait 5 clients 2 patience", "has no number behind patience"),
    "names alone": ("tree m wait patience clients", "has no number behind tree, m, wait, patience and clients"),
    "a word in place of a number": ("tree 2 m x wait 5 clients 2", "lacks patience, and has no number behind m"),
    "patience twice": ("tree 2 m 1 wait 5 patience 20 patience 20 clients 2", "has patience twice"),
    "patience in place of the wait": ("tree 2 m 1 patience 5 patience 20 clients 2", "lacks wait, and has patience twice"),
}

# Other texts, and what is said of them.
ERRORS = {
    "patience left out on line 3": ("# why\n\ntree 3 m 2 wait 9 clients 4\nstep 0 1",
                                    "line 3: the first line lacks patience" + IT_WANTS + "`tree 3 m 2 wait 9 clients 4`"),
    "settings in another order": ("m 1 tree 2 wait 5 patience 20 clients 2", SETTINGS + "`m 1 tree 2 wait 5 patience 20 clients 2`"),
    "a number too many": ("tree 2 m 1 wait 5 patience 20 clients 2 3", SETTINGS + "`tree 2 m 1 wait 5 patience 20 clients 2 3`"),
    "a tree of 65536": ("tree 65536 m 1 wait 5 patience 20 clients 2", "line 1: tree must be a number from 0 to 65535; got `65536`"),
    "an m of x": ("tree 2 m x wait 5 patience 20 clients 2", "line 1: m must be a number from 0 to 65535; got `x`"),
    "a wait of 2^32": ("\ntree 2 m 1 wait 4294967296 patience 20 clients 2", "line 2: wait" + TO_U32 + "`4294967296`"),
    "a patience of 2^32": ("tree 2 m 1 wait 5 patience 4294967296 clients 2", "line 1: patience" + TO_U32 + "`4294967296`"),
    "clients of -1": ("tree 2 m 1 wait 5 patience 20 clients -1", "line 1: clients must be a number from 0 to 65535; got `-1`"),
}

# A text or a file that is refused as a whole, the number in the log, and what is said.
REFUSED = (
    (b"tree 2 m 1 wait 5 patience 0 clients 2\nstep 9 9", 1, "line 1: the patience is at least 1, not 0; refused by 1\n"),
    (b"# none\n\ntree 2 m 1 wait 0 patience 20 clients 2", 1, "line 3: the wait is at least 1, not 0; refused by 1\n"),
    (b"tree 1 m 5 wait 5 patience 0 clients 0", 1,
     "line 1: a tree has at least 2 levels, not 1; refused by 1\nline 1: m is 1 to 4, not 5; refused by 1\n"
     "line 1: the patience is at least 1, not 0; refused by 1\nline 1: there is at least 1 client, not 0; refused by 3\n"),
    (with_header(patience=0), 1, "the patience is at least 1, not 0; refused by 1\n"),
    (with_header(clients=0), 3, "there is at least 1 client, not 0; refused by 3\n"),
    (with_header(clients=65), 11, "rangelog and rangepages run at most 64 clients, not 65; refused by 11\n"),
)
COMMANDS = ["run"], ["run", "--log"], ["pages"], ["picture"]


def errors():
    """Each error is said with its line; the exit status is 1 and nothing is written."""
    texts = {name: (line, f"line 1: the first line {amiss}{IT_WANTS}`{line}`") for name, (line, amiss) in AMISS.items()} | ERRORS
    yield from all_told([(name, "pack", text.encode(), (1, b"", f"{said}\n")) for name, (text, said) in texts.items()])


def refused():
    """Each command says which setting is refused; only the log alone is written all the same."""
    for place, (data, number, said) in enumerate(REFUSED):
        for command, arguments in enumerate(COMMANDS):
            ran = started(*arguments, data=data)
            written = f"refused {number}\n".encode() if "--log" in arguments else b""
            answer = ran.status, int(ran.written == written), int(ran.said == said)
            yield case("refused settings", [place, command], (1, 1, 1)), answer


SUITES = {
    "tools/schedule, each error in the settings": errors,
    "tools/schedule, settings that are refused, by each command": refused,
}
