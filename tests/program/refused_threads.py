"""Refuses memory to processes in threads, for tests/program/refusals."""
import itertools
import os
import pathlib
import subprocess

from lines import text_of

HERE = pathlib.Path(__file__).resolve().parent
NAMES = "p", "q", "r"
# The lines of a process, which all have replies. It has a table of its own.
LINES = """\
spawn {0}
{0} new({0},[named_table,bag])
{0} insert({0},[{{1,a}},{{2,b}},{{3,"a text that has memory of its own"}}])
{0} lookup({0},3)
{0} update_counter(none,1,1)
{0} insert({0},[{{77,[77,{{77}}]}}])
{0} take({0},2)
{0} tab2list({0})
exit {0}
"""
NO_MEMORY = "** nomem"
# How a program ends that cannot go on, by its own words or those of `main`.
ENDS = (1, "", f"{NO_MEMORY}\n"), (1, "", "error: out of memory\n")
# Ends of a run of which process p has the replies 1 and 2, and the others 1, with the verdict.
PLANTED = [
    ((0, "p 1\nq 1\nr 1\np ** nomem\n", ""), "stopped"),
    ((0, "r 1\nq 1\np ** nomem\n", ""), "stopped"),
    ((0, "q 1\np 1\nr 1\np 2\n", ""), "unseen"),
    ((1, "", "** nomem\n"), "ended"),
    ((0, "p 1\nq 1\nr 1\n", ""), None),
    ((0, "p 2\nq 1\nr 1\np ** nomem\n", ""), None),
    ((0, "p 1\np 2\nq 1\nr 1\np ** nomem\n", ""), None),
    ((0, "p 1\nq 1\np ** nomem\n", ""), None),
    ((0, "p 1\nq 1\nr 1\np ** nomem\n", "** nomem\n"), None),
    ((1, "", "differs <0.3.0>\n"), None),
    ((1, "p 1\n", "** nomem\n"), None),
    ((-6, "", ""), None),
]


def script():
    """Returns the lines of all processes, in turn."""
    lines = zip(*(LINES.format(name).splitlines() for name in NAMES))
    return text_of([line.encode() for turn in lines for line in turn])


def replies_of(output):
    """Returns the replies of each process."""
    found = {name: [] for name in NAMES}
    for line in output.splitlines():
        name, _, reply = line.partition(" ")
        found.setdefault(name, []).append(reply)
    return found


def is_part(replies, all_replies):
    """Returns whether a process has all of its replies, or fewer and then says that it was
    stopped."""
    stops = [[*all_replies[:count], NO_MEMORY] for count in range(len(all_replies))]
    return replies in [all_replies, *stops]


def fate(end, whole):
    """Returns what became of a run that was refused memory, or None if that is wrong."""
    status, output, errors = end
    if end in ENDS:
        return "ended"
    found = replies_of(output)
    if status or errors or found.keys() != whole.keys():
        return None
    if found == whole:
        return "unseen"
    return "stopped" if all(is_part(found[name], whole[name]) for name in NAMES) else None


def ends(path, folder):
    """Yields how a run ends with nothing refused, and then with each allocation refused in
    turn."""
    library, seen = f"{folder}/refuse_one.so", pathlib.Path(folder, "seen")
    subprocess.run(
        ["cc", "-O1", "-shared", "-fPIC", "-o", library, HERE / "refuse_one.c"], check=True
    )
    for number in itertools.count():
        ran = subprocess.run(
            [path, "--threads"],
            input=script(),
            capture_output=True,
            timeout=60,
            env={**os.environ, "LD_PRELOAD": library, "REFUSED": str(number), "SEEN": str(seen)},
        )
        if number > 0 and not seen.exists():
            return
        seen.unlink(missing_ok=True)
        yield ran.returncode, ran.stdout.decode(), ran.stderr.decode()


def fates_in_threads(path, folder):
    """Returns what becomes of each allocation of a script in threads."""
    (status, output, errors), *refused = ends(path, folder)
    whole = replies_of(output)
    counts, wanted = {len(replies) for replies in whole.values()}, {len(LINES.splitlines())}
    is_usual = (status, errors, counts) == (0, "", wanted)
    return [fate(end, whole) if is_usual else None for end in refused]


def misses_threads():
    """Returns whether a planted end has another verdict."""
    whole = {"p": ["1", "2"], "q": ["1"], "r": ["1"]}
    return any(fate(end, whole) != verdict for end, verdict in PLANTED)
