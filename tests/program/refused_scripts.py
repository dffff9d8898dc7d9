"""Makes the scripts whose lines are refused memory, for tests/program/refusals."""
import re
from dataclasses import dataclass

from lines import is_answered

KINDS = "set", "bag", "duplicate_bag"
ITEMS = "name", "named_table", "owner", "protection", "heir", "size", "type", "keypos", "fixed"
SPAWN = re.compile(rb"[ \t]*spawn[ \t]+([a-z][a-z0-9_@]*)[ \t\r]*")
NEW = re.compile(rb"[ \t]*[a-z][a-z0-9_@]*[ \t]+new[ \t]*\(.*")
# The most bytes of a script of a folder: larger ones are replaced by those made here.
LARGE = 8_000


@dataclass
class Script:
    """A script, the words of its command line, and the lines that are added when the store is
    read."""

    name: str
    words: list
    lines: list
    asks: list


def spawned(script):
    return [found[1].decode() for line in script.lines if (found := SPAWN.fullmatch(line))]


def reading_lines(script, answers):
    """Returns lines that read the store: each process reads each table of the script, whether it
    exists or not."""
    answered = zip(filter(is_answered, script.lines), answers, strict=True)
    tables = dict.fromkeys(
        answer.decode()
        for line, answer in answered
        if NEW.fullmatch(line) and not answer.startswith(b"**")
    )
    calls = [
        call
        for table in tables
        for call in (
            f"tab2list({table})",
            f"first({table})",
            *(f"info({table},{item})" for item in ITEMS),
        )
    ]
    return [f"{who} {call}".encode() for who in spawned(script) for call in calls] + script.asks


def receiving_lines(script):
    """Returns lines that empty each mailbox."""
    return [f"{who} receive()".encode() for who in spawned(script)]


def of_folder(folder, prefix):
    """Yields the scripts of a folder, without large ones and those with --threads, which read all
    lines before the first reply."""
    for file in sorted(folder.glob("*.ets")):
        text, args = file.read_bytes(), file.with_name(file.name + ".args")
        words = args.read_text().splitlines() if args.exists() else []
        if len(text) <= LARGE and "--threads" not in words:
            yield Script(prefix + file.stem, words, text.removesuffix(b"\n").split(b"\n"), [])


def made(name, words, lines, asks=()):
    return Script(
        " ".join([name, *words]),
        words,
        [line.encode() for line in lines],
        [line.encode() for line in asks],
    )


def listed(objects):
    return f"[{','.join(objects)}]"


PROCESSES = ["spawn p", "spawn q", "spawn r"]
LONG = "'a key that is long, and that has memory of its own.'"
# Each call, on a public table of p; then the end of the table, with its owner.
CALLS = f"""\
p insert(t,{{last,0}})
p insert(t,[{{a,1}},{{0,1}},{{b,1}}])
p insert_new(t,[{{c,1}},{{d,1}}])
p insert_new(t,[{{f,1}},{{0,7}}])
q insert_new(t,{{{LONG},"text"}})
p lookup(t,0)
p lookup(t,{LONG})
p member(t,{LONG})
p lookup_element(t,0,2)
p lookup_element(t,nowhere,2,{{a,[default]}})
p update_counter(t,0,{{2,1}})
p update_counter(t,0,[{{2,1}},{{2,5,4,0}},{{2,-1}}])
p update_counter(t,e,2,{{x,40}})
p update_counter(t,[g],[{{2,1}},{{3,1}}],{{x,0,0,[]}})
p update_element(t,0,{{2,[1,2]}})
p update_element(t,[h],{{2,[1,2]}},{{x,0,{{y}}}})
p update_element(t,0,[{{2,<<"binary">>}},{{2,{{3}}}}])
p match(t,{{'$1','$0'}})
p match_object(t,{{'_',1}})
p match_object(t,{{0,'_'}})
p select(t,[{{{{'$1','$2'}},[{{'>','$2',2}}],[{{{{'$2','$1'}}}}]}},{{{{0,'_'}},[],['$_','$$']}}])
p select_count(t,[{{{{'$1',1}},[{{is_atom,'$1'}}],[true]}}])
p tab2list(t)
q safe_fixtable(t,true)
p first(t)
p take(t,0)
p delete(t,1)
p delete_object(t,{{c,1}})
p next(t,1)
p next(t,f)
p first_lookup(t)
p next_lookup(t,0)
p next_lookup(t,f)
p match_delete(t,{{2,'_'}})
p match_delete(t,{{'_',1}})
p select_delete(t,[{{{{'$1','$2'}},[{{'<','$1',5}}],[{{'<','$2',5}}]}}])
p insert(t,{{1,again}})
grow t
ready t 3
q safe_fixtable(t,true)
q safe_fixtable(t,false)
p setopts(t,[{{heir,none}},{{heir,<0.2.0>,[the,data]}}])
p info(t,heir)
p whereis(t)
p give_away(t,<0.1.0>,{{the,[gift]}})
q receive()
q insert(t,[{{0,0}},{{1,1}}])
q give_away(t,<0.0.0>,back)
exit q
p insert(t,{{0,2}})
p delete_all_objects(t)
p insert(t,{{0,3}})
p new(t2,[bag,{{keypos,2}},{{heir,<0.2.0>,"a text"}}])
p delete(t)
p new(t,[named_table,public,KIND,{{heir,<0.2.0>,<<"data">>}}])
p insert(t,{{left,1}})
exit p
r tab2list(t)
""".splitlines()
KEYS = ["a", "b", "c", "d", "e", "f", "[g]", "last", LONG]


def of_calls(kind, count, words, key=None):
    """Makes a script of each call on a table of `count` objects: each with its own number, or all
    with one key."""
    objects = listed(
        f"{{{key_number if key is None else key},{key_number}}}" for key_number in range(count)
    )
    lines = [
        *PROCESSES,
        f"p new(t,[{kind},named_table,public])",
        f"p insert(t,{objects})",
        *(line.replace("KIND", kind) for line in CALLS),
    ]
    name = f"calls on a {kind} of {count}{'' if key is None else ' under one key'}"
    return made(
        name, words, lines, [f"r lookup(t,{key_asked})" for key_asked in [*range(count), *KEYS]]
    )


def of_growth(words):
    """Makes a script that doubles a table from 2 buckets to 128, and makes buckets ready."""
    lines = [
        *PROCESSES,
        "p new(t,[named_table])",
        f"p insert(t,{listed(f'{{{key}}}' for key in range(300))})",
        "ready t 1",
    ]
    for size in 2, 4, 8, 16, 32, 64:
        lines += [
            "grow t",
            f"ready t {size + 1}",
            f"ready t {size}",
            f"p insert(t,{{{size},new}})",
            f"ready t {2 * size - 1}",
        ]
    return made(
        "2 to 128 buckets", words, lines, [f"r lookup(t,{key})" for key in range(0, 300, 7)]
    )


def of_ends():
    """Makes a script in which owners end: of tables with three living heirs, of one whose heir has
    ended, of one without an heir."""
    lines = [*PROCESSES, "spawn s", "spawn u", "p new(e,[named_table])"]
    lines += [
        f"p new({name},[named_table,{{heir,<0.{pid}.0>,{{data,of,{name}}}}}])"
        for pid, name in enumerate("abcd", 1)
    ]
    lines += [f"p insert({name},[{{1,{name}}},{{2,{name}}}])" for name in "abcd"]
    lines += [
        "q safe_fixtable(a,true)",
        "p safe_fixtable(b,true)",
        "exit u",
        "exit p",
        "q receive()",
        "exit q",
        "r tab2list(b)",
        "exit r",
        "exit s",
    ]
    return made("owners that end", [], lines)


def of_numbers(count):
    """Makes a script with `count` processes, tables, fixes and messages."""
    each = range(count)
    lines = [f"spawn p{number}" for number in each] + [
        f"p0 new(t{number},[named_table,public,{{heir,<0.1.0>,{number}}}])" for number in each
    ]
    lines += [f"p{number} safe_fixtable(t0,true)" for number in each] + [
        f"p0 give_away(t{number},<0.1.0>,{number})" for number in each
    ]
    lines += [
        "p1 insert(t0,[{1},{2}])",
        "p1 delete(t0,1)",
        f"exit p{count - 1}",
        "p1 receive()",
        "exit p1",
    ]
    return made(f"{count} processes, tables, fixes and messages", [], lines)


def made_here():
    """Yields the scripts that are made here."""
    for words in [], ["--hash", "same"]:
        for kind in KINDS:
            yield from (of_calls(kind, count, words) for count in (7, 8, 9, 63, 64, 65))
        for kind in "bag", "duplicate_bag":
            yield from (of_calls(kind, count, words, key=0) for count in (8, 64))
        yield of_growth(words)
    yield of_ends()
    yield from (of_numbers(count) for count in (3, 4, 5, 8, 9))
