"""Calls that take no memory, and lines that give back what they took, for
tests/program/refusals."""
from lines import text_of
from refused_scripts import PROCESSES, listed

# How many rounds of lines must give back what they took.
TURNS = 1_000


def free(kind, calls):
    """Returns calls that take no memory, and the script before them, which leaves a table of this
    kind."""
    lines = [
        *PROCESSES,
        f"p new(t,[{kind},named_table,{{heir,<0.1.0>,x}}])",
        "p insert(t,[{a,1},{b,2},{a,3}])",
        "p safe_fixtable(t,true)",
        "p delete(t,b)",
    ]
    return [line.encode() for line in lines], [call.encode() for call in calls]


OF_ANY = """\
member(t,a) member(t,c) lookup(t,b) take(t,b) first(t) next(t,a) delete(t,a) delete(t,c)
delete_object(t,{a,3}) delete_all_objects(t) delete(t) insert_new(t,[{c,1},{a,1}])
safe_fixtable(t,true) safe_fixtable(t,false) setopts(t,{heir,none}) setopts(t,{heir,<0.2.0>,y})
whereis(t) info(t,name) info(t,named_table) info(t,owner) info(t,protection) info(t,heir)
info(t,id) info(t,size) info(t,type) info(t,keypos) info(t,fixed) receive() no_call(t)
""".split()
OF_SET = """\
lookup_element(t,a,2) update_counter(t,a,1) update_counter(t,a,{2,1,0,0}) update_element(t,a,{2,5})
update_element(t,c,{2,5})
""".split()
FREE = [free("set", [*OF_ANY, *OF_SET]), free("bag", OF_ANY), free("duplicate_bag", OF_ANY)]


TEXTS = listed(f'{{{number},"a text that has memory of its own"}}' for number in range(20))
# Lines that delete each table, object, fix and message that they make: a name, the lines before
# them, the lines, in which NUMBER is that of the round, and the number of blocks that a round may
# leave allocated: the name of a process, which is never forgotten.
ROUNDS = [
    (
        "a deleted table",
        ["spawn p"],
        ["p new(t,[named_table])", f"p insert(t,{TEXTS})", "p delete(t)"],
        0,
    ),
    (
        "a deleted table without a name",
        ["spawn p"],
        ["p new(t,[bag])", f"p insert(#Tid<NUMBER>,{TEXTS})", "p delete(#Tid<NUMBER>)"],
        0,
    ),
    (
        "deleted objects",
        ["spawn p", "p new(t,[named_table])"],
        [f"p insert(t,{TEXTS})", "p delete_all_objects(t)"],
        0,
    ),
    (
        "objects that are taken or chosen",
        ["spawn p", "p new(t,[named_table,bag])"],
        [
            f"p insert(t,{TEXTS})",
            "p insert(t,[{1,2},{1,{1,2,[]}},{3,4}])",
            "p take(t,1)",
            "p match_delete(t,{3,'_'})",
            "p select_delete(t,[{{'$1','_'},[{'<','$1',10}],[true]}])",
            "p tab2list(t)",
            "p match_delete(t,'_')",
        ],
        0,
    ),
    (
        "updates",
        ["spawn p", "p new(t,[named_table])"],
        [
            "p insert(t,{a,1,[a,text]})",
            "p update_element(t,a,{3,[a,{b},c]})",
            "p update_counter(t,[b,{1}],{2,1},{x,0})",
            "p delete(t,[b,{1}])",
        ],
        0,
    ),
    (
        "fixes",
        ["spawn p", "p new(t,[named_table])"],
        [
            "p safe_fixtable(t,true)",
            f"p insert(t,{TEXTS})",
            "p delete(t,1)",
            "p match_delete(t,'_')",
            "p safe_fixtable(t,false)",
        ],
        0,
    ),
    (
        "messages",
        ["spawn p", "spawn q"],
        [
            "p new(t,[named_table,{heir,<0.1.0>,[some,data]}])",
            "p give_away(t,<0.1.0>,[other,data])",
            "q receive()",
            "q delete(t)",
        ],
        0,
    ),
    (
        "processes that end",
        ["spawn q"],
        [
            "spawn pNUMBER",
            "pNUMBER new(t,[named_table,{heir,<0.0.0>,[some,data]}])",
            "pNUMBER new(u,[])",
            f"pNUMBER insert(t,{TEXTS})",
            "q safe_fixtable(t,true)",
            "exit pNUMBER",
            "q receive()",
            "q delete(t)",
        ],
        1,
    ),
    (
        "refused lines",
        ["spawn p", "p new(t,[named_table])"],
        [
            "p lookup(t,[a,b,[c,",
            "p insert(t,[{a,b},{[c]},[]])",
            "p select(t,[{'_',[],[{a}]}])",
            "nobody lookup(t,{a,[b]})",
            f"p {'x' * 300}",
        ],
        0,
    ),
]


def not_free(program):
    """Yields those of the free calls that take more memory than a call of a name that was never
    spawned, whose line is only read."""
    for lines, calls in FREE:
        for call in calls:
            if program.taken(lines, b"p " + call) != program.taken(lines, b"nobody " + call):
                yield call


def kept(program, before, lines):
    """Returns how many blocks a round of lines leaves allocated, for each round but the first two:
    the others use the buffers of the first, and the second frees the previous hints of the tables
    that grew in the first."""
    rounds = [
        line.replace("NUMBER", str(turn)).encode() for turn in range(TURNS) for line in lines
    ]
    held = program.held(text_of([*map(str.encode, before), *rounds]))[len(before) :: len(lines)]
    return [after - at for at, after in zip(held[2:], held[3:], strict=False)]


def not_given_back(program):
    """Yields those of the lines that leave more blocks allocated than they may."""
    for name, before, lines, spare in ROUNDS:
        counts = kept(program, before, lines)
        if len(counts) < TURNS - 2 or set(counts) != {spare}:
            yield name


def misses_leaks(program):
    """Returns whether tables that are not deleted are not noticed."""
    _, before, lines, spare = ROUNDS[1]
    return min(kept(program, before, lines[:-1])) <= spare
