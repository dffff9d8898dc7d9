"""What a type checker accepts and refuses. Nothing runs this file: `mypy --strict` reads it. Each `type: ignore` is an error that it
has to find, since it also reports those that ignore nothing."""

from typing import Any, Union

from typing_extensions import assert_type

from yoyoash import ANY, TRUE, Atom, BadArg, Clause, Expression, Pid, Process, Reason, Store, Tid, Traversal, Variable, aio, function


def calls(anna: Process) -> None:
    table = anna.new("t", type="bag", protection="public", named=True, keypos=2, heir=(Pid(3), Atom("data")))
    assert_type(table, Union[Tid, Atom])
    assert_type(anna.new(Atom("t"), [Atom("bag"), (Atom("keypos"), 2)]), Union[Tid, Atom])
    assert_type(anna.insert(table, (1, b"x")), bool)
    assert_type(anna.insert("t", [(1, b"x"), (Atom("a"), [2])]), bool)
    assert_type(anna.member(table, 1), bool)
    assert_type(anna.exit(), bool)
    assert_type(anna.lookup(table, 1), list[tuple[Any, ...]])
    port: int = anna.lookup_element(table, 1, 2, default=0)
    count: int = anna.update_counter(table, 1, (2, port), default=(1, 0))
    assert_type(anna.safe_fixtable(table, True), bool)
    assert_type(anna.give_away(table, anna.pid, [count]), bool)
    assert_type(anna.setopts(table, heir=None), bool)
    assert_type(anna.setopts(table, heir=(anna, 1)), bool)
    anna.new("t", heir=("anna", 1))  # type: ignore[arg-type]
    anna.new("t", type="bagg")  # type: ignore[arg-type]
    anna.new("t", protection="open")  # type: ignore[arg-type]
    anna.new("t", bag=True)  # type: ignore[call-arg]
    anna.lookup(table, "text")  # type: ignore[arg-type]
    anna.lookup(table, 1.5)  # type: ignore[arg-type]
    anna.insert(table, b"no object")  # type: ignore[arg-type]
    anna.lokup(table, 1)  # type: ignore[attr-defined]


def ends(store: Store) -> None:
    with store.spawn("anna") as anna:
        assert_type(anna, Process)


def searches(anna: Process) -> None:
    key, value = Variable(1), Variable(2)
    assert_type(value < 5, Expression)
    assert_type((value == b"x") & ~(1 + key > 5), Expression)
    clause = Clause((key, value), value < 5, function("is_integer", key), result=(key, [value, 1]))
    assert_type(anna.select("t", clause), list[Any])
    assert_type(anna.select("t", [clause, Clause(ANY)]), list[Any])
    assert_type(anna.select_delete("t", [((Atom("_"), Atom("$1")), [], [TRUE])]), int)
    assert_type(anna.match_object("t", (ANY, key)), list[tuple[Any, ...]])
    assert_type(anna.match("t", ANY), list[Any])
    function("exit", key)  # type: ignore[arg-type]
    Clause((key, value), 4 < 5)  # type: ignore[arg-type]
    anna.insert("t", clause)  # type: ignore[arg-type]
    anna.lookup("t", key)  # type: ignore[arg-type]


def traversals(anna: Process) -> None:
    with anna.objects("t") as rows:
        assert_type(rows, Traversal[tuple[Any, ...]])
        for row in rows:
            assert_type(row, tuple[Any, ...])
    for key in anna.walk("t"):
        anna.delete("t", key)


def refusals(anna: Process) -> Reason:
    try:
        anna.delete("t")
    except BadArg as refused:
        assert_type(refused.code, Reason)
        assert_type(refused.argument, Union[int, None])
        return refused.code
    return Reason.OTHER


async def awaited() -> None:
    async with aio.Store(seed=1, max_objects=5) as store:
        anna = await store.spawn("anna")
        assert_type(await anna.insert("t", (1, 2)), bool)
        assert_type(await anna.setopts("t", heir=(anna, 1)), bool)
        assert_type(await anna.select_count("t", Clause((ANY, Variable(1)), Variable(1) > 2)), int)
        async with anna.objects("t") as rows:
            async for row in rows:
                assert_type(row, tuple[Any, ...])


def stores() -> None:
    for store in Store(seed=1, max_objects=5), Store.in_process(), Store.pipe(max_tables=7):
        assert_type(store, Store)
    Store(seed="1")  # type: ignore[arg-type]
