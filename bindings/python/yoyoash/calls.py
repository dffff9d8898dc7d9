"""The calls of docs/calls.md as methods. Made by generate.py: do not edit."""

from __future__ import annotations

from collections.abc import Awaitable, Callable
from typing import Any

from .clauses import ALWAYS, Pattern, Spec, pattern_of, spec_of
from .expressions import OBJECT
from .options import Heir, Protection, TableType, as_bool, atom_of, heir_options, is_boolean, new_options
from .terms import ABSENT, Absent, Atom, Pid, Table, Term, Tid

CALLS = (
    "new", "delete", "whereis", "info", "insert", "insert_new", "lookup", "member", "lookup_element", "take",
    "delete_object", "delete_all_objects", "tab2list", "update_counter", "update_element", "match",
    "match_object", "match_delete", "select", "select_count", "select_delete", "first", "next", "first_lookup",
    "next_lookup", "safe_fixtable", "give_away", "setopts", "receive",
)


class Calls:
    """Calls whose method returns the reply or raises a Fault."""

    _call: Callable[..., Any]

    def new(
        self,
        name: Atom | str,
        options: Term | None = None,
        *,
        type: TableType | None = None,
        protection: Protection | None = None,
        named: bool = False,
        keypos: int | None = None,
        heir: Heir | None = None,
    ) -> Tid | Atom:
        """Calls `new(Name,Options)`. Makes a table. Returns its name if it is a named table, otherwise its identifier.

        The options are a list of terms, or keywords, which override the list."""
        reply: Tid | Atom = self._call(
            "new",
            Atom(name) if isinstance(name, str) else name,
            new_options(options, (type, protection, "named_table" if named else None), keypos, heir),
        )
        return reply

    def delete(self, table: Table, key: Term | Absent = ABSENT) -> bool:
        """Calls `delete(T)`. Deletes the table, its name and its fixes. Returns True.

        Calls `delete(T,Key)`. Deletes the key's objects. Returns True."""
        if key is not ABSENT:
            return bool(self._call("delete", Atom(table) if isinstance(table, str) else table, key))
        return bool(self._call("delete", Atom(table) if isinstance(table, str) else table))

    def whereis(self, name: Atom | str) -> Tid | Atom:
        """Calls `whereis(Name)`. Returns the identifier of the table with this name, or `undefined`."""
        reply: Tid | Atom = self._call("whereis", Atom(name) if isinstance(name, str) else name)
        return reply

    def info(self, table: Table, item: Atom | str) -> Any:
        """Calls `info(T,Item)`. Returns the value of an item, or `undefined` if there is no such table."""
        reply: Any = self._call(
            "info",
            Atom(table) if isinstance(table, str) else table,
            Atom(item) if isinstance(item, str) else item,
        )
        return as_bool(reply) if is_boolean(item) else reply

    def insert(self, table: Table, objects: tuple[Any, ...] | list[Any]) -> bool:
        """Calls `insert(T,Objects)`. Inserts an object, or all objects of a list, one after another. Returns True."""
        return bool(self._call("insert", Atom(table) if isinstance(table, str) else table, objects))

    def insert_new(self, table: Table, objects: tuple[Any, ...] | list[Any]) -> bool:
        """Calls `insert_new(T,Objects)`. Returns False, and inserts nothing, if the key of one of the objects has
        objects in T. Otherwise as `insert`."""
        return bool(self._call("insert_new", Atom(table) if isinstance(table, str) else table, objects))

    def lookup(self, table: Table, key: Term) -> list[tuple[Any, ...]]:
        """Calls `lookup(T,Key)`. Returns the list of the key's objects, oldest first."""
        reply: list[tuple[Any, ...]] = self._call("lookup", Atom(table) if isinstance(table, str) else table, key)
        return reply

    def member(self, table: Table, key: Term) -> bool:
        """Calls `member(T,Key)`. Returns whether the key has objects."""
        return bool(self._call("member", Atom(table) if isinstance(table, str) else table, key))

    def lookup_element(self, table: Table, key: Term, pos: int, default: Term | Absent = ABSENT) -> Any:
        """Calls `lookup_element(T,Key,Pos)` or `lookup_element(T,Key,Pos,Default)`. Returns element Pos of the object
        of a set; for a bag, the list of these elements of all objects. Returns Default if the key has no object."""
        if default is not ABSENT:
            return self._call("lookup_element", Atom(table) if isinstance(table, str) else table, key, pos, default)
        return self._call("lookup_element", Atom(table) if isinstance(table, str) else table, key, pos)

    def take(self, table: Table, key: Term) -> list[tuple[Any, ...]]:
        """Calls `take(T,Key)`. Deletes the key's objects and returns the list of them."""
        reply: list[tuple[Any, ...]] = self._call("take", Atom(table) if isinstance(table, str) else table, key)
        return reply

    def delete_object(self, table: Table, object: tuple[Any, ...]) -> bool:
        """Calls `delete_object(T,Object)`. Deletes every instance of the object. Returns True."""
        return bool(self._call("delete_object", Atom(table) if isinstance(table, str) else table, object))

    def delete_all_objects(self, table: Table) -> bool:
        """Calls `delete_all_objects(T)`. Deletes all objects. Returns True."""
        return bool(self._call("delete_all_objects", Atom(table) if isinstance(table, str) else table))

    def tab2list(self, table: Table) -> list[tuple[Any, ...]]:
        """Calls `tab2list(T)`. Returns the list of all objects."""
        reply: list[tuple[Any, ...]] = self._call("tab2list", Atom(table) if isinstance(table, str) else table)
        return reply

    def update_counter(self, table: Table, key: Term, updates: Term, default: Term | Absent = ABSENT) -> Any:
        """Calls `update_counter(T,Key,Updates)` or `update_counter(T,Key,Updates,Default)`. Adds to elements. Returns
        the new value, or the list of new values."""
        if default is not ABSENT:
            return self._call("update_counter", Atom(table) if isinstance(table, str) else table, key, updates, default)
        return self._call("update_counter", Atom(table) if isinstance(table, str) else table, key, updates)

    def update_element(self, table: Table, key: Term, values: Term, default: Term | Absent = ABSENT) -> bool:
        """Calls `update_element(T,Key,Values)` or `update_element(T,Key,Values,Default)`. Replaces elements. Returns
        True, or False if the key has no object and there is no Default."""
        if default is not ABSENT:
            return bool(self._call(
                "update_element",
                Atom(table) if isinstance(table, str) else table,
                key,
                values,
                default,
            ))
        return bool(self._call("update_element", Atom(table) if isinstance(table, str) else table, key, values))

    def match(self, table: Table, pattern: Pattern) -> list[Any]:
        """Calls `match(T,Pattern)`. Returns, for each object that matches, the list of its bindings."""
        reply: list[Any] = self._call("match", Atom(table) if isinstance(table, str) else table, pattern_of(pattern))
        return reply

    def match_object(self, table: Table, pattern: Pattern) -> list[tuple[Any, ...]]:
        """Calls `match_object(T,Pattern)`. Returns the objects that match."""
        reply: list[tuple[Any, ...]] = self._call(
            "match_object",
            Atom(table) if isinstance(table, str) else table,
            pattern_of(pattern),
        )
        return reply

    def match_delete(self, table: Table, pattern: Pattern) -> bool:
        """Calls `match_delete(T,Pattern)`. Deletes the objects that match. Returns True."""
        return bool(self._call("match_delete", Atom(table) if isinstance(table, str) else table, pattern_of(pattern)))

    def select(self, table: Table, spec: Spec) -> list[Any]:
        """Calls `select(T,Spec)`. Returns the results of the specification."""
        reply: list[Any] = self._call("select", Atom(table) if isinstance(table, str) else table, spec_of(spec, OBJECT))
        return reply

    def select_count(self, table: Table, spec: Spec) -> int:
        """Calls `select_count(T,Spec)`. Returns the number of objects whose result is `true`."""
        reply: int = self._call("select_count", Atom(table) if isinstance(table, str) else table, spec_of(spec, ALWAYS))
        return reply

    def select_delete(self, table: Table, spec: Spec) -> int:
        """Calls `select_delete(T,Spec)`. Deletes the objects whose result is `true`. Returns their number."""
        reply: int = self._call(
            "select_delete",
            Atom(table) if isinstance(table, str) else table,
            spec_of(spec, ALWAYS),
        )
        return reply

    def first(self, table: Table) -> Any:
        """Calls `first(T)`. Returns the first key that has objects, or `'$end_of_table'`."""
        return self._call("first", Atom(table) if isinstance(table, str) else table)

    def next(self, table: Table, key: Term) -> Any:
        """Calls `next(T,Key)`. Returns the next key after Key that has objects, or `'$end_of_table'`."""
        return self._call("next", Atom(table) if isinstance(table, str) else table, key)

    def first_lookup(self, table: Table) -> Any:
        """Calls `first_lookup(T)`. Returns `{Key,Objects}` for the key of `first`, or `'$end_of_table'`."""
        return self._call("first_lookup", Atom(table) if isinstance(table, str) else table)

    def next_lookup(self, table: Table, key: Term) -> Any:
        """Calls `next_lookup(T,Key)`. Returns `{Key,Objects}` for the key of `next`, or `'$end_of_table'`."""
        return self._call("next_lookup", Atom(table) if isinstance(table, str) else table, key)

    def safe_fixtable(self, table: Table, fix: bool | Atom) -> bool:
        """Calls `safe_fixtable(T,Fix)`. With True, adds a fix of the caller. With False, removes one, if there is any.
        Returns True."""
        return bool(self._call("safe_fixtable", Atom(table) if isinstance(table, str) else table, atom_of(fix)))

    def give_away(self, table: Table, pid: Pid, gift: Term) -> bool:
        """Calls `give_away(T,Pid,Gift)`. Makes Pid the owner, and sends it the message. Returns True."""
        return bool(self._call("give_away", Atom(table) if isinstance(table, str) else table, pid, gift))

    def setopts(self, table: Table, options: Term | None = None, *, heir: Heir | None | Absent = ABSENT) -> bool:
        """Calls `setopts(T,Options)`. Sets the heir. Returns True.

        The heir is an option as a term or by keyword. None is no heir."""
        return bool(self._call(
            "setopts",
            Atom(table) if isinstance(table, str) else table,
            heir_options(options, heir),
        ))

    def receive(self) -> list[tuple[Any, ...]]:
        """Calls `receive()`. Returns the messages of the caller, oldest first, and empties its mailbox (own)."""
        reply: list[tuple[Any, ...]] = self._call("receive")
        return reply


class CollectedCalls:
    """Calls whose method collects the call and returns nothing."""

    _collect: Callable[..., None]
    _collect_truth: Callable[..., None]

    def new(
        self,
        name: Atom | str,
        options: Term | None = None,
        *,
        type: TableType | None = None,
        protection: Protection | None = None,
        named: bool = False,
        keypos: int | None = None,
        heir: Heir | None = None,
    ) -> None:
        """Calls `new(Name,Options)`. Makes a table. Returns its name if it is a named table, otherwise its identifier.

        The options are a list of terms, or keywords, which override the list."""
        self._collect(
            "new",
            Atom(name) if isinstance(name, str) else name,
            new_options(options, (type, protection, "named_table" if named else None), keypos, heir),
        )

    def delete(self, table: Table, key: Term | Absent = ABSENT) -> None:
        """Calls `delete(T)`. Deletes the table, its name and its fixes. Returns True.

        Calls `delete(T,Key)`. Deletes the key's objects. Returns True."""
        if key is not ABSENT:
            self._collect_truth("delete", Atom(table) if isinstance(table, str) else table, key)
            return
        self._collect_truth("delete", Atom(table) if isinstance(table, str) else table)

    def whereis(self, name: Atom | str) -> None:
        """Calls `whereis(Name)`. Returns the identifier of the table with this name, or `undefined`."""
        self._collect("whereis", Atom(name) if isinstance(name, str) else name)

    def info(self, table: Table, item: Atom | str) -> None:
        """Calls `info(T,Item)`. Returns the value of an item, or `undefined` if there is no such table."""
        collect = self._collect_truth if is_boolean(item) else self._collect
        collect("info", Atom(table) if isinstance(table, str) else table, Atom(item) if isinstance(item, str) else item)

    def insert(self, table: Table, objects: tuple[Any, ...] | list[Any]) -> None:
        """Calls `insert(T,Objects)`. Inserts an object, or all objects of a list, one after another. Returns True."""
        self._collect_truth("insert", Atom(table) if isinstance(table, str) else table, objects)

    def insert_new(self, table: Table, objects: tuple[Any, ...] | list[Any]) -> None:
        """Calls `insert_new(T,Objects)`. Returns False, and inserts nothing, if the key of one of the objects has
        objects in T. Otherwise as `insert`."""
        self._collect_truth("insert_new", Atom(table) if isinstance(table, str) else table, objects)

    def lookup(self, table: Table, key: Term) -> None:
        """Calls `lookup(T,Key)`. Returns the list of the key's objects, oldest first."""
        self._collect("lookup", Atom(table) if isinstance(table, str) else table, key)

    def member(self, table: Table, key: Term) -> None:
        """Calls `member(T,Key)`. Returns whether the key has objects."""
        self._collect_truth("member", Atom(table) if isinstance(table, str) else table, key)

    def lookup_element(self, table: Table, key: Term, pos: int, default: Term | Absent = ABSENT) -> None:
        """Calls `lookup_element(T,Key,Pos)` or `lookup_element(T,Key,Pos,Default)`. Returns element Pos of the object
        of a set; for a bag, the list of these elements of all objects. Returns Default if the key has no object."""
        if default is not ABSENT:
            self._collect("lookup_element", Atom(table) if isinstance(table, str) else table, key, pos, default)
            return
        self._collect("lookup_element", Atom(table) if isinstance(table, str) else table, key, pos)

    def take(self, table: Table, key: Term) -> None:
        """Calls `take(T,Key)`. Deletes the key's objects and returns the list of them."""
        self._collect("take", Atom(table) if isinstance(table, str) else table, key)

    def delete_object(self, table: Table, object: tuple[Any, ...]) -> None:
        """Calls `delete_object(T,Object)`. Deletes every instance of the object. Returns True."""
        self._collect_truth("delete_object", Atom(table) if isinstance(table, str) else table, object)

    def delete_all_objects(self, table: Table) -> None:
        """Calls `delete_all_objects(T)`. Deletes all objects. Returns True."""
        self._collect_truth("delete_all_objects", Atom(table) if isinstance(table, str) else table)

    def tab2list(self, table: Table) -> None:
        """Calls `tab2list(T)`. Returns the list of all objects."""
        self._collect("tab2list", Atom(table) if isinstance(table, str) else table)

    def update_counter(self, table: Table, key: Term, updates: Term, default: Term | Absent = ABSENT) -> None:
        """Calls `update_counter(T,Key,Updates)` or `update_counter(T,Key,Updates,Default)`. Adds to elements. Returns
        the new value, or the list of new values."""
        if default is not ABSENT:
            self._collect("update_counter", Atom(table) if isinstance(table, str) else table, key, updates, default)
            return
        self._collect("update_counter", Atom(table) if isinstance(table, str) else table, key, updates)

    def update_element(self, table: Table, key: Term, values: Term, default: Term | Absent = ABSENT) -> None:
        """Calls `update_element(T,Key,Values)` or `update_element(T,Key,Values,Default)`. Replaces elements. Returns
        True, or False if the key has no object and there is no Default."""
        if default is not ABSENT:
            self._collect_truth(
                "update_element",
                Atom(table) if isinstance(table, str) else table,
                key,
                values,
                default,
            )
            return
        self._collect_truth("update_element", Atom(table) if isinstance(table, str) else table, key, values)

    def match(self, table: Table, pattern: Pattern) -> None:
        """Calls `match(T,Pattern)`. Returns, for each object that matches, the list of its bindings."""
        self._collect("match", Atom(table) if isinstance(table, str) else table, pattern_of(pattern))

    def match_object(self, table: Table, pattern: Pattern) -> None:
        """Calls `match_object(T,Pattern)`. Returns the objects that match."""
        self._collect("match_object", Atom(table) if isinstance(table, str) else table, pattern_of(pattern))

    def match_delete(self, table: Table, pattern: Pattern) -> None:
        """Calls `match_delete(T,Pattern)`. Deletes the objects that match. Returns True."""
        self._collect_truth("match_delete", Atom(table) if isinstance(table, str) else table, pattern_of(pattern))

    def select(self, table: Table, spec: Spec) -> None:
        """Calls `select(T,Spec)`. Returns the results of the specification."""
        self._collect("select", Atom(table) if isinstance(table, str) else table, spec_of(spec, OBJECT))

    def select_count(self, table: Table, spec: Spec) -> None:
        """Calls `select_count(T,Spec)`. Returns the number of objects whose result is `true`."""
        self._collect("select_count", Atom(table) if isinstance(table, str) else table, spec_of(spec, ALWAYS))

    def select_delete(self, table: Table, spec: Spec) -> None:
        """Calls `select_delete(T,Spec)`. Deletes the objects whose result is `true`. Returns their number."""
        self._collect("select_delete", Atom(table) if isinstance(table, str) else table, spec_of(spec, ALWAYS))

    def first(self, table: Table) -> None:
        """Calls `first(T)`. Returns the first key that has objects, or `'$end_of_table'`."""
        self._collect("first", Atom(table) if isinstance(table, str) else table)

    def next(self, table: Table, key: Term) -> None:
        """Calls `next(T,Key)`. Returns the next key after Key that has objects, or `'$end_of_table'`."""
        self._collect("next", Atom(table) if isinstance(table, str) else table, key)

    def first_lookup(self, table: Table) -> None:
        """Calls `first_lookup(T)`. Returns `{Key,Objects}` for the key of `first`, or `'$end_of_table'`."""
        self._collect("first_lookup", Atom(table) if isinstance(table, str) else table)

    def next_lookup(self, table: Table, key: Term) -> None:
        """Calls `next_lookup(T,Key)`. Returns `{Key,Objects}` for the key of `next`, or `'$end_of_table'`."""
        self._collect("next_lookup", Atom(table) if isinstance(table, str) else table, key)

    def safe_fixtable(self, table: Table, fix: bool | Atom) -> None:
        """Calls `safe_fixtable(T,Fix)`. With True, adds a fix of the caller. With False, removes one, if there is any.
        Returns True."""
        self._collect_truth("safe_fixtable", Atom(table) if isinstance(table, str) else table, atom_of(fix))

    def give_away(self, table: Table, pid: Pid, gift: Term) -> None:
        """Calls `give_away(T,Pid,Gift)`. Makes Pid the owner, and sends it the message. Returns True."""
        self._collect_truth("give_away", Atom(table) if isinstance(table, str) else table, pid, gift)

    def setopts(self, table: Table, options: Term | None = None, *, heir: Heir | None | Absent = ABSENT) -> None:
        """Calls `setopts(T,Options)`. Sets the heir. Returns True.

        The heir is an option as a term or by keyword. None is no heir."""
        self._collect_truth("setopts", Atom(table) if isinstance(table, str) else table, heir_options(options, heir))

    def receive(self) -> None:
        """Calls `receive()`. Returns the messages of the caller, oldest first, and empties its mailbox (own)."""
        self._collect("receive")


class AwaitedCalls:
    """Calls whose method is awaited: it returns the reply or raises a Fault."""

    _call: Callable[..., Awaitable[Any]]

    async def new(
        self,
        name: Atom | str,
        options: Term | None = None,
        *,
        type: TableType | None = None,
        protection: Protection | None = None,
        named: bool = False,
        keypos: int | None = None,
        heir: Heir | None = None,
    ) -> Tid | Atom:
        """Calls `new(Name,Options)`. Makes a table. Returns its name if it is a named table, otherwise its identifier.

        The options are a list of terms, or keywords, which override the list."""
        reply: Tid | Atom = await self._call(
            "new",
            Atom(name) if isinstance(name, str) else name,
            new_options(options, (type, protection, "named_table" if named else None), keypos, heir),
        )
        return reply

    async def delete(self, table: Table, key: Term | Absent = ABSENT) -> bool:
        """Calls `delete(T)`. Deletes the table, its name and its fixes. Returns True.

        Calls `delete(T,Key)`. Deletes the key's objects. Returns True."""
        if key is not ABSENT:
            return bool(await self._call("delete", Atom(table) if isinstance(table, str) else table, key))
        return bool(await self._call("delete", Atom(table) if isinstance(table, str) else table))

    async def whereis(self, name: Atom | str) -> Tid | Atom:
        """Calls `whereis(Name)`. Returns the identifier of the table with this name, or `undefined`."""
        reply: Tid | Atom = await self._call("whereis", Atom(name) if isinstance(name, str) else name)
        return reply

    async def info(self, table: Table, item: Atom | str) -> Any:
        """Calls `info(T,Item)`. Returns the value of an item, or `undefined` if there is no such table."""
        reply: Any = await self._call(
            "info",
            Atom(table) if isinstance(table, str) else table,
            Atom(item) if isinstance(item, str) else item,
        )
        return as_bool(reply) if is_boolean(item) else reply

    async def insert(self, table: Table, objects: tuple[Any, ...] | list[Any]) -> bool:
        """Calls `insert(T,Objects)`. Inserts an object, or all objects of a list, one after another. Returns True."""
        return bool(await self._call("insert", Atom(table) if isinstance(table, str) else table, objects))

    async def insert_new(self, table: Table, objects: tuple[Any, ...] | list[Any]) -> bool:
        """Calls `insert_new(T,Objects)`. Returns False, and inserts nothing, if the key of one of the objects has
        objects in T. Otherwise as `insert`."""
        return bool(await self._call("insert_new", Atom(table) if isinstance(table, str) else table, objects))

    async def lookup(self, table: Table, key: Term) -> list[tuple[Any, ...]]:
        """Calls `lookup(T,Key)`. Returns the list of the key's objects, oldest first."""
        reply: list[tuple[Any, ...]] = await self._call("lookup", Atom(table) if isinstance(table, str) else table, key)
        return reply

    async def member(self, table: Table, key: Term) -> bool:
        """Calls `member(T,Key)`. Returns whether the key has objects."""
        return bool(await self._call("member", Atom(table) if isinstance(table, str) else table, key))

    async def lookup_element(self, table: Table, key: Term, pos: int, default: Term | Absent = ABSENT) -> Any:
        """Calls `lookup_element(T,Key,Pos)` or `lookup_element(T,Key,Pos,Default)`. Returns element Pos of the object
        of a set; for a bag, the list of these elements of all objects. Returns Default if the key has no object."""
        if default is not ABSENT:
            return await self._call(
                "lookup_element",
                Atom(table) if isinstance(table, str) else table,
                key,
                pos,
                default,
            )
        return await self._call("lookup_element", Atom(table) if isinstance(table, str) else table, key, pos)

    async def take(self, table: Table, key: Term) -> list[tuple[Any, ...]]:
        """Calls `take(T,Key)`. Deletes the key's objects and returns the list of them."""
        reply: list[tuple[Any, ...]] = await self._call("take", Atom(table) if isinstance(table, str) else table, key)
        return reply

    async def delete_object(self, table: Table, object: tuple[Any, ...]) -> bool:
        """Calls `delete_object(T,Object)`. Deletes every instance of the object. Returns True."""
        return bool(await self._call("delete_object", Atom(table) if isinstance(table, str) else table, object))

    async def delete_all_objects(self, table: Table) -> bool:
        """Calls `delete_all_objects(T)`. Deletes all objects. Returns True."""
        return bool(await self._call("delete_all_objects", Atom(table) if isinstance(table, str) else table))

    async def tab2list(self, table: Table) -> list[tuple[Any, ...]]:
        """Calls `tab2list(T)`. Returns the list of all objects."""
        reply: list[tuple[Any, ...]] = await self._call("tab2list", Atom(table) if isinstance(table, str) else table)
        return reply

    async def update_counter(self, table: Table, key: Term, updates: Term, default: Term | Absent = ABSENT) -> Any:
        """Calls `update_counter(T,Key,Updates)` or `update_counter(T,Key,Updates,Default)`. Adds to elements. Returns
        the new value, or the list of new values."""
        if default is not ABSENT:
            return await self._call(
                "update_counter",
                Atom(table) if isinstance(table, str) else table,
                key,
                updates,
                default,
            )
        return await self._call("update_counter", Atom(table) if isinstance(table, str) else table, key, updates)

    async def update_element(self, table: Table, key: Term, values: Term, default: Term | Absent = ABSENT) -> bool:
        """Calls `update_element(T,Key,Values)` or `update_element(T,Key,Values,Default)`. Replaces elements. Returns
        True, or False if the key has no object and there is no Default."""
        if default is not ABSENT:
            return bool(await self._call(
                "update_element",
                Atom(table) if isinstance(table, str) else table,
                key,
                values,
                default,
            ))
        return bool(await self._call("update_element", Atom(table) if isinstance(table, str) else table, key, values))

    async def match(self, table: Table, pattern: Pattern) -> list[Any]:
        """Calls `match(T,Pattern)`. Returns, for each object that matches, the list of its bindings."""
        reply: list[Any] = await self._call(
            "match",
            Atom(table) if isinstance(table, str) else table,
            pattern_of(pattern),
        )
        return reply

    async def match_object(self, table: Table, pattern: Pattern) -> list[tuple[Any, ...]]:
        """Calls `match_object(T,Pattern)`. Returns the objects that match."""
        reply: list[tuple[Any, ...]] = await self._call(
            "match_object",
            Atom(table) if isinstance(table, str) else table,
            pattern_of(pattern),
        )
        return reply

    async def match_delete(self, table: Table, pattern: Pattern) -> bool:
        """Calls `match_delete(T,Pattern)`. Deletes the objects that match. Returns True."""
        return bool(await self._call(
            "match_delete",
            Atom(table) if isinstance(table, str) else table,
            pattern_of(pattern),
        ))

    async def select(self, table: Table, spec: Spec) -> list[Any]:
        """Calls `select(T,Spec)`. Returns the results of the specification."""
        reply: list[Any] = await self._call(
            "select",
            Atom(table) if isinstance(table, str) else table,
            spec_of(spec, OBJECT),
        )
        return reply

    async def select_count(self, table: Table, spec: Spec) -> int:
        """Calls `select_count(T,Spec)`. Returns the number of objects whose result is `true`."""
        reply: int = await self._call(
            "select_count",
            Atom(table) if isinstance(table, str) else table,
            spec_of(spec, ALWAYS),
        )
        return reply

    async def select_delete(self, table: Table, spec: Spec) -> int:
        """Calls `select_delete(T,Spec)`. Deletes the objects whose result is `true`. Returns their number."""
        reply: int = await self._call(
            "select_delete",
            Atom(table) if isinstance(table, str) else table,
            spec_of(spec, ALWAYS),
        )
        return reply

    async def first(self, table: Table) -> Any:
        """Calls `first(T)`. Returns the first key that has objects, or `'$end_of_table'`."""
        return await self._call("first", Atom(table) if isinstance(table, str) else table)

    async def next(self, table: Table, key: Term) -> Any:
        """Calls `next(T,Key)`. Returns the next key after Key that has objects, or `'$end_of_table'`."""
        return await self._call("next", Atom(table) if isinstance(table, str) else table, key)

    async def first_lookup(self, table: Table) -> Any:
        """Calls `first_lookup(T)`. Returns `{Key,Objects}` for the key of `first`, or `'$end_of_table'`."""
        return await self._call("first_lookup", Atom(table) if isinstance(table, str) else table)

    async def next_lookup(self, table: Table, key: Term) -> Any:
        """Calls `next_lookup(T,Key)`. Returns `{Key,Objects}` for the key of `next`, or `'$end_of_table'`."""
        return await self._call("next_lookup", Atom(table) if isinstance(table, str) else table, key)

    async def safe_fixtable(self, table: Table, fix: bool | Atom) -> bool:
        """Calls `safe_fixtable(T,Fix)`. With True, adds a fix of the caller. With False, removes one, if there is any.
        Returns True."""
        return bool(await self._call("safe_fixtable", Atom(table) if isinstance(table, str) else table, atom_of(fix)))

    async def give_away(self, table: Table, pid: Pid, gift: Term) -> bool:
        """Calls `give_away(T,Pid,Gift)`. Makes Pid the owner, and sends it the message. Returns True."""
        return bool(await self._call("give_away", Atom(table) if isinstance(table, str) else table, pid, gift))

    async def setopts(self, table: Table, options: Term | None = None, *, heir: Heir | None | Absent = ABSENT) -> bool:
        """Calls `setopts(T,Options)`. Sets the heir. Returns True.

        The heir is an option as a term or by keyword. None is no heir."""
        return bool(await self._call(
            "setopts",
            Atom(table) if isinstance(table, str) else table,
            heir_options(options, heir),
        ))

    async def receive(self) -> list[tuple[Any, ...]]:
        """Calls `receive()`. Returns the messages of the caller, oldest first, and empties its mailbox (own)."""
        reply: list[tuple[Any, ...]] = await self._call("receive")
        return reply
