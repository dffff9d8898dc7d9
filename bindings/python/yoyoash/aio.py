"""The client for asyncio, over a pipe. Calls that are awaited at the same time are sent without waiting for each
other.

    async with yoyoash.aio.Store() as store:
        anna = await store.spawn("anna")
        prices = await anna.new(Atom("prices"), [Atom("named_table")])
        await asyncio.gather(*[anna.insert(prices, (number, 0)) for number in range(1_000)])

Use a Store in the event loop that opened it. Cancelling a call does not stop it: its reply is read and dropped."""

from __future__ import annotations

import asyncio
import contextlib
import warnings
from collections.abc import AsyncIterator, Sequence
from typing import Any

from . import calling, finding
from .calls import AwaitedCalls
from .exchange import Body, Exchange
from .faults import BadArg, Fault, Gone, NoProcess, gone, line_of_terms, raised
from .packets import CALL, Names, Request, fits, packet, result_of, too_long
from .reasons import Reason
from .store import Uncopied, checked_line, checked_name
from .terms import FALSE, Atom, Pid, Table, Term
from .traversals import AsyncTraversal, awaited_keys_of, awaited_objects_of



class Store(Uncopied):
    """A store in a program at the other end of a pipe."""

    def __init__(
        self,
        command: finding.Path | Sequence[str] | None = None,
        *,
        max_processes: int | None = None,
        max_tables: int | None = None,
        max_objects: int | None = None,
        seed: int | None = None,
        **options: Any,
    ):
        """Takes the arguments of yoyoash.Store.pipe. Starts nothing yet."""
        settings = finding.Settings(max_processes, max_tables, max_objects, seed)
        self._words, self._options = finding.command(command, settings), options
        self._exchange: Exchange | None = None
        self._names = Names()

    async def open(self) -> Store:
        """Starts the program."""
        self._exchange = Exchange(self._words, self._options)
        return self

    async def spawn(self, name: str) -> Process:
        """Begins a process with this name: an identity inside the store that owns tables."""
        return Process(self, checked_name(name), await self.ask(f"spawn {name}"))

    async def ask(self, line: str) -> Any:
        """Returns the reply to a line of the script language, or raises a Fault."""
        return await self._answer(*self._request(line))

    async def ask_all(self, lines: Sequence[str]) -> list[Any]:
        """Sends all lines, then returns for each its reply or its Fault, in order."""
        sent = [self._request(line) for line in [checked_line(it) for it in lines]]
        answers: list[Any] = await asyncio.gather(*[self._answer(*it) for it in sent], return_exceptions=True)
        for answer in answers:
            if isinstance(answer, BaseException) and not isinstance(answer, Fault):
                raise answer
        return answers

    async def close(self) -> None:
        """Ends the store after the calls that were sent. Waits a bounded time, and then kills its program. Closing again does
        nothing."""
        if self._exchange:
            await self._exchange.close()

    async def __aenter__(self) -> Store:
        return await self.open()

    async def __aexit__(self, *raised: object) -> None:
        await self.close()

    def _send(self, data: bytes) -> Body:
        """Sends a request. Returns what will have the body of its reply."""
        if self._exchange:
            return self._exchange.send(data)
        body: Body = asyncio.get_running_loop().create_future()
        body.set_result(None)
        return body

    async def _body(self, body: Body) -> bytes | None:
        """Waits for the body of a reply."""
        if self._exchange and not body.done():
            await self._exchange.room()
        return await body

    def _why_gone(self) -> str:
        return self._exchange.ended if self._exchange else Reason.NOT_OPEN.value

    def _request(self, line: str) -> tuple[Request, Body | None]:
        request = Request(checked_line(line), self._names)
        return request, self._send(request.packet) if request.packet else None

    async def _answer(self, request: Request, sent: Body | None) -> Any:
        """Waits for the answer of a line. Returns the reply or raises the Fault."""
        body = await self._body(sent) if sent else None
        return raised(request.result(body, self._why_gone()))

    def __del__(self) -> None:
        exchange = self.__dict__.get("_exchange")
        if exchange and exchange.is_open():
            try:
                warnings.warn(f"{self!r} was never closed: use `async with`, or call close()", ResourceWarning, source=self)
            finally:
                exchange.stop()


class Process(Uncopied, AwaitedCalls):
    """A process of the store. Each call of docs/calls.md is a method to await: it returns the reply or raises a
    Fault."""

    def __init__(self, store: Store, name: str, pid: Pid):
        self.store, self.name, self.pid = store, name, pid

    async def exit(self) -> bool:
        """Ends the process. Its tables go to their heirs, or are deleted. Returns True."""
        return bool(await self.store.ask(f"exit {self.name}"))

    async def __aenter__(self) -> Process:
        return self

    async def __aexit__(self, *raised: object) -> None:
        # A process that has ended, and one of a store that is gone, need no end.
        with contextlib.suppress(NoProcess, Gone):
            await self.exit()

    @contextlib.asynccontextmanager
    async def fixed(self, table: Table) -> AsyncIterator[Table]:
        """Fixes the table for the time of an `async with`, so that a traversal visits each key that stays exactly
        once."""
        try:
            await self.safe_fixtable(table, True)
        except asyncio.CancelledError:
            # The fix was sent, so its release is sent too.
            self.store._send(self._packet("safe_fixtable", Atom(table) if isinstance(table, str) else table, FALSE))
            raise
        try:
            yield table
        finally:
            # A table that was deleted, a process that has ended and a store that is gone have no fixes.
            with contextlib.suppress(BadArg, NoProcess, Gone):
                await self.safe_fixtable(table, False)

    def walk(self, table: Table) -> AsyncTraversal[Any]:
        """Returns an iterator over the keys of the table, which fixes the table. It is a context manager too, for
        `async with`."""
        return AsyncTraversal(awaited_keys_of(self, table))

    def objects(self, table: Table) -> AsyncTraversal[tuple[Any, ...]]:
        """Returns an iterator over the objects of the table, one key at a time, which fixes the table. It is a context
        manager too, for `async with`."""
        return AsyncTraversal(awaited_objects_of(self, table))

    async def _call(self, call: str, *terms: Term) -> Any:
        body = await self.store._body(self.store._send(self._packet(call, *terms)))
        if body is None:
            raise gone(line_of_terms(self.name, call, terms), self.store._why_gone())
        return raised(result_of(body, line_of_terms, self.name, call, terms))

    def _packet(self, call: str, *terms: Term) -> bytes:
        data = calling.encoded(call, terms)
        if not fits(data):
            raise too_long(line_of_terms(self.name, call, terms), data)
        return packet(CALL, self.pid.number, data)

    def __repr__(self) -> str:
        return f"<process {self.name} {self.pid!r}>"
