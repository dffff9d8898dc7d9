"""Requests and replies of a program in an event loop of asyncio."""

from __future__ import annotations

import asyncio
import os
import time
from collections import deque
from collections.abc import Sequence
from typing import Any

from . import forking, program
from .faults import CLOSED, FORKED
from .packets import NOT_PACKETS, NotPackets, Replies
from .program import TOO_MANY, Program

# A call waits before it waits for its reply if this many bytes are unsent.
MOST_UNSENT = 1 << 20
Body = asyncio.Future["bytes | None"]


class Exchange:
    """Sends requests to a program and hands out their replies, in one event loop. It does without the transports of asyncio:
    at the end of a forked child they would take the program's output out of the parent's event loop."""

    def __init__(self, words: Sequence[str], options: dict[str, Any]):
        """Starts the program. `options` are those of subprocess.Popen."""
        self._loop, self._program = asyncio.get_running_loop(), Program(words, options)
        self._waiting: deque[Body] = deque()
        self._replies, self._has_room, self._is_sending = Replies(), asyncio.Event(), False
        # What is being sent, and the requests after it.
        self._sending: bytes | memoryview = b""
        self._next: list[bytes] = []
        self._unsent = 0
        # Why no more calls are sent; empty while the program runs.
        self.ended, self._over, self._latest = "", self._loop.create_future(), 0.0
        self._closing: asyncio.Task[None] | None = None
        self._loop.add_reader(self._program.replies, self._read)
        if self._program.errors:
            self._loop.add_reader(self._program.errors, self._pass_on)
        forking.hold(self)

    def send(self, data: bytes) -> Body:
        """Sends a request. Returns what will have the body of its reply, or None if there is none."""
        body: Body = asyncio.get_running_loop().create_future()
        if self._program.owner != os.getpid():
            self.ended = FORKED
        if self.ended:
            body.set_result(None)
            return body
        self._waiting.append(body)
        self._next.append(data)
        self._unsent += len(data)
        if not self._is_sending:
            # All that is sent before the event loop goes on is one write.
            self._is_sending = True
            self._loop.call_soon(self._flush)
        return body

    async def room(self) -> None:
        """Waits until the program has taken most of what was sent."""
        while self._unsent > MOST_UNSENT and not self.ended:
            self._has_room.clear()
            await self._has_room.wait()

    def _flush(self) -> None:
        """Sends what the program takes. The rest follows once it takes more."""
        if self._program.requests.closed:
            return
        if not self._sending:
            self._sending, self._next = b"".join(self._next), []
        before, self._sending = len(self._sending), self._program.send(self._sending)
        self._unsent -= before - len(self._sending)
        self._is_sending = bool(self._unsent)
        if self._is_sending:
            self._loop.add_writer(self._program.requests, self._flush)
        else:
            self._loop.remove_writer(self._program.requests)
        if self._unsent <= MOST_UNSENT:
            self._has_room.set()

    def _read(self) -> None:
        """Hands the replies to the calls that wait, in order, until the program ends."""
        block = self._program.read()
        if block is None:
            return
        try:
            bodies = self._replies.add(block)
        except NotPackets:
            self._end(NOT_PACKETS)
            return
        self._latest = time.monotonic() + program.PATIENCE
        for body in bodies:
            if not self._waiting:
                self.ended = self.ended or TOO_MANY
                return
            waiting = self._waiting.popleft()
            # The reply to a cancelled call is dropped.
            if not waiting.done():
                waiting.set_result(body)
        if not block:
            self._loop.remove_reader(self._program.replies)
            self._ending = self._loop.create_task(self._say_how_it_ended())

    def _pass_on(self) -> None:
        if self._program.errors and not self._program.pass_on():
            self._loop.remove_reader(self._program.errors)

    async def _say_how_it_ended(self) -> None:
        await self._ends(time.monotonic() + program.SHORTLY)
        self._end(self._program.how_it_ended())

    async def _ends(self, latest: float) -> bool:
        """Waits for the end of the program, at most until this time, by time.monotonic(). Returns whether it has ended."""
        pause = 0.001
        while not self._program.has_ended() and time.monotonic() < latest:
            await asyncio.sleep(pause)
            pause = min(2 * pause, 0.05)
        return self._program.has_ended()

    def _end(self, how: str) -> None:
        """Says that no more replies come."""
        self.ended = self.ended or how
        if not self._program.replies.closed:
            self._loop.remove_reader(self._program.replies)
        if not self._program.requests.closed:
            self._loop.remove_writer(self._program.requests)
        self._has_room.set()
        while self._waiting:
            waiting = self._waiting.popleft()
            if not waiting.done():
                waiting.set_result(None)
        if not self._over.done():
            self._over.set_result(None)

    async def close(self) -> None:
        """Ends the program after the calls that were sent, and kills it if it answers nothing for a time."""
        if self.ended != FORKED and self._program.owner == os.getpid():
            self._closing = self._closing or self._loop.create_task(self._close())
            # If this is cancelled, the closing goes on.
            await asyncio.shield(self._closing)

    async def _close(self) -> None:
        self.ended, self._latest = self.ended or CLOSED, time.monotonic() + program.PATIENCE
        try:
            while self._unsent and not self._over.done() and time.monotonic() < self._latest:
                await asyncio.wait([self._over], timeout=0.01)
            if not self._program.requests.closed:
                self._loop.remove_writer(self._program.requests)
            self._program.close_input()
            while not self._over.done() and time.monotonic() < self._latest:
                await asyncio.wait([self._over], timeout=max(self._latest - time.monotonic(), 0.001))
            await self._ends(self._latest)
        finally:
            self.stop()

    def stop(self) -> None:
        """Ends the program at once, and kills it if it has not ended."""
        self.ended = CLOSED
        if not self._loop.is_closed():
            self._end(CLOSED)
            if self._program.errors and not self._program.errors.closed:
                self._loop.remove_reader(self._program.errors)
        self._program.stop(time.monotonic())

    def is_open(self) -> bool:
        """Returns whether the program has to be ended."""
        return self.ended != FORKED and not self._program.replies.closed

    def abandon(self) -> None:
        """Gives the program up, in a forked child."""
        self.ended = FORKED
        self._waiting.clear()
        self._program.abandon()
