"""A store in a program at the other end of a pipe."""

from __future__ import annotations

import os
import select
import threading
import time
from collections.abc import Callable, Sequence
from functools import partial
from typing import Any

from . import calling, finding, forking, program
from .faults import CLOSED, FORKED, gone, line_of_terms, raised
from .packets import CALL, NOT_PACKETS, Names, NotPackets, Replies, Request, fits, packet, result_of, too_long
from .program import INTERRUPTED, TOO_MANY, Program
from .terms import Pid, Term

# A thread that waits for replies looks each time after this many milliseconds whether the program runs.
WAKING = 200


class Pipe:
    """A running `ets_script --external`. Threads may share it: one exchange runs at a time."""

    def __init__(self, command: finding.Path | Sequence[str] | None, settings: finding.Settings, options: dict[str, Any]):
        """Starts the program. `options` are those of subprocess.Popen."""
        self._program = Program(finding.command(command, settings), options)
        # Replies have to be read while the program takes no more calls.
        self._readable, self._either = select.poll(), select.poll()
        for poll in self._readable, self._either:
            for stream in self._program.replies, self._program.errors:
                if stream:
                    poll.register(stream, select.POLLIN)
        self._either.register(self._program.requests, select.POLLOUT)
        self._at_requests, self._at_replies = self._program.requests.fileno(), self._program.replies.fileno()
        # What the polls return if there are replies, and nothing else: the usual case.
        self._has_replies, self._replies = [(self._at_replies, select.POLLIN)], Replies()
        # Why no more calls are sent; empty while the program runs.
        self.ended, self.is_closed = "", False
        self._turn, self._names = threading.Lock(), Names()
        forking.hold(self)

    def asker(self, process: str, pid: Pid) -> Callable[..., Any]:
        """Returns a function that makes calls of a process, each a name and terms. It returns the reply or raises a
        Fault."""
        return partial(self._ask, process, pid.number)

    def _ask(self, process: str, pid: int, name: str, *terms: Term) -> Any:
        call = calling.encoded(name, terms)
        if not fits(call):
            raise too_long(line_of_terms(process, name, terms), call)
        bodies = self._exchange(packet(CALL, pid, call), 1)
        if not bodies:
            raise gone(line_of_terms(process, name, terms), self.ended)
        return raised(result_of(bodies[0], line_of_terms, process, name, terms))

    def collected(self, name: str, terms: Sequence[Term]) -> bytes:
        """Returns what `results` takes of a call."""
        return calling.encoded(name, terms)

    def results(self, process: str, pid: Pid, calls: Sequence[bytes]) -> list[Any]:
        """Makes calls in one exchange. Returns a reply or a Fault for each."""
        line = partial(calling.line_of_call, process)
        sent = [packet(CALL, pid.number, it) if fits(it) else b"" for it in calls]
        bodies = iter(self._exchange(b"".join(sent), sum(map(bool, sent))))
        results = []
        for call, data in zip(calls, sent, strict=True):
            body = next(bodies, None) if data else None
            if body is None:
                results.append(gone(line(call), self.ended) if data else too_long(line(call), call))
            else:
                results.append(result_of(body, line, call))
        return results

    def ask_all(self, lines: Sequence[str]) -> list[Any]:
        """Sends lines of the script language in one exchange. Returns a reply or a Fault for each."""
        requests = [Request(line, self._names) for line in lines]
        sent = [it.packet for it in requests]
        bodies = iter(self._exchange(b"".join(sent), sum(map(bool, sent))))
        return [it.result(next(bodies, None) if it.packet else None, self.ended) for it in requests]

    def _exchange(self, data: bytes, count: int) -> list[bytes]:
        """Sends this many requests. Returns the bodies of their replies: fewer if the program ends."""
        if self._is_forked() or not count:
            return []
        with self._turn:
            if self.ended:
                return []
            # If this is interrupted, as by Ctrl-C, a later reply could be taken for another call's. So none is sent any more.
            self.ended = INTERRUPTED
            bodies, ended = self._talk(data, count)
            self.ended = CLOSED if self.is_closed else ended
        return bodies

    def _talk(self, data: bytes, count: int) -> tuple[list[bytes], str]:
        """Sends requests and reads this many replies. Returns their bodies, and why there are no more: nothing if there
        may be."""
        bodies: list[bytes] = []
        unsent = self._program.send(data)
        while unsent or len(bodies) < count:
            ready = self._wait(bool(unsent))
            if ready & select.POLLOUT:
                unsent = self._program.send(unsent)
            if ready & select.POLLIN:
                block = self._program.read()
                if not block:
                    return bodies, self._how_it_ended()
                try:
                    bodies += self._replies.add(block)
                except NotPackets:
                    return bodies, NOT_PACKETS
            elif not ready and self._program.has_ended():
                # A program that it started has its output still open.
                return bodies, self._how_it_ended()
        is_whole = len(bodies) == count and not self._replies.is_begun()
        return bodies[:count], "" if is_whole else TOO_MANY

    def _wait(self, has_unsent: bool) -> int:
        """Waits until the program takes requests (POLLOUT) or has printed replies (POLLIN). Passes on what it prints on
        standard error."""
        found = (self._either if has_unsent else self._readable).poll(WAKING)
        if found == self._has_replies:
            return select.POLLIN
        ready = 0
        for at, _ in found:
            if at == self._at_replies:
                ready |= select.POLLIN
            elif at == self._at_requests:
                ready |= select.POLLOUT
            elif not self._program.pass_on():
                self._readable.unregister(at)
                self._either.unregister(at)
        return ready

    def _how_it_ended(self) -> str:
        self._program.wait(program.SHORTLY)
        return self._program.how_it_ended()

    def close(self) -> None:
        """Ends the program. Waits a bounded time, and then kills it. Closing again does nothing."""
        if self._is_forked():
            return
        self.is_closed, latest = True, time.monotonic() + program.PATIENCE
        is_held = self._turn.acquire(timeout=program.PATIENCE)
        if not is_held:
            # A call runs. It ends with the program.
            self._program.popen.kill()
            is_held = self._turn.acquire(timeout=program.PATIENCE)
        try:
            self.ended = CLOSED
            if is_held:
                self._program.stop(latest)
        finally:
            if is_held:
                self._turn.release()

    def _is_forked(self) -> bool:
        """Returns whether the store belongs to another process, which forked this one."""
        if os.getpid() != self._program.owner:
            self.ended, self.is_closed = FORKED, True
        return self.ended == FORKED

    def abandon(self) -> None:
        """Gives the program up, in a forked child."""
        self.ended, self.is_closed, self._turn = FORKED, True, threading.Lock()
        self._program.abandon()
