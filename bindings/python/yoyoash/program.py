"""A running program at the other end of pipes, and how it ends."""

from __future__ import annotations

import contextlib
import os
import signal
import subprocess
import time
from collections.abc import Sequence
from typing import IO, Any, cast

from . import finding
from .reasons import Reason

# This many bytes are read at once, since a pipe rarely holds more.
BLOCK = 65_536
# Closing waits this many seconds for the program to end, and then kills it.
PATIENCE = 2.0
# A program that closes its output has this many seconds to end.
SHORTLY = 1.0
INTERRUPTED, TOO_MANY = Reason.INTERRUPTED.value, Reason.TOO_MANY_REPLIES.value
UNENDED = "the program closed its output"


class Program:
    """A running `ets_script`, in a session of its own, so that Ctrl-C at a terminal does not reach it. No read and no write
    waits."""

    def __init__(self, words: Sequence[str], options: dict[str, Any]):
        """Starts the program. `options` are those of subprocess.Popen."""
        has_errors = "stderr" not in options
        options = {"start_new_session": True, "stderr": subprocess.PIPE} | options
        try:
            self.popen = subprocess.Popen(words, stdin=subprocess.PIPE, stdout=subprocess.PIPE, bufsize=0, **options)
        except OSError as error:
            if os.fsdecode(error.filename or "") != words[0]:
                raise
            raise finding.unavailable(words[0], "YOYOASH_PROGRAM", error) from None
        # A caller that takes standard error reads it.
        self.errors: IO[bytes] | None = self.popen.stderr if has_errors else None
        self.owner, self._last_line, self._begun = os.getpid(), "", b""
        self.requests, self.replies = cast(IO[bytes], self.popen.stdin), cast(IO[bytes], self.popen.stdout)
        for it in (self.requests, self.replies, self.errors):
            if it:
                os.set_blocking(it.fileno(), False)

    def send(self, data: bytes | memoryview) -> bytes | memoryview:
        """Sends what the program takes. Returns the rest: nothing if the program has ended."""
        try:
            sent = self.requests.write(data)
        except (BrokenPipeError, ValueError):
            return b""
        return b"" if sent == len(data) else memoryview(data)[sent or 0 :]

    def read(self) -> bytes | None:
        """Returns what the program has printed, nothing at the end, or None if that is still to come."""
        return self.replies.read(BLOCK)

    def pass_on(self) -> bool:
        """Passes on what the program has printed on standard error to that of Python. Returns whether more may come."""
        if not self.errors or self.errors.closed:
            return False
        while (block := self.errors.read(BLOCK)) is not None:
            if not block:
                return False
            with contextlib.suppress(OSError):
                os.write(2, block)
            *lines, self._begun = (self._begun + block).split(b"\n")
            told = [it for it in lines if it.strip()]
            self._last_line = told[-1].decode("ascii", "replace").strip() if told else self._last_line
        return True

    def how_it_ended(self) -> str:
        """Says how the program ended, with the last line of its standard error."""
        status = self.popen.poll()
        if status is None:
            return UNENDED
        self.pass_on()
        if status < 0:
            names = {it.value: it.name for it in signal.Signals}
            how = f"the program was killed by {names.get(-status, f'signal {-status}')}"
        else:
            how = f"the program ended with exit status {status}"
        last_line = self._begun.decode("ascii", "replace").strip() or self._last_line
        return f"{how}: {last_line}" if last_line else how

    def has_ended(self) -> bool:
        """Returns whether the program has ended."""
        return self.popen.poll() is not None

    def wait(self, seconds: float) -> bool:
        """Waits at most this long for the program to end. Returns whether it has."""
        try:
            self.popen.wait(max(seconds, 0.0))
        except subprocess.TimeoutExpired:
            return False
        return True

    def close_input(self) -> None:
        """Closes the program's input, which ends it."""
        self.requests.close()

    def stop(self, latest: float) -> None:
        """Ends the program, and kills it if it runs at this time, by time.monotonic()."""
        self.close_input()
        self.replies.close()
        if not self.wait(latest - time.monotonic()):
            self.popen.kill()
            self.wait(SHORTLY)
        self.drop()

    def drop(self) -> None:
        """Passes on the last words of a program that has ended, and closes all."""
        self.pass_on()
        for it in (self.replies, self.errors):
            if it:
                it.close()

    def abandon(self) -> None:
        """Closes what a forked child has of the program. The program belongs to the parent, so the child never waits for
        it or kills it."""
        self.popen.returncode = 0
        for it in (self.requests, self.replies, self.errors):
            if it:
                it.close()
