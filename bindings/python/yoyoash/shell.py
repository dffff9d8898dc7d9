"""A shell of the script language: `python -m yoyoash`. At a terminal it has a prompt, editing, a history and completion."""

from __future__ import annotations

import argparse
import contextlib
import io
import os
import signal
import sys
from collections.abc import Iterator
from typing import Any

from . import finding
from .calls import CALLS, Calls
from .faults import Fault
from .library import Library

readline: Any = None
with contextlib.suppress(ImportError):
    import readline

PROMPT, MOST_LINES = "> ", 1_000
HELP = """spawn anna                      begins a process
anna new(prices,[named_table])  makes a call of it
anna insert(prices,{apple,30})
anna lookup(prices,apple)
exit anna                       ends the process
help lookup                     describes a call
quit                            ends the shell, as Ctrl-D does"""


def main(words: list[str] | None = None) -> int:
    """Runs the shell with these options, or those of the command line. Returns its exit status."""
    settings = finding.Settings(**vars(_parser().parse_args(words)))
    try:
        library = Library(None, settings)
    except finding.Unavailable as unavailable:
        print(unavailable, file=sys.stderr)
        return 1
    try:
        if isinstance(sys.stdin, io.TextIOWrapper):
            # One character for each byte, so that a fault has its offset in bytes.
            sys.stdin.reconfigure(encoding="latin-1", newline="\n")
            Shell(library, sys.stdin.isatty()).run()
    except KeyboardInterrupt:
        return 128 + signal.SIGINT
    except BrokenPipeError:
        os.dup2(os.open(os.devnull, os.O_WRONLY), sys.stdout.fileno())
        return 1
    finally:
        library.close()
    return 0


def _parser() -> argparse.ArgumentParser:
    parser = argparse.ArgumentParser("python -m yoyoash", description="Runs lines of the script language on a store in this process.")
    for name, bits in {**dict.fromkeys(finding.LIMITS, 32), "seed": 64}.items():
        parser.add_argument(f"--{name.replace('_', '-')}", type=_number(bits), metavar="N", help=f"a number below 2^{bits}")
    return parser


def _number(bits: int) -> Any:
    def number(text: str) -> int:
        if text.isascii() and text.isdigit() and len(text) < 40 and int(text) < 2**bits:
            return int(text)
        raise ValueError

    return number


class Shell:
    """Reads lines, and prints their replies."""

    def __init__(self, library: Library, is_terminal: bool):
        self._library, self._is_terminal = library, is_terminal

    def run(self) -> None:
        """Runs every line, until the input ends or a line is `quit`."""
        for line in self._lines():
            words = line.split()
            if not words or words[0].startswith("%"):
                continue
            if self._is_terminal and words == ["quit"]:
                return
            self._show(line, words)

    def _show(self, line: str, words: list[str]) -> None:
        try:
            is_help = self._is_terminal and words[0] == "help"
            print(_help(words[1:]) if is_help else self._answer(line), flush=True)
        except KeyboardInterrupt:
            if not self._is_terminal:
                raise
            print("interrupted: the call was made or not", flush=True)

    def _answer(self, line: str) -> str:
        """Returns the reply to a line as the program prints it; at a terminal, with the reason of a refusal."""
        answer = self._library.text_of(line)
        if isinstance(answer, Fault):
            notes = "; ".join(it for it in (answer.reason, answer.remedy) if it)
            return f"** {answer.answer}" + (f" ({notes})" if notes and self._is_terminal else "")
        return answer

    def _lines(self) -> Iterator[str]:
        if not self._is_terminal:
            yield from (it.rstrip("\n").removesuffix("\r") for it in sys.stdin)
            return
        print("A store in this process. help shows the commands, and Ctrl-D leaves.", flush=True)
        with History(self._library):
            while True:
                try:
                    yield input(PROMPT)
                except KeyboardInterrupt:
                    print()
                except EOFError:
                    print()
                    return


def _help(words: list[str]) -> str:
    """Returns the help of a call, or of the shell."""
    if len(words) == 1 and words[0] in CALLS:
        return " ".join((getattr(Calls, words[0]).__doc__ or "").split())
    return HELP


class History:
    """The lines of earlier shells, in a file that each line is added to at once. Completes names with the tabulator."""

    def __init__(self, library: Library):
        self._library, self._count = library, 0
        self._path = os.environ.get("YOYOASH_HISTORY") or os.path.expanduser("~/.yoyoash_history")

    def __enter__(self) -> None:
        """Reads the file. If that fails, the shell has no lines of earlier ones."""
        if not readline:
            return
        with contextlib.suppress(OSError):
            # Only this user reads the lines.
            os.close(os.open(self._path, os.O_CREAT | os.O_WRONLY, 0o600))
            readline.read_history_file(self._path)
        readline.set_history_length(MOST_LINES)
        readline.set_completer_delims(" \t(")
        readline.set_completer(self._complete)
        readline.parse_and_bind("tab: complete")
        self._count = readline.get_current_history_length()
        readline.set_pre_input_hook(self._keep)

    def __exit__(self, *raised: object) -> None:
        if readline:
            self._keep()
            readline.set_pre_input_hook(None)
            readline.set_completer(None)

    def _keep(self) -> None:
        """Adds the lines since the last time to the file."""
        count = readline.get_current_history_length()
        with contextlib.suppress(OSError):
            if count > self._count:
                readline.append_history_file(count - self._count, self._path)
        self._count = count

    def _complete(self, begun: str, number: int) -> str | None:
        """Returns a word that begins so, by its number: a name of a process and the commands, then a name of a call."""
        names = self._library.names()
        first = readline.get_line_buffer()[: readline.get_begidx()].split()
        words = [*names, "spawn", "exit", "help", "quit"] if not first else names if first == ["exit"] else CALLS
        found = [f"{it}{' ' if not first else ''}" for it in words if it.startswith(begun)]
        return found[number] if number < len(found) else None
