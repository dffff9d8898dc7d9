"""Finds the program and the library, and says what to do if one of them cannot be used."""

from __future__ import annotations

import errno
import operator
import os
import pathlib
import platform
import shutil
from collections.abc import Sequence
from dataclasses import dataclass
from typing import Any, Union

from .terms import written

# The limits in the order of the library's arguments, and the largest value of each.
LIMITS, LARGEST = ("max_processes", "max_tables", "max_objects"), 2**32 - 1
Path = Union[str, "os.PathLike[str]"]

PACKAGE = pathlib.Path(__file__).resolve().parent
# A wheel has its copies here.
COPIES = PACKAGE / "native"
REPOSITORY = PACKAGE.parents[2]
NEEDS = "x86-64 Linux with glibc 2.34 or later"
# The file that each variable names.
NAMES = {"YOYOASH_PROGRAM": "ets_script", "YOYOASH_LIBRARY": "libyoyoash.so"}


class Unavailable(OSError):
    """The program or the library cannot be used. The text names the file and the command that helps."""


def program(given: Path | None = None) -> str:
    """Returns the path of ets_script: the argument, YOYOASH_PROGRAM, the copy in the package, or the repository's."""
    return _found(given, "YOYOASH_PROGRAM", REPOSITORY / "ets_script")


def own_program() -> str:
    """Returns the path of ets_script in the package, or in the repository. A variable does not change it: that could name
    the command that asks."""
    return _own("YOYOASH_PROGRAM", REPOSITORY / "ets_script")


def library(given: Path | None = None) -> str:
    """Returns the path of libyoyoash.so, found in the same order."""
    return _found(given, "YOYOASH_LIBRARY", REPOSITORY / "dist/x86_64-linux/libyoyoash.so")


@dataclass(frozen=True)
class Settings:
    """The limits and the seed of a store. None is the default: the largest limit, which takes no memory until it is used,
    and a seed of the system's random numbers."""

    max_processes: int | None = None
    max_tables: int | None = None
    max_objects: int | None = None
    seed: int | None = None

    def __post_init__(self) -> None:
        for name, bits in {**dict.fromkeys(LIMITS, 32), "seed": 64}.items():
            if getattr(self, name) is not None:
                object.__setattr__(self, name, _in_bits(name, getattr(self, name), bits))

    def limits(self) -> dict[str, int]:
        """Returns each limit."""
        return {name: LARGEST if getattr(self, name) is None else getattr(self, name) for name in LIMITS}

    def words(self, has_defaults: bool) -> list[str]:
        """Returns the options of the program, with or without the default limits. Raises a ValueError for a seed that the
        program does not have."""
        if self.seed is not None and not 0 < self.seed <= LARGEST:
            raise ValueError(f"seed={self.seed} is out of range: over a pipe it goes from 1 to {LARGEST}")
        chosen = self.limits() if has_defaults else {name: getattr(self, name) for name in LIMITS}
        pairs = (chosen | {"seed": self.seed}).items()
        return [word for name, it in pairs if it is not None for word in (f"--{name.replace('_', '-')}", str(it))]


def _in_bits(name: str, given: Any, bits: int) -> int:
    """Returns an integer of at most this many bits. Raises a TypeError or a ValueError otherwise."""
    try:
        number = None if isinstance(given, bool) else operator.index(given)
    except TypeError:
        number = None
    if number is None:
        raise TypeError(f"{name}={written(given)} is not an integer")
    if not 0 <= number < 2**bits:
        raise ValueError(f"{name}={written(given)} is out of range: it goes from 0 to {2**bits - 1}")
    return number


def command(given: Path | Sequence[str] | None, settings: Settings) -> list[str]:
    """Returns the words that start the program. A path, or nothing, gets `--external` and the default limits; a list of words
    is taken as it is."""
    if given is None or isinstance(given, (str, os.PathLike)):
        return [program(given), "--external", *settings.words(True)]
    return [*[str(it) for it in given], *settings.words(False)]


def unavailable(path: str, variable: str, error: Exception) -> Unavailable:
    """Returns the exception of a file that cannot be started or loaded."""
    number = getattr(error, "errno", None)
    if not os.path.exists(path):
        export = f"export {variable}=/path/to/{NAMES[variable]}"
        return Unavailable(f"there is no {path}: {export}, or pip install the wheel of the release ({NEEDS})")
    if number == errno.EACCES:
        return Unavailable(f"{path} is not executable: chmod +x {path}")
    here = f"{platform.system()} {platform.machine()} {' '.join(platform.libc_ver())}".strip()
    detail = error.strerror if isinstance(error, OSError) and error.strerror else error
    example = "docker run -it --platform linux/amd64 python:3.12"
    return Unavailable(f"{path} cannot be used on {here} ({detail}): it needs {NEEDS}, for example {example}")


def _found(given: Path | None, variable: str, in_repository: pathlib.Path) -> str:
    path = os.fspath(given) if given is not None else os.environ.get(variable)
    if path:
        # A bare word is searched on PATH. A relative path is of this folder, whatever `cwd=` says.
        return os.path.abspath(path) if os.sep in path else shutil.which(path) or path
    return _own(variable, in_repository)


def _own(variable: str, in_repository: pathlib.Path) -> str:
    copy = COPIES / NAMES[variable]
    for place in copy, in_repository:
        if place.is_file():
            return str(place)
    if (REPOSITORY / "bindings/python").is_dir():
        restore = f"git -C {REPOSITORY} checkout -- {in_repository.relative_to(REPOSITORY)}"
        raise Unavailable(f"there is no {in_repository}: {restore}, or export {variable}=/path/to/{NAMES[variable]}")
    raise unavailable(str(copy), variable, FileNotFoundError())

