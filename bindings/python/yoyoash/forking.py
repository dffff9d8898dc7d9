"""Takes stores away from forked children: parent and child would read each other's replies, or the lock of a store could
be held by a thread that the child does not have."""

from __future__ import annotations

import os
import weakref
from typing import Protocol


class Abandoned(Protocol):
    """What a forked child has to give up."""

    def abandon(self) -> None:
        """Refuses all calls from now on, in a forked child. Takes no lock and waits for nothing."""


_held: weakref.WeakSet[Abandoned] = weakref.WeakSet()


def hold(way: Abandoned) -> None:
    """Has the store taken away from children that are forked later."""
    _held.add(way)


def _abandon_all() -> None:
    for way in list(_held):
        way.abandon()


os.register_at_fork(after_in_child=_abandon_all)
