"""Iterators over fixed tables. Each is a context manager too, which releases the table at the end of its `with`."""

from __future__ import annotations

from collections.abc import AsyncGenerator, AsyncIterator, Generator, Iterator
from typing import Any, Generic, TypeVar, cast

from .terms import END_OF_TABLE, Table

Found = TypeVar("Found")
# The first thing that the steps of a traversal yield: the table is fixed now.
FIXED = object()
USED = "a traversal is used once, and this one has ended: begin another"


class Traversal(Iterator[Found], Generic[Found]):
    """Yields what a table has, while the table is fixed: from the `with`, or from the first element, until the end, until
    `close()` or until the traversal is dropped."""

    def __init__(self, steps: Generator[Any, None, None]):
        """`steps` fixes the table, yields FIXED, and then yields what it finds."""
        self._steps, self._is_begun = steps, False

    def close(self) -> None:
        """Releases the table. No more elements come. Closing again does nothing."""
        self._is_begun = True
        self._steps.close()

    def __next__(self) -> Found:
        self._is_begun = True
        found = next(self._steps)
        return cast(Found, next(self._steps) if found is FIXED else found)

    def __enter__(self) -> Traversal[Found]:
        if self._is_begun and self._steps.gi_frame is None:
            raise ValueError(USED)
        if not self._is_begun:
            self._is_begun = True
            next(self._steps)
        return self

    def __exit__(self, *raised: object) -> None:
        self.close()


class AsyncTraversal(AsyncIterator[Found], Generic[Found]):
    """The same for asyncio: with `async with` and `async for`. Without `async with`, close one that stops early by
    `aclose()`."""

    def __init__(self, steps: AsyncGenerator[Any, None]):
        """`steps` fixes the table, yields FIXED, and then yields what it finds."""
        self._steps, self._is_begun = steps, False

    async def aclose(self) -> None:
        """Releases the table. No more elements come. Closing again does nothing."""
        self._is_begun = True
        await self._steps.aclose()

    async def __anext__(self) -> Found:
        self._is_begun = True
        found = await self._steps.__anext__()
        return cast(Found, await self._steps.__anext__() if found is FIXED else found)

    async def __aenter__(self) -> AsyncTraversal[Found]:
        if self._is_begun and self._steps.ag_frame is None:
            raise ValueError(USED)
        if not self._is_begun:
            self._is_begun = True
            await self._steps.__anext__()
        return self

    async def __aexit__(self, *raised: object) -> None:
        await self.aclose()


# A process here is one of `store.Process`, and in the awaited steps one of `aio.Process`.


def keys_of(process: Any, table: Table) -> Generator[Any, None, None]:
    """Yields FIXED, and then each key."""
    with process.fixed(table):
        yield FIXED
        key = process.first(table)
        while key != END_OF_TABLE:
            yield key
            key = process.next(table, key)


def objects_of(process: Any, table: Table) -> Generator[Any, None, None]:
    """Yields FIXED, and then each object, one key at a time."""
    with process.fixed(table):
        yield FIXED
        found = process.first_lookup(table)
        while found != END_OF_TABLE:
            key, objects = found
            yield from objects
            found = process.next_lookup(table, key)


async def awaited_keys_of(process: Any, table: Table) -> AsyncGenerator[Any, None]:
    """Yields FIXED, and then each key."""
    async with process.fixed(table):
        yield FIXED
        key = await process.first(table)
        while key != END_OF_TABLE:
            yield key
            key = await process.next(table, key)


async def awaited_objects_of(process: Any, table: Table) -> AsyncGenerator[Any, None]:
    """Yields FIXED, and then each object, one key at a time."""
    async with process.fixed(table):
        yield FIXED
        found = await process.first_lookup(table)
        while found != END_OF_TABLE:
            key, objects = found
            for it in objects:
                yield it
            found = await process.next_lookup(table, key)
