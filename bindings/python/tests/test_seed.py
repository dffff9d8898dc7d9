"""The seed of a store reaches the library and the program. Keys that were chosen for one seed have the same hash in a store with this
seed, so they are slow there; in every other store they are as fast as any keys."""

import asyncio
import itertools
import resource
import time
import unittest
from ctypes import c_uint32

from helpers import LIBRARY, PROGRAM
from yoyoash import Atom, Store, aio

COUNT, TIMES = 2_000, 4
WORD = 2**64 - 1
SEEDS = 1, 2**32 - 1


def folded(a, b):
    """Returns the exclusive or of the halves of a product."""
    product = a * b
    return (product ^ product >> 64) & WORD


def mixed(factor, hashed, word):
    """Returns a hash after a word is mixed into it, by the rule of crates/ets_term/src/keyed.rt."""
    return folded(hashed ^ word, factor ^ (word << 27 | word >> 37) & WORD)


def chosen_for(seed):
    """Returns keys whose hash is 0 with this seed: pairs of integers, of which the second is the hash before it."""
    factor = folded(seed ^ 11_400_714_819_323_198_485, 15_111_065_706_836_454_659)
    keys = []
    for number in range(COUNT):
        hashed = factor
        # A tuple has the words of its kind, of its size and of its elements.
        for word in (2**63 + 5, 2, number):
            hashed = mixed(factor, hashed, word)
        keys.append((number, hashed - 2**64 if hashed >> 63 else hashed))
    return keys


# Pairs of blocks of letters. Each pair leads FNV-1a from one hash to the next, so that all choices give atoms of one hash.
PAIRS = """
kkxcaeq lrthpma vlmeokl zcyywqc bnrrppn zfhwbpq rviqxei axvoaix zkemctw uouirsl ldhdhhf cnfzvef dlwzpzz ddqnnfr dqjzltq zvwumit
ftkomzz zmbslfi xkeoees yzpfows xkeoees yzpfows xkeoees yzpfows
""".split()
ONE_HASH = [Atom("".join(it)) for it in itertools.product(*zip(PAIRS[::2], PAIRS[1::2], strict=True))]


def fnv(atom):
    """Returns the fixed hash of an atom: FNV-1a of the number of its kind, its length and its characters."""
    hashed = 2_166_136_261
    for byte in bytes((2, len(atom.text))) + atom.text.encode():
        hashed = (hashed ^ byte) * 16_777_619 % 2**32
    return hashed


def insert_all(store, keys):
    """Inserts an object for each key some times. Returns the processor time of this thread for the calls alone."""
    with store:
        p = store.spawn("p")
        table = p.new("t")
        calls = p.pipeline()
        for _ in range(TIMES):
            calls.insert(table, [(key, 1) for key in keys])
        began = time.thread_time()
        assert calls.run() == [True] * TIMES
        took = time.thread_time() - began
        assert p.info(table, "size") == len(keys)
    return took


async def insert_all_awaited(store, keys):
    """The same with asyncio."""
    async with store:
        p = await store.spawn("p")
        table = await p.new("t")
        for _ in range(TIMES):
            await p.insert(table, [(key, 1) for key in keys])
        assert await p.info(table, "size") == len(keys)


def time_of_program(work):
    """Returns the processor time of the programs that some work starts and ends."""
    before = resource.getrusage(resource.RUSAGE_CHILDREN)
    work()
    after = resource.getrusage(resource.RUSAGE_CHILDREN)
    return after.ru_utime + after.ru_stime - before.ru_utime - before.ru_stime


class Seeds(unittest.TestCase):
    def check(self, time_with, seeds):
        """Checks that each seed makes the keys slow that were chosen for it, and no other key."""
        for place, seed in enumerate(seeds):
            keys = chosen_for(seed)
            slow, fast = time_with(keys, seed=seed), time_with(keys, seed=seeds[place - 1])
            self.assertGreater(slow, 1.5 * fast, f"seed={seed} and {seeds[place - 1]}")
        self.assertGreater(slow, 1.5 * time_with(keys), "a store without a seed has one of its own")

    @unittest.skipUnless(LIBRARY, "no libyoyoash.so found: set YOYOASH_LIBRARY")
    def test_the_library_gets_all_64_bits_of_a_seed(self):
        self.check(lambda keys, **seed: insert_all(Store.in_process(**seed), keys), [1, 2**32 + 1, 2**64 - 1])
        self.check(lambda keys, **seed: insert_all(Store(**seed), keys), [7, 2**63 + 7])

    @unittest.skipUnless(LIBRARY, "no libyoyoash.so found: set YOYOASH_LIBRARY")
    def test_a_store_without_a_seed_has_not_the_fixed_hash(self):
        self.assertEqual((len(set(ONE_HASH)), len(set(map(fnv, ONE_HASH)))), (4_096, 1))
        store = Store.in_process()
        # The package never opens a store without a seed.
        self.assertEqual(store._way._library.yoyoash_open(store._way._store, *[c_uint32(2**32 - 1)] * 3), 0)
        slow = insert_all(store, ONE_HASH)
        for other in Store(), Store.in_process():
            self.assertGreater(slow, 1.5 * insert_all(other, ONE_HASH))

    @unittest.skipUnless(PROGRAM, "no ets_script found: set YOYOASH_PROGRAM")
    def test_the_program_gets_a_seed(self):
        self.check(lambda keys, **seed: time_of_program(lambda: insert_all(Store.pipe(**seed), keys)), SEEDS)

    @unittest.skipUnless(PROGRAM, "no ets_script found: set YOYOASH_PROGRAM")
    def test_the_program_gets_a_seed_by_asyncio(self):
        self.check(lambda keys, **seed: time_of_program(lambda: asyncio.run(insert_all_awaited(aio.Store(**seed), keys))), SEEDS)

