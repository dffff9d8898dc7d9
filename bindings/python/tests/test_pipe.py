"""The store over a pipe, with programs that stand in for it."""

import copy
import os
import pickle
import subprocess
import threading
import types
import unittest

from helpers import ECHO, answering, stand_in
from yoyoash import Atom, BadArg, Gone, NoMemory, NoProcess, Pid, Process, Store, Syntax, SystemLimit, Untold, encode

TABLE = Atom("t")
ONE = b"\0" + encode(1)


def process(store):
    return Process(store, "p", Pid(0))


class Programs(unittest.TestCase):
    def test_calls_and_replies_that_are_longer_than_a_pipe_holds(self):
        keys = [b"x" * 10_000 + str(number).encode() for number in range(300)]
        with Store.pipe(ECHO) as store, process(store).pipeline() as calls:
            for key in keys:
                calls.lookup(TABLE, key)
        self.assertEqual(calls.answers, keys)

    def test_no_later_call_gets_the_reply_of_an_interrupted_one(self):
        def interrupted(_):
            raise KeyboardInterrupt

        with Store.pipe(ECHO, stderr=subprocess.DEVNULL) as store:
            p, program = process(store), store._way._program
            self.assertEqual(p.first(TABLE), 0)
            replies = program.replies
            program.replies = types.SimpleNamespace(read=interrupted)
            with self.assertRaises(KeyboardInterrupt):
                p.first(TABLE)
            program.replies = replies
            with self.assertRaises(Gone) as gone:
                p.first(TABLE)
            self.assertEqual(gone.exception.reason, "an earlier call was interrupted")

    def test_a_program_that_prints_more_than_it_was_sent_gets_no_more_calls(self):
        with Store.pipe(stand_in("receive()\nsys.stdout.buffer.write(bytes([0, 0, 0, 4, 0, 131, 97, 1]) * 2)")) as store:
            self.assertEqual(process(store).first(TABLE), 1)
            with self.assertRaises(Gone):
                process(store).first(TABLE)

    def test_a_program_that_prints_no_packets_gets_no_more_calls(self):
        for printed in b"** syntax 0\n", b"\0\0\0\0", b"\0\0\0\1\6", b"\0\0\0\1\x63":
            code = f"receive()\nos.write(1, {printed!r})\nreceive()"
            with self.subTest(printed), Store.pipe(stand_in(code)) as store:
                for _ in range(2):
                    with self.assertRaises(Gone) as gone:
                        process(store).first(TABLE)
                    self.assertEqual(gone.exception.reason, "the program does not print packets: start it with --external")

    def test_each_refusal_has_its_class(self):
        kinds = {1: BadArg, 2: SystemLimit, 3: NoProcess, 4: NoMemory, 5: Syntax, 7: Untold}
        with Store.pipe(answering(*[bytes([status]) + b"no" * (status < 7) for status in kinds])) as store:
            for kind in kinds.values():
                with self.assertRaises(kind) as refused:
                    process(store).lookup(TABLE, 1)
                self.assertEqual((type(refused.exception), refused.exception.line), (kind, "p lookup('t',1)"))
                self.assertEqual(refused.exception.reason, None if kind is Untold else "no")

    def test_a_copied_fault_is_whole(self):
        with Store.pipe(answering(b"\1because")) as store, self.assertRaises(BadArg) as refused:
            process(store).first(TABLE)
        for other in [copy.deepcopy(refused.exception), pickle.loads(pickle.dumps(refused.exception))]:
            self.assertEqual((type(other), other.line, other.reason, str(other)), (BadArg, "p first('t')", "because", "badarg: p first('t') (because)"))

    def test_a_line_without_one_answer_of_its_own_is_not_sent(self):
        with Store.pipe(ECHO) as store:
            for line in ["", " ", "% a comment", "p member(t,1)\np delete(t)", "p member(t,é)"]:
                with self.assertRaises(ValueError):
                    store.ask(line)
            for name in ["", "Anna", "a b", "spawn", "a\nb", "x" * 256]:
                with self.assertRaises(ValueError):
                    store.spawn(name)
            self.assertEqual(process(store).first(TABLE), 0)

    def test_each_of_four_threads_gets_its_own_replies(self):
        wrong = []

        def look(process, start):
            for number in range(start, start + 300):
                if process.lookup(TABLE, number) != number:
                    wrong.append(number)

        with Store.pipe(ECHO) as store:
            threads = [threading.Thread(target=look, args=(process(store), 1000 * start)) for start in range(4)]
            for it in threads:
                it.start()
            for it in threads:
                it.join()
        self.assertEqual(wrong, [])

    def test_a_pipeline_has_the_replies_in_order(self):
        with Store.pipe(ECHO) as store:
            with process(store).pipeline() as calls:
                for number in range(5_000):
                    calls.lookup(TABLE, number)
            self.assertEqual(calls.answers, list(range(5_000)))
        with Store.pipe(answering(ONE, b"\1why", ONE)) as store:
            calls = process(store).pipeline()
            for number in range(4):
                calls.lookup(TABLE, number)
            first, second, third, fourth = calls.run()
            self.assertEqual((first, third), (1, 1))
            self.assertEqual((type(second), second.line, second.reason), (BadArg, "p lookup('t',1)", "why"))
            self.assertIsInstance(fourth, Gone)
            with self.assertRaises(ZeroDivisionError), process(store).pipeline() as calls:
                calls.delete(TABLE)
                raise ZeroDivisionError
            self.assertEqual(calls.answers, [])

    def test_limits_and_the_seed_are_options_of_the_program(self):
        code = "receive()\nwords = ' '.join(sys.argv[1:]).encode()\nanswer(b'\\0\\x83m' + struct.pack('>I', len(words)) + words)"
        with Store.pipe(stand_in(code), max_objects=7, max_tables=3, seed=2**32 - 1) as store:
            self.assertEqual(process(store).first(TABLE), b"--max-tables 3 --max-objects 7 --seed 4294967295")
        for seed in 0, 2**32:
            with self.assertRaisesRegex(ValueError, "over a pipe it goes from 1 to 4294967295"):
                Store.pipe(ECHO, seed=seed)


class StandardError(unittest.TestCase):
    """What the program prints there goes on to that of Python."""

    def test_more_than_a_pipe_holds_stops_no_reply(self):
        code = "while True:\n receive()\n say('x' * 3_000)\n number(1)"
        with open("/dev/null", "w") as nowhere, Redirected(nowhere), Store.pipe(stand_in(code)) as store, process(store).pipeline() as calls:
            for _ in range(100):
                calls.first(TABLE)
        self.assertEqual(calls.answers, [1] * 100)

    def test_a_caller_that_takes_it_gets_it(self):
        with Store.pipe(stand_in("receive()\nsay('building')\nnumber(1)"), stderr=subprocess.PIPE) as store:
            self.assertEqual(process(store).first(TABLE), 1)
            self.assertEqual(store._way._program.popen.stderr.readline(), b"building\n")
            store._way._program.popen.stderr.close()

    def test_a_program_that_closes_it_goes_on(self):
        with Store.pipe(stand_in("os.close(2)\nwhile True:\n receive()\n number(2)")) as store:
            self.assertEqual([process(store).first(TABLE) for _ in range(3)], [2, 2, 2])


class Redirected:
    """Standard error is another file for the time of a `with`."""

    def __init__(self, file):
        self.file = file

    def __enter__(self):
        self.kept = os.dup(2)
        os.dup2(self.file.fileno(), 2)

    def __exit__(self, *raised):
        os.dup2(self.kept, 2)
        os.close(self.kept)
