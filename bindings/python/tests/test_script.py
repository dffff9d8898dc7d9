"""Lines of the script language, compared with the program."""

import random
import subprocess
import unittest

from helpers import PROGRAM
from yoyoash import Atom, Pid, Tid, parse
from yoyoash.script import Line, Misread, read_line

SIGNS = [*"{}[]<>,.#'\"\\-0129aAz_@ \t()%", "<<", "1,2", ">>", "<0.7.0>", "#Tid<7>", "'a b'", "'it\\'s'", '"ab"', "<0.", "#Tid<", "256", "007", "-0"]
SIGNS += ["4294967295", "4294967296", str(2**127 - 1), str(2**127), str(-(2**127)), str(-(2**127) - 1), "a" * 255, "a" * 256, "'" + "b" * 256 + "'"]
SIGNS += ["{" * 125, "}" * 125, "[[[", "]]]"]
HEADS = ["p lookup_element(t,k,2,", "p lookup_element ( t,k , 2 , ", "\tp  lookup_element(t,k,2,"]


def any_text(numbers, depth=3):
    """Returns by chance a term as a user may write it, or something like it."""
    inner = lambda: [any_text(numbers, depth - 1) for _ in range(numbers.randrange(4))]
    match numbers.randrange(8 if depth else 6):
        case 0:
            return str(numbers.randrange(-300, 300))
        case 1:
            return numbers.choice(["a", "bC_@", "'x y'", "''", "#Tid<8>", "<0.5.0>"])
        case 2:
            return numbers.choice(['""', '"ab"', '"a\\"b"', "<<>>", "<<1 , 2>>", '<<"a">>', '<< "b" >>'])
        case 3 | 4 | 5:
            return "".join(numbers.choices(SIGNS, k=numbers.randrange(4)))
        case 6:
            return "{" + ",".join(inner()) + "}"
    return "[ " + numbers.choice([",", " ,", ", "]).join(inner()) + " ]"


def any_line(numbers):
    """Returns a line by chance, often with a fault."""
    line = numbers.choice(HEADS) + any_text(numbers) + numbers.choice([")", ")", " ) ", "", ")x"])
    if numbers.random() < 0.3:
        at = numbers.randrange(len(line))
        line = line[:at] + numbers.choice(SIGNS) + line[at + numbers.randrange(2) :]
    return line


class Lines(unittest.TestCase):
    @unittest.skipUnless(PROGRAM, "no ets_script found: set YOYOASH_PROGRAM")
    def test_lines_are_read_as_the_program_reads_them(self):
        numbers = random.Random(11)
        lines = [it for it in (any_line(numbers) for _ in range(5_000)) if it.strip(" \t") and it.strip(" \t")[0] != "%"]
        given = "\n".join(["spawn p", "p new(t,[named_table])", *lines, ""])
        ran = subprocess.run([PROGRAM], input=given, capture_output=True, text=True, timeout=60)
        answers = ran.stdout.splitlines()[2:]
        kinds = set()
        for line, answer in zip(lines, answers, strict=True):
            try:
                read, at = read_line(line), None
            except Misread as misread:
                read, at = None, misread.at
            kinds.add(answer[:9])
            with self.subTest(line):
                self.assertEqual(at, int(answer[10:]) if answer.startswith("** syntax") else None)
                if read and not answer.startswith("**") and read.call == "lookup_element":
                    self.assertEqual(parse(answer), read.terms[3])
        self.assertLessEqual({"** syntax", "** badarg"}, kinds)

    def test_each_kind_of_line(self):
        self.assertEqual(read_line(" spawn  anna "), Line("anna", "spawn", None))
        self.assertEqual(read_line("exit anna"), Line("anna", "exit", None))
        self.assertEqual(read_line("anna receive ( )"), Line("anna", "receive", []))
        terms = [-1, Atom("it's"), (), [[]], b"ab", [97, 98], Pid(7), Tid(8)]
        self.assertEqual(read_line("p f(-1,'it\\'s',{},[[]],<<97,98>>,\"ab\",<0.7.0>,#Tid<8>)"), Line("p", "f", terms))

    def test_the_commands_of_growth_are_not_for_packages(self):
        for line in "grow t", "ready t 0":
            with self.assertRaises(Misread) as misread:
                read_line(line)
            self.assertEqual((misread.exception.at, misread.exception.reason), (len(line), "neither a call nor spawn or exit with a name"))
