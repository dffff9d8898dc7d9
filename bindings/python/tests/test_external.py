"""Terms in Erlang's External Term Format."""

import collections
import enum
import pathlib
import random
import shutil
import subprocess
import tempfile
import unittest

from helpers import EXTENSION, any_term
from yoyoash import Atom, Pid, Tid, decode, encode
from yoyoash.external import encode_call

# Reads a list of binaries, and ends with status 0 if Erlang writes the term of each in the same bytes.
ERLANG = """
    {ok, File} = file:read_file("terms"),
    Changed = [It || It <- binary_to_term(File), term_to_binary(binary_to_term(It), [{minor_version, 2}]) =/= It],
    halt(min(length(Changed), 1)).
"""
NODE = b"w\rnonode@nohost"
DEEP = 5_000
# Terms and their bytes, as Erlang's `term_to_binary` writes them.
WRITTEN = [
    (7, b"\x83a\7"),
    (255, b"\x83a\xff"),
    (256, b"\x83b\0\0\1\0"),
    (-1, b"\x83b\xff\xff\xff\xff"),
    (2**31 - 1, b"\x83b\x7f\xff\xff\xff"),
    (2**31, b"\x83n\4\0\0\0\0\x80"),
    (-(2**31), b"\x83b\x80\0\0\0"),
    (-(2**31) - 1, b"\x83n\4\1\1\0\0\x80"),
    (2**63, b"\x83n\x08\0\0\0\0\0\0\0\0\x80"),
    (-(2**63), b"\x83n\x08\1\0\0\0\0\0\0\0\x80"),
    (2**64, b"\x83n\t\0\0\0\0\0\0\0\0\0\1"),
    (2**127 - 1, b"\x83n\x10\0" + b"\xff" * 15 + b"\x7f"),
    (-(2**127), b"\x83n\x10\1" + b"\0" * 15 + b"\x80"),
    (Atom(""), b"\x83w\0"),
    (Atom("apple"), b"\x83w\5apple"),
    (Atom("a" * 255), b"\x83w\xff" + b"a" * 255),
    (Pid(9), b"\x83X" + NODE + b"\0\0\0\t\0\0\0\0\0\0\0\0"),
    (Tid(2**32 - 1), b"\x83Z\0\1" + NODE + b"\0\0\0\0\xff\xff\xff\xff"),
    ((), b"\x83h\0"),
    ((1,) * 255, b"\x83h\xff" + b"a\1" * 255),
    ((1,) * 256, b"\x83i\0\0\1\0" + b"a\1" * 256),
    ([], b"\x83j"),
    ([104, 105], b"\x83k\0\2hi"),
    ([1] * 65_535, b"\x83k\xff\xff" + b"\1" * 65_535),
    ([1] * 65_536, b"\x83l\0\1\0\0" + b"a\1" * 65_536 + b"j"),
    ([256], b"\x83l\0\0\0\1b\0\0\1\0j"),
    ([1, -1], b"\x83l\0\0\0\2a\1b\xff\xff\xff\xffj"),
    ([97, [97]], b"\x83l\0\0\0\2aak\0\1aj"),
    ([[]], b"\x83l\0\0\0\1jj"),
    ([()], b"\x83l\0\0\0\1h\0j"),
    (b"", b"\x83m\0\0\0\0"),
    (b"\0\xff", b"\x83m\0\0\0\2\0\xff"),
]
# Other bytes that the store reads, and their terms.
OTHERS = [
    (b"\x83n\1\0\xff", 255),
    (b"\x83n\0\1", 0),
    (b"\x83n\x10\0\5" + b"\0" * 15, 5),
    (b"\x83i\0\0\0\1j", ([],)),
    (b"\x83s\1a", Atom("a")),
    (b"\x83v\0\1a", Atom("a")),
    (b"\x83d\0\1a", Atom("a")),
    (b"\x83k\0\0", []),
    (b"\x83l\0\0\0\0j", []),
    (b"\x83g" + NODE + b"\0\0\0\t\0\0\0\0\0", Pid(9)),
    (b"\x83Xs\rnonode@nohost\0\0\0\t" + b"\0" * 8, Pid(9)),
    (b"\x83r\0\2" + NODE + b"\0\0\0\0\7\0\0\0\0", Tid(7)),
    (b"\x83e" + NODE + b"\0\0\0\7\0", Tid(7)),
]
# Bytes that are not a term, and where their fault is.
FAULTS = [
    (b"", 0),
    (b"\x82j", 0),
    (b"\x83", 1),
    (b"\x83b\0\0\0", 1),
    (b"\x83m\0\0\0\3ab", 1),
    (b"\x83l\xff\xff\xff\xffa\1", 8),
    (b"\x83F", 1),
    (b"\x83l\0\0\0\1a\1a\2", 8),
    (b"\x83n\x11\0" + b"\0" * 17, 1),
    (b"\x83n\x10\0" + b"\xff" * 16, 1),
    (b"\x83n\x10\1\1" + b"\0" * 14 + b"\x80", 1),
    (b"\x83X" + NODE + b"\0\0\0\t\0\0\0\0\0\0\0\1", 1),
    (b"\x83Xw\1a" + b"\0" * 12, 1),
    (b"\x83Xa", 2),
    (b"\x83Z\0\0", 1),
    (b"\x83h\2a\1a", 5),
    (b"\x83a\7\0", 3),
    (b"\x83l\0\0\0\1h\2a\1a\1", 12),
]


class External(unittest.TestCase):
    def test_terms_are_written_as_erlang_writes_them_and_read_again(self):
        for term, data in WRITTEN:
            with self.subTest(data[:40]):
                self.assertEqual((encode(term), decode(data)), (data, term))

    def test_ten_thousand_terms_survive_a_round_trip(self):
        numbers = random.Random(53)
        for _ in range(10_000):
            term = any_term(numbers)
            self.assertEqual(decode(encode(term)), term)

    @unittest.skipUnless(shutil.which("erl"), "there is no erl")
    def test_erlang_writes_the_same_bytes(self):
        numbers = random.Random(9)
        # Erlang refuses the pids and references of great numbers.
        terms = [it for it in (any_term(numbers) for _ in range(4_000)) if "id(" not in repr(it)]
        with tempfile.TemporaryDirectory() as folder:
            pathlib.Path(folder, "terms").write_bytes(encode([encode(it) for it in terms]))
            ran = subprocess.run(["erl", "-noshell", "-eval", ERLANG], cwd=folder, capture_output=True, text=True, timeout=60)
        self.assertEqual((ran.returncode, ran.stdout, len(terms) > 1_000), (0, "", True), ran.stderr)

    def test_other_forms_are_read(self):
        for data, term in OTHERS:
            with self.subTest(data):
                self.assertEqual(decode(data), term)

    def test_faults_have_their_offset(self):
        for data, at in FAULTS:
            with self.subTest(data), self.assertRaisesRegex(ValueError, f"^not a term: .* at offset {at}$"):
                decode(data)
        for data in [b"\x83w\1\xe4", b"\x83w\1\n", b"\x83v\1\0" + b"a" * 256]:
            with self.assertRaisesRegex(ValueError, "is not an atom"):
                decode(data)

    def test_changed_bytes_are_a_term_or_a_value_error(self):
        numbers = random.Random(3)
        for _ in range(10_000):
            data = bytearray(encode(any_term(numbers)))
            data[numbers.randrange(len(data))] ^= 1 << numbers.randrange(8)
            with self.subTest(bytes(data)):
                try:
                    encode(decode(bytes(data)))
                except ValueError:
                    pass

    def test_deep_terms_need_no_recursion(self):
        data = b"\x83" + b"l\0\0\0\1h\1" * DEEP + b"j" + b"j" * DEEP
        self.assertEqual(encode(decode(data)), data)

    def test_a_value_of_a_derived_type_is_encoded_as_its_base(self):
        point, colour = collections.namedtuple("Point", "x y"), enum.IntEnum("Colour", "RED GREEN")
        self.assertEqual(encode([point(1, [colour.GREEN]), []]), encode([(1, [2]), []]))

    def test_other_values_are_refused(self):
        for value in [True, "text", 1.5, None, {}]:
            for term in [value, [value], [(value,)]]:
                with self.assertRaises(TypeError):
                    encode(term)
        for value in [2**127, -(2**127) - 1]:
            with self.assertRaises(ValueError):
                encode((value,))

    def test_more_words_than_are_kept(self):
        words = [kind for number in range(5_000) for kind in (Atom(f"a{number}"), Pid(number), Tid(number))]
        for _ in range(2):
            self.assertEqual(decode(encode(words)), words)


@unittest.skipUnless(EXTENSION, "the extension was not built")
class InC(unittest.TestCase):
    """The extension writes and reads the same, or leaves it to Python."""

    def check(self, term):
        self.assertEqual(decode(EXTENSION.encode_call("f", term)), (Atom("f"), [term]))
        read = EXTENSION.decode(encode(term))
        self.assertEqual((read, repr(read)), (term, repr(term)))

    def test_ten_thousand_terms(self):
        numbers = random.Random(12)
        for _ in range(10_000):
            self.check([any_term(numbers), 0])

    def test_terms_as_erlang_writes_them(self):
        for term, data in WRITTEN:
            with self.subTest(data[:40]):
                self.assertEqual(EXTENSION.encode_call("f", term), encode_call("f", [term]))
                self.assertEqual(EXTENSION.decode(data), term)

    def test_what_the_store_does_not_write_is_left_to_python(self):
        for data in [it for it, _ in FAULTS] + [b"\x83s\1a", b"\x83g" + NODE + b"\0\0\0\t\0\0\0\0\0", b"\x83w\1\xe4"]:
            with self.subTest(data):
                self.assertIsNone(EXTENSION.decode(data))
        with self.assertRaises(ValueError):
            EXTENSION.decode(b"\x83w\1\n")

    def test_changed_bytes_are_read_alike(self):
        numbers = random.Random(4)
        for _ in range(10_000):
            data = bytearray(encode(any_term(numbers)))
            data[numbers.randrange(len(data))] ^= 1 << numbers.randrange(8)
            with self.subTest(bytes(data)):
                try:
                    read = EXTENSION.decode(bytes(data))
                except ValueError:
                    read = None
                if read is not None:
                    self.assertEqual(decode(bytes(data)), read)

    def test_other_values_are_left_to_python(self):
        point, colour = collections.namedtuple("Point", "x y"), enum.IntEnum("Colour", "RED GREEN")
        for value in [True, "text", 1.5, None, 2**127, -(2**127) - 1, 2**200, point(1, 2), colour.RED]:
            for term in [value, [value], (1, [value])]:
                self.assertIsNone(EXTENSION.encode_call("f", term))
        self.assertIsNone(EXTENSION.encode_call("f" * 256))

    def test_deep_terms_are_left_to_python(self):
        def deep(levels):
            term = []
            for _ in range(levels - 1):
                term = [term]
            return term

        self.check(deep(128))
        self.assertIsNone(EXTENSION.encode_call("f", deep(129)))
        self.assertIsNone(EXTENSION.decode(encode(deep(129))))

    def test_atoms_pids_and_table_identifiers_are_kept(self):
        words = [kind for number in range(5_000) for kind in (Atom(f"a{number}"), Pid(number), Tid(number))]
        for _ in range(2):
            self.check(words)
