"""Runs programs whose allocations are refused or counted, by the library refuse.c."""
import io
import os
import pathlib
import subprocess
import tempfile

from lines import text_of

SOURCE = pathlib.Path(__file__).resolve().parent / "refuse.c"
# The allocations before the first read, all of a program, none, and those in the parts that a
# program marks.
BEGIN, ALL, NOTHING, MARKED = (0, 0), (0, -1), (-1, -1), (-2, -2)
# The most seconds of all runs of a text.
PATIENCE = 600
# A program that makes a mark for each `m` of its argument, and allocates a block for each `b`; and
# arguments, with whether the program then takes no memory between marks.
MARKING = """
#include <stdlib.h>
int main(int count, char **words) {
    void *volatile block;
    for (char *it = words[count - 1]; *it; it++) block = malloc(*it == 'm' ? (size_t)1 << 60 : 8);
    return 0;
}
"""
PLANTED_MARKS = {
    "bmmb": True,
    "mmbmm": True,
    "mbm": False,
    "m": False,
    "mmm": False,
    "b": False,
    "": False,
}


def compile_refuser(folder):
    """Compiles the library that refuses memory, and returns its path."""
    library = f"{folder}/refuse.so"
    subprocess.run(["cc", "-O2", "-fPIC", "-shared", "-o", library, SOURCE], check=True)
    return library


class Program:
    """A program, and the library that refuses it memory."""

    def __init__(self, path, refuser):
        self.path, self.refuser = os.path.realpath(path), refuser

    def runs(self, words, text, piece):
        """Yields how runs end, by status, output and errors: one with nothing refused, then one
        for each allocation of a part of the text."""
        environment = {"LD_PRELOAD": self.refuser, "REFUSED": "{} {}".format(*piece)}
        with tempfile.TemporaryFile() as script:
            script.write(text)
            script.seek(0)
            how = {
                "stdout": subprocess.PIPE,
                "check": True,
                "timeout": PATIENCE,
                "env": environment,
            }
            report = io.BytesIO(subprocess.run([self.path, *words], stdin=script, **how).stdout)
        while head := report.readline():
            status, output_size, errors_size = map(int, head.split())
            yield os.waitstatus_to_exitcode(status), report.read(output_size), report.read(
                errors_size
            )

    def output(self, words, text):
        """Returns what it writes if no memory is refused."""
        [(status, output, errors)] = self.runs(words, text, NOTHING)
        if status or errors:
            raise ValueError(f"status {status}, {errors!r}")
        return output

    def held(self, text):
        """Returns how many blocks are allocated and not given back, before each line is read and
        at the end."""
        with tempfile.TemporaryFile() as script, tempfile.TemporaryFile() as counts:
            script.write(text)
            script.seek(0)
            how = {
                "stdout": subprocess.DEVNULL,
                "check": True,
                "timeout": PATIENCE,
                "pass_fds": [counts.fileno()],
            }
            environment = {"LD_PRELOAD": self.refuser, "HELD": str(counts.fileno())}
            subprocess.run([self.path], stdin=script, env=environment, **how)
            counts.seek(0)
            return [int(count) for count in counts.read().split()]

    def taken(self, lines, line):
        """Returns the number of allocations of a line after others."""
        before, after = text_of(lines), text_of([*lines, line])
        return len(list(self.runs([], after, (len(before), len(after))))) - 1

    def is_free(self, words):
        """Returns whether a program that marks parts takes no memory in them."""
        [(status, _, _)] = self.runs(words, b"", MARKED)
        return status == 0


def misses_marks(refuser, folder):
    """Returns whether an allocation between two marks, or a mark that is missing, is not
    noticed."""
    subprocess.run(
        ["cc", "-O0", "-x", "c", "-", "-o", f"{folder}/marking"],
        input=MARKING,
        text=True,
        check=True,
    )
    program = Program(f"{folder}/marking", refuser)
    return any(program.is_free([word]) != is_free for word, is_free in PLANTED_MARKS.items())
