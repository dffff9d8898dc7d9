"""The wheel: what it has, and that it is the same whenever it is built."""

import base64
import contextlib
import csv
import hashlib
import importlib.util
import io
import os
import pathlib
import re
import subprocess
import sys
import tempfile
import unittest
import zipfile
from unittest import mock

import yoyoash
from helpers import PACKAGE, REPOSITORY

DIST = pathlib.Path(os.environ.get("YOYOASH_DIST", REPOSITORY / "dist/x86_64-linux"))
COPIES = ("ets_script", "libyoyoash.so")
EXTENSION = "yoyoash/_external.abi3.so"


def backend():
    spec = importlib.util.spec_from_file_location("backend", PACKAGE / "backend.py")
    module = importlib.util.module_from_spec(spec)
    spec.loader.exec_module(module)
    return module


def built():
    """Returns the extension as a file of the wheel, or nothing if it cannot be built here."""
    with contextlib.redirect_stderr(io.StringIO()):
        return backend().extension()


BUILT = built()


class Wheel(unittest.TestCase):
    def setUp(self):
        folder = tempfile.TemporaryDirectory()
        self.addCleanup(folder.cleanup)
        self.folder = pathlib.Path(folder.name)

    def dist(self, **contents):
        """Makes a folder like dist/."""
        dist = self.folder / "dist"
        dist.mkdir(exist_ok=True)
        for name in COPIES:
            (dist / name).write_bytes(contents.get(name.partition(".")[0], b"\x7fELF \0GLIBC_2.34\0"))
        return dist

    def build(self, dist, outdir, **variables):
        words = [sys.executable, "-B", str(PACKAGE / "build-wheel"), str(dist), str(self.folder / outdir)]
        return subprocess.run(words, capture_output=True, text=True, env=os.environ | variables)

    def test_a_wheel_without_a_compiler_has_no_extension(self):
        built = self.build(self.dist(), "out", CC=str(self.folder / "no-cc"))
        self.check_wheel(built, False)

    def check_wheel(self, built, has_extension):
        without = "" if has_extension else "yoyoash: the wheel has no extension, so calls in process are slower: "
        self.assertEqual((built.returncode, built.stderr[: len(without)], bool(built.stderr)), (0, without, not has_extension))
        path = pathlib.Path(built.stdout.strip())
        self.assertEqual(path.name, f"yoyoash-{yoyoash.__version__}-py3-none-manylinux_2_34_x86_64.whl")
        with zipfile.ZipFile(path) as wheel:
            names = set(wheel.namelist())
            sources = {f"yoyoash/{it.name}" for it in (PACKAGE / "yoyoash").glob("*.py")} | {"yoyoash/py.typed"}
            sources |= {f"yoyoash/native/{it}" for it in COPIES} | ({EXTENSION} if has_extension else set())
            self.assertEqual({it for it in names if ".dist-info/" not in it}, sources)
            self.assertEqual(wheel.getinfo("yoyoash/native/ets_script").external_attr >> 16 & 0o777, 0o755)
            info = f"yoyoash-{yoyoash.__version__}.dist-info"
            for name, checksum, size in csv.reader(wheel.read(f"{info}/RECORD").decode().splitlines()):
                names.discard(name)
                if checksum:
                    content = wheel.read(name)
                    digest = base64.urlsafe_b64encode(hashlib.sha256(content).digest()).rstrip(b"=").decode()
                    self.assertEqual((checksum, int(size)), (f"sha256={digest}", len(content)))
            self.assertEqual(names, set())
            metadata, commands = wheel.read(f"{info}/METADATA").decode(), wheel.read(f"{info}/entry_points.txt").decode()
        self.assertIn(f"\nVersion: {yoyoash.__version__}\n", metadata)
        self.assertIn("\nRequires-Python: >=3.10\n", metadata)
        self.assertIn("\nLicense: No license is chosen yet: all rights reserved\n", metadata)
        self.assertIn("\nClassifier: Development Status :: 3 - Alpha\n", metadata)
        self.assertEqual(commands, "[console_scripts]\nets_script = yoyoash.command:main\n")

    def test_a_wheel_has_the_package_and_the_copies_and_two_builds_are_the_same_bytes(self):
        dist = self.dist()
        paths = []
        for outdir in "first", "second":
            built = self.build(dist, outdir)
            self.check_wheel(built, bool(BUILT))
            paths.append(pathlib.Path(built.stdout.strip()))
            for it in dist.iterdir():
                os.utime(it, (1_000_000_000, 1_000_000_000))
        self.assertEqual(paths[0].read_bytes(), paths[1].read_bytes())

    def test_a_file_that_is_missing_or_needs_a_later_glibc_is_refused(self):
        late = self.build(self.dist(libyoyoash=b"\x7fELF \0GLIBC_2.38\0"), "out")
        self.assertEqual((late.returncode, "needs glibc 2.38" in late.stderr), (1, True))
        missing = self.build(self.folder / "nowhere", "out")
        self.assertEqual((missing.returncode, "there is no" in missing.stderr), (1, True))

    def built_by_pip(self, dist, is_for_here):
        """Builds what pip installs on a machine that runs the copies, or on another. Returns the wheel's name."""
        made = backend()
        made.is_for_here, made.extension = lambda: is_for_here, lambda: BUILT
        with mock.patch.dict(os.environ, YOYOASH_DIST=str(dist)):
            return made.build_wheel(self.folder)

    def test_pip_gets_no_wheel_if_a_copy_is_missing(self):
        dist = self.dist()
        self.assertTrue(self.built_by_pip(dist, True).endswith("-manylinux_2_34_x86_64.whl"))
        for name in reversed(COPIES):
            (dist / name).unlink()
            with self.assertRaises(SystemExit) as refused:
                self.built_by_pip(dist, True)
            self.assertIn(f"there is no {dist / name}: 'git checkout -- dist' restores it", str(refused.exception))

    def test_pip_gets_a_pure_wheel_on_another_machine(self):
        name = self.built_by_pip(self.folder / "nowhere", False)
        self.assertTrue(name.endswith("-py3-none-any.whl"))
        with zipfile.ZipFile(self.folder / name) as wheel:
            self.assertFalse([it for it in wheel.namelist() if "native" in it])

    def test_an_editable_wheel_has_the_path_of_the_sources(self):
        name = backend().build_editable(self.folder)
        with zipfile.ZipFile(self.folder / name) as wheel:
            self.assertEqual(wheel.read("yoyoash.pth").decode(), f"{PACKAGE}\n")

    def test_the_version_is_told_once(self):
        about = backend().project()
        self.assertEqual((about["version"], about["name"]), (yoyoash.__version__, "yoyoash"))
        self.assertTrue(about["description"] and len(about["classifiers"]) > 5)

    @unittest.skipUnless(all((DIST / name).is_file() for name in COPIES), f"there is no {DIST}")
    def test_the_copies_and_the_extension_link_to_glibc_alone(self):
        for content in [(DIST / name).read_bytes() for name in COPIES] + [it for it, _ in BUILT.values()]:
            needed = set(re.findall(rb"\0(lib[a-z_]+\.so\.\d+)(?=\0)", content))
            self.assertLessEqual(needed, {b"libc.so.6", b"libm.so.6", b"libgcc_s.so.1", b"libpthread.so.0", b"libyoyoash.so.0"})
