"""Builds the wheel. pip calls this by pyproject.toml; `build-wheel` calls it for a release. It needs nothing but
Python. If a C compiler and CPython's headers are present, the wheel has the extension too.

The wheel is the same, byte for byte, whenever it is built from the same files by the same compiler: names are sorted,
times are fixed, and nothing is compressed, since compressors differ. The extension uses the stable ABI of Python 3.10,
and the package works without it, so the wheel is for every Python."""

import ast
import base64
import hashlib
import os
import pathlib
import platform
import re
import shlex
import shutil
import stat
import subprocess
import sys
import sysconfig
import tempfile
import zipfile

HERE = pathlib.Path(__file__).resolve().parent
# What the wheel has of dist/, with its mode.
COPIES = {"ets_script": 0o755, "libyoyoash.so": 0o755}
EXTENSION = "_external.abi3.so"
FLAGS = "-std=c11 -O2 -g0 -fPIC -fvisibility=hidden -shared -Wl,--build-id=none".split()
GLIBC = (2, 34)
NATIVE, PURE = f"py3-none-manylinux_{GLIBC[0]}_{GLIBC[1]}_x86_64", "py3-none-any"
EARLIEST = (1980, 1, 1, 0, 0, 0)


def project():
    """Returns the keys of [project] whose values are strings or lists. (Python 3.10 has no reader of TOML.)"""
    pairs = re.findall(r'^([a-z_-]+) = (?:\{ text = )?(".*?"|\[.*?\])(?: \})?$', section("project"), re.M | re.S)
    return {key: ast.literal_eval(value) for key, value in pairs}


def section(name):
    """Returns the lines of a section of pyproject.toml."""
    return (HERE / "pyproject.toml").read_text().partition(f"[{name}]\n")[2].partition("\n[")[0]


def commands():
    """Returns the text of entry_points.txt: the commands that pip makes of functions."""
    pairs = re.findall(r'^([a-z_]+) = "(.*)"$', section("project.scripts"), re.M)
    return "".join(["[console_scripts]\n", *(f"{name} = {function}\n" for name, function in pairs)])


def metadata(about):
    """Returns the text of METADATA."""
    lines = ["Metadata-Version: 2.1", f"Name: {about['name']}", f"Version: {about['version']}"]
    lines += [f"Summary: {about['description']}", f"Requires-Python: {about['requires-python']}"]
    lines += [f"License: {about['license']}", f"Keywords: {','.join(about['keywords'])}"]
    lines += [f"Classifier: {it}" for it in about["classifiers"]]
    return "\n".join([*lines, "Description-Content-Type: text/markdown", "", (HERE / about["readme"]).read_text()])


def copies_of(dist):
    """Returns the program and the library of dist/ with their modes. Refuses what needs a later glibc than the
    wheel's name says."""
    copies = {}
    for name, mode in COPIES.items():
        content = (dist / name).read_bytes()
        needed = glibc_of(content)
        if needed > GLIBC:
            needs, promises = ".".join(map(str, needed)), ".".join(map(str, GLIBC))
            raise SystemExit(f"build-wheel: {dist / name} needs glibc {needs}, and the wheel promises {promises}")
        copies[f"yoyoash/native/{name}"] = (content, mode)
    return copies


def glibc_of(content):
    """Returns the latest version of glibc that a file needs."""
    return max((tuple(map(int, it)) for it in re.findall(rb"\0GLIBC_(\d+)\.(\d+)", content)), default=GLIBC)


def extension():
    """Returns the extension as a file of the wheel. Returns no file, and says why, if it cannot be built here: the package
    works without it."""
    compiler = shlex.split(os.environ.get("CC") or shutil.which("cc") or "")
    include = sysconfig.get_path("include")
    if sys.implementation.name != "cpython" or not compiler or not pathlib.Path(include, "Python.h").is_file():
        return without_extension("there is no C compiler, or CPython's headers are missing")
    sources = sorted(it.name for it in (HERE / "extension").glob("*.c"))
    with tempfile.TemporaryDirectory() as folder:
        made = pathlib.Path(folder, EXTENSION)
        words = [*compiler, *FLAGS, f"-I{include}", *sources, "-o", str(made)]
        try:
            subprocess.run(words, cwd=HERE / "extension", check=True, capture_output=True)
        except (OSError, subprocess.CalledProcessError):
            return without_extension(f"{compiler[0]} does not compile it")
        content = made.read_bytes()
    if glibc_of(content) > GLIBC:
        return without_extension("it would need a later glibc than the wheel promises")
    return {f"yoyoash/{EXTENSION}": (content, 0o755)}


def without_extension(why):
    """Returns no file."""
    print(f"yoyoash: the wheel has no extension, so calls in process are slower: {why}", file=sys.stderr)
    return {}


def write_wheel(folder, files, tag):
    """Writes a wheel of these files, and returns its name. Each file has a content and a mode."""
    about = project()
    stem = f"{about['name']}-{about['version']}"
    info = f"{stem}.dist-info"
    is_pure = str(tag == PURE).lower()
    wheel = f"Wheel-Version: 1.0\nGenerator: yoyoash\nRoot-Is-Purelib: {is_pure}\nTag: {tag}\n"
    files = dict(sorted(files.items()))
    files[f"{info}/METADATA"] = (metadata(about).encode(), 0o644)
    files[f"{info}/WHEEL"] = (wheel.encode(), 0o644)
    files[f"{info}/entry_points.txt"] = (commands().encode(), 0o644)
    record = [f"{name},sha256={checksum(content)},{len(content)}\n" for name, (content, _) in files.items()]
    files[f"{info}/RECORD"] = ("".join([*record, f"{info}/RECORD,,\n"]).encode(), 0o644)
    with zipfile.ZipFile(folder / f"{stem}-{tag}.whl", "w", zipfile.ZIP_STORED) as archive:
        for name, (content, mode) in files.items():
            entry = zipfile.ZipInfo(name, EARLIEST)
            entry.create_system, entry.external_attr = 3, (stat.S_IFREG | mode) << 16
            archive.writestr(entry, content)
    return f"{stem}-{tag}.whl"


def checksum(content):
    """Returns a checksum as RECORD has it."""
    return base64.urlsafe_b64encode(hashlib.sha256(content).digest()).rstrip(b"=").decode()


def modules():
    """Returns the package's own files."""
    names = [*(HERE / "yoyoash").glob("*.py"), HERE / "yoyoash/py.typed"]
    return {f"yoyoash/{it.name}": (it.read_bytes(), 0o644) for it in names}


def is_for_here():
    """Returns whether this machine runs what dist/ has."""
    name, version = platform.libc_ver()
    has_glibc = name == "glibc" and tuple(map(int, version.split(".")[:2])) >= GLIBC
    return sys.platform == "linux" and platform.machine() == "x86_64" and has_glibc


def build_wheel(wheel_directory, config_settings=None, metadata_directory=None):
    """Builds what `pip install bindings/python` installs: with the program and the library if this machine runs them,
    else without. Refuses if this machine runs them and one is missing: pip does not show what a successful build
    prints."""
    if not is_for_here():
        return write_wheel(pathlib.Path(wheel_directory), modules(), PURE)
    dist = pathlib.Path(os.environ.get("YOYOASH_DIST") or HERE.parents[1] / "dist/x86_64-linux")
    missing = [name for name in COPIES if not (dist / name).is_file()]
    if missing:
        remedy = "'git checkout -- dist' restores it, or set YOYOASH_DIST to the folder that has it"
        raise SystemExit(f"yoyoash: there is no {dist / missing[0]}: {remedy}")
    return write_wheel(pathlib.Path(wheel_directory), modules() | copies_of(dist) | extension(), NATIVE)


def build_editable(wheel_directory, config_settings=None, metadata_directory=None):
    """Builds what `pip install -e bindings/python` installs: the path of this folder."""
    return write_wheel(pathlib.Path(wheel_directory), {"yoyoash.pth": (f"{HERE}\n".encode(), 0o644)}, PURE)


def build_sdist(sdist_directory, config_settings=None):
    """Refuses: a source distribution would have neither the program nor the library."""
    raise SystemExit("yoyoash has no source distribution: use bindings/python/build-wheel DIST OUTDIR")
