"""The files of dist/x86_64-linux: builds them from a tree that `rt ci` has proved, and compares
them bit for bit with the committed ones.

    .ci/dist TREE           builds them in TREE/built, and fails if a committed one differs
    .ci/dist TREE --write   replaces the committed ones
    .ci/dist --sources      fails if the committed ones are of other sources; builds nothing

All tools are the kit's, so the files depend on the sources and the kit alone. SHA256SUMS names the
kit that built the committed ones; a run with another kit must build the same files. `rt ci` left
the program in its crate's out/, and the checked library for C, which is compiled here."""
import filecmp
import hashlib
import os
import shutil
import subprocess
import sys
import tempfile

from parts import PROGRAM, TOP
from static_library import archive_of, build
from tools import Prover, crates_of, read

DIST = f"{TOP}/dist/x86_64-linux"
FILES = ["ets_script", "libyoyoash.a", "libyoyoash.so"]
SONAME = "libyoyoash.so.0"
# How the shared object is linked.
SHARED = [
    "-shared",
    f"-soname={SONAME}",
    "--no-undefined",
    "--build-id=none",
    "--gc-sections",
    "--strip-all",
    "-znow",
    "-zrelro",
    "-znoexecstack",
]
# All names that a program which links the library can use.
EXPORTED = "yoyoash_*"


def built(tree):
    """The folder of a tree in which its files are built."""
    return f"{tree}/built"


def sources(tree):
    """The checksum of a tree's sources, as ./ets_script computes it."""
    return subprocess.run(
        [f"{TOP}/dist/sources", tree], stdout=subprocess.PIPE, text=True, check=True
    ).stdout.strip()


def checksum(file):
    with open(file, "rb") as opened:
        return hashlib.sha256(opened.read()).hexdigest()


def without_kit(file):
    """Returns the lines of a SHA256SUMS, without the name of the kit."""
    return [line for line in read(file).split("\n") if not line.startswith("# kit ")]


def is_committed(name, tree):
    """Returns whether the committed file of this name is that of a tree."""
    committed, made = f"{DIST}/{name}", f"{built(tree)}/{name}"
    if not os.path.isfile(committed):
        return False
    return (
        without_kit(committed) == without_kit(made)
        if name == "SHA256SUMS"
        else filecmp.cmp(committed, made, shallow=False)
    )


def described(file):
    return (
        f"{os.path.getsize(file):,} bytes, sha256 {checksum(file)}"
        if os.path.isfile(file)
        else "missing"
    )


def run_tool(kit, name, *words):
    """Runs a tool of the kit's LLVM, which is one program under many names."""
    subprocess.run([name, *words], executable=f"{kit}/toolchain/bin/clang", check=True)


def build_libraries(prover, tree, to):
    """Makes the archive and the shared object, each of the library for C, the kit's C functions
    and what they need of libgcc, with the exported names alone."""
    crate, kit = crates_of(tree)["ets_c"], prover.kit
    build(prover, crate)
    with tempfile.TemporaryDirectory(prefix="dist-") as room:
        whole = f"{room}/yoyoash.o"
        # (libgcc has the division of integers of 128 bits)
        own, runtime = [archive_of(crate), f"{kit}/c/liblibc_c.a"], f"{kit}/toolchain/lib/libgcc.a"
        archives = ["--whole-archive", *own, "--no-whole-archive", runtime]
        run_tool(kit, "ld.lld", "-r", "-o", whole, *archives)
        names = ["--wildcard", f"--keep-global-symbol={EXPORTED}"]
        run_tool(kit, "llvm-objcopy", "--strip-debug", *names, whole)
        run_tool(kit, "llvm-ar", "rcsD", f"{room}/libyoyoash.a", whole)
        linked = [whole, f"{kit}/toolchain/lib/libc.so.6"]
        run_tool(kit, "ld.lld", *SHARED, "-o", f"{room}/libyoyoash.so", *linked)
        for name in FILES[1:]:
            shutil.copy(f"{room}/{name}", f"{to}/{name}")


def build_files(tree):
    """Builds the files and their checksums."""
    to, prover = built(tree), Prover(tree)
    shutil.rmtree(to, ignore_errors=True)
    os.mkdir(to)
    shutil.copy(f"{tree}/{PROGRAM}/out/ets_script_cli", f"{to}/ets_script")
    build_libraries(prover, tree, to)
    for name, mode in zip(FILES, (0o755, 0o644, 0o755)):
        os.chmod(f"{to}/{name}", mode)
    name, version = subprocess.run(
        [f"{to}/ets_script", "--version"], stdout=subprocess.PIPE, text=True, check=True
    ).stdout.split()
    lines = [
        f"# version {version}",
        f"# kit {prover.line}",
        f"# sources {sources(tree)}",
        *(f"{checksum(f'{to}/{file}')}  {file}" for file in FILES),
    ]
    with open(f"{to}/SHA256SUMS", "w", encoding="utf-8") as sums:
        sums.writelines(f"{line}\n" for line in lines)


def write(tree):
    """Replaces the committed files by those of a tree, if that has the sources of this
    checkout."""
    if sources(tree) != sources(TOP):
        sys.exit("dist: the tree has other sources than this checkout: run .ci/run --write again")
    os.makedirs(DIST, exist_ok=True)
    for name in [*FILES, "SHA256SUMS"]:
        # (a program that runs cannot be written to)
        shutil.copy(f"{built(tree)}/{name}", f"{DIST}/{name}.new")
        os.replace(f"{DIST}/{name}.new", f"{DIST}/{name}")
        print(f"dist: {name}: {described(f'{DIST}/{name}')}")
    return 0


def compare(tree):
    """Compares the committed files with those of a tree, bit for bit."""
    differ = [name for name in [*FILES, "SHA256SUMS"] if not is_committed(name, tree)]
    for name in differ:
        print(
            f"dist: {name} differs: committed {described(f'{DIST}/{name}')}; built here "
            f"{described(f'{built(tree)}/{name}')}"
        )
    if differ:
        print(
            "dist: '.ci/run --write' writes what it builds; commit dist/ with the change of the "
            "sources or the kit"
        )
        return 1
    print(
        f"dist: {len(FILES)} files, built from these sources, are the committed ones bit for bit"
    )
    return 0


def compare_sources():
    """Compares the checksum of the sources with the committed one."""
    file = f"{DIST}/SHA256SUMS"
    if os.path.isfile(file) and f"# sources {sources(TOP)}\n" in read(file):
        return 0
    print(
        "dist: the files of dist/ were built from other sources: '.ci/run --write' proves these "
        "and builds the files"
    )
    return 1


def main(words):
    if words == ["--sources"]:
        return compare_sources()
    if not words or words[1:] not in ([], ["--write"]):
        sys.exit(__doc__)
    tree = os.path.realpath(words[0])
    build_files(tree)
    return write(tree) if words[1:] else compare(tree)


if __name__ == "__main__":
    sys.exit(main(sys.argv[1:]))
