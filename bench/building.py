"""What is measured is built first. It is as new as its sources, or the run stops."""

import filecmp
import os
import pathlib
import shutil
import subprocess
import sys

BENCH = pathlib.Path(__file__).resolve().parent
TOP = BENCH.parent
OUT = BENCH / "out"
PACKAGES = {"erl": "erlang-base", "g++": "g++"}
HEADERS = {"urcu/rculfhash.h": "liburcu-dev", "tbb/concurrent_unordered_map.h": "libtbb-dev"}
INCLUDE = (
    "/usr/include",
    "/usr/include/x86_64-linux-gnu",
    "/usr/include/aarch64-linux-gnu",
    "/usr/local/include",
)


def stop(text: str) -> None:
    sys.exit(f"bench: {text}")


def install() -> None:
    """The peers' packages, where they are missing and this is a machine that may install them."""
    has = lambda header: any(os.path.exists(f"{folder}/{header}") for folder in INCLUDE)
    missing = [package for command, package in PACKAGES.items() if not shutil.which(command)]
    missing += [package for header, package in HEADERS.items() if not has(header)]
    if missing:
        subprocess.run(["apt-get", "update", "-qq"], stdout=subprocess.DEVNULL, check=False)
        subprocess.run(
            ["apt-get", "install", "-y", "-qq", *missing], stdout=subprocess.DEVNULL, check=False
        )


def newer(target: pathlib.Path, sources: list[pathlib.Path]) -> bool:
    return target.exists() and all(
        target.stat().st_mtime >= source.stat().st_mtime for source in sources
    )


def crates_of(name: str) -> list[str]:
    """The crate and all below it."""
    uses = {}
    for line in (TOP / "crates.txt").read_text().splitlines():
        head, _, below = line.partition(":")
        if head.strip():
            uses[head.split()[0]] = below.split()
    found, left = [], [name]
    while left:
        crate = left.pop()
        if crate in uses and crate not in found:
            found.append(crate)
            left += uses[crate]
    return found


def sources_of(name: str) -> list[pathlib.Path]:
    """Code, definitions and proofs of the crate and of all below it."""
    folders = [
        TOP / "crates" / crate / part
        for crate in crates_of(name)
        for part in ("src", "specs", "proofs")
    ]
    return [
        path for folder in folders for path in folder.rglob("*") if path.suffix in (".rt", ".antt")
    ]


def build(crate: str, words: list[str], folder: pathlib.Path) -> None:
    """Builds a crate; if that fails, prints the last lines and stops the run."""
    result = subprocess.run(
        words, cwd=folder, stdin=subprocess.DEVNULL, capture_output=True, text=True
    )
    if result.returncode != 0:
        print("\n".join((result.stdout + result.stderr).splitlines()[-20:]), file=sys.stderr)
        stop(f"{crate} is not built")


class Programs:
    """The store's side: programs proved and built here, or taken from a tree that `rt ci` built of
    the same sources."""

    def __init__(self, tree: str | None) -> None:
        self.tree = pathlib.Path(tree).resolve() if tree else TOP

    def program(self, crate: str) -> str:
        return self._built(crate, crate, "run")

    def archive(self, crate: str) -> str | None:
        """Returns a static library. CI leaves none in its tree, but what it checked, from which
        this builds one."""
        folder = self.tree / "crates" / crate / "out"
        if self.tree != TOP and not (folder / f"lib{crate}.a").exists():
            if not (folder / "checked").exists():
                print(
                    f"bench: {crate} is left out, since {self.tree} has no library of it",
                    file=sys.stderr,
                )
                return None
            build(
                crate,
                [
                    sys.executable,
                    "-B",
                    str(TOP / ".ci/modules/static_library.py"),
                    str(self.tree),
                    crate,
                ],
                TOP,
            )
        return self._built(crate, f"lib{crate}.a", "lib")

    def _built(self, crate: str, file: str, verb: str) -> str:
        target, sources = self.tree / "crates" / crate / "out" / file, sources_of(crate)
        if self.tree != TOP:
            differs = [path for path in sources if not self._has(path)]
            if differs or not newer(
                target, [self.tree / path.relative_to(TOP) for path in sources]
            ):
                stop(
                    f"{target} is not built of these sources"
                    f"{': ' + str(differs[0]) if differs else ''}"
                )
        elif not newer(target, sources):
            self._prove(crate, verb)
            if not target.exists():
                stop(f"rt {verb} made no {target}")
            target.touch()  # rt leaves what it need not build as it was
        return str(target)

    def _has(self, path: pathlib.Path) -> bool:
        other = self.tree / path.relative_to(TOP)
        return other.exists() and filecmp.cmp(path, other, shallow=False)

    def _prove(self, crate: str, verb: str) -> None:
        print(f"bench: {crate} is proved and built first", file=sys.stderr)
        build(crate, ["rt", verb], TOP / "crates" / crate)

    def script(self) -> str:
        """The program that answers scripts."""
        if self.tree == TOP:
            subprocess.run([str(TOP / "ets_script"), "--prove"], check=True)
        return self._built("ets_script_cli", "ets_script_cli", "run")


def compiled(command: list[str], target: str, sources: list[pathlib.Path]) -> str | None:
    """Compiles a peer in `out`, unless it is newer than its sources; nothing where there is no
    such compiler."""
    if not shutil.which(command[0]):
        print(f"bench: {target} is left out, since there is no {command[0]}", file=sys.stderr)
        return None
    if not newer(OUT / target, sources):
        result = subprocess.run(command, cwd=OUT, capture_output=True, text=True)
        if result.returncode != 0:
            stop(f"{target} is not built: {result.stderr.strip()}")
    return str(OUT / target)


def rust(name: str, *links: str) -> str | None:
    """The peer in Rust of this name."""
    sources = list((BENCH / "peers").glob("*.rs"))
    words = [
        "rustc",
        "-O",
        "--edition",
        "2021",
        "-o",
        name,
        str(BENCH / f"peers/{name}.rs"),
        *(f"-Clink-arg={link}" for link in links),
    ]
    return compiled(words, name, sources + [pathlib.Path(link) for link in links])


def tables() -> str | None:
    """The tables of the field, in C++."""
    source = BENCH / "peers/tables.cpp"
    return compiled(
        ["g++", "-O2", "-std=c++17", "-o", "tables", str(source), "-lurcu", "-lurcu-cds", "-ltbb"],
        "tables",
        [source],
    )


def erlang(module: str) -> list[str] | None:
    """The words that run a module of Erlang, to which its arguments are added."""
    source = BENCH / f"peers/{module}.erl"
    if not compiled(["erlc", str(source)], f"{module}.beam", [source]):
        return None
    return ["erl", "-noshell", "-noinput", "-pa", str(OUT), "-run", module, "main"]


def kit() -> pathlib.Path:
    return pathlib.Path(
        subprocess.run(["rt", "doc"], capture_output=True, text=True).stdout.strip()
    ).parent


def layers(programs: Programs) -> str | None:
    """The driver of the store's layers: links the static library of the crate bench_layers."""
    archive = programs.archive("bench_layers")
    return rust("library", archive, str(kit() / "c/liblibc_c.a")) if archive else None
