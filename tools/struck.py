"""The runs of the program in which tools/fail_io and tools/fail_alloc strike each call in turn, and what both need beside."""
import os
import shutil
import subprocess
import sys
import tempfile
from typing import NamedTuple

TOP = os.path.dirname(os.path.dirname(os.path.abspath(__file__)))
PROGRAM = os.path.join(TOP, "crates", "pdcch_app", "out", "pdcch_app")
SECONDS = 60
ONE_GRANT, CASES = os.path.join("examples", "one_grant"), "cases"
TABLES = [os.path.join("examples", "tables", name) for name in ("reliability.txt", "input_order.txt")]
SHARED = [os.path.join(CASES, "shared", name) for name in ("reliability.txt", "input_order.txt")]
OF_CELL = ["settings.json", "reliability.txt", "input_order.txt"]


class Run(NamedTuple):
    """A run of a command: its name, its words, the status that it ends with, and its files."""
    name: str
    words: list
    status: int
    files: list


class Ended(NamedTuple):
    status: int
    out: bytes
    err: bytes


class Broken(Exception):
    """A run that ended otherwise than is wanted."""


def over(folder, *names):
    return [os.path.join(folder, name) for name in names]


RUNS = [
    Run("write", ["write", *OF_CELL, "grants.json"], 0, [*over(ONE_GRANT, "settings.json", "grants.json"), *TABLES]),
    Run("search", ["search", *OF_CELL, "grid.txt"], 0, [*over(ONE_GRANT, "settings.json", "grid.txt"), *TABLES]),
    Run("explain", ["explain", *OF_CELL, "grid.txt", "--handset", "alpha", "--watch", "0"], 0,
        [*over(ONE_GRANT, "settings.json", "grid.txt"), *TABLES]),
    Run("write, with refused grants", ["write", *OF_CELL, "grants.json"], 3,
        [*over(os.path.join(CASES, "refusals_of_every_kind"), "settings.json", "grants.json"), *SHARED]),
    Run("write, with refused settings", ["write", *OF_CELL, "grants.json"], 4,
        [os.path.join(CASES, "settings_rows_of_regs", "settings.json"), os.path.join(ONE_GRANT, "grants.json"), *TABLES]),
    Run("sweep 1", ["sweep", "1", "reliability.txt", "input_order.txt"], 0, TABLES),
]


def stop(why):
    print(f"{os.path.basename(sys.argv[0])}: {why}", file=sys.stderr)
    sys.exit(2)


def several_of(number, name):
    return f"{number:,} {name}{'' if number == 1 else 's'}"


def lay_out(folder, files):
    """Makes a folder with copies of the files, and gives it back."""
    os.mkdir(folder)
    for path in files:
        shutil.copy(os.path.join(TOP, path), folder)
    return folder


def ended_of(program, words, folder, told):
    """Runs the program in the folder, with what the preloaded library is told, and gives how it ended."""
    ran = subprocess.run([program, *words], cwd=folder, env={**os.environ, **told}, stdin=subprocess.DEVNULL,
                         capture_output=True, timeout=SECONDS, check=False)
    return Ended(ran.returncode, ran.stdout, ran.stderr)


def difference(ended, wanted):
    """What is not as it should be in how a run ended, or None."""
    found = [f"status {ended.status}, wanted {wanted.status}"] if ended.status != wanted.status else []
    for name, had, should in (("output", ended.out, wanted.out), ("error output", ended.err, wanted.err)):
        found += [f"{len(had)} bytes on the {name}, wanted {len(should)}: {had[:80]!r}"] if had != should else []
    return "; ".join(found) or None


def main(words, about, source, try_all):
    """Runs a tool on its words: `about` is what its help says, `source` the C file of the library that is preloaded, and
    `try_all` gets the program, the library and a folder, and says whether all runs ended as they should."""
    if words == ["--help"]:
        print(about.strip())
        return 0
    program = PROGRAM
    if words[:1] == ["--program"] and len(words) == 2:
        program, words = os.path.abspath(words[1]), []
    if words:
        stop(f"usage: tools/{os.path.basename(sys.argv[0])} [--program FILE]")
    if not os.access(program, os.X_OK):
        stop(f"{program} is no program: run rt ci at the top of the repository, or ./nrpdcch --prove")
    if not shutil.which("cc"):
        stop("it needs a C compiler, cc")
    try:
        with tempfile.TemporaryDirectory(prefix="struck-") as work:
            library = os.path.join(work, "failing.so")
            subprocess.run(["cc", "-shared", "-fPIC", "-O2", "-o", library, os.path.join(TOP, "tools", source)], check=True)
            return 0 if try_all(program, library, work) else 1
    except (OSError, subprocess.SubprocessError) as error:
        return stop(error)
