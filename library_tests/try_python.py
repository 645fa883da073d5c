#!/usr/bin/env python3
"""The package nrpdcch of python/, over the shared library: the runs of cases/ done by its calls, byte for byte; the examples;
each exception; each kind of memory; threads; and the example script.

    library_tests/try_python.py TOP

TOP is the top of the repository. PYTHONPATH has its python/, and NRPDCCH_LIBRARY names the library.
"""
import array
import importlib.machinery
import importlib.util
import json
import os
import re
import subprocess
import sys
import tempfile
import threading
import traceback

import nrpdcch
from nrpdcch import _words as words
from nrpdcch import errors

TOP = os.path.abspath(sys.argv[1] if len(sys.argv) > 1 else os.path.join(os.path.dirname(__file__), ".."))
CASES, EXAMPLES = os.path.join(TOP, "cases"), os.path.join(TOP, "examples")
passed, faults = 0, []


def check(holds, what):
    """Counts one thing that has to hold."""
    global passed
    if holds:
        passed += 1
    else:
        faults.append(what)
        print(what)


def refuses(kind, call, place=None, reason=None):
    """Checks that a call raises that very exception, with that place and reason where they are given."""
    try:
        call()
        check(False, f"{kind.__name__} is not raised")
    except Exception as error:
        same = type(error) is kind and (place is None or error.place == place) and (reason is None or error.reason == reason)
        check(same, f"{kind.__name__} at {place}: {reason}: {error!r}")


def load(path):
    """A script of tools/ as a module."""
    loader = importlib.machinery.SourceFileLoader(os.path.basename(path), path)
    module = importlib.util.module_from_spec(importlib.util.spec_from_loader(loader.name, loader))
    loader.exec_module(module)
    return module


def read(*path):
    with open(os.path.join(TOP, *path), "rb") as file:
        return file.read()


def open_example(name):
    cell = nrpdcch.Cell(read("examples", name, "settings.json"), read("examples", "tables", "reliability.txt"),
                        read("examples", "tables", "input_order.txt"))
    return (cell, *nrpdcch.read_grid(read("examples", name, "grid.txt")))


# ---- the work of the program, by the calls of the library -----------------------------------------------------------------

class Ended(Exception):
    """An error line that ends a run."""


class Unsuited(Exception):
    """A case that is about something else than the library."""


def cell_of(files):
    """Opens the cell of a run."""
    try:
        return nrpdcch.Cell(*files[:3])
    except nrpdcch.SettingsRefused as error:
        raise Ended(f"error: settings: {error.place}: {error.reason}") from None
    except nrpdcch.TableRefused as error:
        raise Ended(f"error: {error.place}: {error.reason}") from None


def names_of(files):
    return [handset["name"] for handset in json.loads(files[0])["handsets"]]


def grid_of(cell, text):
    """The grid of a run, which has to be the cell's."""
    try:
        head, grid = nrpdcch.read_grid(text)
    except nrpdcch.GridTextRefused as error:
        raise Ended(f"error: grid: byte {error.at}") from None
    for name in ("mu", "blocks"):
        given, own = getattr(head, name), getattr(cell.carrier, name)
        if given != own:
            raise Ended(f"error: grid: {name} {given} {own}")
    return head, grid


def plan_of(cell, name, frame, slot):
    try:
        return cell.plan(name, frame, slot)
    except nrpdcch.OverBudget:
        raise Ended(f"error: slot: handset {name}: ") from None


def search(files, handset):
    cell = cell_of(files)
    head, grid = grid_of(cell, files[3])
    names = names_of(files)
    if handset is not None and handset not in names:
        raise Ended(f"error: no such handset {handset}")
    names = names if handset is None else [handset]
    plans = [plan_of(cell, name, head.frame, head.slot) for name in names]
    lines = [f"frame {head.frame} slot {head.slot}\n"]
    for name, plan in zip(names, plans):
        found = cell.search(name, head.frame, head.slot, grid)
        lines.append(f"handset {name} watches {len(plan)} heard {len(found)}\n")
        lines += [f"{plan[heard.watch]} rnti {plan[heard.watch].rnti:04x} {heard}\n" for heard in found]
    return "".join(lines), "", 0


def explain(files, handset, watch):
    cell = cell_of(files)
    head, grid = grid_of(cell, files[3])
    if handset not in names_of(files):
        raise Ended(f"error: no such handset {handset}")
    plan, number = plan_of(cell, handset, head.frame, head.slot), int(watch)
    try:
        heard = cell.hear(handset, head.frame, head.slot, number, grid)
    except nrpdcch.NoSuchWatch:
        raise Ended(f"error: no such watch {watch}") from None
    return f"watch {number} {plan[number]}\n{'heard' if heard else 'silent'}: {heard}\n", "", 0


def suitable(watch, grant):
    wanted = {"set": grant["set"], "level": grant["level"]}
    wanted.update((name, grant[name]) for name in ("candidate", "symbol") if name in grant)
    return grant["format"] in watch.formats and all(getattr(watch, name) == value for name, value in wanted.items())


def places_of(cell, name, slot, watch, grant, blocks):
    """The places of a candidate, with their points: what spelling at its watch writes on a blank grid."""
    grid = nrpdcch.blank(blocks)
    cell.spell(name, *slot, watch.number, grant["format"], dict(sorted(grant.get("fields", {}).items())), grid)
    return {at: point for at, point in enumerate(grid) if point}


def place(cell, plans, settings, slot, grant, owners, grid, number):
    """Writes a grant at the first suitable watch that is free, or says why there is none."""
    name = grant["handset"]
    if name not in plans:
        return "unknown handset"
    of_name = next(handset for handset in settings["handsets"] if handset["name"] == name)
    if grant["set"] not in [given["number"] for given in of_name["sets"]]:
        return "unknown set"
    watches = [watch for watch in plans[name] if suitable(watch, grant)]
    if not watches:
        return "unmonitored"
    try:
        first = places_of(cell, name, slot, watches[0], grant, cell.carrier.blocks)
    except nrpdcch.FieldRefused as error:
        if error.reason == "unknown field":
            return f"unknown field {error.place}"
        return f"field {error.place} {error.reason}"
    for watch in watches:
        places = places_of(cell, name, slot, watch, grant, cell.carrier.blocks)
        if not places.keys() & owners.keys():
            owners.update(dict.fromkeys(places, number))
            for at, point in places.items():
                grid[at] = point
            return None
    return f"overlap with grant {min(owners[at] for at in first if at in owners)}"


def write(files):
    cell = cell_of(files)
    try:
        settings, given = json.loads(files[0]), json.loads(files[3])
        slot, grants = (given["frame"], given["slot"]), given["grants"]
    except (ValueError, KeyError, TypeError):
        raise Unsuited from None
    plans = {name: plan_of(cell, name, *slot) for name in names_of(files)}
    grid, owners = nrpdcch.blank(cell.carrier.blocks), {}
    causes = [place(cell, plans, settings, slot, grant, owners, grid, number) for number, grant in enumerate(grants)]
    text = nrpdcch.grid_text(nrpdcch.Head(cell.carrier.mu, *slot, cell.carrier.blocks), grid)
    lines = "".join(f"grant {number}: {cause}\n" for number, cause in enumerate(causes) if cause)
    return text, lines, 3 if lines else 0


def content_of(path):
    """What a file has. The program does not come to a file that is not there in the cases that are tried."""
    if not os.path.isfile(path):
        return b""
    with open(path, "rb") as file:
        return file.read()


def run(args, folder):
    """What a run of the program leaves, done by the calls: output, error output and status, None where it was refused."""
    options = {"--handset": None, "--watch": None}
    command, *rest = args
    names = []
    while rest:
        word = rest.pop(0)
        if word in options:
            options[word] = rest.pop(0)
        else:
            names.append(word)
    files = [content_of(os.path.join(folder, name)) for name in names]
    try:
        if command == "write":
            return write(files)
        if command == "search":
            return search(files, options["--handset"])
        return explain(files, options["--handset"], options["--watch"])
    except Ended as line:
        return "", str(line), None


# ---- the trials -----------------------------------------------------------------------------------------------------------

def is_suited(program, case):
    """Whether a case is about what the library does: no words, files, grants or sweeps that the program refuses by itself."""
    args, told = program.lines_of(os.path.join(case, "args")), program.read(program.path_of(case, "stderr"))
    refused = (b"error: usage", b"error: read", b"error: too long", b"error: grants")
    huge = os.path.isfile(os.path.join(case, "sizes"))
    is_run = args[:1] in ([b"write"], [b"search"], [b"explain"]) and not told.startswith(refused)
    return is_run and not huge and not any(os.path.exists(os.path.join(case, name)) for name in ("full", "stdin"))


def try_cases():
    program = load(os.path.join(TOP, "tools", "try_program"))
    names = sorted(name for name in os.listdir(CASES) if name != program.SHARED and os.path.isdir(os.path.join(CASES, name)))
    tried = 0
    for name in names:
        case = os.path.join(CASES, name)
        if not is_suited(program, case):
            continue
        with tempfile.TemporaryDirectory() as folder:
            program.lay_out(case, folder)
            try:
                out, err, status = run([word.decode() for word in program.lines_of(os.path.join(case, "args"))], folder)
            except Unsuited:
                continue
        wanted = [program.read(program.path_of(case, which)).decode() for which in ("stdout", "stderr")]
        tried += 1
        is_same = out == wanted[0] and (wanted[1].startswith(err) if status is None else err == wanted[1])
        check(is_same and (status is None or status == int(read("cases", name, "status"))), f"case {name}: {err[:100]}")
    check(tried > 150, f"only {tried} cases were tried")


def try_examples():
    for name in sorted(os.listdir(EXAMPLES)):
        if not os.path.isfile(os.path.join(EXAMPLES, name, "report.txt")):
            continue
        files = [read("examples", name, "settings.json"), read("examples", "tables", "reliability.txt"),
                 read("examples", "tables", "input_order.txt")]
        grid, grants = read("examples", name, "grid.txt"), read("examples", name, "grants.json")
        check(search([*files, grid], None)[0].encode() == read("examples", name, "report.txt"), f"{name}: another report")
        check(write([*files, grants])[0].encode() == grid, f"{name}: another grid")


def try_words():
    """The words of the package, beside those of the header and of docs/LIBRARY.md."""
    header = read("include", "nrpdcch.h").decode()
    enums = {name: re.findall(r"NRPDCCH_(\w+) = (\d+),?\s*(?:/\*(.*?)\*/)?", body, re.S)
             for name, body in re.findall(r"enum nrpdcch_(\w+) \{(.*?)\n\};", header, re.S)}
    names = [(int(value), re.search(r'\("(\w+)"\)', comment)) for _, value, comment in enums["name"]]
    told = [(at, word.group(1) if word else "identifier") for at, word in names]
    check(told == list(enumerate(words.FIELDS)), "words of the fields")
    formats = [comment.strip().split()[0] for _, _, comment in enums["format"]]
    check(formats == ["0_0", "1_0", "1_0", "0_1", "1_1"] and len(words.FORMATS) == 5, f"words of the formats: {formats}")
    check([name.lower() for name, _, _ in enums["kind"]] == list(words.KINDS), "words of the kinds")
    numbers = {int(value) for _, value, _ in enums["status"]}
    check(numbers == set(range(18)), f"numbers of the statuses: {numbers}")
    check(set(errors.BY_STATUS) == numbers - {0, 13, 16}, "a status has no exception")
    reasons = {int(value): name.lower().replace("_", " ") for name, value, _ in enums["settings_reason"]}
    check(reasons == words.SETTINGS_REASONS, f"reasons: {reasons}")
    pairs = re.findall(r"(\d+) `(\w+)`", read("docs", "LIBRARY.md").decode().partition("## Keys")[2].partition("\n## ")[0])
    check([(int(at), word) for at, word in pairs] == list(enumerate(words.KEYS)), f"keys in docs/LIBRARY.md: {len(pairs)}")


def try_memory_kinds():
    """A grid as each kind of memory that it may be in."""
    cell, head, grid = open_example("one_grant")
    here = "alpha", head.frame, head.slot
    wanted = cell.search(*here, grid)
    shaped = memoryview(bytearray(grid)).cast("B", (14, 612))
    kinds = [bytes(grid), bytearray(grid), memoryview(grid), memoryview(bytes(grid)), array.array("B", grid), shaped]
    try:
        import numpy
        kinds += [numpy.frombuffer(bytes(grid), numpy.uint8), numpy.array(grid, numpy.uint8).reshape(14, 612)]
    except ImportError:
        print("skipped: numpy is not on this machine")
    for kind in kinds:
        check(cell.search(*here, kind) == wanted and cell.hear(*here, 0, kind) == wanted[0], f"a grid as {type(kind).__name__}")
        check(nrpdcch.grid_text(head, kind).encode() == read("examples", "one_grant", "grid.txt"), "its text")
    for kind in (nrpdcch.blank(51), array.array("B", bytes(8568)), memoryview(nrpdcch.blank(51)),
                 memoryview(bytearray(8568)).cast("B", (14, 612))):
        cell.spell(*here, 0, "1_0", wanted[0].fields, kind)
        check(bytes(kind) == bytes(grid), f"spelling on {type(kind).__name__}")
    for wrong in (bytes(grid), memoryview(grid).toreadonly()):
        refuses(TypeError, lambda: cell.spell(*here, 0, "1_0", {}, wrong))
    for wrong in (array.array("H", bytes(8568)), array.array("b", bytes(8568)), "text", None, 7):
        refuses(TypeError, lambda: cell.search(*here, wrong))
    refuses(BufferError, lambda: cell.search(*here, memoryview(bytes(2 * 8568))[::2]))
    kept = bytearray(grid)
    kept.append(0)
    check(len(kept) == 8569, "a grid is still held after the calls")


def try_refused_files():
    """Settings, tables and texts of grids that are refused."""
    files = [read("examples", "one_grant", "settings.json"), read("examples", "tables", "reliability.txt"),
             read("examples", "tables", "input_order.txt")]
    refuses(nrpdcch.SettingsRefused, lambda: nrpdcch.Cell("", *files[1:]), "file", "not json")
    settings = files[0].replace(b":17,", b":65520,")
    refuses(nrpdcch.SettingsRefused, lambda: nrpdcch.Cell(settings, *files[1:]), "handsets/0/rnti", "out of range")
    refuses(nrpdcch.TableRefused, lambda: nrpdcch.Cell(files[0], "1 2 x", files[2]), "reliability", "bad byte at 4")
    refuses(nrpdcch.TableRefused, lambda: nrpdcch.Cell(files[0], files[1], "7, 7"), "input order", "value 7 repeated")
    refuses(nrpdcch.TableRefused, lambda: nrpdcch.Cell(files[0], files[1], "1 164 "), "input order", "value 164 at 2 too large")
    refuses(nrpdcch.TableRefused, lambda: nrpdcch.Cell(files[0], files[1], b"\t1,2"), "input order", "2 values")
    refuses(nrpdcch.GridTextRefused, lambda: nrpdcch.read_grid("nrpdcch grid 2"), "byte 13")
    refuses(nrpdcch.SettingsRefused, lambda: nrpdcch.Cell('{"version": "\ud800"}', *files[1:]), "file", "not json")


def try_refused_numbers():
    """Handsets, frames, slots and watches that are not there."""
    cell, head, grid = open_example("one_grant")
    for handset in ("beta", "", "alph", "alpha ", 1, -1, 2 ** 32, 2 ** 80):
        refuses(nrpdcch.NoSuchHandset, lambda: cell.plan(handset, 0, 0), f"handset {handset}")
    for frame, slot in ((1024, 0), (0, 20), (-1, 0), (0, -1), (2 ** 32, 0), (0, 2 ** 64), (65536, 0)):
        refuses(nrpdcch.ArgumentRefused, lambda: cell.plan(0, frame, slot))
        refuses(nrpdcch.ArgumentRefused, lambda: cell.search(0, frame, slot, grid))
        refuses(nrpdcch.ArgumentRefused, lambda: cell.hear(0, frame, slot, 0, grid))
        refuses(nrpdcch.ArgumentRefused, lambda: cell.spell(0, frame, slot, 0, "1_0", {}, grid))
    for call in (lambda: cell.plan(0.0, 0, 0), lambda: cell.plan(0, 0.5, 0), lambda: cell.hear(0, 0, 0, 0.0, grid),
                 lambda: cell.spell(0, 0, 0, 0, "1_0", {"mcs": 1.0}, grid)):
        refuses(TypeError, call)
    refuses(nrpdcch.NoSuchHandset, lambda: cell.handset("\ud800"))
    for watch in (1, -1, 2 ** 32, 65536):
        refuses(nrpdcch.NoSuchWatch, lambda: cell.hear("alpha", 0, 0, watch, grid), f"watch {watch}")
        refuses(nrpdcch.NoSuchWatch, lambda: cell.spell("alpha", 0, 0, watch, "1_0", {}, grid), f"watch {watch}")
    for numbers in ((4, 0, 0, 51), (1, 1024, 0, 51), (1, 0, 20, 51), (1, 0, 0, 5), (1, 0, 0, 276), (-1, 0, 0, 51),
                    (1, 2 ** 32, 0, 51)):
        refuses(nrpdcch.ArgumentRefused, lambda: nrpdcch.grid_text(nrpdcch.Head(*numbers), grid))


def try_refused_grids():
    """Grids of another length, or with a byte that is no point."""
    cell, head, grid = open_example("one_grant")
    cut, damaged = grid[:-1], bytearray(grid)
    damaged[7], damaged[9] = 5, 255

    def calls(on):
        return (lambda: cell.hear("alpha", 0, 0, 0, on), lambda: cell.search("alpha", 0, 0, on),
                lambda: cell.spell("alpha", 0, 0, 0, "1_0", {}, on), lambda: nrpdcch.grid_text(head, on))

    for call in calls(cut):
        refuses(nrpdcch.GridLength, call, "grid", "8567 bytes")
    for call in calls(damaged):
        refuses(nrpdcch.GridByte, call, "byte 7", "no point")


def try_refused_fields():
    """Formats that the watch does not carry, and fields that make no payload; the grid is as before."""
    cell, head, grid = open_example("one_grant")

    def spell(fields=None, form="1_0"):
        return lambda: cell.spell("alpha", 0, 0, 0, form, fields or {}, grid)

    refuses(nrpdcch.NoSuchFormat, spell(form="2_0"), "format 2_0")
    refuses(nrpdcch.FormatNotCarried, spell(form="0_1"), "format 0_1")
    refuses(nrpdcch.FieldRefused, spell({"mcs": 32}), "mcs", "too large: 32 for 5 bits")
    refuses(nrpdcch.FieldRefused, spell({"tdra": 1, "mcs": 2 ** 64}), "mcs", "too large: 18446744073709551616 for 5 bits")
    refuses(nrpdcch.FieldRefused, spell({"colour": 1}), "colour", "unknown field")
    refuses(nrpdcch.FieldRefused, spell({"identifier": 1}), "identifier", "unknown field")
    refuses(nrpdcch.FieldRefused, spell({"hopping": 0}), "hopping", "unknown field")
    refuses(nrpdcch.FieldRefused, spell({"mcs": -1}), "mcs", "negative: -1")
    refuses(nrpdcch.FieldRefused, spell({"fdra": 2047}), "fdra", "all ones")
    check(bytes(grid) == bytes(open_example("one_grant")[2]), "a refused call wrote to the grid")


def try_closed():
    """A closed cell, a cell that a `with` closed, and one that nothing names any more."""
    cell, head, grid = open_example("one_grant")
    with cell as same:
        check(same is cell and not cell.closed, "a cell in a with")
    check(cell.closed, "a cell behind a with")
    cell.close()
    for call in (lambda: cell.carrier, lambda: cell.handset("alpha"), lambda: cell.plan(0, 0, 0),
                 lambda: cell.hear(0, 0, 0, 0, grid), lambda: cell.search("alpha", 0, 0, grid),
                 lambda: cell.spell(0, 0, 0, 0, "1_0", {}, grid)):
        refuses(nrpdcch.CellClosed, call, "", "the cell is closed")
    over = nrpdcch.Cell(read("cases", "slot_over", "settings.json"), read("examples", "tables", "reliability.txt"),
                        read("examples", "tables", "input_order.txt"))
    for call in (lambda: over.plan("alpha", 0, 0), lambda: over.search("alpha", 0, 0, b""),
                 lambda: over.hear("alpha", 0, 0, 0, b"")):
        refuses(nrpdcch.OverBudget, call, "handset alpha")
    del over
    kinds = issubclass(nrpdcch.SettingsRefused, nrpdcch.NrpdcchError) and issubclass(nrpdcch.OutOfMemory, MemoryError)
    check(kinds, "the classes of the exceptions")


def try_threads():
    """Four threads with a cell each, and four with one cell."""
    shared, head, grid = open_example("wide_30khz")
    wanted = [shared.search(at, head.frame, head.slot, grid) for at in range(shared.carrier.handsets)]
    wrong = []

    def work(cell):
        for _ in range(5):
            wrong.extend(at for at, found in enumerate(wanted) if cell.search(at, head.frame, head.slot, grid) != found)

    for cells in ([open_example("wide_30khz")[0] for _ in range(4)], [shared] * 4):
        threads = [threading.Thread(target=work, args=(cell,)) for cell in cells]
        for thread in threads:
            thread.start()
        for thread in threads:
            thread.join()
        check(not wrong, f"threads hear something else: {wrong[:5]}")


def try_documented():
    """The lines in Python of docs/LIBRARY.md, where the files of the first example lie."""
    lines = read("docs", "LIBRARY.md").decode().partition("```python\n")[2].partition("```")[0]
    with tempfile.TemporaryDirectory() as folder:
        for name in ("one_grant/settings.json", "one_grant/grid.txt", "tables/reliability.txt", "tables/input_order.txt"):
            with open(os.path.join(folder, os.path.basename(name)), "wb") as file:
                file.write(read("examples", *name.split("/")))
        more = {"PYTHONPATH": os.path.join(TOP, "python"), "NRPDCCH_LIBRARY": os.path.abspath(os.environ["NRPDCCH_LIBRARY"])}
        ran = subprocess.run([sys.executable, "-c", lines], cwd=folder, env={**os.environ, **more}, capture_output=True,
                             text=True, check=False)
    wanted = "set 1 symbol 0 level 8 candidate 0 size 39 heard: 1_0 fdra=101 tdra=2 "
    check(ran.returncode == 0 and ran.stdout.startswith(wanted), f"the lines of docs/LIBRARY.md: {ran.stdout}{ran.stderr[-300:]}")


def try_script():
    """python/why_silent.py, whose stages are those of docs/FORMATS.md."""
    script = os.path.join(TOP, "python", "why_silent.py")
    ran = subprocess.run([sys.executable, script], capture_output=True, text=True, check=False)
    lines = dict(line.rpartition(": ")[::2] for line in ran.stdout.splitlines())
    check(ran.returncode == 0 and not ran.stderr, f"why_silent.py ends with {ran.returncode}: {ran.stderr[-300:]}")
    for what, stage in (("the first point taken away", "empty at symbol 0 subcarrier 0"),
                        ("all points one block higher", "empty at symbol 0 subcarrier 0"),
                        ("another reference point", "reference at symbol 0 subcarrier 1"),
                        ("another first bit at subcarrier 400", "repeat at bit 600"),
                        ("other first bits at 0 and 342, which repeat each other", "code"),
                        ("for rnti 18", "crc"), ("as in grid.txt", "True")):
        check(lines.get(what) == stage, f"why_silent.py: {what}: {lines.get(what)}")


def main():
    for trial in (try_words, try_examples, try_cases, try_memory_kinds, try_refused_files, try_refused_numbers, try_refused_grids,
                  try_refused_fields, try_closed, try_threads, try_documented, try_script):
        try:
            trial()
        except Exception:
            check(False, f"{trial.__name__}: {traceback.format_exc()}")
    print(f"try_python: {passed} passed, {len(faults)} failed")
    return 1 if faults else 0


if __name__ == "__main__":
    sys.exit(main())
