"""For tools/damage: what can be said of a run's answer from its words and files alone. Each check gives the faults it finds."""
import json
import math
import os
import re
from typing import NamedTuple

LARGEST = 8_388_608
DEEPEST = 127
SECONDS, MIB = 10, 256
STATUSES = {"write": {0, 3, 4, 5, 6, 8, 11, 13}, "search": {0, 4, 5, 7, 8, 11, 12, 13}, "explain": {0, 4, 5, 7, 8, 11, 12, 13},
            "sweep": {0, 5, 8, 11}}
TABLES = {"reliability": 1024, "input_order": 164}
CANDIDATES, CCES = [44, 36, 22, 20], [56, 56, 48, 32]      # the limits of a slot, by mu
# The keys of each object of settings and grants: those of the tables in docs/FORMATS.md.
ROWS = {
    "top": "version cell mu blocks initial_downlink initial_uplink coreset0 handsets",
    "handset": "name rnti downlink uplink codebook coresets sets uplink_fields downlink_fields",
    "part": "start size", "coreset": "number groups duration interleave dmrs_id", "interleave": "bundle rows shift",
    "set": "number coreset kind period offset duration symbols candidates base",
    "uplink_fields": "bwps allocation rbg_config tdra hopping second_dai transform dmrs_type dmrs_length srs_resources "
                     "csi_request cbg ptrs beta",
    "downlink_fields": "bwps allocation rbg_config tdra interleaved bundling rate_match zp_sets codewords timing dmrs_type "
                       "dmrs_length tci cbg flush",
    "grants": "frame slot grants", "grant": "handset set level candidate symbol format fields",
}
# The objects at places of the two files; N stands for a number.
OBJECTS = {
    "settings": {"": "top", "handsets/N": "handset", "handsets/N/downlink": "part", "handsets/N/uplink": "part",
                 "handsets/N/coresets/N": "coreset", "handsets/N/coresets/N/interleave": "interleave", "handsets/N/sets/N": "set",
                 "handsets/N/uplink_fields": "uplink_fields", "handsets/N/downlink_fields": "downlink_fields"},
    "grants": {"": "grants", "grants/N": "grant"},
}
# What stands at a key, but for those with a number.
KINDS = {
    str: "name codebook groups kind symbols allocation handset format", list: "handsets coresets sets candidates grants",
    dict: "downlink uplink interleave uplink_fields downlink_fields fields",
    bool: "hopping second_dai transform ptrs beta interleaved bundling tci flush",
}
REASONS = {"settings": "missing|unknown|wrong kind|out of range|conflict", "grants": "missing|unknown|wrong kind|out of range"}
NUMBER = r"(?:0|[1-9][0-9]*)"
ENTRY = re.compile(rf"(set {NUMBER} symbol {NUMBER} level {NUMBER} candidate {NUMBER} size {NUMBER}) rnti ([0-9a-f]{{4}}) "
                   rf"((?:0_0|1_0|order|0_1|1_1)(?: [a-z0-9_]+={NUMBER})+)")
HEAD = re.compile(rf"handset ([A-Za-z0-9_]{{1,16}}) watches ({NUMBER}) heard ({NUMBER})")
PLACE = rf"symbol {NUMBER} subcarrier {NUMBER}"
EXPLAINED = re.compile(rf"watch ({NUMBER}) (set {NUMBER} symbol {NUMBER} level {NUMBER} candidate {NUMBER} size {NUMBER})\n"
                       rf"(?:heard: ((?:0_0|1_0|order|0_1|1_1)(?: [a-z0-9_]+={NUMBER})+)"
                       rf"|silent: (?:empty at {PLACE}|reference at {PLACE}|repeat at bit {NUMBER}|code|crc|format))\n")
GRID = re.compile(rb"nrpdcch grid 1\nmu ([0-3]) frame (0|[1-9][0-9]*) slot (0|[1-9][0-9]*) blocks ([1-9][0-9]*)\n"
                  rb"((?:[.0-3]+\n){14})end\n")
REFUSED = re.compile(rf"grant ({NUMBER}): (unknown handset|unknown set|unmonitored|unknown field [a-z0-9_]{{1,24}}"
                     rf"|field fdra all ones|field [a-z0-9_]{{1,24}} too large: {NUMBER} for {NUMBER} bits"
                     rf"|overlap with grant {NUMBER})")


class Case(NamedTuple):
    """A run: its command, its files by what they are, in order, each with its name and its bytes (None where no file can be read
    there), what of them is damaged, the handset that the words name, if any, and the watch or, with `sweep`, the number of slots,
    and both JSON files as Python reads them, None where it reads none."""
    command: str
    files: dict
    damaged: set
    handset: str
    number: str
    read: dict


class Ended(NamedTuple):
    """How a run ended, and what it took."""
    status: int
    out: bytes
    err: bytes
    seconds: float
    mib: float


# Files as Python reads them.


def whole_of(text):
    """A whole number, as a float where it has a sign or 25 digits."""
    return int(text) if len(text) < 25 and text[0] != "-" else finite(text)


def finite(text):
    number = float(text)
    if math.isinf(number):
        raise ValueError("no number")
    return number


def no_constant(text):
    raise ValueError(f"{text} is no JSON")


def sure_text(pairs):
    """An object, whose keys and texts are all of whole characters."""
    for key, value in pairs:
        key.encode()
        sure_value(value)
    return dict(pairs)


def sure_value(value):
    if isinstance(value, str):
        value.encode()
    elif isinstance(value, list):
        for element in value:
            sure_value(element)


def is_too_deep(text):
    """Whether brackets stand deeper in one another than they may, those in texts left out."""
    depth = 0
    for found in re.finditer(r'"[^"\\]*(?:\\.[^"\\]*)*"|[\[{]|[\]}]', text, re.DOTALL):
        depth += (found[0] in "[{") - (found[0] in "]}")
        if depth > DEEPEST:
            return True
    return False


def json_of(data):
    """Whether the bytes are a JSON text, and its value."""
    try:
        text = data.decode()
        if is_too_deep(text):
            return False, None
        value = json.loads(text, parse_int=whole_of, parse_float=finite, parse_constant=no_constant, object_pairs_hook=sure_text)
        sure_value(value)
        return True, value
    except (ValueError, RecursionError):
        return False, None


def table_fault(data, size):
    """The first fault of a table's text, or None."""
    before = set()
    for found in re.finditer(rb"[0-9]+|[^0-9 \t\r\n,]", data):
        if not found[0].isdigit():
            return f"bad byte at {found.start()}"
        digits = found[0].lstrip(b"0")
        value = min(int(digits or b"0"), 65_535) if len(digits) < 6 else 65_535
        if value >= size:
            return f"value {value} at {found.start()} too large"
        if value in before:
            return f"value {value} repeated"
        before.add(value)
    return None if len(before) == size else f"{len(before)} values"


def grid_of(data):
    """The numbers `mu`, `frame`, `slot` and `blocks` of a grid, or None where it is none."""
    found = GRID.fullmatch(data)
    if not found or any(len(number) > 4 for number in found.groups()[:4]):
        return None
    mu, frame, slot, blocks = map(int, found.groups()[:4])
    is_whole = all(len(line) == 12 * blocks for line in found[5].split(b"\n")[:-1])
    return (mu, frame, slot, blocks) if is_whole and frame < 1024 and slot < 10 * 2**mu and 6 <= blocks <= 275 else None


def same_at(data, at, literal):
    """How many bytes of a literal stand in the data from a place on."""
    return len(os.path.commonprefix([data[at:at + len(literal)], literal]))


def head_of(data):
    """The length of the longest beginning of the data with which the head of a grid begins, and the head's numbers where it is
    whole, else None."""
    at, numbers = 0, []
    for literal in (b"nrpdcch grid 1\nmu ", b" frame ", b" slot ", b" blocks ", b"\n"):
        count = same_at(data, at, literal)
        at += count
        if count < len(literal):
            return at, None
        if literal != b"\n":
            allowed = (range(4), range(1024), range(10 * 2 ** (numbers or [0])[0]), range(6, 276))[len(numbers)]
            spelled = [b"%d" % number for number in allowed]
            begins = [data[at:at + count] for count in range(5)]
            found = max((begin for begin in begins if any(it.startswith(begin) for it in spelled)), key=len)
            at += len(found)
            if found not in spelled:
                return at, None
            numbers.append(int(found))
    return at, numbers


def grid_place(data):
    """The length of the longest beginning of the data with which a grid begins."""
    at, numbers = head_of(data)
    if numbers is None:
        return at
    for _ in range(14):
        points = re.compile(b"[.0-3]{0,%d}" % (12 * numbers[3])).match(data, at)
        at = points.end()
        if len(points[0]) < 12 * numbers[3] or data[at:at + 1] != b"\n":
            return at
        at += 1
    return at + same_at(data, at, b"end\n")


def handsets_of(case):
    return case.read["settings"]["handsets"]


# A refusal's line, by its status.


def value_at(value, place):
    """The value at a place of a JSON value; a KeyError or the like where there is none."""
    for part in place.split("/") if place else []:
        value = value[int(part)] if isinstance(value, list) else value[part]
    return value


def is_number(value):
    return isinstance(value, int) and not isinstance(value, bool) and value < 2**64


def is_kind(place, value):
    """Whether a value is of the kind that has to stand at a place, and its elements too where the place stands for them."""
    key = place.rpartition("/")[2]
    if not key or key.isdigit():
        return isinstance(value, dict)
    if key == "candidates" and isinstance(value, list) and len(value) == 5:
        return all(map(is_number, value))
    if key == "fields" and isinstance(value, dict) and all(re.fullmatch("[a-z0-9_]{1,24}", word) for word in value):
        return all(map(is_number, value.values()))
    kind = next((kind for kind, keys in KINDS.items() if key in keys.split()), None)
    return isinstance(value, kind) if kind else is_number(value)


def place_faults(case, name, place, reason):
    """What is wrong with a place that a line on a JSON file names, and with its reason there."""
    place = "" if place == "file" else place
    upper, _, key = place.rpartition("/")
    general = lambda path: re.sub(r"(?<=/)[0-9]+", "N", path)
    value = case.read[name]
    try:
        if reason == "missing":
            row = ROWS[OBJECTS[name][general(upper)]].split()
            return [] if key in row and key not in value_at(value, upper) else [f"{key} is not missing"]
        there = value_at(value, place)
        if reason == "unknown":
            row = ROWS[OBJECTS[name][general(place)]].split()
            return [] if set(there) - set(row) else ["no key is unknown there"]
        is_known = general(place) in OBJECTS[name] or key in ROWS[OBJECTS[name][general(upper)]].split()
        is_true = is_kind(place, there) != (reason == "wrong kind")
        return [] if is_known and is_true else ["no check is made there" if not is_known else f"it is not of the {reason}"]
    except (KeyError, IndexError, TypeError, ValueError):
        return ["there is no such place"]


def of_json(case, name, line):
    found = re.fullmatch(rf"error: {name}: (\S+): ({REASONS[name]}|not json)", line)
    if not found:
        return ["the line has another form"]
    place, reason = found.groups()
    is_json = json_of(case.files[name][1])[0]
    if reason == "not json":
        return [f"{name} are JSON"] if is_json or place != "file" else []
    return place_faults(case, name, place, reason) if is_json else [f"{name} are no JSON"]


def of_table(case, line):
    for name, size in TABLES.items():
        fault = table_fault(case.files[name][1], size)
        if fault:
            wanted = f"error: {name.replace('_', ' ')}: {fault}"
            return [] if line == wanted else [f"wanted {wanted}"]
    return ["both tables are good"]


def of_grid(case, line):
    data = case.files["grid"][1]
    grid, wanted = grid_of(data), f"error: grid: byte {grid_place(data)}"
    if grid is None:
        return [] if line == wanted else [f"wanted {wanted}"]
    settings = case.read["settings"]
    mu, blocks = settings["mu"], settings["blocks"]
    wanted = f"error: grid: mu {grid[0]} {mu}" if grid[0] != mu else f"error: grid: blocks {grid[3]} {blocks}"
    return [] if line == wanted and (grid[0] != mu or grid[3] != blocks) else ["it is the line of another grid"]


def of_names(case, line):
    """A handset or a watch that is not there."""
    if line == f"error: no such handset {case.handset}":
        return ["there is such a handset"] if case.handset in [handset["name"] for handset in handsets_of(case)] else []
    return [] if case.number and line == f"error: no such watch {case.number}" else ["the line has another form"]


def of_slot(case, line):
    found = re.fullmatch(rf"error: slot: handset ([A-Za-z0-9_]{{1,16}}): ({NUMBER}) candidates, ({NUMBER}) cces", line)
    if not found:
        return ["the line has another form"]
    mu, names = case.read["settings"]["mu"], [handset["name"] for handset in handsets_of(case)]
    is_over = int(found[2]) > CANDIDATES[mu] or int(found[3]) > CCES[mu]
    return [] if found[1] in names and is_over else ["no budget is exceeded"]


def of_read(case, line):
    names = [name for name, data in case.files.values() if data is None]
    return [] if line in [f"error: read {name}" for name in names] else ["the file can be read"]


def of_size(case, line):
    names = [name for name, data in case.files.values() if data is not None and len(data) > LARGEST]
    return [] if line in [f"error: too long: {name}" for name in names] else ["the file is not too long"]


LINES = {4: lambda case, line: of_json(case, "settings", line), 5: of_table, 6: lambda case, line: of_json(case, "grants", line),
         7: of_grid, 8: of_read, 11: of_size, 12: of_names, 13: of_slot}
# Of what files one has to be damaged, where a run ends with a status.
BLAMED = {4: {"settings"}, 5: set(TABLES), 6: {"settings", "grants"}, 7: {"settings", "grid"}}


def earlier_faults(case, status):
    """Which checks that come before that of a status should have ended the run."""
    if status in (6, 7, 12, 13):
        return [f"{name} has a fault" for name, size in TABLES.items() if table_fault(case.files[name][1], size)]
    return []


def refusal_faults(case, ended):
    """What is wrong with a run that was refused."""
    faults = ["something stands on the output"] if ended.out else []
    if ended.status in (5, 6, 7, 12, 13) and "settings" in case.files and case.read["settings"] is None:
        faults.append("settings are no JSON")
    try:
        line = ended.err.decode()
    except UnicodeDecodeError:
        return faults + ["the line is no UTF-8"]
    if line.count("\n") != 1 or not line.endswith("\n"):
        return faults + ["the error output is not one line"]
    if not BLAMED.get(ended.status, case.damaged | {""}) & (case.damaged | {""}):
        faults.append("that file is as it was")
    return faults + earlier_faults(case, ended.status) + LINES[ended.status](case, line[:-1])


# An answer.


def entries_of(lines):
    """The entries of report lines as texts of the watch, the RNTI and what was heard; None where one has another form."""
    found = [ENTRY.fullmatch(line) for line in lines]
    return [entry.groups() for entry in found] if all(found) else None


def report_of(case, text):
    """The number of watches and the entries of each handset in a report by its name, and the faults of its form."""
    lines, report = text.split("\n"), {}
    _, frame, slot, _ = grid_of(case.files["grid"][1])
    if lines[0] != f"frame {frame} slot {slot}" or lines[-1]:
        return report, ["the head of the report differs"]
    at = 1
    while at < len(lines) - 1:
        head = HEAD.fullmatch(lines[at])
        count = int(head[3]) if head else 0
        entries = entries_of(lines[at + 1:at + 1 + count])
        if not head or entries is None or len(entries) != count:
            return report, [f"line {at + 1} of the report has another form"]
        report[head[1]] = int(head[2]), entries
        at += 1 + count
    handsets = [handset for handset in handsets_of(case) if case.handset in ("", handset["name"])]
    if list(report) != [handset["name"] for handset in handsets]:
        return report, ["it reports other handsets"]
    return report, [fault for handset in handsets for fault in handset_faults(handset, *report[handset["name"]])]


def handset_faults(handset, watches, entries):
    """What is wrong with the lines of a handset: more than its watches, of another RNTI, or of a set that it has not."""
    sets = {str(of["number"]) for of in handset["sets"]}
    is_once = len({watch for watch, _, _ in entries}) == len(entries) <= watches
    faults = [] if is_once else ["more entries than watches"]
    faults += ["another RNTI"] if any(rnti != f"{handset['rnti']:04x}" for _, rnti, _ in entries) else []
    faults += ["a set that it has not"] if any(watch.split()[1] not in sets for watch, _, _ in entries) else []
    return [f"{handset['name']}: {fault}" for fault in faults]


def search_faults(case, ended):
    return report_of(case, ended.out.decode("ascii"))[1]


def explain_faults(case, ended):
    found = EXPLAINED.fullmatch(ended.out.decode("ascii"))
    return [] if found and int(found[1]) == int(case.number) else ["the explanation has another form"]


def refused_of(case, err):
    """The numbers of the refused grants, and what is wrong with their lines."""
    grants, names = case.read["grants"]["grants"], [handset["name"] for handset in handsets_of(case)]
    lines = [REFUSED.fullmatch(line) for line in err.decode().split("\n")[:-1]]
    if not all(lines) or not err.endswith(b"\n"):
        return set(), ["a refused grant's line has another form"]
    numbers = [int(line[1]) for line in lines]
    faults = [] if numbers == sorted(set(numbers)) and max(numbers) < len(grants) else ["the lines are not in order"]
    for line, number in zip(lines, numbers if not faults else []):
        grant, cause = grants[number], line[2].split()
        if (grant["handset"] not in names) != (line[2] == "unknown handset"):
            faults.append(f"grant {number}: its handset")
        if cause[0] == "overlap" and (int(cause[3]) >= number or int(cause[3]) in numbers):
            faults.append(f"grant {number}: that grant was not accepted before it")
        if "large:" in cause and (grant["fields"][cause[1]] != int(cause[4]) or int(cause[4]) < 2 ** int(cause[6])):
            faults.append(f"grant {number}: that value fits")
    return set(numbers), faults


def write_faults(case, ended):
    settings, grants, grid = case.read["settings"], case.read["grants"], grid_of(ended.out)
    faults = [] if grid == (settings["mu"], grants["frame"], grants["slot"], settings["blocks"]) else ["it is another grid"]
    return faults + (refused_of(case, ended.err)[1] if ended.status == 3 else [])


def sweep_faults(case, ended):
    lines = ended.out.decode("ascii").split("\n")
    number = len(lines) - 2
    slot = re.compile(r"frame (\d+) slot (\d) placed (\d+) overlapped (\d+) heard (\d+)")
    slots = [tuple(map(int, slot.fullmatch(line).groups())) for line in lines[:-2] if slot.fullmatch(line)]
    placed, over, heard = (sum(it[place] for it in slots) for place in (2, 3, 4))
    is_sum = lines[-2:] == [f"slots {number} placed {placed} overlapped {over} heard {heard}", ""]
    is_each = all(it[:2] == (t // 10, t % 10) and it[2] + it[3] == 64 and it[4] >= it[2] for t, it in enumerate(slots))
    return [] if is_sum and is_each and len(slots) == number == int(case.number) else ["the summary differs"]


ANSWERS = {"write": write_faults, "search": search_faults, "explain": explain_faults, "sweep": sweep_faults}


def faults_of(case, ended):
    """All that is wrong with how a run ended."""
    faults = [f"{ended.seconds:.1f} seconds"] if ended.seconds > SECONDS else []
    faults += [f"{ended.mib:.0f} MiB"] if ended.mib > MIB else []
    if ended.status not in STATUSES[case.command]:
        return faults + ["that is no status of the command"]
    if ended.status not in (0, 3):
        return faults + refusal_faults(case, ended)
    faults += ["something stands on the error output"] if ended.status == 0 and ended.err else []
    if any(data is None or len(data) > LARGEST for _, data in case.files.values()):
        return faults + ["a file cannot be read whole"]
    faults += [f"{name} has a fault" for name, size in TABLES.items() if table_fault(case.files[name][1], size)]
    if case.command == "sweep":
        return faults + sweep_faults(case, ended)
    no_json = [name for name in ("settings", "grants") if name in case.files and case.read[name] is None]
    return faults + [f"{name} are no JSON" for name in no_json] if no_json else faults + ANSWERS[case.command](case, ended)


# Two answers together.


def heard_fault(report, handset, explained):
    """What an explanation says otherwise than the report of the same grid, or None."""
    found = EXPLAINED.fullmatch(explained.decode("ascii"))
    entries = {watch: heard for watch, _, heard in report[handset][1]}
    if entries.get(found[2]) == found[3]:
        return None
    return f"explain of watch {found[1]} of {handset} says otherwise than search"


def carries(entry, grant):
    """Whether an entry is of a grant's set, level, format and values, with zeros in the other fields."""
    watch, heard = entry[0].split(), entry[2].split()
    place = dict(zip(watch[::2], map(int, watch[1::2])))
    named = {key: grant[key] for key in ("set", "level", "candidate", "symbol") if key in grant}
    shown = {name: int(value) for name, _, value in (field.partition("=") for field in heard[1:])}
    given = grant.get("fields", {})
    is_zero = all(value == 0 for name, value in given.items() if name not in shown)
    is_same = all(given.get(name, 0) == value for name, value in shown.items())
    return heard[0] == grant["format"] and all(place[key] == value for key, value in named.items()) and is_zero and is_same


def pair_up(at, choices, taken, tried):
    """Finds the grant `at` an entry of its own, moving others where it has to."""
    for entry in choices[at]:
        if entry not in tried:
            tried.add(entry)
            if entry not in taken or pair_up(taken[entry], choices, taken, tried):
                taken[entry] = at
                return True
    return False


def lost_grants(case, err, report):
    """The number of accepted grants, and the numbers of those that have no entry of their own in the report."""
    refused = refused_of(case, err)[0] if err else set()
    grants = {number: grant for number, grant in enumerate(case.read["grants"]["grants"]) if number not in refused}
    choices, taken = {}, {}
    for number, grant in grants.items():
        entries = report[grant["handset"]][1]
        choices[number] = [(grant["handset"], place) for place, entry in enumerate(entries) if carries(entry, grant)]
    return len(grants), [number for number in grants if not pair_up(number, choices, taken, set())]
