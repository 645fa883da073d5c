"""For tools/damage: how a file is damaged, by its bytes, by its numbers and points, or by what its JSON says."""
import json
import re

LARGEST = 8_388_608
FORMATS = ["0_0", "1_0", "order", "0_1", "1_1"]
FIELDS = ("fdra tdra hopping mcs ndi rv harq tpc vrb dai pucch timing preamble supplementary ssb mask reserved bwp dai2 sri "
          "precoding ports srs csi cbgti ptrs beta dmrs ulsch bundling rate_match zp_csi_rs mcs2 ndi2 rv2 tci flush").split()
# What may stand at a key, from docs/FORMATS.md, where the examples have only some of it.
LEGAL = {
    "cell": range(1008), "mu": range(4), "blocks": range(6, 276), "initial_downlink": range(6, 276),
    "initial_uplink": range(6, 276), "coreset0": [24, 48, 96], "rnti": range(1, 65520), "start": range(270),
    "size": range(6, 276), "number": range(1, 12),
    "codebook": ["semi_static", "dynamic"], "duration": range(1, 4), "dmrs_id": range(65536), "bundle": [2, 3, 6],
    "rows": [2, 3, 6], "shift": range(275), "coreset": range(1, 5), "kind": ["common", "fallback", "specific"],
    "period": [1, 2, 4, 5, 8, 10, 16, 20, 40, 80], "offset": range(12), "base": range(65536), "bwps": range(5),
    "allocation": ["type0", "type1", "dynamic"], "rbg_config": [1, 2], "tdra": range(16), "dmrs_type": [1, 2],
    "dmrs_length": [1, 2], "srs_resources": [1, 2], "csi_request": range(7), "cbg": [0, 2, 4, 6, 8], "rate_match": range(4),
    "zp_sets": range(4), "codewords": [1, 2], "frame": range(1024), "slot": range(80), "set": range(1, 5),
    "level": [1, 2, 4, 8, 16], "candidate": range(8), "symbol": range(14), "format": FORMATS, "candidates": range(8),
}
NUMBERS = [0, 1, 2, 3, 5, 7, 8, 9, 31, 32, 33, 255, 256, 1023, 1024, 65519, 65520, 65535, 65536, 65537, 2**31, 2**32, 2**63,
           2**64 - 1, 2**64, 10**30]
ODD_NUMBERS = ["-1", "-0", "1.5", "1.0", "1e2", "1E400", "1e-400", "01", "+1", "0x1", ".5", "5.", "NaN", "Infinity", "-", "1e",
               "--1"]
ODD_TEXTS = ['"\\ud800"', '"\\udc00\\ud800"', '"\\u00e9"', '"\u00e9"', '"\\u0000"', '"\t"', '"\\x41"', '"\\', '"a', "'a'", '""',
             '"-"']
OTHER_KINDS = ["null", "true", "false", "0", "1", '"1"', "[]", "[1]", "[[]]", "{}", '{"a":1}']
NO_UTF8 = [b"\xff", b"\x80", b"\xc0\x80", b"\xed\xa0\x80", b"\xf5\x80\x80\x80", b"\xe2\x82", b"\xfe\xff"]


class Members(list):
    """An object of JSON as a list of its keys and values, in which a key may stand twice."""


class Raw(str):
    """A text that stands in JSON as it is."""


def spell(value):
    """The JSON text of a value."""
    if isinstance(value, Raw):
        return str(value)
    if isinstance(value, Members):
        return "{" + ",".join(f"{spell(key)}:{spell(content)}" for key, content in value) + "}"
    if isinstance(value, list):
        return "[" + ",".join(map(spell, value)) + "]"
    return json.dumps(value)


def tree_of(text):
    """The value of a JSON text, with its objects as Members."""
    return json.loads(text, object_pairs_hook=lambda pairs: Members([list(pair) for pair in pairs]))


def copy_of(value):
    """A copy of a value of which any part may be changed."""
    return type(value)(map(copy_of, value)) if isinstance(value, list) else value


def places_of(value, key="", found=None):
    """The places of all values under a value, by their key: pairs of a list and a number in it."""
    found = {} if found is None else found
    if isinstance(value, Members):
        for pair in value:
            found.setdefault(str(pair[0]), []).append((pair, 1))
            places_of(pair[1], str(pair[0]), found)
    elif isinstance(value, list):
        for number, element in enumerate(value):
            found.setdefault(key + "/", []).append((value, number))
            places_of(element, key, found)
    return found


def pools_of(trees):
    """All values that the trees have at a key, by the key."""
    pools = {}
    for tree in trees:
        for key, places in places_of(tree).items():
            pools.setdefault(key, []).extend(holder[number] for holder, number in places)
    return pools


# A value of JSON.


def deep(rng):
    depth = rng.choice([2, 60, 120, 124, 126, 127, 128, 129, 1000, 20_000])
    opened, closed = rng.choice([("[", "]"), ('{"a":', "}")])
    return Raw(opened * depth + rng.choice(["0", "[]"]) + closed * (depth if rng.random() < 0.9 else depth - 1))


def digits(rng, count):
    return "".join(rng.choices("0123456789", k=count)) if count < 1000 else rng.choice("0123456789") * count


def long_number(rng):
    count = rng.choice([6, 19, 20, 21, 40, 310, 5000, 70_000])
    return Raw(rng.choice(["", "-", "0."]) + rng.choice("123456789") + digits(rng, count))


def other_number(rng, value):
    if rng.random() < 0.6:
        return max(0, value + rng.choice([-2, -1, 1, 2, 6]))
    return rng.choice([value * 2, value // 2, rng.choice(NUMBERS), Raw(rng.choice(ODD_NUMBERS)), long_number(rng)])


def other_bits(rng, text):
    """A text of `0` and `1` with one or some other characters, or of another length."""
    at = rng.randrange(len(text))
    flipped = text[:at] + ("0" if text[at] == "1" else "1") + text[at + 1:]
    shuffled = "".join(rng.sample(text, len(text)))
    return rng.choice([flipped, flipped, flipped, shuffled, text[1:] + text[:1], "0" * len(text), "1" * len(text), text[1:],
                       text + "0", text[:at] + "2" + text[at + 1:]])


def other_text(rng, text):
    if len(text) > 1 and set(text) <= {"0", "1"}:
        return other_bits(rng, text)
    at = rng.randrange(len(text)) if text else 0
    escaped = Raw('"' + "".join(f"\\u{ord(letter):04x}" for letter in text) + '"')
    changed = text[:at] + rng.choice("azAZ_-09 /.\u00e9\u20ac\x00") + text[at + 1:]
    return rng.choice([changed, text[:at] + text[at + 1:], text + rng.choice("a_9"), text.upper(), text * 2, escaped, "",
                       "k" * 70_000, Raw(rng.choice(ODD_TEXTS)), f"{text} "])


def other_list(rng, old):
    """A list that is longer, shorter, empty, or in another order."""
    new = list(old)
    if not new or rng.random() < 0.1:
        return [] if new else [0]
    at = rng.randrange(len(new))
    way = rng.randrange(5)
    if way == 0:
        new.insert(at, copy_of(new[at]))
    elif way == 1:
        del new[at]
    elif way == 2:
        other = rng.randrange(len(new))
        new[at], new[other] = new[other], new[at]
    elif way == 3:
        new.reverse()
    else:
        new *= rng.choice([2, 3, 70]) if len(new) < 40 else 2
    return new


def other_key(rng, key):
    at = rng.randrange(len(key)) if key else 0
    return rng.choice([key[:at] + rng.choice("abz_0A") + key[at + 1:], key + "s", key.upper(), rng.choice(sorted(LEGAL)),
                       rng.choice(FIELDS), "", "k" * 70_000, "$schema", Raw('"\\ud800"'), key[:at]])


def other_object(rng, old, pools):
    """An object with a key renamed, doubled, dropped, added, or with its keys in another order."""
    new = Members(copy_of(old))
    if not new or rng.random() < 0.05:
        return Members() if new else Members([["a", 1]])
    at = rng.randrange(len(new))
    way = rng.randrange(6)
    if way == 0:
        new[at][0] = other_key(rng, str(new[at][0]))
    elif way == 1:
        new.insert(rng.randrange(len(new) + 1), [new[at][0], copy_of(of_key(rng, str(new[at][0]), pools, new[at][1]))])
    elif way == 2:
        del new[at]
    elif way == 3:
        rng.shuffle(new)
    else:
        key = rng.choice(["coreset0", "interleave", "shift", "dmrs_id", "duration", "base", "uplink_fields", "downlink_fields",
                          "candidate", "symbol", "fields", *FIELDS])
        new.append([key, copy_of(of_key(rng, key, pools, 1))])
    return new


def of_key(rng, key, pools, value):
    """A value that may stand at a key, as far as that is known, else the value."""
    legal = LEGAL.get(key.rstrip("/"))
    if key in FIELDS and isinstance(value, int) and rng.random() < 0.7:
        return rng.randrange(2 ** rng.choice([1, 1, 2, 2, 3, 4, 5, 6, 9, 12]))
    choices = [pools[key]] if key in pools else []
    choices += [legal] if legal and not isinstance(value, list) else []
    return rng.choice(rng.choice(choices)) if choices else value


def other_value(rng, key, value, pools):
    """Another value for a key: mostly near to it, or one that may stand there."""
    chance = rng.random()
    if chance < 0.4:
        return copy_of(of_key(rng, key, pools, value))
    if chance < 0.46:
        return Raw(rng.choice(OTHER_KINDS))
    if chance < 0.49:
        return rng.choice([deep, long_number])(rng)
    if isinstance(value, bool) or value is None:
        return not value
    if isinstance(value, int):
        return other_number(rng, value)
    if isinstance(value, Members):
        return other_object(rng, value, pools)
    if isinstance(value, list):
        return other_list(rng, value)
    return other_text(rng, str(value))


def more_grants(rng, tree, pools):
    """Puts grants that are like others behind those of the tree, if it has any."""
    grants = next((content for key, content in tree if key == "grants"), None)
    if not isinstance(grants, list) or not grants:
        return
    for _ in range(rng.choice([1, 2, 3, 10])):
        grant = copy_of(rng.choice(grants))
        if isinstance(grant, Members):
            for pair in grant:
                if rng.random() < 0.3:
                    pair[1] = copy_of(of_key(rng, str(pair[0]), pools, pair[1]))
        grants.append(grant)


def more_watches(rng, root):
    """Gives the sets of a handset more candidates in more symbols, in common sets of every slot: they exceed its budget."""
    handset = rng.choice(places_of(root).get("handsets/", [(None, 0)]))
    sets = places_of(handset[0][handset[1]]).get("sets/", []) if handset[0] else []
    for holder, number in sets:
        if isinstance(holder[number], Members) and rng.random() < 0.8:
            old = dict(holder[number])
            few = [count and rng.choice([count, 3, 6, 8]) for count in old.get("candidates", [])]
            new = {**old, "kind": rng.choice(["common", "common", "fallback"]), "period": 1, "offset": 0, "candidates": few,
                   "base": 0, "symbols": rng.choice([old.get("symbols", ""), "10010010000000", "11111111111000"])}
            holder[number] = Members([key, value] for key, value in new.items() if key != "duration")


def damage_json(rng, text, pools):
    """The text with one value or some others. Where the text is no JSON it is damaged by its bytes."""
    try:
        root = [tree_of(text)]
    except (ValueError, RecursionError):
        return damage_bytes(rng, text)
    if isinstance(root[0], Members) and rng.random() < 0.25:
        more_grants(rng, root[0], pools)
    if isinstance(root[0], Members) and rng.random() < 0.1:
        more_watches(rng, root[0])
    for _ in range(rng.choice([0, 1, 1, 1, 1, 2, 2, 3, 5])):
        places = {"": [(root, 0)], **places_of(root[0])}
        key = rng.choice(sorted(places))
        holder, number = rng.choice(places[key])
        holder[number] = other_value(rng, key, holder[number], pools)
    made = spell(root[0]).encode("utf-8", "surrogatepass")
    return made.replace(b",", b" ,\r\n\t") if rng.random() < 0.05 else made


# Bytes.


def range_of(rng, data):
    start = rng.randrange(len(data) + 1)
    return start, min(len(data), start + rng.choice([1, 2, 8, 64, 1000]))


def insertion(rng):
    """Bytes that no good file has."""
    return rng.choice([rng.choice(NO_UTF8), b"\x00", b"\x00" * 100, b"[" * 1000, b'{"a":' * 1000, b"\xef\xbb\xbf", b"\r\n",
                       digits(rng, rng.choice([1, 3, 20, 400, 70_000])).encode(), b'"' + b"k" * 70_000 + b'":0,', b"\\u0000",
                       b" " * 5000])


def damage_bytes(rng, data):
    start, end = range_of(rng, data)
    byte = bytes([rng.randrange(256)])
    other = rng.randrange(len(data) + 1)
    return rng.choice([
        lambda: data[:start] + byte + data[start + 1:],
        lambda: data[:start] + bytes([data[start] ^ 1 << rng.randrange(8)]) + data[start + 1:] if start < len(data) else b"",
        lambda: data[:start] + rng.choice([b"0", b"1", b".", b",", b" ", b"\n"]) + data[start + 1:],
        lambda: data[:start] + data[start + 1:],
        lambda: data[:end] + data[start:],
        lambda: data[:start] + data[end:],
        lambda: data[:start],
        lambda: data[:start] + insertion(rng) + data[start:],
        lambda: (data[:start] + data[end:])[:other] + data[start:end] + (data[:start] + data[end:])[other:],
        lambda: insertion(rng) + data,
        lambda: data + rng.choice([b"\n", b" ", b"0", insertion(rng)]),
        lambda: b"",
    ])()


def fill(rng, data):
    """The data with digits, spaces or brackets up to the greatest size of a file or beside it."""
    lacking = max(0, LARGEST - len(data) + rng.choice([-1, 0, 0, 1, 1000]))
    at = rng.choice([0, len(data), *(found.end() for found in re.finditer(rb"[0-9]+", data[:5000]))])
    return data[:at] + rng.choice([b"7", b"0", b"1", b" ", b"[", b"\xff", b"\x00"]) * lacking + data[at:]


# Tables and grids.


def damage_table(rng, data):
    """The table with two numbers exchanged, all of them shuffled, or one changed, or with other separators."""
    numbers = re.findall(rb"[0-9]+", data)
    if len(numbers) < 2:
        return damage_bytes(rng, data)
    one, other = rng.sample(range(len(numbers)), 2)
    way = rng.randrange(9)
    if way < 3:
        numbers[one], numbers[other] = numbers[other], numbers[one]
    elif way == 3:
        rng.shuffle(numbers)
    elif way == 4:
        numbers.insert(other, numbers.pop(one))
    elif way == 5:
        numbers[one] = rng.choice([b"0", b"163", b"164", b"1023", b"1024", b"65535", b"65536", b"4294967296", numbers[other],
                                   b"9" * 80])
    elif way == 6:
        numbers[one] = b"0" * rng.choice([1, 20, 70_000]) + numbers[one]
    elif way == 7:
        del numbers[one]
    return rng.choice([b" ", b"\n", b",", b", ", b"\t", b"\r\n"]).join(numbers)


def damage_grid(rng, data):
    """The grid with other points or another line at its head."""
    lines = data.split(b"\n")
    if len(lines) < 16 or rng.random() < 0.15:
        other = lambda number: rng.choice([number[0]] * 4 + [b"%d" % rng.choice([0, 1, 2, 3, 9, 51, 79, 275])])
        return re.sub(rb"(?<= )[0-9]+", other, data[:60]) + data[60:]
    for _ in range(rng.choice([1, 1, 1, 2, 3, 20])):
        line = rng.choices(range(2, 16), [8, 4, 2] + [1] * 11)[0]
        start, end = range_of(rng, lines[line])
        way = rng.randrange(5)
        if way < 2:
            points = bytes(rng.choices(b".0123", k=min(end - start, rng.choice([1, 12, 1000]))))
        elif way == 2:
            points = rng.choice([b".", b"0", b"3"]) * (end - start)
        elif way == 3:
            points = lines[rng.randrange(2, 16)][start:end]
        else:
            points = rng.choice([b"4", b"x", b" ", b"\xff"])
        lines[line] = lines[line][:start] + points + lines[line][start + len(points):]
    return b"\n".join(lines)
