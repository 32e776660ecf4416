#!/usr/bin/env python3
"""What texts of styles, data, updates, filters, configurations, scripts, expiry lists, containers, saved farms and paths
are read as, written a second time, from the formats alone.

It is no part of the product. What is wanted of the texts in the crate `command_cases` is told by it, and by `farm.py` with
what is wanted of all other cases, from the repository's top by

    python3 oracle/texts.py crates/command_cases/data

and it ends with status 1 where a row wants what it does not read, or a table has no row: the wants were worked out by
hand, so each row has two sources that know nothing of the program. The folder's file `texts` has a line for each file:

    KIND rows FILE          FILE is a table of texts: `in A%B` says what the texts after it stand in, at the `%`;
                            `WANTED <- TEXT` is a text, and `WANTED <* COUNT SEPARATOR PIECE` one of COUNT pieces,
                            each `#` in the piece being the piece's number; what a table wants is told by the kind
                            that first names it
    KIND whole FILE         FILE is one text
    KIND beginnings FILE    the proper beginnings of FILE, told once where neighbours are told alike
    KIND changes FILE       FILE with each value of each of its bytes in turn, told once where neighbours are told
                            alike (the last value of a byte and the first of the next are neighbours), behind the
                            byte's place and its value

Each text gives one line: its first fault, or that it is read; of a filter its tree or its value, of an update the
layers after it, of an expiry list its tiles, of a container its entries, and of a path its metatile. Before it stands
`case` with the line of `texts`, and before each text of a table `row FILE:LINE`. A table's wants are of all that is
read, object by object. It needs Python 3 and nothing else.
"""

import os
import re
import sys

import tilefarm
from tilefarm import FilterFault, FilterReader, Refused, is_name, is_whole

MANY = 1000000


# --- Styles -----------------------------------------------------------------------------------------------------


def symbolizer_told(s):
    if s["kind"] == "raster":
        return "grid %d" % s["opacity"]
    colour = "%s %d %d %d" % ((s["kind"],) + s["colour"])
    if s["kind"] == "polygon":
        return "%s %d" % (colour, s["opacity"])
    if s["kind"] == "line":
        return "%s %d %d %s" % (colour, s["width"], s["opacity"], s["cap"])
    return "%s %d %d %d" % (colour, s["width"], s["height"], s["opacity"])


def bounds_told(made):
    return "%d %s" % (made["least"], "none" if made["most"] is None else made["most"])


def rule_told(rule):
    kind = "else" if rule["else"] else "always" if rule["filter"] is None else "filter"
    return ["rule %s %s" % (kind, bounds_told(rule))] + [symbolizer_told(s) for s in rule["symbolizers"]]


def style_told(data):
    style = tilefarm.style_of(data)
    told = ["map %d %d %d" % style["background"]]
    for r in style["rasters"]:
        told.append("raster %(name)s in %(file)s at %(west)d %(north)d by %(pixel)d" % r)
    for name, (mode, rules) in style["styles"].items():
        told.append("style %s %s" % (name, mode))
        told += [line for rule in rules for line in rule_told(rule)]
    for l in style["layers"]:
        told.append(" ".join(["layer %s of %s %s by" % (l["name"], l["source"], bounds_told(l))] + l["styles"]))
    return told


# --- Data and updates -------------------------------------------------------------------------------------------


def value_told(value):
    if value is None:
        return "null"
    if isinstance(value, bool):
        return "true" if value else "false"
    return "'%s'" % value.decode() if isinstance(value, bytes) else "%d" % value


def path_told(path):
    return " %d" % len(path) if len(path) > 100 else "".join(" %d,%d" % point for point in path)


def feature_told(feature):
    between = "" if feature["kind"] == "points" else " /"
    told = "feature %d %s" % (feature["id"], feature["kind"])
    told += "".join(between + path_told(path) for path in feature["paths"])
    return told + "".join(" %s=%s" % (n.decode(), value_told(v)) for n, v in sorted(feature["attrs"].items()))


def data_told(data):
    layers = tilefarm.data_of(data)
    told = ["layers %d" % len(layers)]
    for name, features in layers.items():
        told += ["layer %s" % name] + [feature_told(f) for f in features]
    return told


def update_of(data):
    """The changes of an update: a layer, the ids to remove and the features to put."""
    try:
        value = tilefarm.json_of(data)
    except ValueError:
        raise Refused("dataset 1")
    shape = lambda part=0: Refused("dataset 2 at %d 0" % part)
    if not isinstance(value, dict) or set(value) - {"units", "changes"}:
        raise shape()
    units = value.get("units", "cm")
    if units not in ("cm", "world") or not isinstance(value.get("changes"), list):
        raise shape()
    point = tilefarm.world_point if units == "world" else tilefarm.centimetre_point
    made = []
    for part, change in enumerate(value["changes"]):
        if part == MANY or not isinstance(change, dict) or set(change) - {"layer", "remove", "put"}:
            raise shape(part)
        layer, remove, put = change.get("layer"), change.get("remove", []), change.get("put", [])
        if not isinstance(layer, str) or not is_name(layer) or not isinstance(remove, list) or not isinstance(put, list):
            raise shape(part)
        if not all(is_whole(number, 0, 2**64 - 1) for number in remove):
            raise shape(part)
        if len(put) > MANY:
            raise Refused("dataset 6 at %d" % part)
        made.append((layer, remove, [tilefarm.feature_of(f, point, part, item) for item, f in enumerate(put)]))
    return made


def update_told(data):
    changes = update_of(data)
    told = ["changes %d" % len(changes)]
    for layer, remove, put in changes:
        told.append("change %s removes%s puts %d" % (layer, "".join(" %d" % number for number in remove), len(put)))
        told += [feature_told(f) for f in put]
    return told


def changed(layers, changes):
    """The layers after the changes in order, each as a map from ids to features in their order."""
    for place, (name, remove, put) in enumerate(changes):
        if name not in layers:
            raise Refused("no layer %d" % place)
        for number in remove:
            if number not in layers[name]:
                raise Refused("no feature %d %d" % (place, number))
            del layers[name][number]
        for feature in put:
            layers[name][feature["id"]] = feature
    return layers


def change_told(data, old):
    layers = {name: {f["id"]: f for f in features} for name, features in tilefarm.data_of(old).items()}
    west = lambda feature: min(x for path in feature["paths"] for x, _ in path)
    features = lambda layer: "".join(" %d@%d" % (number, west(f)) for number, f in layer.items())
    return [name + features(layer) for name, layer in changed(layers, update_of(data)).items()]


# --- Filters ----------------------------------------------------------------------------------------------------


class ChainReader(FilterReader):
    """A filter's text, whose sums and products are kept as chains."""

    def signed(self, signs, part):
        first, later = part(), []
        while self.kind in signs:
            sign = self.kind
            self.token()
            later.append((sign, part()))
        return ("sum" if "+" in signs else "product", first, later) if later else first


def refused(reader, data):
    try:
        return reader(data.decode()).whole()
    except FilterFault as fault:
        raise Refused("%s %d" % ({1: "bad", 2: "range", 3: "deep"}[fault.number], fault.offset))


def tree_told(tree):
    kind = tree[0]
    if kind == "value":
        return "<%s>" % tree[1].decode() if isinstance(tree[1], bytes) else value_told(tree[1])
    if kind == "name":
        return "[%s]" % tree[1].decode()
    if kind in ("or", "and"):
        return "(%s %s)" % (kind, " ".join(tree_told(part) for part in tree[1]))
    if kind == "compare":
        sign = "!=" if tree[1] == "<>" else tree[1]
        return "(%s %s %s)" % (sign, tree_told(tree[2]), tree_told(tree[3]))
    if kind in ("sum", "product"):
        later = "".join(" %s %s" % (sign, tree_told(part)) for sign, part in tree[2])
        return "(%s %s%s)" % (kind, tree_told(tree[1]), later)
    return "(%s %s)" % ("neg" if kind == "negate" else kind, tree_told(tree[1]))


STRENGTHS = ("or", "and", "not", "compare", "sum", "product", "negate")


def written(tree, least=0):
    """A tree as a text, in parentheses where it binds more weakly than `least`."""
    kind = tree[0]
    if kind == "value":
        text = lambda value: "'%s'" % value.decode().replace("\\", "\\\\").replace("'", "\\'")
        return text(tree[1]) if isinstance(tree[1], bytes) else value_told(tree[1])
    if kind == "name":
        return "[%s]" % tree[1].decode()
    strength = STRENGTHS.index(kind)
    if kind in ("or", "and"):
        made = (" %s " % kind).join(written(part, strength + 1) for part in tree[1])
    elif kind == "compare":
        sign = "!=" if tree[1] == "<>" else tree[1]
        made = "%s %s %s" % (written(tree[2], strength + 1), sign, written(tree[3], strength + 1))
    elif kind in ("sum", "product"):
        parts = [" %s %s" % (sign, written(part, strength + 1)) for sign, part in tree[2]]
        made = written(tree[1], strength + 1) + "".join(parts)
    else:
        made = "%s %s" % ("not" if kind == "not" else "-", written(tree[1], strength))
    return "( %s )" % made if strength < least else made


def filter_told(data):
    return [tree_told(refused(ChainReader, data))]


def written_told(data):
    return [written(refused(ChainReader, data))]


def again_told(data):
    return filter_told(written(refused(ChainReader, data)).encode())


def filter_value_told(data, old):
    """The value of a filter of the first feature of the data."""
    attrs = next(iter(tilefarm.data_of(old).values()))[0]["attrs"]
    value = tilefarm.value_of(refused(FilterReader, data), attrs)
    return [value_told(value), "holds" if tilefarm.holds(value) else "does not hold"]


# --- Configurations ---------------------------------------------------------------------------------------------


def whole_within(value, least, most, key):
    """The whole number; one outside its range is Range of the key, anything else Shape."""
    if not isinstance(value, int) or isinstance(value, bool):
        raise Refused("config 2 at %d" % key)
    if not least <= value <= most:
        raise Refused("config 3 at %d" % key)
    return value


def string_at(value, key):
    if not isinstance(value, str):
        raise Refused("config 2 at %d" % key)
    return value


def keys_within(value, names, key):
    if not isinstance(value, dict) or set(value) - set(names):
        raise Refused("config 2 at %d" % key)


def listed(value, key):
    """The items of a list, of which the one past 256 is Range."""
    if not isinstance(value, list):
        raise Refused("config 2 at %d" % key)
    for place, item in enumerate(value):
        if place == 256:
            raise Refused("config 3 at %d" % key)
        yield item


def map_of(entry, before):
    if len(before) == 16:
        raise Refused("config 3 at 1")
    keys_within(entry, ("name", "style", "tile", "maxzoom"), 1)
    name = string_at(entry.get("name"), 1)
    if not re.fullmatch("[a-z0-9_-]{1,40}", name):
        raise Refused("config 2 at 1")
    style = string_at(entry.get("style"), 1)
    tile = whole_within(entry.get("tile"), 16, 512, 1)
    if tile not in (16, 32, 64, 128, 256, 512):
        raise Refused("config 3 at 1")
    zoom = whole_within(entry.get("maxzoom", 18), 0, 18, 1)
    if name in [m[0] for m in before]:
        raise Refused("config 4 at %d" % len(before))
    return name, tile, zoom, style


def is_address(text):
    number = lambda digits, most: re.fullmatch("0|[1-9][0-9]{0,4}", digits) and int(digits) <= most
    if text.startswith("unix:"):
        return 1 <= len(text[5:].encode()) <= 100
    parts = re.fullmatch(r"tcp:([0-9]+)\.([0-9]+)\.([0-9]+)\.([0-9]+):([0-9]+)", text, re.ASCII)
    return parts and all(number(part, 255) for part in parts.groups()[:4]) and number(parts[5], 65535)


def config_told(data):
    try:
        value = tilefarm.json_of(data)
    except ValueError:
        raise Refused("config 1")
    lists, addresses = ("updates", "expiries"), ("renderd", "tiles", "control")
    keys_within(value, ("maps", "data", "workers", "limits", "restyles", "resume") + lists + addresses, 0)
    if not isinstance(value.get("maps"), list):
        raise Refused("config 2 at 1")
    maps = []
    for entry in value["maps"]:
        maps.append(map_of(entry, maps))
    if not maps:
        raise Refused("config 3 at 1")
    files = ["data " + string_at(value.get("data"), 2)]
    for key, (name, kind) in enumerate(zip(lists, ("update ", "expiry ")), 3):
        files += [kind + string_at(file, key) for file in listed(value.get(name, []), key)]
    workers = whole_within(value.get("workers", 2), 1, 16, 5)
    queues = ("prio", 32), ("request", 32), ("low", 32), ("dirty", 1000), ("bulk", 32)
    keys_within(value.get("limits", {}), [name for name, _ in queues], 6)
    limits = [whole_within(value.get("limits", {}).get(name, most), 1, most, 6) for name, most in queues]
    for key, name in enumerate(addresses, 7):
        if name in value:
            if not is_address(string_at(value[name], key)):
                raise Refused("config 2 at %d" % key)
            files.append("%s %s" % (name, value[name]))
    names = [m[0] for m in maps]
    for entry in listed(value.get("restyles", []), 10):
        keys_within(entry, ("map", "style"), 10)
        if string_at(entry.get("map"), 10) not in names:
            raise Refused("config 2 at 10")
        files.append("restyle %d by %s" % (names.index(entry["map"]), string_at(entry.get("style"), 10)))
    resume = value.get("resume", False)
    if not isinstance(resume, bool):
        raise Refused("config 2 at 11")
    told = "workers %d limits %s resume %s" % (workers, " ".join(map(str, limits)), str(resume).lower())
    return [told] + ["map %s %d to %d in %s" % m for m in maps] + files


# --- Scripts and expiry lists -----------------------------------------------------------------------------------


def lines_of(data):
    """The lines of a text, of which a table writes newlines as `;` and carriage returns as `~`."""
    parts = data.replace(b";", b"\n").replace(b"~", b"\r").split(b"\n")
    last = [parts[-1]] if parts[-1] else []
    return [part[:-1] if part.endswith(b"\r") else part for part in parts[:-1]] + last


def number(word, most=2**32 - 1):
    if not re.fullmatch("0|[1-9][0-9]*", word, re.ASCII) or int(word) > most:
        raise ValueError(word)
    return int(word)


def place(words):
    if len(words) != 4 or not words[0]:
        raise ValueError(words)
    return "%s %d %d %d" % ((words[0],) + tuple(number(word) for word in words[1:]))


def script_line(words):
    name, words = words[0], words[1:]
    if name == "ask" and len(words) == 6 and words[1] in ("render", "prio", "low", "bulk", "dirty"):
        return "%d asks %s %s" % (number(words[0]), words[1], place(words[2:]))
    if name in ("fetch", "look"):
        return ("fetched " if name == "fetch" else "looked at ") + place(words)
    if name == "expire" and len(words) == 3:
        return "expired %d %d %d" % tuple(number(word) for word in words)
    told = {"claim": "%d claims", "collect": "%d collects", "leave": "%d is left"}
    told.update({"update": "update %d", "restyle": "restyle %d", "renew": "renew %d"})
    if name in told and len(words) == 1:
        return told[name] % number(words[0])
    if name in ("finish", "cut") and len(words) == 1:
        return "%d is %s" % (number(words[0], 2**64 - 1), {"finish": "finished", "cut": "cut"}[name])
    if name in ("tally", "stop") and not words:
        return name
    raise ValueError(name)


def each_line(data, kind, is_skipped, read):
    made = []
    for at, line in enumerate(lines_of(data), 1):
        try:
            if at > MANY:
                raise ValueError(at)
            if not is_skipped(line):
                made.append(read(line.decode("utf-8")))
        except ValueError:
            raise Refused("%s 1 at line %d" % (kind, at))
    return made


def script_told(data):
    made = each_line(data, "script", lambda line: line[:1] in (b"", b"#"), lambda line: script_line(line.split(" ")))
    return ["lines %d" % len(made)] + made


def tile_told(line):
    z, x, y = (number(word) for word in line.split("/"))
    if z > 18 or x >= 2**z or y >= 2**z:
        raise ValueError(line)
    return "tile %d %d %d" % (z, x, y)


def list_told(data):
    made = each_line(data, "list", lambda line: not line, tile_told)
    return ["tiles %d" % len(made)] + made


# --- Containers -------------------------------------------------------------------------------------------------


def meta_told(data):
    """The metatile of a container and its entries; a fault tells what it is of."""
    number = lambda at: int.from_bytes(data[at : at + 4], "little")
    try:
        lines = tilefarm.listing_of(data).decode().splitlines()
    except Refused as fault:
        of = {"meta 1": " of %d" % len(data), "meta 4": " of %d" % number(4)}
        of["meta 5"] = " of %d %d %d" % (number(8), number(12), number(16))
        of["meta 6"] = " at %s" % fault.place
        raise Refused(str(fault) + of.get(str(fault), ""))
    return ["metatile " + lines[0]] + ["place %s at %s of %s" % tuple(line.split(" ")) for line in lines[1:]]


# --- Paths of metatiles -----------------------------------------------------------------------------------------


def path_of(name, z, x, y):
    parts = []
    for _ in range(5):
        parts.append(x % 16 * 16 + y % 16)
        x, y = x // 16, y // 16
    return "%s/%d/%s.meta" % (name, z, "/".join(str(part) for part in reversed(parts)))


def metatile_told(data):
    """A path is one where the place that its numbers tell has it for its path."""
    text = data.decode()
    found = re.fullmatch("([a-z0-9_-]{1,40})/([0-9]{1,2})" + 5 * "/([0-9]{1,3})" + r"\.meta", text)
    if not found:
        return ["no path"]
    z, *parts = (int(part) for part in found.groups()[1:])
    x = y = 0
    for part in parts:
        x, y = x * 16 + part // 16, y * 16 + part % 16
    x, y = x // 8 * 8, y // 8 * 8
    if z > 18 or x >= 2**z or y >= 2**z or path_of(found[1], z, x, y) != text:
        return ["no path"]
    return ["path %s %d %d %d" % (found[1], z, x, y)]


# --- Saved farms ------------------------------------------------------------------------------------------------


def saved_told(data):
    """The maps with their restyles, the updates and the clean metatiles of a saved farm."""
    place = 0

    def number(size=4):
        nonlocal place
        if place + size > len(data):
            raise Refused("saved 1 of %d" % len(data))
        place += size
        return int.from_bytes(data[place - size : place], "little")

    if number() != int.from_bytes(b"FSV1", "little"):
        raise Refused("saved 2")
    made, updates, last = [], [], None
    for _ in range(number()):
        made.append("map %d" % number())
    for at in range(number(8)):
        kind = number()
        if kind > 1:
            raise Refused("saved 3 at %d" % at)
        updates.append("%s %d" % (("update", "renew")[kind], number()))
    made += updates
    for at in range(number(8)):
        key, version = (number(), number(), number(), number()), number(8)
        z, x, y = key[1:]
        is_tile = z <= 18 and x < 2**z and y < 2**z and x % 8 == y % 8 == 0
        if not is_tile or version > len(updates) or last is not None and key <= last:
            raise Refused("saved 4 at %d" % at)
        made.append("clean %d %d %d %d version %d" % (key + (version,)))
        last = key
    if place < len(data):
        raise Refused("saved 5 at %d" % place)
    return made


# --- Cases ------------------------------------------------------------------------------------------------------


# of these the program writes no more than that they are read: what is read of them is drawn, or run, by the programs
# that run commands, and a saved farm is written again byte for byte
BRIEF = ("style", "data", "update", "config", "script", "saved")


def told(kind, data, old):
    """What a text is read as, as lines, and what the program writes of it; one line where it is refused."""
    plain = {"style": style_told, "data": data_told, "update": update_told}
    plain.update({"filter": filter_told, "written": written_told, "again": again_told})
    plain.update({"config": config_told, "script": script_told, "list": list_told})
    plain.update({"path": metatile_told, "saved": saved_told, "meta": meta_told})
    try:
        if kind in plain:
            lines = plain[kind](data)
        else:
            lines = {"change": change_told, "value": filter_value_told}[kind](data, old)
    except Refused as fault:
        return [str(fault)], str(fault)
    return lines, "read" if kind in BRIEF else "; ".join(lines)


def rows_of(text):
    """The number of each row's line in a table, what the row wants, and its text."""
    before = after = ""
    for number, line in enumerate(text.split("\n"), 1):
        if line.startswith("in "):
            before, after = line[3:].split("%")
        elif " <- " in line:
            wanted, piece = line.split(" <- ", 1)
            yield number, wanted, before + piece + after
        elif " <* " in line:
            wanted, recipe = line.split(" <* ", 1)
            count, separator, piece = recipe.split(" ", 2)
            pieces = [piece.replace("#", str(place), 1) for place in range(int(count))]
            yield number, wanted, before + separator.join(pieces) + after


def beginnings(kind, data, old):
    """What the proper beginnings of a text are told by, once where they are told alike."""
    last = None
    for length in range(len(data)):
        line = told(kind, data[:length], old)[1]
        if line != last:
            yield line
        last = line


def changes(kind, data, old):
    """What a text is told by with each value of each of its bytes in turn."""
    last = None
    for place in range(len(data)):
        for byte in range(256):
            line = told(kind, data[:place] + bytes([byte]) + data[place + 1 :], old)[1]
            if line != last:
                yield "%d %d %s" % (place, byte, line)
            last = line


def table(kind, name, data, old, is_known):
    """The rows of a table; the number of those that want something else, and one where there is none."""
    count = wrong = 0
    for number, wanted, text in rows_of(data.decode()):
        lines, line = told(kind, text.encode(), old)
        print("row %s:%d\n%s" % (name, number, line))
        count += 1
        if not is_known and wanted not in lines:
            print("%s:%d: %s wanted of %s, not %s" % (name, number, wanted, text[:200], lines[:20]), file=sys.stderr)
            wrong += 1
    if not count:
        print("%s: no row" % name, file=sys.stderr)
    return wrong or not count


def cases(folder):
    read = lambda name: open(os.path.join(folder, name), "rb").read()
    old, known, wrong = read("old.data"), set(), 0
    for line in read("texts").decode().splitlines():
        print("case " + line)
        kind, form, name = line.split(" ")
        data = read(name)
        if form == "whole":
            print(told(kind, data, old)[1])
        elif form == "rows":
            wrong += table(kind, name, data, old, name in known)
            known.add(name)
        else:
            for made in {"beginnings": beginnings, "changes": changes}[form](kind, data, old):
                print(made)
    return wrong


if __name__ == "__main__":
    sys.setrecursionlimit(10000)
    sys.stdout.reconfigure(encoding="utf-8")
    sys.exit(1 if cases(sys.argv[1]) else 0)
