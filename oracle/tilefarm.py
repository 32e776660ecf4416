#!/usr/bin/env python3
"""`tilefarm render` and `tilefarm meta`, written a second time: plainly and slowly, from the formats alone.

It is no part of the product. It shares no text with the crates, so what both give alike was understood alike:
the wanted drawings of the crate `command_cases` are made by it (`oracle/farm.py` puts them behind its scripts), from the
repository's top by

    python3 oracle/tilefarm.py cases crates/command_cases/data

with `case` and the line of the file `drawings` before each answer;
and one command is run by `python3 oracle/tilefarm.py render STYLE DATA T Z X Y` or `.. meta FILE`. Every pixel is
computed by itself: for each pixel's centre, through layers, styles, features, rules and symbolizers in order.
It needs Python 3 and nothing else.
"""

import json
import math
import os
import re
import sys

WORLD = 2**30
MOST_TOLD = 12000  # bytes that are told one by one of what a command puts on out
SIZES = (16, 32, 64, 128, 256, 512)
USAGE = "usage: tilefarm render STYLE DATA T Z X Y | script CONFIG SCRIPT | serve CONFIG | load SEED N | meta FILE"
COLOURS = {
    "aqua": "00ffff", "black": "000000", "blue": "0000ff", "fuchsia": "ff00ff", "gray": "808080", "green": "008000",
    "lime": "00ff00", "maroon": "800000", "navy": "000080", "olive": "808000", "purple": "800080", "red": "ff0000",
    "silver": "c0c0c0", "teal": "008080", "white": "ffffff", "yellow": "ffff00",
}


class Refused(Exception):
    """A file's first fault, as its text, and the place that it speaks of beside it."""

    def __init__(self, text, place=None):
        super().__init__(text)
        self.place = place


class Ended(Exception):
    """The command ends with this status and this line on err."""

    def __init__(self, status, line):
        self.status, self.line = status, line


# --- JSON as serde_json reads it --------------------------------------------------------------------------------


class Fraction:
    """A number that is kept as no whole number: one with a fraction or an exponent, `-0`, or one past 64 bits."""


def whole(text):
    value = int(text)
    if text == "-0" or not -(2**63) <= value < 2**64:
        return fraction(text)
    return value


def fraction(text):
    try:
        if math.isinf(float(text)):
            raise ValueError("number out of range")
    except OverflowError:
        raise ValueError("number out of range")
    return Fraction()


def no_constant(text):
    raise ValueError(text)


def depth_of(text):
    """How deep lists and objects nest in a JSON text."""
    deepest = deep = 0
    for found in re.finditer(r'"(?:[^"\\]|\\.)*"|[\[\]{}]', text, re.S):
        if found.group(0) in "[{":
            deep += 1
            deepest = max(deepest, deep)
        elif found.group(0) in "]}":
            deep -= 1
    return deepest


def json_of(data):
    """The JSON value of these bytes; ValueError where they are none."""
    text = data.decode("utf-8")
    if depth_of(text) > 127:
        raise ValueError("nested too deep")
    value = json.loads(text, parse_int=whole, parse_float=fraction, parse_constant=no_constant)
    json.dumps(value, default=lambda _: 0, ensure_ascii=False).encode("utf-8")  # a lone surrogate is refused
    return value


def is_whole(value, least, most):
    return isinstance(value, int) and not isinstance(value, bool) and least <= value <= most


def is_name(value):
    return 1 <= len(value.encode()) <= 64


# --- Texts of colours and numbers -------------------------------------------------------------------------------


def colour_of(text):
    if re.fullmatch("#[0-9a-fA-F]{3}", text):
        return tuple(int(c * 2, 16) for c in text[1:])
    if re.fullmatch("#[0-9a-fA-F]{6}", text):
        return tuple(int(text[i : i + 2], 16) for i in (1, 3, 5))
    found = re.fullmatch(r"rgb\( *([0-9]{1,3}) *, *([0-9]{1,3}) *, *([0-9]{1,3}) *\)", text)
    if found:
        parts = tuple(int(part) for part in found.groups())
        return parts if max(parts) <= 255 else None
    if text in COLOURS:
        return colour_of("#" + COLOURS[text])
    return None


def decimal_of(text, digits):
    """The number in units of 10 to the minus `digits`, or None."""
    found = re.fullmatch(r"([0-9]{0,12})(?:\.([0-9]{1,%d}))?" % digits, text)
    if not found or (not found.group(1) and not found.group(2)):
        return None
    return int(found.group(1) or "0") * 10**digits + int((found.group(2) or "").ljust(digits, "0"))


# --- Filters ----------------------------------------------------------------------------------------------------


class FilterFault(Exception):
    def __init__(self, number, offset):
        self.number, self.offset = number, offset


class FilterReader:
    """A filter's text, token by token, as a tree of tuples."""

    SIGNS = ("<>", "<=", ">=", "!=", "&&", "||", "=", "<", ">", "!", "+", "-", "*", "/", "%", "(", ")")

    def __init__(self, text):
        self.text, self.at, self.depth = text.encode(), 0, 0
        self.token()

    def token(self):
        """Reads the next token into kind, value and start."""
        text, at = self.text, self.at
        while at < len(text) and text[at] in b" \t\n\r":
            at += 1
        self.start = at
        if at == len(text):
            self.kind, self.value, self.at = "end", None, at
            return
        byte = chr(text[at])
        if byte == "[":
            close = text.find(b"]", at)
            if close < 0 or close == at + 1:
                raise FilterFault(1, at)
            self.kind, self.value, self.at = "name", text[at + 1 : close], close + 1
        elif byte in "'\"":
            self.string(at, text[at])
        elif byte.isascii() and byte.isdigit():
            found = re.compile(rb"[0-9]+").match(text, at)
            self.kind, self.value, self.at = "number", int(found.group(0)), found.end()
        elif byte.isascii() and byte.isalpha():
            found = re.compile(rb"[A-Za-z0-9_]+").match(text, at)
            if found.group(0) not in (b"true", b"false", b"null", b"and", b"or", b"not"):
                raise FilterFault(1, at)
            self.kind, self.value, self.at = found.group(0).decode(), None, found.end()
        else:
            for sign in self.SIGNS:
                if text.startswith(sign.encode(), at):
                    self.kind, self.value, self.at = sign, None, at + len(sign)
                    return
            raise FilterFault(1, at)

    def string(self, at, quote):
        made, place = bytearray(), at + 1
        while place < len(self.text) and self.text[place] != quote:
            if self.text[place] == ord("\\"):
                place += 1
                if place == len(self.text) or self.text[place] not in b"\\'\"":
                    raise FilterFault(1, at)
            made.append(self.text[place])
            place += 1
        if place >= len(self.text):
            raise FilterFault(1, at)
        self.kind, self.value, self.at = "text", bytes(made), place + 1

    def nested(self):
        """One more is nested: the token at hand."""
        if self.depth == 64:
            raise FilterFault(3, self.start)
        self.depth += 1
        self.token()

    def whole(self):
        tree = self.chain("or", ("or", "||"), self.ands)
        if self.kind != "end":
            raise FilterFault(1, self.start)
        return tree

    def filter(self):
        return self.chain("or", ("or", "||"), self.ands)

    def ands(self):
        return self.chain("and", ("and", "&&"), self.nots)

    def chain(self, kind, signs, part):
        parts = [part()]
        while self.kind in signs:
            self.token()
            parts.append(part())
        return parts[0] if len(parts) == 1 else (kind, parts)

    def nots(self):
        if self.kind in ("not", "!"):
            self.nested()
            part = self.nots()
            self.depth -= 1
            return ("not", part)
        left = self.sum()
        if self.kind in ("=", "!=", "<>", "<", "<=", ">", ">="):
            sign = self.kind
            self.token()
            return ("compare", sign, left, self.sum())
        return left

    def sum(self):
        return self.signed(("+", "-"), self.product)

    def product(self):
        return self.signed(("*", "/", "%"), self.unary)

    def signed(self, signs, part):
        left = part()
        while self.kind in signs:
            sign = self.kind
            self.token()
            left = ("reckon", sign, left, part())
        return left

    def unary(self):
        if self.kind == "-":
            self.nested()
            part = self.unary()
            self.depth -= 1
            return ("negate", part)
        return self.atom()

    def atom(self):
        kind, value = self.kind, self.value
        if kind == "(":
            self.nested()
            tree = self.filter()
            if self.kind != ")":
                raise FilterFault(1, self.start)
            self.depth -= 1
            self.token()
            return tree
        if kind == "number" and value > 2**63 - 1:
            raise FilterFault(2, self.start)
        if kind in ("true", "false", "null"):
            self.token()
            return ("value", {"true": True, "false": False, "null": None}[kind])
        if kind in ("name", "text", "number"):
            self.token()
            return ("name", value) if kind == "name" else ("value", value)
        raise FilterFault(1, self.start)


def is_number(value):
    return isinstance(value, int) and not isinstance(value, bool)


def holds(value):
    return value not in (None, False, 0, b"")


def within(number):
    return number if -(2**63) <= number < 2**63 else None


def reckon(sign, a, b):
    if not is_number(a) or not is_number(b):
        return None
    if sign in "/%":
        if b == 0:
            return None
        quotient = abs(a) // abs(b) * (1 if (a < 0) == (b < 0) else -1)
        return within(quotient) if sign == "/" else a - quotient * b
    return within(a + b if sign == "+" else a - b if sign == "-" else a * b)


def kind_of(value):
    return "number" if is_number(value) else type(value).__name__


def compare(sign, a, b):
    same = kind_of(a) == kind_of(b)
    if sign == "=":
        return same and a == b
    if sign in ("!=", "<>"):
        return not (same and a == b)
    if not same or a is None:
        return False
    return {"<": a < b, "<=": a <= b, ">": a > b, ">=": a >= b}[sign]


def value_of(tree, attrs):
    kind = tree[0]
    if kind == "value":
        return tree[1]
    if kind == "name":
        return attrs.get(tree[1])
    if kind == "or":
        return any([holds(value_of(part, attrs)) for part in tree[1]])
    if kind == "and":
        return all([holds(value_of(part, attrs)) for part in tree[1]])
    if kind == "not":
        return not holds(value_of(tree[1], attrs))
    if kind == "negate":
        value = value_of(tree[1], attrs)
        return within(-value) if is_number(value) else None
    left, right = value_of(tree[2], attrs), value_of(tree[3], attrs)
    return compare(tree[1], left, right) if kind == "compare" else reckon(tree[1], left, right)


# --- Styles -----------------------------------------------------------------------------------------------------


class StyleReader:
    """One object of a style: its faults name it."""

    def __init__(self, value, part, *places):
        self.value = value
        self.place = "%s %d %d %d" % ((part,) + (places + (0, 0, 0))[:3])
        if not isinstance(value, dict):
            self.refuse(2)

    def refuse(self, number, behind=""):
        raise Refused("style %d at %s%s" % (number, self.place, behind))

    def known(self, keys):
        if set(self.value) - set(keys):
            self.refuse(7)

    def at_most(self, key, most):
        if isinstance(self.value.get(key), list) and len(self.value[key]) > most:
            self.refuse(8)

    def string(self, key, default=None):
        """The string of this key; 2 where it is none, or is missing without a default."""
        if key not in self.value:
            if default is None:
                self.refuse(2)
            return default
        if not isinstance(self.value[key], str):
            self.refuse(2)
        return self.value[key]

    def list(self, key, default=None):
        if key not in self.value and default is not None:
            return default
        if not isinstance(self.value.get(key), list):
            self.refuse(2)
        return self.value[key]

    def read(self, key, meaning, default=None):
        """What a text means; 4 where it means nothing."""
        text = self.string(key, default)
        made = meaning(text)
        if made is None:
            self.refuse(4)
        return made

    def colour(self, key, default=None):
        return self.read(key, colour_of, default)

    def opacity(self, key):
        return self.read(key, lambda t: None if (decimal_of(t, 3) or 0) > 1000 else decimal_of(t, 3), "1")

    def width(self, key, default=None):
        width = self.read(key, lambda t: decimal_of(t, 2), default)
        if not 1 <= width <= 6400:
            self.refuse(8)
        return width

    def name(self, key, most=64):
        return self.read(key, lambda t: t if 1 <= len(t.encode()) <= most else None)

    def bound(self, key):
        return self.read(key, lambda t: decimal_of(t, 2)) if key in self.value else None

    def number(self, key, least):
        value = self.value.get(key)
        if not is_number(value):
            self.refuse(2)
        if not least <= value <= WORLD:
            self.refuse(8)
        return value


def style_of(data):
    try:
        value = json_of(data)
    except ValueError:
        raise Refused("style 1")
    top = StyleReader(value, "map")
    top.known(("background-color", "styles", "layers", "rasters"))
    for key, most in (("styles", 256), ("layers", 64), ("rasters", 2)):
        top.at_most(key, most)
    made = {"background": top.colour("background-color", "#ffffff")}
    styles, layers, rasters = top.list("styles"), top.list("layers"), top.list("rasters", [])
    made["rasters"] = raster_refs(rasters)
    made["styles"] = styles_of(styles)
    made["layers"] = layers_of(layers, made["styles"])
    return made


def raster_refs(values):
    made = []
    for place, value in enumerate(values):
        item = StyleReader(value, "raster", place)
        item.known(("name", "file", "west", "north", "pixel"))
        ref = {"name": item.name("name"), "file": item.name("file", 100)}
        ref.update(west=item.number("west", 0), north=item.number("north", 0), pixel=item.number("pixel", 1))
        if ref["name"] in [r["name"] for r in made]:
            item.refuse(6)
        made.append(ref)
    return made


def styles_of(values):
    made = {}
    for place, value in enumerate(values):
        item = StyleReader(value, "style", place)
        item.known(("name", "filter-mode", "rules"))
        item.at_most("rules", 256)
        name = item.name("name")
        mode = item.read("filter-mode", lambda t: t if t in ("all", "first") else None, "all")
        rules = item.list("rules")
        if name in made:
            item.refuse(6)
        made[name] = (mode, [rule_of(rule, place, at) for at, rule in enumerate(rules)])
    return made


def rule_of(value, *places):
    item = StyleReader(value, "rule", *places)
    item.known(("Filter", "ElseFilter", "MinScaleDenominator", "MaxScaleDenominator", "symbolizers"))
    item.at_most("symbolizers", 16)
    rule = {"filter": None, "else": False}
    if "Filter" in item.value:
        try:
            rule["filter"] = FilterReader(item.string("Filter")).whole()
        except FilterFault as fault:
            item.refuse(3, " filter %d %d" % (fault.number, fault.offset))
    if "ElseFilter" in item.value:
        if item.value["ElseFilter"] is not True or "Filter" in item.value:
            item.refuse(2)
        rule["else"] = True
    rule["least"] = item.bound("MinScaleDenominator") or 0
    rule["most"] = item.bound("MaxScaleDenominator")
    rule["symbolizers"] = [symbolizer_of(s, *places, at) for at, s in enumerate(item.list("symbolizers"))]
    return rule


def symbolizer_of(value, *places):
    item = StyleReader(value, "symbolizer", *places)
    kind = item.string("symbolizer")
    if kind == "PolygonSymbolizer":
        item.known(("symbolizer", "fill", "fill-opacity"))
        return {"kind": "polygon", "colour": item.colour("fill", "gray"), "opacity": item.opacity("fill-opacity")}
    if kind == "LineSymbolizer":
        item.known(("symbolizer", "stroke", "stroke-width", "stroke-opacity", "stroke-linecap", "stroke-linejoin"))
        made = {"kind": "line", "colour": item.colour("stroke", "black"), "width": item.width("stroke-width", "1")}
        made["opacity"] = item.opacity("stroke-opacity")
        made["cap"] = item.read("stroke-linecap", lambda t: t if t in ("butt", "round", "square") else None, "butt")
        item.string("stroke-linejoin", "")
        return made
    if kind == "MarkersSymbolizer":
        item.known(("symbolizer", "fill", "width", "height", "opacity"))
        made = {"kind": "markers", "colour": item.colour("fill"), "width": item.width("width")}
        made["height"] = item.width("height")
        made["opacity"] = item.opacity("opacity")
        return made
    if kind == "RasterSymbolizer":
        item.known(("symbolizer", "opacity"))
        return {"kind": "raster", "opacity": item.opacity("opacity")}
    item.refuse(7)


def layers_of(values, styles):
    made = []
    for place, value in enumerate(values):
        item = StyleReader(value, "layer", place)
        item.known(("name", "source", "minimum-scale-denominator", "maximum-scale-denominator", "styles"))
        layer = {"name": item.name("name"), "source": item.name("source")}
        layer["least"] = item.bound("minimum-scale-denominator") or 0
        layer["most"] = item.bound("maximum-scale-denominator")
        layer["styles"] = []
        for name in item.list("styles"):
            if not isinstance(name, str):
                item.refuse(2)
            if not is_name(name):
                item.refuse(4)
            if name not in styles:
                item.refuse(5)
            layer["styles"].append(name)
        if layer["name"] in [l["name"] for l in made]:
            item.refuse(6)
        made.append(layer)
    return made


# --- Data -------------------------------------------------------------------------------------------------------


def data_of(data):
    try:
        value = json_of(data)
    except ValueError:
        raise Refused("dataset 1")
    shape = lambda part=0, item=0: Refused("dataset 2 at %d %d" % (part, item))
    if not isinstance(value, dict) or set(value) - {"units", "layers"} or value.get("units", "cm") not in ("cm", "world"):
        raise shape()
    if not isinstance(value.get("units", "cm"), str) or not isinstance(value.get("layers"), list):
        raise shape()
    point = world_point if value.get("units", "cm") == "world" else centimetre_point
    made = {}
    for part, layer in enumerate(value["layers"]):
        if part == 64:
            raise shape(64, 0)
        if not isinstance(layer, dict) or set(layer) != {"name", "features"} or not isinstance(layer["name"], str):
            raise shape(part)
        if not is_name(layer["name"]) or not isinstance(layer["features"], list):
            raise shape(part)
        if layer["name"] in made:
            raise Refused("dataset 5 at %d" % part)
        if len(layer["features"]) > 1000000:
            raise Refused("dataset 6 at %d" % part)
        features, ids = [], set()
        for item, feature in enumerate(layer["features"]):
            made_feature = feature_of(feature, point, part, item)
            if made_feature["id"] in ids:
                raise Refused("dataset 4 at %d id %d" % (part, made_feature["id"]))
            ids.add(made_feature["id"])
            features.append(made_feature)
        made[layer["name"]] = features
    return made


def centimetre_point(pair):
    across = 4007501668
    turned = ((pair[0] + 2003750834) * WORLD // across, (-pair[1] + 2003750834) * WORLD // across)
    return turned if all(0 <= c <= WORLD for c in turned) else None


def world_point(pair):
    return tuple(pair) if all(0 <= c <= WORLD for c in pair) else None


def feature_of(value, point, part, item):
    """A feature; first its form, then whether its parts make one."""
    shape = Refused("dataset 2 at %d %d" % (part, item))
    geo = lambda number: Refused("dataset 3 at %d %d geometry %d" % (part, item, number))
    if not isinstance(value, dict) or set(value) - {"id", "geometry", "attrs"}:
        raise shape
    attrs = value.get("attrs", {})
    if not is_whole(value.get("id"), 0, 2**64 - 1) or not isinstance(value.get("geometry"), dict) or not isinstance(attrs, dict):
        raise shape
    geometry = value["geometry"]
    if len(geometry) != 1 or next(iter(geometry)) not in ("points", "lines", "polygon"):
        raise shape
    ((kind, shapes),) = geometry.items()
    parts = [shapes] if kind == "points" else shapes
    if not isinstance(parts, list) or not all(isinstance(p, list) for p in parts):
        raise shape
    for pair in [pair for p in parts for pair in p]:
        if not isinstance(pair, list) or len(pair) != 2 or not all(is_whole(c, -(2**63), 2**63 - 1) for c in pair):
            raise shape
    for name, attr in attrs.items():
        if not is_name(name) or not (attr is None or isinstance(attr, (bool, str)) or is_whole(attr, -(2**63), 2**63 - 1)):
            raise shape
    least = {"points": 1, "lines": 2, "polygon": 3}[kind]
    if not parts or any(len(p) < least for p in parts):
        raise geo(1)
    points = [[point(pair) for pair in p] for p in parts]
    if any(p is None for path in points for p in path):
        raise geo(2)
    if sum(len(p) for p in points) > 65536:
        raise geo(3)
    if len(attrs) > 64:
        raise geo(4)
    kept = {name.encode(): attr.encode() if isinstance(attr, str) else attr for name, attr in attrs.items()}
    return {"id": value["id"], "kind": kind, "paths": points, "attrs": kept}


# --- Raster files -----------------------------------------------------------------------------------------------


def ppm_of(data):
    """Columns, rows and pixels of a PPM text."""
    bad = lambda at: Refused("ppm 1 at %d" % at)
    at = 0
    for byte in b"P6":
        if at == len(data) or data[at] != byte:
            raise bad(at)
        at += 1
    sides = []
    for _ in range(2):
        at = gap(data, at, bad)
        side, start = 0, at
        while at < len(data) and data[at] in b"0123456789":
            if at == start and data[at] == ord("0"):
                raise bad(at)
            side = side * 10 + data[at] - 48
            if side > 4096:
                raise Refused("ppm 2")
            at += 1
        if at == start:
            raise bad(at)
        sides.append(side)
    at = gap(data, at, bad)
    for byte in b"255":
        if at == len(data) or data[at] != byte:
            raise bad(at)
        at += 1
    if at == len(data) or data[at] not in b" \t\r\n":
        raise bad(at)
    at += 1
    columns, rows = sides
    if len(data) < at + 3 * columns * rows:
        raise bad(len(data))
    if len(data) > at + 3 * columns * rows:
        raise bad(at + 3 * columns * rows)
    return columns, rows, data[at:]


def gap(data, at, bad):
    """Behind blanks and comments, the last of which is a blank; at least one blank."""
    blank = False
    while True:
        if at < len(data) and data[at] in b" \t\r\n":
            blank, at = True, at + 1
        elif at < len(data) and data[at] == ord("#"):
            end = data.find(b"\n", at)
            if end < 0:
                raise bad(len(data))
            blank, at = False, end
        else:
            if not blank:
                raise bad(at)
            return at


# --- Drawing ----------------------------------------------------------------------------------------------------


def in_rings(rings, x, y):
    count = 0
    for ring in rings:
        for (ax, ay), (bx, by) in zip(ring, ring[1:] + ring[:1]):
            if ay > by:
                ax, ay, bx, by = bx, by, ax, ay
            if ay <= y < by and (y - ay) * (bx - ax) <= (x - ax) * (by - ay):
                count += 1
    return count % 2 == 1


def in_disk(p, half, x, y):
    return (x - p[0]) ** 2 + (y - p[1]) ** 2 <= half * half


def measures(a, b, x, y):
    """Length squared, place along and distance across of a point at a segment."""
    dx, dy, vx, vy = b[0] - a[0], b[1] - a[1], x - a[0], y - a[1]
    return dx * dx + dy * dy, vx * dx + vy * dy, vx * dy - vy * dx


def in_body(a, b, half, x, y):
    length, along, across = measures(a, b, x, y)
    return 0 <= along <= length and across * across <= half * half * length


def on_line(line, half, cap, x, y):
    points = [p for i, p in enumerate(line) if i == 0 or p != line[i - 1]]
    if len(points) == 1:
        if cap == "round":
            return in_disk(points[0], half, x, y)
        return cap == "square" and abs(x - points[0][0]) <= half and abs(y - points[0][1]) <= half
    if any(in_body(a, b, half, x, y) for a, b in zip(points, points[1:])):
        return True
    if any(in_disk(p, half, x, y) for p in points[1:-1]):
        return True
    if cap == "round":
        return in_disk(points[0], half, x, y) or in_disk(points[-1], half, x, y)
    if cap == "square":
        length, along, across = measures(points[0], points[1], x, y)
        if across * across <= half * half * length and along < 0 and along * along <= half * half * length:
            return True
        length, along, across = measures(points[-2], points[-1], x, y)
        return across * across <= half * half * length and along > length and (along - length) ** 2 <= half * half * length
    return False


def on_outline(ring, half, x, y):
    bodies = any(a != b and in_body(a, b, half, x, y) for a, b in zip(ring, ring[1:] + ring[:1]))
    return bodies or any(in_disk(p, half, x, y) for p in ring)


def in_mark(p, a, b, x, y):
    return a >= 1 and b >= 1 and (x - p[0]) ** 2 * b * b + (y - p[1]) ** 2 * a * a <= a * a * b * b


def covers(symbolizer, feature, pixel, x, y):
    """Whether a symbolizer on a feature covers this centre."""
    kind, shape, paths = symbolizer["kind"], feature["kind"], feature["paths"]
    if kind == "polygon":
        return shape == "polygon" and in_rings(paths, x, y)
    if kind == "line":
        half = symbolizer["width"] * pixel // 200
        if shape == "lines":
            return any(on_line(path, half, symbolizer["cap"], x, y) for path in paths)
        return shape == "polygon" and any(on_outline(ring, half, x, y) for ring in paths)
    if kind == "markers":
        a, b = symbolizer["width"] * pixel // 200, symbolizer["height"] * pixel // 200
        return shape == "points" and any(in_mark(p, a, b, x, y) for p in paths[0])
    return False


def may_cover(feature, pixel, x, y):
    """False only where nothing of the feature, 64 pixels round its points, comes near the centre."""
    west, north, east, south = feature["box"]
    far = 64 * pixel
    return west - far <= x <= east + far and north - far <= y <= south + far


def is_active(least, most, denominator):
    return least <= 100 * denominator and (most is None or 100 * denominator < most)


def drawn(style, denominator, attrs):
    """The symbolizers that a feature meets in a style, in order."""
    mode, rules = style
    active = [r for r in rules if is_active(r["least"], r["most"], denominator)]
    matching = [r for r in active if not r["else"] and (r["filter"] is None or holds(value_of(r["filter"], attrs)))]
    if matching and mode == "first":
        matching = matching[:1]
    return [s for r in (matching or [r for r in active if r["else"]]) for s in r["symbolizers"]]


def items_of(layer, style, data, grids):
    """The items of a layer: one bound grid, or the features of the data's layer."""
    for ref, grid in zip(style["rasters"], grids):
        if ref["name"] == layer["source"]:
            return [{"kind": "grid", "ref": ref, "grid": grid, "attrs": {}}]
    return data.get(layer["source"], [])


def grid_colour(item, x, y):
    ref, (columns, rows, pixels) = item["ref"], item["grid"]
    column, row = (x - ref["west"]) // ref["pixel"], (y - ref["north"]) // ref["pixel"]
    if not 0 <= column < columns or not 0 <= row < rows:
        return None
    place = 3 * (row * columns + column)
    return tuple(pixels[place : place + 3])


def steps_of(style, data, grids, denominator):
    """What is painted, in order: an item with a symbolizer. The same at every pixel."""
    for layer in style["layers"]:
        if not is_active(layer["least"], layer["most"], denominator):
            continue
        for name in layer["styles"]:
            for item in items_of(layer, style, data, grids):
                for symbolizer in drawn(style["styles"][name], denominator, item["attrs"]):
                    yield item, symbolizer


def tile_of(style, data, grids, size, z, tile_x, tile_y):
    wide = 2 ** (30 - z)
    pixel = wide // size
    for features in data.values():
        for feature in features:
            xs, ys = zip(*[p for path in feature["paths"] for p in path])
            feature["box"] = (min(xs), min(ys), max(xs), max(ys))
    steps = list(steps_of(style, data, grids, 559082264 * 256 // (size * 2**z)))
    made = bytearray(b"P6\n%d %d\n255\n" % (size, size))
    for row in range(size):
        y = tile_y * wide + row * pixel + pixel // 2
        for column in range(size):
            x = tile_x * wide + column * pixel + pixel // 2
            made += bytes(colour_at(style["background"], steps, pixel, x, y))
    return bytes(made)


def colour_at(background, steps, pixel, x, y):
    colour = background
    for item, symbolizer in steps:
        if item["kind"] == "grid":
            paint = grid_colour(item, x, y) if symbolizer["kind"] == "raster" else None
        elif may_cover(item, pixel, x, y) and covers(symbolizer, item, pixel, x, y):
            paint = symbolizer["colour"]
        else:
            paint = None
        if paint is not None:
            a = symbolizer["opacity"]
            colour = tuple((s * a + d * (1000 - a) + 500) // 1000 for s, d in zip(paint, colour))
    return colour


# --- Commands ---------------------------------------------------------------------------------------------------


def read(folder, name):
    try:
        with open(os.path.join(folder, name), "rb") as source:
            return source.read()
    except (OSError, ValueError):  # no file has a name with a NUL byte
        raise Ended(3, "tilefarm: %s: cannot be read" % name)


def checked(folder, name, meaning):
    data = read(folder, name)
    try:
        return meaning(data)
    except Refused as fault:
        raise Ended(1, "tilefarm: %s: %s" % (name, fault))


def grid_of(data):
    columns, rows, pixels = ppm_of(data)
    if columns > 1024 or rows > 1024:
        raise Refused("grid 1")
    return columns, rows, pixels


def number_of(word):
    if not re.fullmatch("0|[1-9][0-9]{0,9}", word):
        raise Ended(2, USAGE)
    return int(word)


def render(folder, style_name, data_name, *numbers):
    size, z, x, y = [number_of(word) for word in numbers]
    if size not in SIZES or z > 18 or x >= 2**z or y >= 2**z:
        raise Ended(2, USAGE)
    style = checked(folder, style_name, style_of)
    grids = [checked(folder, ref["file"], grid_of) for ref in style["rasters"]]
    data = checked(folder, data_name, data_of)
    return tile_of(style, data, grids, size, z, x, y)


def listing_of(data):
    number = lambda at: int.from_bytes(data[at : at + 4], "little")
    if len(data) < 4:
        raise Refused("meta 1")
    if data[:4] == b"METZ":
        raise Refused("meta 3")
    if data[:4] != b"META":
        raise Refused("meta 2")
    if len(data) < 532:
        raise Refused("meta 1")
    if number(4) != 64:
        raise Refused("meta 4")
    x, y, z = number(8), number(12), number(16)
    if z > 18 or x >= 2**z or y >= 2**z or x % 8 or y % 8:
        raise Refused("meta 5")
    lines = ["%d %d %d" % (z, x, y)]
    for place in range(64):
        offset, size = number(20 + 8 * place), number(24 + 8 * place)
        if size == 0:
            continue
        if offset < 532 or offset + size > len(data):
            raise Refused("meta 6", place)
        lines.append("%d %d %d" % (place, offset, size))
    return "".join(line + "\n" for line in lines).encode()


def values_of(words):
    """The words without the first `--`. Before it none but `-` begins with a dash."""
    at = words.index("--") if "--" in words else len(words)
    if any(word.startswith("-") and word != "-" for word in words[:at]):
        raise Ended(2, USAGE)
    return words[:at] + words[at + 1 :]


def run(folder, words):
    """What a command puts on out and on err, and its status."""
    try:
        words = values_of(words)
        if len(words) == 7 and words[0] == "render":
            return render(folder, *words[1:]), b"", 0
        if len(words) == 2 and words[0] == "meta":
            return checked(folder, words[1], listing_of), b"", 0
        raise Ended(2, USAGE)
    except Ended as end:
        return b"", (end.line + "\n").encode(), end.status


def told_out(out):
    """What a command put on out; of many bytes how many they are and their sum, each times its place, from 1 on."""
    if len(out) <= MOST_TOLD:
        return out
    return b"%d bytes, sum %d\n" % (len(out), sum(place * byte for place, byte in enumerate(out, 1)) % 2**64)


def cases(folder):
    """Of each drawing its line and what it ends with."""
    for line in read(folder, "drawings").decode().splitlines():
        out, err, status = run(folder, line.split(" "))
        sys.stdout.buffer.write(b"case %s\n" % line.encode() + told_out(out) + err + b"status %d\n" % status)
        sys.stdout.buffer.flush()
    return 0


def main(words):
    if len(words) == 2 and words[0] == "cases":
        return cases(words[1])
    out, err, status = run(".", words)
    sys.stdout.buffer.write(out)
    sys.stderr.buffer.write(err)
    return status


if __name__ == "__main__":
    sys.exit(main(sys.argv[1:]))
