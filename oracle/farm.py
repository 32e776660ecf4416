#!/usr/bin/env python3
"""`tilefarm script` and `tilefarm load`, written a second time: plainly and slowly, from the farm's rules and formats alone.

It is no part of the product. The farm here is lists that are walked, and it shares no text with the crates. The
wanted output of the crate `command_cases` is made by it, from the repository's top by

    python3 oracle/farm.py cases crates/command_cases/data > crates/command_cases/stdout

which has what `oracle/texts.py` and `oracle/serve_cases.py` want before its scripts, and the drawings of
`oracle/tilefarm.py` behind them,

and one command is run by `python3 oracle/farm.py script CONFIG SCRIPT` or `.. load SEED N`. `.. answers FOLDER` tells
how often each answer and each refusal comes in a folder's scripts. A line of a folder's file `scripts` is one of

    script CONFIG SCRIPT    over the files beside it
    load SEED N
    configs TABLE FILE..    each row of TABLE is the file `config` of `script config FILE`, whose first FILE is the
                            script; nothing but these files is there
    scripts TABLE FILE..    each row of TABLE is the file `script` of `script FILE script` likewise

and may end with `puts N..` and then `gets N..`: which calls of the store, counted from 0, are to fail. A row is
written as those of `oracle/texts.py` are, and `\\n` and `\\r` in it are line ends. What a row wants is what its text
says of the file, or `ok`; the command ends with status 1 where another thing comes. Before the answers of a line stands
`case` with the line, and before that of a row `row TABLE:LINE`. An output of more than 12,000 bytes is told by its
length and its weighted sum.

Tiles are drawn by `tilefarm.py`. It needs Python 3 and nothing else.
"""

import collections
import os
import re
import sys

import serve_cases
import texts
import tilefarm
from tilefarm import Ended, Refused, SIZES, USAGE, WORLD, is_number

MOST_LINES = 1000000
MOST_FEATURES = 1000000
QUEUES = ("prio", "request", "low", "dirty", "bulk")
OWN_QUEUES = {"prio": "prio", "render": "request", "low": "low", "bulk": "bulk"}


# --- Configurations ---------------------------------------------------------------------------------------------


def shape(key):
    return Refused("config 2 at %d" % key)


def past(key):
    return Refused("config 3 at %d" % key)


def object_of(value, known, key):
    if not isinstance(value, dict) or set(value) - set(known):
        raise shape(key)
    return value


def text_of(value, key):
    if not isinstance(value, str):
        raise shape(key)
    return value


def number_of(value, least, most, key):
    if not is_number(value):
        raise shape(key)
    if not least <= value <= most:
        raise past(key)
    return value


def entries_of(value, most, key):
    """The entries of a list; the first past its limit is refused at its turn."""
    if not isinstance(value, list):
        raise shape(key)
    for place, entry in enumerate(value):
        if place == most:
            raise past(key)
        yield entry


def map_of(value, earlier):
    object_of(value, ("name", "style", "tile", "maxzoom"), 1)
    name = text_of(value.get("name"), 1)
    if not re.fullmatch("[a-z0-9_-]{1,40}", name):
        raise shape(1)
    style, tile = text_of(value.get("style"), 1), number_of(value.get("tile"), 16, 512, 1)
    if tile not in SIZES:
        raise past(1)
    most = number_of(value["maxzoom"], 0, 18, 1) if "maxzoom" in value else 18
    if name in [m["name"] for m in earlier]:
        raise Refused("config 4 at %d" % len(earlier))
    return {"name": name, "style": style, "tile": tile, "maxzoom": most}


def maps_of(value):
    maps = []
    for entry in entries_of(value, 16, 1):
        maps.append(map_of(entry, maps))
    if not maps:
        raise past(1)
    return maps


def limits_of(value):
    limits = {"prio": 32, "request": 32, "low": 32, "dirty": 1000, "bulk": 32}
    object_of(value, limits, 6)
    for queue, most in list(limits.items()):
        if queue in value:
            limits[queue] = number_of(value[queue], 1, most, 6)
    return limits


def check_address(value, key):
    text = text_of(value, key)
    if text.startswith("unix:"):
        if not 1 <= len(text.encode()) - 5 <= 100:
            raise shape(key)
        return
    number = "(0|[1-9][0-9]{0,4})"
    found = re.fullmatch(r"tcp:%s\.%s\.%s\.%s:%s" % ((number,) * 5), text)
    if not found or any(int(n) > most for n, most in zip(found.groups(), (255, 255, 255, 255, 65535))):
        raise shape(key)


def restyle_of(value, maps):
    object_of(value, ("map", "style"), 10)
    name = text_of(value.get("map"), 10)
    if name not in [m["name"] for m in maps]:
        raise shape(10)
    return [m["name"] for m in maps].index(name), text_of(value.get("style"), 10)


def config_of(data):
    try:
        value = tilefarm.json_of(data)
    except ValueError:
        raise Refused("config 1")
    keys = ("maps", "data", "updates", "expiries", "workers", "limits", "renderd", "tiles", "control", "restyles", "resume")
    object_of(value, keys, 0)
    files = lambda name, key: [text_of(entry, key) for entry in entries_of(value.get(name, []), 256, key)]
    made = {"maps": maps_of(value.get("maps")), "data": text_of(value.get("data"), 2)}
    made.update(updates=files("updates", 3), expiries=files("expiries", 4))
    made["workers"] = number_of(value.get("workers", 2), 1, 16, 5)
    made["limits"] = limits_of(value.get("limits", {}))
    for key, name in ((7, "renderd"), (8, "tiles"), (9, "control")):
        if name in value:
            check_address(value[name], key)
    made["restyles"] = [restyle_of(entry, made["maps"]) for entry in entries_of(value.get("restyles", []), 256, 10)]
    if not isinstance(value.get("resume", False), bool):
        raise shape(11)
    return made


# --- Lines ------------------------------------------------------------------------------------------------------


def lines_of(data):
    """The lines with their numbers. A carriage return is dropped only where a newline follows it."""
    pieces = data.split(b"\n")
    lines = [piece[:-1] if piece.endswith(b"\r") else piece for piece in pieces[:-1]]
    if pieces[-1]:
        lines.append(pieces[-1])
    return enumerate(lines, 1)


def decimal_of(word, bits):
    """The number of a word, or None."""
    if not re.fullmatch(rb"0|[1-9][0-9]*", word) or int(word) >= 2**bits:
        return None
    return int(word)


def tile_named(words):
    """Zoom, column and row of a tile, or None."""
    numbers = [decimal_of(word, 32) for word in words]
    if None in numbers or len(numbers) != 3:
        return None
    return tuple(numbers) if is_tile(*numbers) else None


def is_tile(z, x, y):
    return z <= 18 and x < 2**z and y < 2**z


def list_of(data):
    tiles = []
    for number, line in lines_of(data):
        tile = tile_named(line.split(b"/")) if line else None
        if number > MOST_LINES or (line and tile is None):
            raise Refused("list 1 at line %d" % number)
        if tile:
            tiles.append(tile)
    return tiles


def map_name(word):
    try:
        return word.decode() or None
    except UnicodeDecodeError:
        return None


WORDS = {
    "number": lambda word: decimal_of(word, 32),
    "ticket": lambda word: decimal_of(word, 64),
    "map": map_name,
    "command": lambda word: word.decode() if word in (b"render", b"prio", b"low", b"bulk", b"dirty") else None,
}
LINES = {
    b"ask": ("number", "command", "map", "number", "number", "number"),
    b"claim": ("number",),
    b"finish": ("ticket",),
    b"cut": ("ticket",),
    b"update": ("number",),
    b"restyle": ("number",),
    b"renew": ("number",),
    b"expire": ("number", "number", "number"),
    b"fetch": ("map", "number", "number", "number"),
    b"look": ("map", "number", "number", "number"),
    b"collect": ("number",),
    b"leave": ("number",),
    b"tally": (),
    b"stop": (),
}


def line_of(line):
    """A line's first word and the values of the others; None where it is none."""
    first, *later = line.split(b" ")
    kinds = LINES.get(first)
    if kinds is None or len(later) != len(kinds):
        return None
    values = [WORDS[kind](word) for kind, word in zip(kinds, later)]
    return None if None in values else (first.decode(), values)


def script_of(data):
    made = []
    for number, line in lines_of(data):
        if number <= MOST_LINES and (not line or line.startswith(b"#")):
            continue
        read = line_of(line) if number <= MOST_LINES else None
        if read is None:
            raise Refused("script 1 at line %d" % number)
        made.append(read)
    return made


# --- Squares, and what a feature reaches ------------------------------------------------------------------------


def metatile_of(z, x, y):
    return z, x - x % 8, y - y % 8


def square_of(key):
    """The square of a metatile: as a tile's, eight times as wide; the whole world below zoom 3."""
    _, z, x, y = key
    return (z - 3, x // 8, y // 8) if z >= 3 else (0, 0, 0)


def sides(square):
    """The first and the last column of points, and the first and the last row."""
    z, x, y = square
    side = 2 ** (30 - z)
    return x * side, (x + 1) * side - 1, y * side, (y + 1) * side - 1


def meet(one, other):
    """Whether two rectangles, given by sides, share a point."""
    return one[0] <= other[1] and other[0] <= one[1] and one[2] <= other[3] and other[2] <= one[3]


def box_of(feature):
    xs, ys = zip(*[point for path in feature["paths"] for point in path])
    return min(xs), max(xs), min(ys), max(ys)


def reaches(feature, size, key):
    """Whether a feature's box, 64 pixels wider on each side, holds a point of the metatile's square."""
    wider = 64 * (2 ** (30 - key[1]) // size)
    west, east, north, south = box_of(feature)
    return meet((west - wider, east + wider, north - wider, south + wider), sides(square_of(key)))


# --- Data -------------------------------------------------------------------------------------------------------


def layers_of(data):
    """The data's layers, each as a map from ids to features in their order."""
    return {name: {f["id"]: f for f in features} for name, features in tilefarm.data_of(data).items()}


class NotApplied(Exception):
    """An update's fault over data: 1 no such layer, 2 no such feature, 3 too many features."""

    def __init__(self, number):
        self.number = number


def applied(layers, changes):
    """The layers after an update; those before it stay."""
    made = {name: dict(features) for name, features in layers.items()}
    for name, removed, put in changes:
        if name not in made:
            raise NotApplied(1)
        for number in removed:
            if number not in made[name]:
                raise NotApplied(2)
            del made[name][number]
        for feature in put:
            if feature["id"] not in made[name] and len(made[name]) == MOST_FEATURES:
                raise NotApplied(3)
            made[name][feature["id"]] = feature
    return made


def named(layers, changes):
    """The old features that an update removes or puts, and all that it puts."""
    found = []
    for name, removed, put in changes:
        ids = list(removed) + [feature["id"] for feature in put]
        found += [layers[name][number] for number in ids if number in layers[name]]
        found += put
    return found


def tile_of(style, layers, size, z, x, y):
    """The tile, drawn item by item; each item only at the pixels that it may cover."""
    sheet, grids = style
    data = {name: list(features.values()) for name, features in layers.items()}
    wide = 2 ** (30 - z)
    pixel = wide // size
    rows = [[sheet["background"]] * size for _ in range(size)]
    for item, symbolizer in tilefarm.steps_of(sheet, data, grids, 559082264 * 256 // (size * 2**z)):
        columns, lines = pixels_near(item, symbolizer, pixel, size, x * wide, y * wide)
        for j in lines:
            for i in columns:
                centre = x * wide + i * pixel + pixel // 2, y * wide + j * pixel + pixel // 2
                rows[j][i] = tilefarm.colour_at(rows[j][i], [(item, symbolizer)], pixel, *centre)
    return b"P6\n%d %d\n255\n" % (size, size) + b"".join(bytes(colour) for row in rows for colour in row)


def pixels_near(item, symbolizer, pixel, size, west, north):
    """The columns and rows of the pixels at which an item may cover something."""
    if item["kind"] == "grid":
        return range(size), range(size)
    box = box_of(item)
    item["box"] = (box[0], box[2], box[1], box[3])
    far = max(symbolizer.get("width", 0), symbolizer.get("height", 0)) * pixel // 100
    near = lambda first, last, side: range(
        max(0, (first - far - side) // pixel - 1), min(size, (last + far - side) // pixel + 2)
    )
    return near(box[0], box[1], west), near(box[2], box[3], north)


# --- The farm ---------------------------------------------------------------------------------------------------


class Farm:
    """The farm by its rules. Keys are (map, zoom, column, row) of a metatile's lowest tile; a connection is (front,
    number); an item that waits or flies has its key and the chain of its waiters, pairs of a connection and an ask."""

    def __init__(self, plan, puts=(), gets=()):
        self.plan, self.failing_puts, self.failing_gets = plan, set(puts), set(gets)
        self.layers, self.styles = plan["layers"], [m["style"] for m in plan["maps"]]
        self.queues = {queue: [] for queue in QUEUES}
        self.flights, self.shown, self.ended = {}, {}, []
        self.jobs = self.numbers = self.version = 0
        self.asks = self.done = self.stored = 0
        self.puts = self.gets = 0
        self.stopped = self.store_failed = False

    def key_of(self, spot):
        """The key of a spot (map's name, zoom, column, row); None where it is not servable."""
        name, z, x, y = spot
        for place, entry in enumerate(self.plan["maps"]):
            if entry["name"] == name:
                return (place,) + metatile_of(z, x, y) if z <= entry["maxzoom"] and is_tile(z, x, y) else None
        return None

    def waiting(self, key):
        """The queue in which a key waits, and its item."""
        for queue in QUEUES:
            for item in self.queues[queue]:
                if item["key"] == key:
                    return queue, item
        return None, None

    def flight(self, key):
        return next((flight for flight in self.flights.values() if flight["key"] == key), None)

    def has_room(self, queue):
        return len(self.queues[queue]) < self.plan["limits"][queue]

    def touch(self, is_touched):
        """Touches all keys of which this is said, and tells how many were clean."""
        count = 0
        for key, mark in self.shown.items():
            if is_touched(key):
                count += mark["clean"]
                mark["clean"] = False
        for flight in self.flights.values():
            if is_touched(flight["key"]):
                flight["touched"] = True
        return count

    def open_asks(self):
        """The connections of all open asks, one for each."""
        items = [item for queue in QUEUES for item in self.queues[queue]] + list(self.flights.values())
        return [conn for item in items for conn, _ in item["chain"]] + [reply[0] for reply in self.ended]

    def numbered(self, answer, chain, conn):
        chain.append((conn, self.numbers))
        self.numbers += 1
        return "%s %d" % (answer, self.numbers - 1)

    def place(self, queue, key):
        """A new item, without waiters, if there is room."""
        if not self.has_room(queue):
            return None
        self.queues[queue].append({"key": key, "chain": []})
        return self.queues[queue][-1]["chain"]

    def ask_dirty(self, key):
        if not self.stopped and key is not None:
            self.touch(lambda other: other == key)
            if self.waiting(key)[0] is None and self.flight(key) is None:
                self.place("dirty", key)
        return "silent"

    def ask(self, conn, command, spot):
        key = self.key_of(spot)
        if command == "dirty":
            return self.ask_dirty(key)
        self.asks += 1
        if self.stopped:
            return "notdone 1"
        if key is None:
            return "notdone 2"
        if key in self.shown and self.shown[key]["clean"]:
            self.done += 1
            return "done"
        asks = self.open_asks()
        if asks.count(conn) >= 64 or len(asks) >= 4096:
            return "notdone 3"
        flight = self.flight(key)
        if flight is not None:
            return "notdone 4" if flight["touched"] else self.numbered("joined", flight["chain"], conn)
        return self.ask_unclaimed(conn, OWN_QUEUES[command], key)

    def ask_unclaimed(self, conn, own, key):
        queue, item = self.waiting(key)
        if queue in ("dirty", "bulk") and own != "bulk" and self.has_room(own):
            self.queues[queue].remove(item)
            self.queues[own].append(item)
            return self.numbered("lifted", item["chain"], conn)
        if queue == "dirty":
            return "notdone 5"
        if queue is not None:
            return self.numbered("joined", item["chain"], conn)
        chain = self.place(own, key)
        if chain is not None:
            return self.numbered("queued", chain, conn)
        return "notdone 7" if self.place("dirty", key) is None else "notdone 6"

    def claim(self):
        """The ticket of a job, or why there is none."""
        if self.stopped:
            return None, "stopped"
        if len(self.flights) == self.plan["workers"]:
            return None, "crowded"
        queue = next((queue for queue in QUEUES if self.queues[queue]), None)
        if queue is None:
            return None, "idle"
        flight, ticket = self.queues[queue].pop(0), self.jobs
        flight.update(version=self.version, touched=False, layers=self.layers, style=self.styles[flight["key"][0]])
        self.flights[ticket] = flight
        self.jobs += 1
        at, z, x, y = flight["key"]
        return ticket, "job %d %s %d %d %d %d" % (ticket, self.plan["maps"][at]["name"], z, x, y, self.version)

    def put(self):
        """Whether the next put of the store succeeds."""
        self.puts += 1
        failed = self.puts - 1 in self.failing_puts
        self.store_failed |= failed
        return not failed

    def get(self):
        self.gets += 1
        failed = self.gets - 1 in self.failing_gets
        self.store_failed |= failed
        return not failed

    def finish(self, ticket):
        flight = self.flights.pop(ticket)
        key = flight["key"]
        if not self.put():
            self.shown.pop(key, None)
            self.end(flight, "notdone")
            return "putfailed"
        self.stored += 1
        self.shown[key] = dict(flight, clean=not flight["touched"])
        self.end(flight, "done")
        if not flight["touched"]:
            return "clean"
        self.place("dirty", key)
        return "dirty"

    def cut(self, ticket):
        self.end(self.flights.pop(ticket), "cut")
        return "cut"

    def end(self, flight, outcome):
        self.ended += [(conn, number, outcome) for conn, number in flight["chain"]]

    def update(self, number, renew):
        if number >= len(self.plan["updates"]):
            return "noupdate"
        changes, before = self.plan["updates"][number], self.layers
        try:
            self.layers = applied(before, changes)
        except NotApplied as fault:
            return "refused %d" % fault.number
        self.version += 1
        if not renew:
            return "version %d" % self.version
        features, size = named(before, changes), lambda key: self.plan["maps"][key[0]]["tile"]
        count = self.touch(lambda key: any(reaches(feature, size(key), key) for feature in features))
        return "version %d renewed %d" % (self.version, count)

    def restyle(self, number):
        if number >= len(self.plan["restyles"]):
            return "norestyle"
        place, style = self.plan["restyles"][number]
        self.styles[place] = style
        return "styled %d" % self.touch(lambda key: key[0] == place)

    def expire(self, tile):
        return "expired %d" % self.touch(lambda key: meet(sides(tile), sides(square_of(key))))

    def look(self, spot):
        key = self.key_of(spot)
        if key is None:
            return "unservable"
        if key not in self.shown:
            return "missing"
        mark = self.shown[key]
        return "%s %d" % ("clean" if mark["clean"] else "dirty", mark["version"])

    def fetch(self, spot):
        """What `look` says, and the tile where there is one: two reads, of the container's head and of the tile."""
        told = self.look(spot)
        if told in ("unservable", "missing"):
            return told, None
        if not self.get() or not self.get():
            return "getfailed", None
        key = self.key_of(spot)
        mark, size = self.shown[key], self.plan["maps"][key[0]]["tile"]
        return told, tile_of(mark["style"], mark["layers"], size, *spot[1:])

    def collect(self, front):
        for reply in self.ended:
            if reply[0][0] == front:
                self.ended.remove(reply)
                self.done += reply[2] == "done"
                return "reply %d %d %s" % (reply[0][1], reply[1], reply[2])
        return "stopped" if self.stopped else "empty"

    def leave(self, conn):
        count = self.open_asks().count(conn)
        items = [item for queue in QUEUES for item in self.queues[queue]] + list(self.flights.values())
        for item in items:
            item["chain"] = [waiter for waiter in item["chain"] if waiter[0] != conn]
        self.ended = [reply for reply in self.ended if reply[0] != conn]
        return "left %d" % count

    def tally(self):
        return "asks %d done %d stored %d version %d" % (self.asks, self.done, self.stored, self.version)

    def stop(self):
        self.stopped = True
        return "stopping"


# --- The command script -----------------------------------------------------------------------------------------


def answers_of(farm, script):
    """Each line's answer as bytes. Only tickets in hand are finished."""
    hand = set()
    for word, values in script:
        yield answer_of(farm, hand, word, values) + b"\n"


def answer_of(farm, hand, word, values):
    if word == "claim":
        ticket, told = farm.claim()
        hand |= {ticket} - {None}
        return told.encode()
    if word in ("finish", "cut"):
        if values[0] not in hand:
            return b"nojob"
        hand.discard(values[0])
        return (farm.finish if word == "finish" else farm.cut)(values[0]).encode()
    if word == "fetch":
        told, tile = farm.fetch(tuple(values))
        return told.encode() if tile is None else b"%s %d\n%s" % (told.encode(), len(tile), tile)
    if word == "expire":
        return farm.expire(tuple(values)).encode() if is_tile(*values) else b"unservable"
    plain = {
        "ask": lambda: farm.ask((0, values[0]), values[1], tuple(values[2:])),
        "update": lambda: farm.update(values[0], False),
        "renew": lambda: farm.update(values[0], True),
        "restyle": lambda: farm.restyle(values[0]),
        "look": lambda: farm.look(tuple(values)),
        "collect": lambda: farm.collect(values[0]),
        "leave": lambda: farm.leave((0, values[0])),
        "tally": farm.tally,
        "stop": farm.stop,
    }
    return plain[word]().encode()


class Files:
    """The files of a folder, or those of these names alone with one more, whose bytes are given."""

    def __init__(self, folder, names=None, more=None):
        self.folder, self.names, self.more = folder, names, more or {}

    def read(self, name):
        if name in self.more:
            return self.more[name]
        if self.names is not None and name not in self.names:
            raise Ended(3, "tilefarm: %s: cannot be read" % name)
        return tilefarm.read(self.folder, name)

    def checked(self, name, meaning):
        data = self.read(name)
        try:
            return meaning(data)
        except Refused as fault:
            raise Ended(1, "tilefarm: %s: %s" % (name, fault))

    def style(self, name):
        """A style with its grids: its raster files are read after it."""
        sheet = self.checked(name, tilefarm.style_of)
        return sheet, [self.checked(ref["file"], tilefarm.grid_of) for ref in sheet["rasters"]]


def script(files, config_name, script_name, puts=(), gets=()):
    """The files in their order, then the run: what is put on out, and whether the store failed."""
    config = files.checked(config_name, config_of)
    plan = {"limits": config["limits"], "workers": config["workers"]}
    plan["maps"] = [dict(entry, style=files.style(entry["style"])) for entry in config["maps"]]
    plan["restyles"] = [(place, files.style(name)) for place, name in config["restyles"]]
    plan["layers"] = files.checked(config["data"], layers_of)
    plan["updates"] = [files.checked(name, texts.update_of) for name in config["updates"]]
    for name in config["expiries"]:
        files.checked(name, list_of)
    lines = files.checked(script_name, script_of)
    farm = Farm(plan, puts, gets)
    return b"".join(answers_of(farm, lines)), farm.store_failed


# --- The command load -------------------------------------------------------------------------------------------


class Draws:
    """PCG-XSH-RR with 64 bits of state and 32 of output, on stream 54 (O'Neill 2014): a linear congruential step, and
    of the state before it the high bits, xored, shifted and turned by the five highest."""

    def __init__(self, seed):
        self.increment, self.state = 2 * 54 + 1, 0
        self.next()
        self.state = (self.state + seed) % 2**64
        self.next()

    def next(self):
        old = self.state
        self.state = (old * 6364136223846793005 + self.increment) % 2**64
        word, turn = ((old >> 18 ^ old) >> 27) % 2**32, old >> 59
        return (word >> turn | word << (32 - turn) % 32) % 2**32

    def draw(self, n):
        return self.next() % n


def generated_style():
    rules = []
    for r in range(12):
        colour = "rgb(%d,%d,%d)" % (20 * r, 255 - 20 * r, 128)
        symbolizer = (
            '"PolygonSymbolizer","fill":"%s"' % colour,
            '"LineSymbolizer","stroke":"%s","stroke-width":"2","stroke-linecap":"round"' % colour,
            '"MarkersSymbolizer","fill":"%s","width":"6","height":"6"' % colour,
        )[r // 4]
        rules.append('{"Filter":"[kind] = %d","symbolizers":[{"symbolizer":%s}]}' % (r % 4, symbolizer))
    names = ("land", "roads", "spots")
    styles = ['{"name":"%s","rules":[%s]}' % (n, ",".join(rules[4 * i : 4 * i + 4])) for i, n in enumerate(names)]
    layers = ['{"name":"%s","source":"%s","styles":["%s"]}' % (n, n, n) for n in names]
    return ('{"styles":[%s],"layers":[%s]}' % (",".join(styles), ",".join(layers))).encode()


def generated_layers(draws, count):
    layers = {"land": {}, "roads": {}, "spots": {}}
    for i in range(count):
        kind = draws.draw(4)
        x = 2**29 + draws.draw(520192)
        y = 2**29 + draws.draw(520192)
        s = 1 + draws.draw(4096)
        layer, geometry, points = (
            ("land", "polygon", [(x, y), (x + s, y), (x + s, y + s), (x, y + s)]),
            ("roads", "lines", [(x, y), (x + s, y + s)]),
            ("spots", "points", [(x, y)]),
        )[i % 3]
        layers[layer][i] = {"id": i, "kind": geometry, "paths": [points], "attrs": {b"kind": kind}}
    return layers


def generated_steps(draws):
    """The tiles that are asked for, and whether each is expired before."""
    steps = []
    for k in range(32):
        z = 11 + draws.draw(4)
        x = 2 ** (z - 1) + draws.draw(2 ** (z - 11))
        y = 2 ** (z - 1) + draws.draw(2 ** (z - 11))
        steps.append(((z, x, y), k % 4 == 3))
    return steps


def load(seed, count, puts=(), gets=()):
    draws = Draws(seed)
    layers = generated_layers(draws, count)
    style = (tilefarm.style_of(generated_style()), [])
    limits = {"prio": 32, "request": 32, "low": 32, "dirty": 1000, "bulk": 32}
    maps = [{"name": "default", "style": style, "tile": 256, "maxzoom": 18}]
    plan = {"maps": maps, "restyles": [], "layers": layers, "updates": [], "limits": limits, "workers": 1}
    farm, clean, length, total = Farm(plan, puts, gets), 0, 0, 0
    for tile, is_expired in generated_steps(draws):
        told, data = load_step(farm, tile, is_expired)
        if told.startswith("clean"):
            clean, length, total = clean + 1, length + len(data), total + sum(data)
    line = "features %d asks 32 clean %d bytes %d sum %d\n" % (count, clean, length, total)
    return line.encode(), farm.store_failed


def load_step(farm, tile, is_expired):
    spot = ("default",) + tile
    if is_expired:
        farm.expire(tile)
    farm.ask((0, 0), "render", spot)
    ticket, _ = farm.claim()
    if ticket is not None:
        farm.finish(ticket)
    while farm.collect(0) != "empty":
        pass
    told, data = farm.fetch(spot)
    return (told, data) if data is not None else ("", b"")


# --- Commands ---------------------------------------------------------------------------------------------------


def ended(made):
    """What a command puts on out and on err, and its status."""
    try:
        out, has_failed = made()
    except Ended as end:
        return b"", (end.line + "\n").encode(), end.status
    return out, b"tilefarm: the store failed\n" if has_failed else b"", 6 if has_failed else 0


def run(files, words, puts=(), gets=()):
    if len(words) == 3 and words[0] == "script":
        return ended(lambda: script(files, words[1], words[2], puts, gets))
    if len(words) == 3 and words[0] == "load":
        seed, count = decimal_of(words[1].encode(), 64), decimal_of(words[2].encode(), 32)
        if seed is not None and count is not None and 1 <= count <= 100000:
            return ended(lambda: load(seed, count, puts, gets))
    return b"", (USAGE + "\n").encode(), 2


def calls_after(words, sign):
    """The words before a sign, and the numbers after it."""
    if sign not in words:
        return words, []
    at = words.index(sign)
    return words[:at], [int(word) for word in words[at + 1 :]]


def rows_told(folder, kind, table, names):
    """Each row of a table as one file of a run, with its name and what it wants."""
    for number, wanted, text in texts.rows_of(tilefarm.read(folder, table).decode()):
        data = text.replace("\\n", "\n").replace("\\r", "\r").encode()
        name = kind[:-1]
        words = ["script", name, names[0]] if kind == "configs" else ["script", names[0], name]
        told = run(Files(folder, names, {name: data}), words)
        found = told[1].decode().replace("tilefarm: %s: " % name, "").strip() or "ok"
        at = "%s:%d" % (table, number)
        yield "row %s\n" % at, told, None if found == wanted else "%s: %s wanted of %s, not %s" % (at, wanted, text[:200], found)


def told_cases(folder):
    """Of each case the lines that name it, what it puts on out and err and its status, and what else its table wanted."""
    for line in tilefarm.read(folder, "scripts").decode().splitlines():
        named = "case %s\n" % line
        words, gets = calls_after(line.split(" "), "gets")
        words, puts = calls_after(words, "puts")
        if words[0] not in ("configs", "scripts"):
            yield named, run(Files(folder), words, puts, gets), None
            continue
        for row, told, want in rows_told(folder, words[0], words[1], words[2:]):
            yield named + row, told, want
            named = ""
        if named:
            raise ValueError("no row in " + words[1])


def cases(folder):
    sys.stdout.reconfigure(encoding="utf-8")
    wrong = 1 if texts.cases(folder) else 0
    sys.stdout.flush()
    sys.stdout.buffer.write(b"".join(serve_cases.WANTED))
    for named, (out, err, status), want in told_cases(folder):
        sys.stdout.buffer.write(named.encode() + tilefarm.told_out(out) + err + b"status %d\n" % status)
        sys.stdout.buffer.flush()
        if want:
            print(want, file=sys.stderr)
            wrong = 1
    tilefarm.cases(folder)
    return wrong


def answers(folder):
    """How often each answer comes: numbers that are places or counts are left out."""
    counts = collections.Counter()
    for _, (out, err, status), _ in told_cases(folder):
        place = 0
        while place < len(out):
            end = out.index(b"\n", place)
            words = out[place:end].decode().split(" ")
            place = end + 1
            if words[0] in ("clean", "dirty") and len(words) == 3:
                place += int(words[2]) + 1
                words[0] = "fetched " + words[0]
            keep = {"notdone": 2, "refused": 2, "spoilt": 2}.get(words[0], 1)
            name = "reply " + words[3] if words[0] == "reply" else " ".join(words[:keep])
            if words[0] in ("clean", "dirty", "version"):
                name += " of %d words" % len(words)
            counts[name] += 1
        counts["status %d" % status] += 1
        if status == 1:
            counts["err " + re.sub("[0-9]+$", "N", err.decode().strip().split(": ", 2)[2])] += 1
    for name, count in sorted(counts.items()):
        print("%7d %s" % (count, name))
    return 0


def main(words):
    if len(words) == 2 and words[0] in ("cases", "answers"):
        return {"cases": cases, "answers": answers}[words[0]](words[1])
    out, err, status = run(Files("."), words)
    sys.stdout.buffer.write(out)
    sys.stderr.buffer.write(err)
    return status


if __name__ == "__main__":
    sys.setrecursionlimit(10000)
    sys.exit(main(sys.argv[1:]))
