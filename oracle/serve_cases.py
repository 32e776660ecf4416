#!/usr/bin/env python3
"""Calls of the farm with `serve`, and what each is to give: worked out by hand from the formats and the rules.

It is no part of the product. The crate `command_cases` plays the cases over ports, a store and sinks in memory; this
script writes its list `serves` and the files that the cases name, from the repository's top by

    python3 oracle/serve_cases.py crates/command_cases/data

and `farm.py` puts what is wanted of them before what is wanted of the other commands.

Each case below says what happens on the three ports and, behind it, what is wanted: never what a run gave. Only the
bytes of messages, answers and pictures are computed here, plainly. It needs Python 3 and nothing else.
"""

import json
import os
import sys

FILES = {}
CASES = []
WANTED = []


def file(name, content):
    """A file beside the cases."""
    content = content if isinstance(content, bytes) else content.encode()
    assert FILES.setdefault(name, content) == content, name
    return name


# --- messages, pictures and answers -----------------------------------------------------------------------------------

IGNORE, RENDER, DIRTY, DONE, NOT_DONE, PRIO, BULK, LOW = range(8)


def numbers(*values):
    return b"".join(value.to_bytes(4, "little") for value in values)


def message(command, z, x, y, version=2, name="default", mime="image/png", options="x"):
    """A message of renderd's protocol: 20, 64 or 144 bytes by its version."""
    text = numbers(version, command, x, y, z)
    if version == 2:
        text += name.encode().ljust(41, b"\0") + bytes(3)
    if version == 3:
        text += name.encode().ljust(41, b"\0") + mime.encode().ljust(41, b"\0") + options.encode().ljust(41, b"\0") + bytes(1)
    return text


WHITE, RED, BLUE = b"\xff\xff\xff", b"\xff\x00\x00", b"\x00\x00\xff"


def picture(z, x, y, west=2**28, north=2**28, east=3 * 2**28, south=3 * 2**28, colour=RED):
    """A tile of 16 pixels over white data with one rectangle: a pixel has the colour of its centre."""
    pixel = 2 ** (30 - z) // 16
    text = b"P6\n16 16\n255\n"
    for row in range(16):
        for column in range(16):
            across = x * 2 ** (30 - z) + column * pixel + pixel // 2
            down = y * 2 ** (30 - z) + row * pixel + pixel // 2
            text += colour if west <= across < east and north <= down < south else WHITE
    return text


def tile(bytes_of_picture, version=0, kind="clean"):
    """The answer to the GET of a tile."""
    head = ("HTTP/1.1 200 OK\r\nContent-Type: image/x-portable-pixmap\r\nContent-Length: %d\r\nX-Tile: %s\r\n"
            "X-Version: %d\r\nConnection: close\r\n\r\n") % (len(bytes_of_picture), kind, version)
    return head.encode() + bytes_of_picture


def plain(code, reason, body=None):
    """Every other answer over HTTP."""
    body = reason + "\n" if body is None else body
    return ("HTTP/1.1 %d %s\r\nContent-Type: text/plain\r\nContent-Length: %d\r\nConnection: close\r\n\r\n%s"
            % (code, reason, len(body), body)).encode()


BAD, NOT_FOUND = plain(400, "Bad Request"), plain(404, "Not Found")
NOT_GET, FAILED = plain(405, "Method Not Allowed"), plain(500, "Internal Server Error")
MISSING, MARKED = plain(200, "OK", "missing\n"), plain(200, "OK", "dirty\n")


def get(target):
    return ("GET %s HTTP/1.1\r\n\r\n" % target).encode()


def tally(asks, done, stored, version):
    return "asks %d done %d stored %d version %d\n" % (asks, done, stored, version)


# --- what a farm is made of -------------------------------------------------------------------------------------------

STYLE = ('{"background-color":"#ffffff","styles":[{"name":"s","rules":[{"symbolizers":[{"symbolizer":'
         '"PolygonSymbolizer","fill":"%s"}]}]}],"layers":[{"name":"l","source":"land","styles":["s"]}]}\n')
SQUARE = '[[[268435456,268435456],[805306368,268435456],[805306368,805306368],[268435456,805306368]]]'
WEST_HALF = '[[[0,0],[536870912,0],[536870912,1073741824],[0,1073741824]]]'

file("red.style", STYLE % "red")
file("blue.style", STYLE % "blue")
file("square.data", '{"units":"world","layers":[{"name":"land","features":[{"id":1,"geometry":{"polygon":%s}}]}]}\n' % SQUARE)
file("west.update", '{"units":"world","changes":[{"layer":"land","remove":[1],"put":[{"id":2,"geometry":{"polygon":%s}}]}]}\n' % WEST_HALF)
file("absent.update", '{"changes":[{"layer":"land","remove":[7]}]}\n')
file("world.list", "0/0/0\n")
# a tile of the metatile 5/8/8 alone, and of those above it
file("corner.list", "18/65536/65536\n")


def config(name, **more):
    """A configuration: one map of 16 pixels, two workers and three addresses, unless said otherwise."""
    keys = {"maps": [{"name": "default", "style": "red.style", "tile": 16}], "data": "square.data",
            "renderd": "unix:renderd", "tiles": "tcp:127.0.0.1:7654", "control": "unix:control"}
    for key, value in more.items():
        keys[key] = value
        if value is None:
            del keys[key]
    return file(name + ".config", json.dumps(keys) + "\n")


PLAIN = config("plain")


# --- cases ------------------------------------------------------------------------------------------------------------


class Side:
    """What happens on the ports of one front, and what is wanted of it."""

    def __init__(self, name, number):
        self.name, self.number = name, number
        self.lines, self.opened = [], 0
        self.end, self.left, self.loose = "finished", None, False
        self.want, self.rest, self.known = {}, {}, b""

    def say(self, *words):
        self.lines.append(" ".join([self.name] + [str(word) for word in words]))

    def open(self, count=1):
        self.say("open", count)
        self.opened += count

    def piece(self, conn, content, name, times=1, length=4096):
        """Bytes that come on a connection, from the file of that name."""
        self.say("bytes", conn, times, length, file(name, content))

    def ends(self, conn):
        self.say("end", conn)

    def lose(self, conn):
        self.say("lose", conn)

    def waits(self, front, sent):
        self.say("await", front, sent)

    def breaks(self):
        self.say("as", "break")

    def fail(self, send):
        self.say("fail", send)

    def deaf(self):
        self.say("as", "deaf")

    def either(self):
        """It is not determined whether its ports or the farm's stop end it first."""
        self.say("as", "over")
        self.end = "over"

    def sent(self, conn, content, state="open"):
        self.want[conn] = (state, content)

    def closed(self, conn, content=b""):
        self.want[conn] = ("closed", content)

    def sure(self, conn, content, state="open"):
        """What a connection is sent whatever else comes, told where else the status alone is."""
        self.say("sure", conn)
        self.known = b"%s %d.%d %d\n%s\n" % (state.encode(), self.number, conn, len(content), content)


class Case:
    def __init__(self, name, config_name=PLAIN):
        self.name, self.lines = name, []
        self.words = ["serve", config_name]
        self.renderd, self.tiles, self.control = Side("renderd", 0), Side("tiles", 1), Side("control", 2)
        self.sides = [self.renderd, self.tiles, self.control]
        CASES.append(self)

    def say(self, *words):
        self.lines.append(" ".join(str(word) for word in words))

    def text(self):
        lines = ["case " + self.name] + ["word " + word for word in self.words] + self.lines
        return "\n".join(lines + [line for side in self.sides for line in side.lines] + ["run", ""])

    def wants(self, status=0, out="", err="", left="farm", saved=None, lengths=False):
        """What is told of the case: all of it."""
        want = [b"case %s\nstatus %d\n" % (self.name.encode(), status), out.encode(), err.encode()]

        def put(content):
            want.append(b" %d\n" % len(content))
            if content and not lengths:
                want.append(content + b"\n")

        for side in self.sides:
            if left == "farm":
                # a rest for each connection that is there
                there = [conn for conn in range(side.opened) if side.want.get(conn, ("open",))[0] == "open"]
                want.append(b"front %d %s, rests %d, starved 0\n" % (side.number, side.end.encode(), len(there)))
                for conn, rest in sorted(side.rest.items()):
                    want.append(b"rest %d.%d" % (side.number, conn))
                    put(rest)
            for conn in range(side.opened):
                state, content = side.want.get(conn, ("open" if left == "farm" else "closed", b""))
                if (state, content) != ("open", b""):
                    want.append(b"%s %d.%d" % (state.encode(), side.number, conn))
                    put(content)
        want.append(b"left %s\n" % left.encode())
        if saved is not None:
            want.append(b"saved %d\n" % len(saved) + saved + b"\n")
        if lengths:
            self.say("tell lengths")
        WANTED.append(b"".join(want))

    def wants_status(self, status, err="", broken=None):
        """What is told of the case: its status, the front that broke, and the connections that are sure."""
        self.say("tell status")
        want = b"case %s\nstatus %d\n%s" % (self.name.encode(), status, err.encode())
        for side in self.sides:
            want += b"front %d broken\n" % side.number if side.number == broken else b""
            want += side.known
        WANTED.append(want)

    def wants_like(self, sink, name, text, how, status=0, out=b"", err=""):
        """What is told of the case: its status, how what stands on a sink is like a text, and what stands on the other one."""
        self.say("like", sink, file(name, text))
        told = b"%s: %s\n" % (sink.encode(), how.encode())
        puts = [told, err.encode()] if sink == "out" else [out, told]
        WANTED.append(b"case %s\nstatus %d\n" % (self.name.encode(), status) + b"".join(puts))


PORTS_FAILED = "tilefarm: the ports failed\n"
STORE_FAILED = "tilefarm: the store failed\n"
ROW = message(RENDER, 0, 0, 0)
ROW_DONE = message(DONE, 0, 0, 0)
ROW_FILE = "render_0_0_0.v2"
WORLD = tile(picture(0, 0, 0))
assert len(ROW) == 64 and len(WORLD) == 908 and ROW.hex().startswith("020000000100000000000000000000000000000064656661756c7400")


# --- renderd's protocol -----------------------------------------------------------------------------------------------

case = Case("a request and its Done")
case.renderd.open()
case.renderd.piece(0, ROW, ROW_FILE)
case.renderd.waits(0, 64)
case.renderd.sent(0, ROW_DONE)
case.wants(out=tally(1, 1, 1, 0))

case = Case("the same request byte by byte")
case.renderd.open()
case.renderd.piece(0, ROW, ROW_FILE, length=1)
case.renderd.waits(0, 64)
case.renderd.sent(0, ROW_DONE)
case.wants(out=tally(1, 1, 1, 0))

case = Case("every version, byte by byte and in two pieces at every byte: no such tile")
count = 0
for version in (1, 2, 3):
    asked = message(RENDER, 0, 1, 0, version)
    name = "render_0_1_0.v%d" % version
    refused = message(NOT_DONE, 0, 1, 0, version)
    case.renderd.open(len(asked))
    for cut in range(1, len(asked) + 1):
        # pieces of this length: the first ends at every byte in turn
        case.renderd.piece(count, asked, name, length=cut)
        case.renderd.sent(count, refused)
        count += 1
case.wants(out=tally(count, 0, 0, 0))

case = Case("requests in one piece, of every version and command")
asked = (message(RENDER, 0, 1, 0) + message(IGNORE, 0, 1, 1) + message(PRIO, 0, 1, 2, 3) + message(DIRTY, 0, 9, 9)
         + message(LOW, 0, 1, 3, 1) + message(DONE, 0, 0, 0) + message(BULK, 19, 0, 0) + message(8, 0, 0, 0) + ROW)
case.renderd.open()
case.renderd.piece(0, asked, "requests.v123")
answers = message(NOT_DONE, 0, 1, 0) + message(NOT_DONE, 0, 1, 2, 3) + message(NOT_DONE, 0, 1, 3, 1) + message(NOT_DONE, 19, 0, 0)
case.renderd.waits(0, len(answers) + 64)
case.renderd.sent(0, answers + ROW_DONE)
case.wants(out=tally(5, 1, 1, 0))

case = Case("two connections wait for one tile, and a third peer asks when it is there")
case.say("hold 0 1")
case.renderd.open(3)
case.renderd.piece(0, ROW, ROW_FILE)
case.renderd.piece(1, message(PRIO, 0, 0, 0, 3), "prio_0_0_0.v3")
case.renderd.piece(2, message(RENDER, 5, 8, 8), "render_5_8_8.v2")
case.renderd.waits(0, 64 + 144 + 64)
case.renderd.piece(2, message(BULK, 0, 0, 0, 1), "bulk_0_0_0.v1")
case.renderd.waits(0, 64 + 144 + 64 + 20)
case.renderd.sent(0, ROW_DONE)
case.renderd.sent(1, message(DONE, 0, 0, 0, 3))
case.renderd.sent(2, message(DONE, 5, 8, 8) + message(DONE, 0, 0, 0, 1))
case.wants(out=tally(4, 4, 2, 0))

case = Case("64 asks of one connection wait, and the 65th is answered at once")
case.say("hold 0 1")
case.renderd.open(2)
case.renderd.piece(0, message(RENDER, 3, 0, 0), "render_3_0_0.v2", times=64)
case.renderd.piece(0, message(RENDER, 3, 7, 7), "render_3_7_7.v2")
case.renderd.waits(0, 64)
case.renderd.piece(1, ROW, ROW_FILE)
case.renderd.waits(0, 64 * 66)
case.renderd.sent(0, message(NOT_DONE, 3, 7, 7) + 64 * message(DONE, 3, 0, 0))
case.renderd.sent(1, ROW_DONE)
case.wants(out=tally(66, 65, 2, 0))

for how in ("leaves", "is lost"):
    case = Case("a peer %s while its tile is drawn" % how)
    case.say("hold 0 1")
    case.renderd.open(2)
    case.renderd.piece(0, message(RENDER, 5, 8, 8), "render_5_8_8.v2")
    if how == "leaves":
        case.renderd.ends(0)
    else:
        case.renderd.lose(0)
    case.renderd.piece(1, ROW, ROW_FILE)
    case.renderd.waits(0, 64)
    case.renderd.closed(0)
    case.renderd.sent(1, ROW_DONE)
    case.wants(out=tally(2, 1, 2, 0))

# what the first two asked is forgotten, so its replies are not counted
case = Case("one peer leaves and one is lost while their tile is drawn, and a third waits for it")
case.say("hold 0 1")
case.renderd.open(4)
for conn in (0, 1):
    case.renderd.piece(conn, message(RENDER, 5, 8, 8), "render_5_8_8.v2")
case.renderd.ends(0)
case.renderd.lose(1)
case.renderd.piece(2, message(RENDER, 5, 8, 8), "render_5_8_8.v2")
case.renderd.piece(3, ROW, ROW_FILE)
case.renderd.waits(0, 128)
case.renderd.closed(0)
case.renderd.closed(1)
case.renderd.sent(2, message(DONE, 5, 8, 8))
case.renderd.sent(3, ROW_DONE)
case.wants(out=tally(4, 2, 2, 0))

case = Case("an unknown version closes its connection")
case.renderd.open()
case.renderd.piece(0, ROW, ROW_FILE)
case.renderd.waits(0, 64)
case.renderd.open()
case.renderd.piece(1, numbers(9), "version_9")
case.renderd.sent(0, ROW_DONE)
case.renderd.closed(1)
case.wants(out=tally(1, 1, 1, 0))

case = Case("unknown versions: byte by byte, behind a request, before one, and not yet known")
case.renderd.open(5)
case.renderd.piece(0, numbers(9), "version_9", length=1)
case.renderd.piece(1, message(RENDER, 0, 1, 0) + numbers(9), "request_and_version_9")
case.renderd.piece(2, numbers(0) + ROW, "version_0_and_request")
case.renderd.piece(3, b"\x09\x00\x00", "three_bytes_of_version_9")
case.renderd.piece(4, b"\x09\x00\x00", "three_bytes_of_version_9")
case.renderd.ends(4)
case.renderd.closed(0)
case.renderd.closed(1, message(NOT_DONE, 0, 1, 0))
case.renderd.closed(2)
case.renderd.closed(4)
case.wants(out=tally(1, 0, 0, 0))

LONG = "a" * 40
TWO_MAPS = config("two_maps", maps=[{"name": "default", "style": "red.style", "tile": 16},
                                    {"name": LONG, "style": "blue.style", "tile": 32, "maxzoom": 3}])
case = Case("maps by their names, of which 41 bytes are cut to 40, and a map's greatest zoom", TWO_MAPS)
case.renderd.open()
asked = message(RENDER, 3, 0, 0, name=LONG + "a")
case.renderd.piece(0, asked, "render_3_0_0.long")
case.renderd.waits(0, 64)
case.renderd.piece(0, message(RENDER, 4, 0, 0, name=LONG), "render_4_0_0.long")
case.renderd.piece(0, message(RENDER, 0, 0, 0, name="a"), "render_0_0_0.a")
case.renderd.piece(0, message(RENDER, 0, 0, 0, name=""), "render_0_0_0.nameless")
case.renderd.sent(0, message(DONE, 3, 0, 0, name=LONG) + message(NOT_DONE, 4, 0, 0, name=LONG)
                  + message(NOT_DONE, 0, 0, 0, name="a") + message(NOT_DONE, 0, 0, 0, name=""))
case.wants(out=tally(4, 1, 1, 0))

for workers in (1, 16):
    case = Case("as many workers as %d" % workers, config("workers_%d" % workers, workers=workers))
    case.renderd.open()
    case.renderd.piece(0, message(RENDER, 3, 0, 0), "one_of_a_metatile.v2")
    case.renderd.waits(0, 64)
    case.renderd.piece(0, message(RENDER, 3, 1, 1), "another_of_a_metatile.v2")
    case.renderd.waits(0, 128)
    case.renderd.sent(0, message(DONE, 3, 0, 0) + message(DONE, 3, 1, 1))
    case.wants(out=tally(2, 2, 1, 0))

# --- what peers take --------------------------------------------------------------------------------------------------

for count, length in ((16_384, 4096), (16_385, 64)):
    case = Case("a peer that takes nothing of %d answers" % count)
    case.say("take 0")
    case.renderd.open()
    if length == 64:
        case.renderd.piece(0, message(RENDER, 0, 1, 0), "render_0_1_0.v2", times=count)
        case.renderd.closed(0)
    else:
        case.renderd.piece(0, 64 * message(RENDER, 0, 1, 0), "64_requests.v2", times=count // 64)
        case.renderd.rest[0] = bytes(1_048_576)
    case.wants(out=tally(count, 0, 0, 0), lengths=True)

case = Case("what was not taken is handed back: two sends of ten bytes")
case.say("take 10")
case.renderd.open()
case.renderd.piece(0, message(RENDER, 0, 1, 0), "render_0_1_0.v2")
case.renderd.sent(0, message(NOT_DONE, 0, 1, 0)[:20])
case.renderd.rest[0] = message(NOT_DONE, 0, 1, 0)[20:]
case.wants(out=tally(1, 0, 0, 0))

case = Case("what was not taken is forgotten where the peer ends")
case.say("take 10")
case.renderd.open()
case.renderd.piece(0, message(RENDER, 0, 1, 0), "render_0_1_0.v2")
case.renderd.ends(0)
# once as the answer came, and once before the peer's end
case.renderd.closed(0, message(NOT_DONE, 0, 1, 0)[:20])
case.wants(out=tally(1, 0, 0, 0))

case = Case("a Done in sends of 30 bytes")
case.say("take 30")
case.renderd.open()
case.renderd.piece(0, ROW, ROW_FILE)
case.renderd.waits(0, 64)
case.renderd.sent(0, ROW_DONE)
case.wants(out=tally(1, 1, 1, 0))

case = Case("a tile in sends of 300 bytes: its connection is closed behind the last")
case.say("take 300")
case.tiles.open()
case.tiles.piece(0, get("/default/0/0/0.ppm"), "get_0_0_0")
case.tiles.waits(1, 908)
case.tiles.closed(0, WORLD)
case.wants(out=tally(1, 1, 1, 0))

case = Case("control answers in sends of 20 bytes")
case.say("take 20")
case.control.open()
case.control.piece(0, "stats\nnonsense\n", "stats_and_nonsense.control")
told = tally(0, 0, 0, 0) + "bad line\n"
case.control.waits(2, len(told))
case.control.sent(0, told.encode())
case.wants(out=tally(0, 0, 0, 0))

case = Case("a send that fails loses its connection alone")
case.renderd.open(2)
case.renderd.fail(0)
case.renderd.piece(0, message(RENDER, 0, 1, 0), "render_0_1_0.v2")
case.renderd.piece(1, ROW, ROW_FILE)
case.renderd.waits(0, 64)
case.renderd.closed(0)
case.renderd.sent(1, ROW_DONE)
case.wants(out=tally(2, 1, 1, 0))

case = Case("one connection too many")
case.renderd.open(1025)
case.renderd.closed(1024)
case.wants(out=tally(0, 0, 0, 0))

# --- tiles over HTTP --------------------------------------------------------------------------------------------------

case = Case("a tile byte by byte, and more behind its head")
case.tiles.open(2)
case.tiles.piece(0, get("/default/0/0/0.ppm"), "get_0_0_0", length=1)
case.tiles.waits(1, 908)
case.tiles.piece(1, get("/default/5/8/8.ppm") + get("/default/0/0/0.ppm"), "two_gets", length=50)
case.tiles.waits(1, 1816)
case.tiles.closed(0, WORLD)
case.tiles.closed(1, tile(picture(5, 8, 8)))
case.wants(out=tally(2, 2, 2, 0))

case = Case("targets: dirty, another method, and a tile that is none")
case.tiles.open(4)
case.tiles.piece(0, get("/default/0/0/0.ppm/dirty"), "get_0_0_0_dirty")
case.tiles.piece(1, "POST /default/0/0/0.ppm/dirty HTTP/1.1\r\n\r\n", "post_0_0_0_dirty")
case.tiles.piece(2, get("/default/0/1/0.ppm/status"), "get_0_1_0_status")
# the drawing that was wished for is over when this is answered
case.tiles.piece(3, get("/default/0/0/0.ppm"), "get_0_0_0")
case.tiles.waits(1, len(MARKED + NOT_GET + NOT_FOUND) + 908)
case.tiles.closed(0, MARKED)
case.tiles.closed(1, NOT_GET)
case.tiles.closed(2, NOT_FOUND)
case.tiles.closed(3, WORLD)
case.wants(out=tally(1, 1, 1, 0))

case = Case("status: missing, and clean")
case.tiles.open(3)
case.tiles.piece(0, get("/default/0/0/0.ppm/status"), "get_0_0_0_status")
case.tiles.piece(1, get("/default/0/0/0.ppm"), "get_0_0_0")
case.tiles.waits(1, len(MISSING) + 908)
case.tiles.piece(2, get("/default/0/0/0.ppm/status"), "get_0_0_0_status")
case.tiles.closed(0, MISSING)
case.tiles.closed(1, WORLD)
case.tiles.closed(2, plain(200, "OK", "clean 0\n"))
case.wants(out=tally(1, 1, 1, 0))

STATUS = "/default/0/0/0.ppm/status"
LINE = "GET %s HTTP/1.1\r\n" % STATUS
HEADERS = "".join("A%d: b\r\n" % number for number in range(32))


def of_length(length, end="\r\n\r\n"):
    """A head, or the beginning of one, of so many bytes."""
    front = LINE + "A: "
    return front + "b" * (length - len(front) - len(end)) + end


# each a file, what comes, whether the peer ends then, and the answer (None: none)
HEADS = [
    ("head_of_8192", of_length(8192), False, MISSING),
    ("head_of_8193", of_length(8193), False, BAD),
    ("no_head_of_8192", of_length(8192, ""), False, BAD),
    ("no_head_of_8191", of_length(8191, ""), False, None),
    ("no_head_of_8190", of_length(8190, ""), True, None),
    ("32_headers", LINE + HEADERS + "\r\n", False, MISSING),
    ("33_headers", LINE + HEADERS + "B: c\r\n\r\n", False, BAD),
    ("33_headers_open", LINE + HEADERS + "B: c\r\n", False, None),
    ("33_headers_ended", LINE + HEADERS + "B: c\r\nD", True, None),
    ("bare_newlines", "GET %s HTTP/1.1\nA: b\n\n" % STATUS, False, MISSING),
    ("empty_lines_first", "\r\n\n" + LINE + "\r\n", False, MISSING),
    ("http_1_0", "GET %s HTTP/1.0\r\n\r\n" % STATUS, False, MISSING),
    ("http_2", "GET %s HTTP/2.0\r\n\r\n" % STATUS, False, BAD),
    ("no_version", "GET %s\r\n\r\n" % STATUS, False, BAD),
    ("no_colon", LINE + "nonsense\r\n\r\n", False, BAD),
    ("nul", b"\0\0\0\0", False, BAD),
    ("half_a_head", LINE + "A: b\r\n", True, None),
    ("half_a_line", "GET /defa", True, None),
    ("get_in_small", "get %s HTTP/1.1\r\n\r\n" % STATUS, False, NOT_GET),
    ("head_method", "HEAD %s HTTP/1.1\r\n\r\n" % STATUS, False, NOT_GET),
    ("post_elsewhere", "POST /nowhere HTTP/1.1\r\n\r\n", False, NOT_GET),
    ("query", get(STATUS + "?a=b"), False, NOT_FOUND),
    ("percent", get("/default/0/0/0.pp%6d/status"), False, NOT_FOUND),
    ("percent_slash", get("/default%2f0/0/0.ppm"), False, NOT_FOUND),
    ("double_slash", get("//default/0/0/0.ppm/status"), False, NOT_FOUND),
    ("double_slash_within", get("/default//0/0/0.ppm/status"), False, NOT_FOUND),
    ("slash_behind", get(STATUS + "/"), False, NOT_FOUND),
    ("root", get("/"), False, NOT_FOUND),
    ("star", get("*"), False, NOT_FOUND),
    ("whole_address", get("http://localhost" + STATUS), False, NOT_FOUND),
    ("leading_zero", get("/default/00/0/0.ppm/status"), False, NOT_FOUND),
    ("plus", get("/default/+0/0/0.ppm/status"), False, NOT_FOUND),
    ("png", get("/default/0/0/0.png"), False, NOT_FOUND),
    ("ppm_in_capitals", get("/default/0/0/0.PPM/status"), False, NOT_FOUND),
    ("status_in_capitals", get("/default/0/0/0.ppm/STATUS"), False, NOT_FOUND),
    ("name_in_capitals", get("/Default/0/0/0.ppm/status"), False, NOT_FOUND),
    ("no_name", get("/0/0/0.ppm/status"), False, NOT_FOUND),
    ("no_such_map", get("/other/0/0/0.ppm/status"), False, NOT_FOUND),
    ("name_of_41", get("/%s/0/0/0.ppm/status" % ("a" * 41)), False, NOT_FOUND),
    ("z_19", get("/default/19/0/0.ppm/status"), False, NOT_FOUND),
    ("z_18", get("/default/18/262143/262143.ppm/status"), False, MISSING),
    ("x_past_18", get("/default/18/262144/0.ppm/status"), False, NOT_FOUND),
    ("z_past_32_bits", get("/default/4294967296/0/0.ppm/status"), False, NOT_FOUND),
    ("dirty_of_none", get("/default/0/0/1.ppm/dirty"), False, MARKED),
]
case = Case("heads and targets, each on a connection of its own")
case.tiles.open(len(HEADS))
for conn, (name, content, ends, answer) in enumerate(HEADS):
    case.tiles.piece(conn, content, name + ".head")
    if ends:
        case.tiles.ends(conn)
    if answer is not None or ends:
        case.tiles.closed(conn, answer or b"")
case.wants(out=tally(0, 0, 0, 0))

case = Case("heads byte by byte")
short = [entry for entry in HEADS if len(entry[1]) < 100]
case.tiles.open(len(short))
for conn, (name, content, ends, answer) in enumerate(short):
    case.tiles.piece(conn, content, name + ".head", length=1)
    if ends:
        case.tiles.ends(conn)
    if answer is not None or ends:
        case.tiles.closed(conn, answer or b"")
case.wants(out=tally(0, 0, 0, 0))

case = Case("a tile that is none is asked for, and not found")
case.tiles.open()
case.tiles.piece(0, get("/default/0/1/0.ppm"), "get_0_1_0")
case.tiles.closed(0, NOT_FOUND)
case.wants(out=tally(1, 0, 0, 0))

case = Case("two connections wait for one tile, and bytes behind their heads count for nothing")
case.say("hold 0 1")
case.tiles.open(3)
case.tiles.piece(0, get("/default/0/0/0.ppm"), "get_0_0_0")
case.tiles.piece(1, get("/default/0/0/0.ppm"), "get_0_0_0", length=7)
case.tiles.piece(0, get("/default/5/8/8.ppm"), "get_5_8_8")
case.tiles.piece(2, get("/default/5/8/8.ppm"), "get_5_8_8")
case.tiles.waits(1, 3 * 908)
case.tiles.closed(0, WORLD)
case.tiles.closed(1, WORLD)
case.tiles.closed(2, tile(picture(5, 8, 8)))
case.wants(out=tally(3, 3, 2, 0))

for how in ("leaves", "is lost"):
    case = Case("a peer %s while its tile is drawn for it" % how)
    case.say("hold 0 1")
    case.tiles.open(2)
    case.tiles.piece(0, get("/default/0/0/0.ppm"), "get_0_0_0")
    if how == "leaves":
        case.tiles.ends(0)
    else:
        case.tiles.lose(0)
    case.tiles.piece(1, get("/default/5/8/8.ppm"), "get_5_8_8")
    case.tiles.waits(1, 908)
    case.tiles.closed(0)
    case.tiles.closed(1, tile(picture(5, 8, 8)))
    case.wants(out=tally(2, 1, 2, 0))

case = Case("a store that refuses a container, and then takes it")
case.say("put 0")
case.tiles.open(2)
case.tiles.piece(0, get("/default/0/0/0.ppm"), "get_0_0_0")
case.tiles.waits(1, len(NOT_FOUND))
case.tiles.piece(1, get("/default/0/0/0.ppm"), "get_0_0_0")
case.tiles.waits(1, len(NOT_FOUND) + 908)
case.tiles.closed(0, NOT_FOUND)
case.tiles.closed(1, WORLD)
case.wants(out=tally(2, 1, 1, 0))

case = Case("a store that cannot read the head of a container, then not the tile, and then both")
case.say("get 0")
case.say("get 2")
case.tiles.open(3)
for conn in range(3):
    case.tiles.piece(conn, get("/default/0/0/0.ppm"), "get_0_0_0")
    case.tiles.waits(1, [len(FAILED), 2 * len(FAILED), 2 * len(FAILED) + 908][conn])
case.tiles.closed(0, FAILED)
case.tiles.closed(1, FAILED)
case.tiles.closed(2, WORLD)
case.wants(out=tally(3, 3, 1, 0))

# --- control lines ----------------------------------------------------------------------------------------------------

ONE_UPDATE = config("one_update", updates=["west.update"])
LINES = "expire 0\nupdate 0\nupdate 9\nnonsense\nstats\nstop\n"
SAID = "no list\nversion 1\nno update\nbad line\n" + tally(0, 0, 0, 1) + "stopping\n"
for length, how in ((4096, "in one piece"), (1, "byte by byte"), (7, "in pieces of seven bytes")):
    case = Case("control lines " + how, ONE_UPDATE)
    case.renderd.either()
    case.tiles.either()
    case.control.open()
    case.control.piece(0, LINES, "lines.control", length=length)
    case.control.sent(0, SAID.encode())
    case.control.end = "stopped"
    case.wants(out=tally(0, 0, 0, 1))

case = Case("long control lines, and returns before newlines")
LONG_LINES = [
    ("line_of_64", "x" * 64 + "\n", "bad line\n", True),
    ("line_of_65", "x" * 65, "bad line\n", False),
    ("line_of_65_and_more", "y" * 65 + "\nstats\n", "bad line\n", False),
    ("line_of_64_open", "x" * 64, "", True),
    ("line_of_63_and_return", "x" * 63 + "\r\n", "bad line\n", True),
    ("line_of_64_and_return", "x" * 64 + "\r\n", "bad line\n", False),
    ("stats_and_long", "stats\n" + "z" * 66 + "\nstats\n", tally(0, 0, 0, 0) + "bad line\n", False),
    ("return", "stats\r\n", tally(0, 0, 0, 0), True),
    ("two_returns", "stats\r\r\n", "bad line\n", True),
    ("empty_lines", "\n\r\n", "bad line\nbad line\n", True),
    ("no_newline", "stats", "", True),
    ("blanks", " stats\nstats \nstats x\nSTATS\nstop now\n", 5 * "bad line\n", True),
    ("bytes", b"\xff\xfe\n\0\n", "bad line\nbad line\n", True),
]
case.control.open(2 * len(LONG_LINES))
for place, (name, content, answer, stays) in enumerate(LONG_LINES):
    for conn, length in ((2 * place, 4096), (2 * place + 1, 1)):
        case.control.piece(conn, content, name + ".control", length=length)
        case.control.sent(conn, answer.encode(), "open" if stays else "closed")
case.wants(out=tally(0, 0, 0, 0))

ALL_TABLES = config("all_tables", updates=["west.update", "absent.update"], expiries=["world.list", "corner.list"],
                    restyles=[{"map": "default", "style": "blue.style"}])
case = Case("restyle, renew, update and expire, and the tile after each", ALL_TABLES)
case.control.open()
case.tiles.open(5)
told, answered = "", 0
for conn, (lines, answer, seen) in enumerate([
        ("", "", WORLD),
        ("restyle 0\nrestyle 1\n", "styled 1\nno restyle\n", tile(picture(0, 0, 0, colour=BLUE))),
        ("renew 1\nrenew 2\nrenew 0\n", "refused 2\nno update\nversion 1 renewed 1\n",
         tile(picture(0, 0, 0, 0, 0, 2**29, 2**30, colour=BLUE), version=1)),
        ("expire 2\nexpire 0\nexpire 0\n", "no list\nexpired 1\nexpired 0\n",
         tile(picture(0, 0, 0, 0, 0, 2**29, 2**30, colour=BLUE), version=1)),
        # the update's feature 1 is there no more, so it is refused
        ("update 1\nupdate 0\nstats\n", "refused 2\nrefused 2\n" + tally(4, 4, 4, 1),
         tile(picture(0, 0, 0, 0, 0, 2**29, 2**30, colour=BLUE), version=1))]):
    if lines:
        case.control.waits(1, answered)
        case.control.piece(0, lines, "lines_%d.control" % conn)
    told += answer
    case.tiles.waits(2, len(told))
    case.tiles.piece(conn, get("/default/0/0/0.ppm"), "get_0_0_0")
    case.tiles.closed(conn, seen)
    answered += len(seen)
    case.tiles.waits(1, answered)
case.control.sent(0, told.encode())
case.wants(out=tally(5, 5, 4, 1))

# The first drawing is expired while it is made; the next one of the same tile is held until all is seen.
case = Case("a tile that is expired while it is drawn is dirty until it is drawn again", ALL_TABLES)
case.say("hold 0 2")
case.say("hold 3 4")
case.tiles.open(6)
case.tiles.piece(0, get("/default/5/8/8.ppm"), "get_5_8_8")
case.tiles.piece(1, get("/default/4/8/0.ppm"), "get_4_8_0")
case.tiles.waits(1, 908)
case.control.waits(1, 908)
case.control.open()
case.control.piece(0, "expire 1\n", "expire_1.control")
case.control.sent(0, b"expired 0\n")
case.tiles.waits(2, 10)
case.tiles.piece(2, get("/default/4/0/8.ppm"), "get_4_0_8")
case.tiles.waits(1, 3 * 908)
case.tiles.piece(3, get("/default/5/8/8.ppm/status"), "get_5_8_8_status")
case.tiles.piece(4, get("/default/4/8/8.ppm"), "get_4_8_8")
case.tiles.piece(5, get("/default/5/8/8.ppm"), "get_5_8_8")
case.tiles.waits(1, 5 * 908 + len(plain(200, "OK", "dirty 0\n")))
case.tiles.closed(0, tile(picture(5, 8, 8), kind="dirty"))
case.tiles.closed(1, tile(picture(4, 8, 0)))
case.tiles.closed(2, tile(picture(4, 0, 8)))
case.tiles.closed(3, plain(200, "OK", "dirty 0\n"))
case.tiles.closed(4, tile(picture(4, 8, 8)))
case.tiles.closed(5, tile(picture(5, 8, 8)))
case.wants(out=tally(5, 5, 5, 0))

# --- three fronts and two workers -------------------------------------------------------------------------------------


def three_fronts(name, held=False):
    """A peer leaves before its tile is drawn; another gets its Done; then a tile, and then a stop."""
    made = Case(name)
    if held:
        made.say("hold 0 1")
    renderd, tiles, control = made.renderd, made.tiles, made.control
    renderd.open()
    renderd.piece(0, message(RENDER, 5, 8, 8), "render_5_8_8.v2")
    renderd.ends(0)
    renderd.open()
    renderd.piece(1, ROW, ROW_FILE)
    renderd.waits(0, 64)
    tiles.waits(0, 64)
    tiles.open()
    tiles.piece(0, get("/default/0/0/0.ppm"), "get_0_0_0")
    tiles.waits(1, 908)
    control.waits(0, 64)
    control.waits(1, 908)
    control.open()
    control.piece(0, "stop\n", "stop.control")
    return made


case = three_fronts("three fronts, and a stop", held=True)
case.renderd.either()
case.tiles.either()
case.control.end = "stopped"
case.renderd.closed(0)
case.renderd.sent(1, ROW_DONE)
case.tiles.closed(0, WORLD)
case.control.sent(0, b"stopping\n")
case.wants(out=tally(3, 2, 2, 0))

for place, name in enumerate(("renderd", "tiles", "control")):
    case = three_fronts("nobody listens for " + name)
    case.sides[place].deaf()
    case.wants(status=7, err=PORTS_FAILED, left="store")



def fewer(made, front):
    """Leaves out the waits for bytes of that front, which never come."""
    for other in made.sides:
        other.lines = [line for line in other.lines if line.split()[1:3] != ["await", str(front)]]


def sure_of_loss(made, name, conn, step):
    """What is sent on the other connections, and on the lost one where it came before: all of it but for the tile of 5/8/8,
    which is held where it is drawn."""
    if (name, conn) != ("renderd", 1) or step == 5:
        # the Done was awaited before its connection was lost
        made.renderd.sure(1, ROW_DONE, "closed" if (name, conn) == ("renderd", 1) else "open")
    if name != "tiles" or step == 3:
        made.tiles.sure(0, WORLD, "closed")
    if name != "control":
        made.control.sure(0, b"stopping\n")


# What is answered at once: a tile beyond the world, and a status.
SPARSE = message(RENDER, 0, 1, 0), message(NOT_DONE, 0, 1, 0)
STATUS = get("/default/0/0/0.ppm/status"), plain(200, "OK", "missing\n")

for place, name in enumerate(("renderd", "tiles", "control")):
    steps = three_fronts("").sides[place].lines
    CASES.pop()
    for step, line in enumerate(steps):
        case = three_fronts("%s: ports that break behind step %d" % (name, step))
        case.sides[place].lines[step + 1:] = [name + " as break"]
        # the control front has stopped the farm, and ended, before its ports break
        if line.endswith("stop.control"):
            case.wants_status(0)
        else:
            case.wants_status(7, PORTS_FAILED, broken=place)
            # nobody stops the farm, or the stop could come before the break is heard
            if name != "control":
                case.control.lines = [it for it in case.control.lines if " await " in it]
        # a connection that is there, whose later steps are left out, with the waits for what is not sent on it
        opened = sum(before == name + " open 1" for before in steps[:step + 1])
        gone = [before.split()[2] for before in steps[:step + 1] if before.startswith(name + " end")]
        for conn in range(opened):
            if str(conn) in gone:
                continue
            # where nobody asks for 5/8/8 the first ticket is that of the world, which no other one lets go
            is_drawn = (name, step) != ("renderd", 0)
            case = three_fronts("%s: connection %d is lost behind step %d" % (name, conn, step), held=is_drawn)
            later = [after for after in steps[step + 1:] if after.split()[1:3] not in (["bytes", str(conn)], ["end", str(conn)])]
            case.sides[place].lines = steps[:step + 1] + ["%s lose %d" % (name, conn)] + later
            unsent = not any(before.startswith("%s await %d" % (name, place)) for before in steps[:step + 1])
            if unsent and (name, conn) != ("renderd", 0):
                fewer(case, place)
            if (name, conn, step) == ("renderd", 1, 5):
                # the stop waits for the answer to another one, so that the loss was heard before it
                case.renderd.open()
                case.renderd.piece(2, SPARSE[0], "render_0_1_0.v2")
                case.control.lines[0] = "control await 0 128"
            sure_of_loss(case, name, conn, step)
            case.wants_status(0)
    case = three_fronts("%s: the first send fails" % name, held=True)
    case.sides[place].fail(0)
    fewer(case, place)
    if name != "renderd":
        case.renderd.sure(1, ROW_DONE)
    if name != "tiles":
        case.tiles.sure(0, WORLD, "closed")
    if name != "control":
        case.control.sure(0, b"stopping\n")
    case.wants_status(0)

# Two connections on each port, each answered in the round of its piece, so that it is determined on which one a send fails.
# Where it is the last one, a third is answered behind it, so that the stop comes when the failing one was heard.
for place, name in enumerate(("renderd", "tiles", "control")):
    for failing in (0, 1):
        counts = [3 if failing and front == place else 2 for front in (0, 1)]
        case = Case("%s: send %d of %s fails" % (name, failing, "three" if 3 in counts else "two"))
        renderd, tiles, control = case.sides
        for side, count, ask, file_name in ((renderd, counts[0], SPARSE[0], "render_0_1_0.v2"), (tiles, counts[1], STATUS[0], "get_0_0_0_status")):
            for conn in range(count):
                side.open()
                side.piece(conn, ask, file_name)
        control.open()
        control.piece(0, "update 7\n", "update.control")
        for front, answer in ((0, SPARSE[1]), (1, STATUS[1])):
            control.waits(front, len(answer) * (counts[front] - (front == place)))
        control.open()
        control.piece(1, "stop\n", "stop.control")
        case.sides[place].fail(failing)
        for side, answers in zip(case.sides, ([SPARSE[1]] * counts[0], [STATUS[1]] * counts[1], [b"no update\n", b"stopping\n"])):
            for conn, answer in enumerate(answers):
                is_lost = side.number == place and conn == failing
                side.want[conn] = ("closed" if is_lost or side is tiles else "open", b"" if is_lost else answer)
        renderd.either()
        tiles.either()
        control.end = "stopped"
        case.wants(out=tally(counts[0], 0, 0, 0))

# Ticket 0 is held until an ask, a fetch and a drawing beside it were answered: one worker cannot do that.
for apart in (False, True):
    case = Case("one drawing is held while others are answered" + (", on connections of their own" if apart else ""))
    case.say("hold 0 2")
    conns = [0, 1, 2] if apart else [0, 0, 0]
    case.renderd.open(3 if apart else 1)
    for conn, (z, x, y) in zip(conns, ((4, 0, 0), (4, 8, 0), (4, 0, 8))):
        if (z, x, y) == (4, 0, 8):
            case.renderd.waits(1, 908)
        case.renderd.piece(conn, message(RENDER, z, x, y), "render_%d_%d_%d.v2" % (z, x, y))
    case.renderd.waits(0, 192)
    case.tiles.waits(0, 64)
    case.tiles.open()
    case.tiles.piece(0, get("/default/4/8/0.ppm"), "get_4_8_0")
    case.tiles.waits(1, 908)
    case.control.waits(1, 908)
    case.tiles.closed(0, tile(picture(4, 8, 0)))
    if apart:
        for conn, (z, x, y) in zip(conns, ((4, 0, 0), (4, 8, 0), (4, 0, 8))):
            case.renderd.sent(conn, message(DONE, z, x, y))
    else:
        # the first and the last Done may come in either order
        case.renderd.sent(0, bytes(192))
    case.wants(out=tally(4, 4, 3, 0), lengths=not apart)

# --- resuming ---------------------------------------------------------------------------------------------------------

SAVED = bytes.fromhex("46535631" "01000000" "00000000" "0100000000000000" "00000000" "00000000" "0100000000000000"
                      + "00000000" * 4 + "0100000000000000")
EMPTY = b"FSV1" + numbers(1, 0) + bytes(16)
assert len(SAVED) == 60
RESUMED = config("resumed", resume=True, updates=["west.update"])
NO_UPDATES = config("resumed_without_updates", resume=True)
WEST = tile(picture(0, 0, 0, 0, 0, 2**29, 2**30), version=1)

case = Case("a farm goes on from what was saved, and is saved again", RESUMED)
case.say("saved", file("one_clean.saved", SAVED))
case.tiles.open()
case.tiles.piece(0, get("/default/0/0/0.ppm/status"), "get_0_0_0_status")
case.tiles.closed(0, plain(200, "OK", "clean 1\n"))
case.wants(out=tally(1, 1, 1, 1), saved=SAVED)

case = Case("a farm that was saved with an update that is no more", NO_UPDATES)
case.say("saved", "one_clean.saved")
case.wants(status=1, err="tilefarm: farm.saved: resume 2\n", left="store", saved=SAVED)

for nothing in (None, b""):
    case = Case("what is saved where there was %s" % ("nothing" if nothing is None else "an empty text"), RESUMED)
    if nothing is not None:
        case.say("saved", file("empty.saved", nothing))
    case.control.open()
    case.control.piece(0, "update 0\n", "update_0.control")
    case.control.sent(0, b"version 1\n")
    case.tiles.waits(2, 10)
    case.tiles.open()
    case.tiles.piece(0, get("/default/0/0/0.ppm"), "get_0_0_0")
    case.tiles.waits(1, 908)
    case.tiles.closed(0, WEST)
    case.wants(out=tally(1, 1, 1, 1), saved=SAVED)



def saved_text(styles, updates, clean):
    """The text of a saved farm: a map's last restyle and 1, or 0; kinds and numbers of updates; clean metatiles."""
    long = lambda number: number.to_bytes(8, "little")
    text = b"FSV1" + numbers(len(styles), *styles) + long(len(updates)) + b"".join(numbers(*update) for update in updates)
    return text + long(len(clean)) + b"".join(numbers(0, z, x, y) + long(version) for z, x, y, version in clean)


assert saved_text([0], [(0, 0)], [(0, 0, 0, 1)]) == SAVED

# Three runs, each from what the one before saved. Its tiles are not in the store here, so how they stand is asked.
IN_TURN = config("in_turn", resume=True, updates=["west.update"], expiries=["corner.list"],
                 restyles=[{"map": "default", "style": "blue.style"}])
FIRST = saved_text([0], [(0, 0)], [(0, 0, 0, 1), (5, 16, 8, 0)])
SECOND = saved_text([1], [(0, 0)], [(5, 8, 8, 1)])


def stands(made, first, *wants):
    """How three tiles stand."""
    made.tiles.open(3)
    for conn, (place, want) in enumerate(zip(("0/0/0", "5/8/8", "5/16/8"), wants), first):
        made.tiles.piece(conn, get("/default/%s.ppm/status" % place), "get_%s_status" % place.replace("/", "_"))
        made.tiles.closed(conn, plain(200, "OK", want + "\n"))
    return sum(len(made.tiles.want[conn][1]) for conn in range(first, first + 3))


case = Case("the first of three runs: an update, an expiry and a tile drawn again", IN_TURN)
case.tiles.open(3)
for conn, place in enumerate(((0, 0, 0), (5, 8, 8), (5, 16, 8))):
    case.tiles.piece(conn, get("/default/%d/%d/%d.ppm" % place), "get_%d_%d_%d" % place)
    case.tiles.closed(conn, tile(picture(*place)))
case.control.waits(1, 3 * 908)
case.control.open()
case.control.piece(0, "update 0\nexpire 0\n", "update_0_expire_0.control")
case.control.sent(0, b"version 1\nexpired 2\n")
case.tiles.waits(2, 20)
case.tiles.open()
case.tiles.piece(3, get("/default/0/0/0.ppm"), "get_0_0_0")
case.tiles.closed(3, WEST)
case.tiles.waits(1, 4 * 908)
stands(case, 4, "clean 1", "dirty 0", "clean 0")
case.wants(out=tally(4, 4, 4, 1), saved=FIRST)

case = Case("the second of three runs: what was clean is, and then all is restyled", IN_TURN)
case.say("saved", file("first.saved", FIRST))
told = stands(case, 0, "clean 1", "missing", "clean 0")
case.control.waits(1, told)
case.control.open()
case.control.piece(0, "restyle 0\n", "restyle_0.control")
case.control.sent(0, b"styled 2\n")
case.tiles.waits(2, 9)
case.tiles.open()
case.tiles.piece(3, get("/default/5/8/8.ppm"), "get_5_8_8")
case.tiles.closed(3, tile(picture(5, 8, 8, 0, 0, 2**29, 2**30, colour=BLUE), version=1))
case.tiles.waits(1, told + 908)
stands(case, 4, "dirty 1", "clean 1", "dirty 0")
case.wants(out=tally(3, 3, 3, 1), saved=SECOND)

case = Case("the third of three runs: what was clean is, and nothing else", IN_TURN)
case.say("saved", file("second.saved", SECOND))
stands(case, 0, "missing", "clean 1", "missing")
case.wants(out=tally(1, 1, 1, 1), saved=SECOND)

for name, content, text in (
        ("short", SAVED[:59], "saved 1"), ("magic", b"FSV2" + SAVED[4:], "saved 2"),
        ("kind", SAVED[:20] + numbers(2) + SAVED[24:], "saved 3"), ("late", SAVED[:52] + numbers(2, 0), "saved 4"),
        ("extra", SAVED + b"\0", "saved 5"),
        ("maps", b"FSV1" + numbers(2, 0, 0) + bytes(16), "resume 1"), ("restyle", b"FSV1" + numbers(1, 1) + bytes(16), "resume 2"),
        ("map", SAVED[:36] + numbers(1) + SAVED[40:], "resume 3"),
        ("apply", b"FSV1" + numbers(1, 0, 2, 0, 0, 0, 0, 0) + bytes(8), "resume 4")):
    case = Case("a saved farm that is refused: " + name, RESUMED)
    case.say("saved", file(name + ".saved", content))
    case.wants(status=1, err="tilefarm: farm.saved: %s\n" % text, left="store", saved=content)

case = Case("what was saved cannot be got", RESUMED)
case.say("saved", "one_clean.saved")
case.say("get 0")
case.wants(status=6, err=STORE_FAILED, left="store", saved=SAVED)

# after a put that failed the store in memory holds half of the bytes
case = Case("what was saved cannot be put away", RESUMED)
case.say("saved", "one_clean.saved")
case.say("put 0")
case.wants(status=6, err=STORE_FAILED, left="store", saved=b"")

case = Case("a farm cannot be saved at its end", RESUMED)
case.say("put 1")
case.wants(status=6, out=tally(0, 0, 0, 0), err=STORE_FAILED, saved=EMPTY[:len(EMPTY) // 2])

case = Case("a farm whose ports broke is not saved", RESUMED)
case.say("saved", "one_clean.saved")
case.renderd.breaks()
case.renderd.end = "broken"
case.tiles.either()
case.control.either()
case.wants(status=7, out=tally(1, 1, 1, 1), err=PORTS_FAILED, saved=b"")

# --- ends of the call -------------------------------------------------------------------------------------------------

USAGE = ("usage: tilefarm render STYLE DATA T Z X Y | script CONFIG SCRIPT | serve CONFIG | load SEED N | meta FILE\n")
for words in (["serve"], ["serve", PLAIN, PLAIN], ["Serve", PLAIN]):
    case = Case("words: " + " ".join(words))
    case.words = words
    case.wants(status=2, err=USAGE, left="store")

case = Case("no configuration", "absent.config")
case.wants(status=3, err="tilefarm: absent.config: cannot be read\n", left="store")

case = Case("no style", config("no_style", maps=[{"name": "default", "style": "absent.style", "tile": 16}]))
case.wants(status=3, err="tilefarm: absent.style: cannot be read\n", left="store")

case = Case("no list", config("no_list", expiries=["world.list", "absent.list"]))
case.wants(status=3, err="tilefarm: absent.list: cannot be read\n", left="store")

case = Case("a list that is refused", config("bad_list", expiries=["world.list", "red.style"]))
case.wants(status=1, err="tilefarm: red.style: list 1 at line 1\n", left="store")

for number, key in ((7, "renderd"), (8, "tiles"), (9, "control")):
    case = Case("no address: " + key, config("no_" + key, **{key: None, "data": "absent.data"}))
    case.wants(status=1, err="tilefarm: no_%s.config: config 2 at %d\n" % (key, number), left="store")

case = Case("a put on out that fails")
case.say("out 0")
case.renderd.open()
case.renderd.piece(0, ROW, ROW_FILE)
case.renderd.waits(0, 64)
case.wants_status(4)

# --- calls of which reads or puts fail, by the number of the read or put ------------------------------------------------

SAME, FRONT, MORE = "the same", "a front", "more"


def called(name, *words):
    """A call with these words."""
    made = Case(name)
    made.words = list(words)
    return made


def unread(name):
    return "tilefarm: %s: cannot be read\n" % name


# two rasters that no layer shows
raster = file("red.raster", b"P6 1 1 255\n" + RED)
rasters = [{"name": name, "file": raster, "west": 0, "north": 0, "pixel": 1} for name in ("a", "b")]
file("two_rasters.style", json.dumps({"styles": [], "layers": [], "rasters": rasters}) + "\n")
file("nothing.data", '{"layers":[]}\n')
DRAWING = ("render", "two_rasters.style", "nothing.data", "16", "0", "0", "0")
EMPTY_TILE = picture(0, 0, 0, colour=WHITE)
assert len(EMPTY_TILE) == 781
case = called("a drawing", *DRAWING)
case.wants_like("out", "white.picture", EMPTY_TILE, SAME)
# a put on err that is to fail asks nothing of a success
case = called("a success puts nothing on err", *DRAWING)
case.say("err 0")
case.wants_like("out", "white.picture", EMPTY_TILE, SAME)
case = called("a tile whose put fails", *DRAWING)
case.say("out 0")
case.wants_like("out", "white.picture", EMPTY_TILE, FRONT, status=4)
case = called("a refusal whose put fails")
case.say("err 0")
case.wants_like("err", "usage", USAGE, FRONT, status=4)

# a container of one tile, of one byte that is 0, behind the head of 532 bytes
file("one_byte.meta", (b"META" + numbers(64, 0, 0, 0, 532, 1)).ljust(532, b"\0") + bytes(1))
case = called("a container", "meta", "one_byte.meta")
case.wants(out="0 0 0\n0 532 1\n", left="store")
case = called("a container whose read fails", "meta", "one_byte.meta")
case.say("read 0")
case.wants(status=3, err=unread("one_byte.meta"), left="store")
# the sink takes half of a put that fails
case = called("a container whose put fails", "meta", "one_byte.meta")
case.say("out 0")
case.wants(status=4, out="0 0 0\n0", left="store")

# The script draws the world, draws it again behind an expiry, and asks for it once more. The feature is too small to be seen.
config("speck", data="speck.data", renderd=None, tiles=None, control=None)
file("speck.data", '{"units":"world","layers":[{"name":"land","features":[{"id":1,"geometry":{"polygon":[[[0,0],[9,0],[9,9]]]}}]}]}\n')
file("twice.script", "".join(line + "\n" for line in (
    "ask 0 render default 0 0 0", "claim 0", "finish 0", "collect 0", "expire 0 0 0", "ask 0 render default 0 0 0", "claim 0",
    "finish 1", "collect 0", "look default 0 0 0", "ask 0 render default 0 0 0", "claim 0", "finish 2", "fetch default 0 0 0")))  # fmt: skip
TWICE = ("script", "speck.config", "twice.script")
ANSWERS = "".join(line + "\n" for line in (
    "queued 0", "job 0 default 0 0 0 0", "clean", "reply 0 0 done", "expired 1", "queued 1", "job 1 default 0 0 0 0", "clean",
    "reply 0 1 done", "clean 0", "done", "idle", "nojob", "clean 0 781")).encode() + EMPTY_TILE + b"\n"  # fmt: skip
for read, name in enumerate(("speck.config", "red.style", "speck.data", "twice.script")):
    case = called("a script whose reads fail: %d" % read, *TWICE)
    case.say("read", read)
    case.wants(status=3, err=unread(name), left="store")
case = called("a script", *TWICE)
case.wants_like("out", "twice.answers", ANSWERS, SAME)
# one put for each answer, and two more for the bytes of the tile; there is no further one that could fail
for put in range(17):
    case = called("a script whose puts fail: %d" % put, *TWICE)
    case.say("out", put)
    case.wants_like("out", "twice.answers", ANSWERS, *((FRONT, 4) if put < 16 else (SAME, 0)))

# --- refusals that are rare, and work over more features than the cases of scripts have ------------------------------------

for words in (["script", "C"], ["script", "C", "S", "T"], ["load", "1"], ["load", "1", "2", "3"], ["serve"], ["meta", "M", "N"]):
    case = called("words too few and too many: " + " ".join(words), *words)
    case.wants(status=2, err=USAGE, left="store")
case = called("a long name", "meta", 200 * "n")
case.wants(status=3, err=unread(200 * "n"), left="store")
case = called("work over many features", "load", "1", "3000")
case.wants_like("out", "features_3000", "features 3000 asks 32 ", MORE)


def main(folder):
    file("serves", "# made by oracle/serve_cases.py\n" + "\n".join(case.text() for case in CASES))
    for name, content in FILES.items():
        with open(folder + "/" + name, "wb") as out:
            out.write(content)
    assert len(CASES) == len(WANTED)


if __name__ == "__main__":
    main(sys.argv[1])
