"""Cases of a running farm for `differ.py`: saved farms that it goes on from, and bytes on its three sockets.

What is wanted is told by the formats alone: of a saved farm its first fault, or what is clean; of a head, a stream of
messages and control lines the answer. All happens in a folder of its own over Unix sockets.
"""

import json
import os
import random
import re
import socket
import struct
import subprocess
import tempfile
import time

import farm
import serve
import serve_cases
import texts
from serve_cases import NOT_FOUND, plain
from tilefarm import Refused

EACH = 20  # seconds for one wait
SHOWN = 2000  # letters of a difference
TILE = 16
MAPS = (("default", 18), ("m2", 3))
RESTYLES = (0, 1, 0)
AGAIN = b'{"changes":[{"layer":"land","put":[{"id":2,"geometry":{"points":[[0,0]]}}]}]}'  # which may come more than once
NAMED = {"paths": [[(2**29, 2**29)]]}  # the point that it puts, in world units, which is there from then on
LENGTHS = {1: 20, 2: 64, 3: 144}


# --- A farm in a folder -----------------------------------------------------------------------------------------


class Farm:
    """A running `tilefarm serve` in a folder."""

    def __init__(self, program, folder, **more):
        self.folder = folder
        config = {"maps": [{"name": name, "style": "red.style", "tile": TILE, "maxzoom": most} for name, most in MAPS]}
        config.update(data="square.data", workers=1, renderd="unix:r", tiles="unix:t", control="unix:c", **more)
        contents = {"config": json.dumps(config).encode(), "again.update": AGAIN}
        contents.update({name: serve_cases.FILES[name] for name in ("red.style", "square.data", "absent.update")})
        for name, content in contents.items():
            with open(os.path.join(folder, name), "wb") as out:
                out.write(content)
        self.process = subprocess.Popen([program, "serve", "config"], cwd=folder, stdin=subprocess.DEVNULL,
                                        stdout=subprocess.PIPE, stderr=subprocess.PIPE)  # fmt: skip

    def listens(self):
        """Whether it listens at all three sockets; not where it has ended."""
        end = time.monotonic() + EACH
        for name in "rtc":
            while self.process.poll() is None and time.monotonic() < end:
                try:
                    self.connected(name).close()
                    break
                except OSError:
                    time.sleep(0.005)
        return self.process.poll() is None

    def connected(self, name):
        made = socket.socket(socket.AF_UNIX)
        made.settimeout(EACH)
        try:
            made.connect(os.path.join(self.folder, name))
        except OSError:
            made.close()
            raise
        return made

    def told(self, name, pieces, wanted=0):
        """All that comes on a connection of its own: so many bytes are waited for before this side ends."""
        got = b""
        with self.connected(name) as made:
            send(made.sendall, pieces)
            has_ended = False
            while True:
                if len(got) >= wanted and not has_ended:
                    send(made.shutdown, [socket.SHUT_WR])
                    has_ended = True
                try:
                    piece = made.recv(65536)
                except ConnectionResetError:
                    return got
                except OSError as error:
                    return got + b" and then %s" % str(error).encode()
                if not piece:
                    return got
                got += piece

    def ended(self):
        """Its status, and what it wrote on both streams."""
        try:
            out, err = self.process.communicate(timeout=EACH)
        except subprocess.TimeoutExpired:
            self.process.kill()
            out, err = self.process.communicate()
            err += b" and no end within %d seconds" % EACH
        return self.process.returncode, out, err


def send(call, values):
    """Calls with each value, as long as the farm has not closed the connection."""
    try:
        for value in values:
            call(value)
    except OSError:
        pass


# --- Saved farms ------------------------------------------------------------------------------------------------


def drawn_saved(r):
    """The text of a saved farm, of which one thing in three is wrong somewhere."""
    odd = lambda value, other: other if r.random() < 0.06 else value
    styles = [odd(r.choice((0, 1, 3)), r.choice((2, 4, 2**32 - 1))), odd(r.choice((0, 2)), r.choice((1, 3)))]
    styles = odd(styles, styles[:1] if r.random() < 0.5 else styles + [0])
    updates = [(r.randrange(2), odd(0, r.choice((1, 2)))) for _ in range(r.randrange(4))]
    clean = {}
    for _ in range(r.choice((0, 1, 3, 9))):
        place = r.randrange(2)
        z = odd(r.randrange(MAPS[place][1] + 1), 19)
        x, y = (8 * r.randrange(max(2**z // 8, 1)) for _ in "xy")
        clean[odd(place, 2), z, odd(x, x + 1), y] = {"version": odd(r.randrange(len(updates) + 1), len(updates) + 1), "clean": True}
    text = serve.saved_text(styles, updates, clean)
    way = r.random()
    if way < 0.1:
        return text[: r.randrange(len(text))]
    if way < 0.15:
        return text + bytes([r.randrange(256)])
    if way < 0.25:
        at = r.randrange(len(text))
        return text[:at] + bytes([r.randrange(256)]) + text[at + 1 :]
    return text


def saved_parts(text):
    """Maps, updates and clean metatiles of a text that is one, or of none."""
    if not text:
        return [0] * len(MAPS), [], []
    reader = serve.Reader(text)
    reader.take("<4s")
    styles = [reader.take("<I")[0] for _ in range(reader.take("<I")[0])]
    updates = [reader.take("<2I") for _ in range(reader.take("<Q")[0])]
    clean = [reader.take("<4IQ") for _ in range(reader.take("<Q")[0])]
    return styles, updates, clean


def saved_fault(text):
    """The first fault of a saved farm, or none. Its second update removes what is not there."""
    if not text:
        return None
    try:
        texts.saved_told(text)
    except Refused as fault:
        return " ".join(str(fault).split(" ")[:2])
    styles, updates, clean = saved_parts(text)
    if len(styles) != len(MAPS):
        return "resume 1"
    fits = lambda place, number: number == 0 or number <= len(RESTYLES) and RESTYLES[number - 1] == place
    if not all(fits(place, number) for place, number in enumerate(styles)) or any(number > 1 for _, number in updates):
        return "resume 2"
    if any(place >= len(MAPS) or z > MAPS[place][1] for place, z, _, _, _ in clean):
        return "resume 3"
    return "resume 4" if any(number == 1 for _, number in updates) else None


def is_touched(updates, kept):
    """Whether a renew that comes again after a metatile was shown reaches it, so that it is dirty."""
    place, z, x, y, version = kept
    return any(kind == 1 for kind, _ in updates[version:]) and farm.reaches(NAMED, TILE, (place, z, x, y))


def saved_case(program, seed, number):
    """What differs of a farm that goes on from a saved one."""
    text = drawn_saved(random.Random("saved %d %d" % (seed, number)))
    with tempfile.TemporaryDirectory(prefix="differ-") as folder:
        os.mkdir(os.path.join(folder, "tiles"))
        saved = os.path.join(folder, "tiles", "farm.saved")
        with open(saved, "wb") as out:
            out.write(text)
        restyles = [{"map": MAPS[place][0], "style": "red.style"} for place in RESTYLES]
        server = Farm(program, folder, resume=True, restyles=restyles, updates=["again.update", "absent.update"])
        seen, want = resumed(server, text)
        with open(saved, "rb") as file:
            seen, want = seen + [file.read()], want + [kept_text(text)]
    return None if seen == want else "%s: %r, not %r" % (text.hex(), seen, want)


def kept_text(text):
    """What is saved of a farm that went on from the text and was asked for nothing: a text that is refused stays."""
    if saved_fault(text):
        return text
    styles, updates, clean = saved_parts(text)
    marks = {kept[:4]: {"version": kept[4], "clean": not is_touched(updates, kept)} for kept in clean}
    return serve.saved_text(styles, updates, marks)


def resumed(server, text):
    """What is seen of a farm that goes on from the text, and what is wanted."""
    fault = saved_fault(text)
    if fault:
        return [server.ended()], [(1, b"", b"tilefarm: farm.saved: %s\n" % fault.encode())]
    if not server.listens():
        return [server.ended()], ["it serves"]
    _, updates, clean = saved_parts(text)
    seen, want = [], []
    for kept in clean[:4]:
        place, z, x, y, version = kept
        target = "/%s/%d/%d/%d.ppm/status" % (MAPS[place][0], z, x, y)
        seen.append(server.told("t", [serve_cases.get(target)], 1))
        want.append(plain(200, "OK", "%s %d\n" % ("dirty" if is_touched(updates, kept) else "clean", version)))
    tally = b"asks %d done %d stored %d version %d\n" % ((len(clean),) * 3 + (len(updates),))
    seen.append(server.told("c", [b"stats\nstop\n"], len(tally) + 9))
    want.append(tally + b"stopping\n")
    return seen + [server.ended()], want + [(0, tally, b"")]


# --- Bytes on sockets -------------------------------------------------------------------------------------------


def cut(r, data):
    """The data in pieces."""
    places = sorted(r.randrange(len(data) + 1) for _ in range(r.choice((0, 1, 3))))
    return [data[a:b] for a, b in zip([0] + places, places + [len(data)]) if a < b]


def drawn_text(r):
    return r.choice((b"default", b"default", b"m2", b"nomap", b"", b"image/png", b"\xff\x80", bytes(r.randrange(256) for _ in range(41))))


def messages(r):
    """A stream of messages, and what is sent for it: the world of `default` is clean, and nothing else is asked of a map."""
    sent = wanted = b""
    for _ in range(r.randrange(1, 9)):
        version, command = r.randrange(1, 4), r.choice((1, 1, 5, 6, 7, 2, 0, 3, 4, 8, 2**32 - 1))
        z, x, y = r.choice(((0, 0, 0), (0, 0, 1), (19, 0, 0), (18, 2**18, 0), (5, 2**32 - 1, 0)))
        fields = [drawn_text(r) for _ in range(version if version == 3 else version - 1)]
        name = fields[0].split(b"\0")[0][:40] if fields else b"default"
        if name == b"m2" or command == 2 and (z, x, y) == (0, 0, 0):
            continue
        texts_of = lambda kept: b"".join(struct.pack("41s", field) for field in kept).ljust(LENGTHS[version] - 20, b"\0")
        sent += struct.pack("<5I", version, command, x, y, z) + texts_of(fields)
        if command in (1, 5, 6, 7):
            told = 3 if name == b"default" and (z, x, y) == (0, 0, 0) else 4
            kept = [field.split(b"\0")[0][:40] for field in fields]
            wanted += struct.pack("<5I", version, told, x, y, z) + texts_of(kept)
    if r.random() < 0.3:
        sent += struct.pack("<I", r.choice((0, 4, 9, 2**32 - 1)))
    elif r.random() < 0.3:
        sent += struct.pack("<2I", r.randrange(1, 4), 1)
    return "r", sent, wanted


TARGETS = {
    "/default/0/0/0.ppm/status": plain(200, "OK", "clean 0\n"),
    "/default/18/262143/262143.ppm/status": plain(200, "OK", "missing\n"),
    "/m2/3/7/7.ppm/status": plain(200, "OK", "missing\n"),
    "/nomap/0/0/0.ppm/dirty": plain(200, "OK", "dirty\n"),
    "/default/0/0/0.ppm": serve_cases.WORLD,
}
NONE = (
    "/ * /default /default/0/0/0 /default/0/0/0.png /default/0/0/0.ppm/ /default/00/0/0.ppm /default/0/0/0.ppm/status/ /m2/4/0/0.ppm "
    "/default/0/0/1.ppm /default/19/0/0.ppm /DEFAULT/0/0/0.ppm //default/0/0/0.ppm /default/0/0/0.ppm?a /default/4294967296/0/0.ppm"
).split(" ")


def head(r):
    """A head of a request, and its answer; none where it has no end."""
    target = r.choice(list(TARGETS) + NONE)
    method = r.choice(("GET",) * 6 + ("POST", "HEAD", "get", "X-Y"))
    version = r.choice(("HTTP/1.1",) * 5 + ("HTTP/1.0", "HTTP/1.2", "HTTP/2.0"))
    empty, count, end = r.choice((0, 0, 0, 2)), r.choice((0, 1, 5, 31, 32, 33, 40)), r.choice(("\r\n", "\n"))
    lines = ["%s %s %s" % (method, target, version)]
    lines += ["%s%d:%s" % (r.choice(("A", "x-b")), at, r.choice(("", " c", " d e;f"))) for at in range(count)]
    sent = "\r\n" * empty + "".join(line + end for line in lines)
    is_version = version in ("HTTP/1.1", "HTTP/1.0")
    if r.random() < 0.15 and count < 32:
        # all but the empty line, at most up to the bytes that are read; of more than 32 headers it may be refused or waited for
        sent += "B: " + "b" * (r.choice((100, 8191, 8192)) - len(sent) - 3)
        is_bad = not is_version or len(sent) == 8192
        return "t", sent.encode(), plain(400, "Bad Request") if is_bad else b""
    sent += r.choice(("\r\n", "\n")) + r.choice(("", "", "GET / HTTP/1.1\r\n\r\n"))
    if count > 32 or not is_version:
        return "t", sent.encode(), plain(400, "Bad Request")
    if method != "GET":
        return "t", sent.encode(), plain(405, "Method Not Allowed")
    return "t", sent.encode(), TARGETS.get(target, NOT_FOUND)


NAMES = (b"update", b"renew", b"restyle", b"expire", b"Update", b"")
NUMBERS = (b"0", b"1", b"4294967295", b"4294967296", b"00", b"-1", b"", b"+1", b"1 ", b"\xff", b"x" * 60)
LINES = (b"", b" ", b"stat", b"stats ", b"stop it", b"\0", b"y" * 64, b"y" * 63)


def control(r):
    """Control lines, and their answers: there is no update, no restyle and no list."""
    sent = wanted = b""
    for _ in range(r.randrange(1, 7)):
        line = r.choice((b"%s %s" % (r.choice(NAMES), r.choice(NUMBERS)),) * 8 + LINES)[:64]
        sent += line + (b"\r\n" if len(line) < 64 and r.random() < 0.3 else b"\n")
        found = re.fullmatch(rb"(update|renew|restyle|expire) (0|[1-9][0-9]*)", line)
        if found and int(found[2]) < 2**32:
            wanted += {b"restyle": b"no restyle\n", b"expire": b"no list\n"}.get(found[1], b"no update\n")
        else:
            wanted += b"bad line\n"
    if r.random() < 0.2:
        return "c", sent + b"z" * 65, wanted + b"bad line\n"
    return "c", sent, wanted


def socket_case(farm, seed, number):
    """What differs of one connection's bytes."""
    r = random.Random("sockets %d %d" % (seed, number))
    name, sent, wanted = (messages, head, control)[number % 3](r)
    seen = farm.told(name, cut(r, sent), len(wanted))
    return None if seen == wanted else "%r: %r, not %r" % (sent, seen, wanted)


# --- All of it --------------------------------------------------------------------------------------------------


def tried(program, kind, seconds, seeds, least, begin=0):
    """How many cases agreed, those of each seed in turn from a number on, and how many did not; of these the shortest is told."""
    end, agreed, found = time.monotonic() + seconds, 0, []
    with tempfile.TemporaryDirectory(prefix="differ-") as folder:
        farm = begun(program, folder) if kind == "sockets" else None
        while len(found) < 5 and (time.monotonic() < end or agreed + len(found) < least):
            number = begin + agreed + len(found)
            at = seeds[number % len(seeds)], number // len(seeds)
            told = saved_case(program, *at) if kind == "saved" else socket_case(farm, *at)
            if told is None:
                agreed += 1
            else:
                found.append("%s %d %d: %s" % ((kind,) + at + (told,)))
        if farm:
            farm.process.kill()
            farm.ended()
    if found:
        told = min(found, key=len)
        print("DIFFERS  " + (told if len(told) < SHOWN else "%s .. (%d letters)" % (told[:SHOWN], len(told))))
    return agreed, len(found)


def begun(program, folder):
    """A farm whose world is clean on the map `default`."""
    farm = Farm(program, folder)
    if not farm.listens():
        raise OSError("it does not listen: %r" % (farm.ended(),))
    told = farm.told("t", [serve_cases.get("/default/0/0/0.ppm")], len(serve_cases.WORLD))
    if told != serve_cases.WORLD:
        raise ValueError("a tile differs: %r" % told[:200])
    return farm
