#!/usr/bin/env python3
"""`tilefarm serve`, written a second time: plainly and slowly, from the rules and formats alone, over real sockets.

    python3 oracle/serve.py CONFIG

It is no part of the product. One lock is round the farm of `farm.py`; each connection and each worker is a thread.
`trials/alike` asks it and the program the same and compares every answer. It has no bounds of
connections and rests, and reads heads of requests less closely than the program does.
"""

import json
import os
import re
import socket
import stat
import struct
import sys
import threading

import farm as farms
import texts
import tilefarm
from tilefarm import Ended

COMMANDS = {1: "render", 2: "dirty", 5: "prio", 6: "bulk", 7: "low"}
LENGTHS = {1: 20, 2: 64, 3: 144}
DONE, NOT_DONE = 3, 4
REASONS = {200: "OK", 400: "Bad Request", 404: "Not Found", 405: "Method Not Allowed", 500: "Internal Server Error"}
TARGET = re.compile(r"/([a-z0-9_-]{1,40})/(0|[1-9]\d*)/(0|[1-9]\d*)/(0|[1-9]\d*)\.ppm(/status|/dirty)?", re.ASCII)


# --- The store --------------------------------------------------------------------------------------------------


def place_of(x, y):
    return x % 8 * 8 + y % 8


def container(z, x, y, tiles):
    """A META container: tiles by column and row."""
    pairs, data = [(0, 0)] * 64, b""
    for (column, row), picture in sorted(tiles.items(), key=lambda entry: place_of(*entry[0])):
        pairs[place_of(column, row)] = (532 + len(data), len(picture))
        data += picture
    return b"META" + struct.pack("<4I", 64, x, y, z) + b"".join(struct.pack("<2I", *pair) for pair in pairs) + data


def path_of(name, z, x, y):
    parts = [(x >> 4 * place) % 16 * 16 + (y >> 4 * place) % 16 for place in (4, 3, 2, 1, 0)]
    return "tiles/%s/%d/%s.meta" % (name, z, "/".join(map(str, parts)))


def put(path, data):
    os.makedirs(os.path.dirname(path), exist_ok=True)
    with open(path + ".new", "wb") as out:
        out.write(data)
    os.rename(path + ".new", path)


def get(path):
    try:
        return open(path, "rb").read()
    except FileNotFoundError:
        return None


# --- Saved farms ------------------------------------------------------------------------------------------------

SAVED = "tiles/farm.saved"


def saved_text(restyles, updates, shown):
    clean = sorted((key, mark["version"]) for key, mark in shown.items() if mark["clean"])
    text = b"FSV1" + struct.pack("<I", len(restyles)) + b"".join(struct.pack("<I", number) for number in restyles)
    text += struct.pack("<Q", len(updates)) + b"".join(struct.pack("<2I", *update) for update in updates)
    return text + struct.pack("<Q", len(clean)) + b"".join(struct.pack("<4IQ", *key, version) for key, version in clean)


class Reader:
    def __init__(self, text):
        self.text, self.at = text, 0

    def take(self, form):
        """The next numbers; a text that ends before them is refused."""
        if self.at + struct.calcsize(form) > len(self.text):
            raise refused("saved 1")
        values = struct.unpack_from(form, self.text, self.at)
        self.at += struct.calcsize(form)
        return values


def refused(text):
    return Ended(1, "tilefarm: farm.saved: " + text)


# --- The server -------------------------------------------------------------------------------------------------


class Server:
    def __init__(self, name):
        files = farms.Files(".")
        config, given = files.checked(name, farms.config_of), json.loads(files.read(name))
        for number, key in ((7, "renderd"), (8, "tiles"), (9, "control")):
            if key not in given:
                raise Ended(1, "tilefarm: %s: config 2 at %d" % (name, number))
        self.addresses = [given[key] for key in ("renderd", "tiles", "control")]
        plan = {"limits": config["limits"], "workers": config["workers"]}
        plan["maps"] = [dict(entry, style=files.style(entry["style"])) for entry in config["maps"]]
        plan["restyles"] = [(place, files.style(style)) for place, style in config["restyles"]]
        plan["layers"] = files.checked(config["data"], farms.layers_of)
        plan["updates"] = [files.checked(update, texts.update_of) for update in config["updates"]]
        self.lists = [files.checked(entry, farms.list_of) for entry in config["expiries"]]
        self.farm, self.maps = farms.Farm(plan), plan["maps"]
        self.restyles, self.updates = [0] * len(self.maps), []
        self.resumes = given.get("resume", False)
        self.changed, self.waiting = threading.Condition(), {}
        if self.resumes:
            self.resume()

    def resume(self):
        text = get(SAVED)
        if text:
            self.read_saved(Reader(text))
        put(SAVED, b"")

    def read_saved(self, reader):
        if reader.take("<4s") != (b"FSV1",):
            raise refused("saved 2")
        styles = [reader.take("<I")[0] for _ in range(reader.take("<I")[0])]
        updates = [reader.take("<2I") for _ in range(reader.take("<Q")[0])]
        clean = [reader.take("<4IQ") for _ in range(reader.take("<Q")[0])]
        if len(styles) != len(self.maps):
            raise refused("resume 1")
        for place, number in enumerate(styles):
            table = self.farm.plan["restyles"]
            if number and (number > len(table) or table[number - 1][0] != place):
                raise refused("resume 2")
        if any(number >= len(self.farm.plan["updates"]) for _, number in updates):
            raise refused("resume 2")
        self.begin_from(styles, updates, clean)

    def begin_from(self, styles, updates, clean):
        """All that was kept is made again: each metatile over the data of its version, and a renew reaches those before it."""
        for number in filter(None, styles):
            self.farm.restyle(number - 1)
        self.show_kept(clean, 0)
        for version, (kind, number) in enumerate(updates, 1):
            if not self.farm.update(number, kind == 1).startswith("version"):
                raise refused("resume 4")
            self.show_kept(clean, version)
        self.restyles, self.updates = styles, list(updates)
        self.farm.asks = self.farm.done = self.farm.stored = len(clean)

    def show_kept(self, clean, now):
        """Shows the metatiles of this version as drawn over the data of now."""
        for at, z, x, y, version in clean:
            if version == now:
                mark = {"version": version, "clean": True, "layers": self.farm.layers, "style": self.farm.styles[at]}
                self.farm.shown[(at, z, x, y)] = mark

    def run(self):
        listeners = [listening(address) for address in self.addresses]
        for front, listener in enumerate(listeners):
            begin(self.accept, front, listener)
        for _ in range(self.farm.plan["workers"]):
            begin(self.work)
        with self.changed:
            self.changed.wait_for(lambda: self.farm.stopped and not self.farm.flights)
            if self.resumes:
                put(SAVED, saved_text(self.restyles, self.updates, self.farm.shown))
            print(self.farm.tally(), flush=True)

    def accept(self, front, listener):
        number = 0
        while True:
            made = listener.accept()[0]
            begin((self.renderd, self.tiles, self.control)[front], number, made)
            number += 1

    # Workers

    def work(self):
        while True:
            with self.changed:
                ticket, told = self.farm.claim()
                if told == "stopped":
                    return
                if ticket is None:
                    self.changed.wait()
                    continue
                flight = self.farm.flights[ticket]
            path, data = self.drawn(flight)
            with self.changed:
                try:
                    put(path, data)
                except OSError:
                    self.farm.failing_puts.add(self.farm.puts)
                self.farm.finish(ticket)
                self.collect()
                self.changed.notify_all()

    def drawn(self, flight):
        at, z, x, y = flight["key"]
        entry, side = self.maps[at], min(8, 2**z)
        places = [(x + column, y + row) for column in range(side) for row in range(side)]
        draw = lambda place: farms.tile_of(flight["style"], flight["layers"], entry["tile"], z, *place)
        return path_of(entry["name"], z, x, y), container(z, x, y, {place: draw(place) for place in places})

    def collect(self):
        for front in (0, 1):
            told = self.farm.collect(front)
            while told.startswith("reply"):
                _, conn, number, end = told.split(" ")
                self.waiting.pop((front, int(conn), int(number)), lambda _: None)(end)
                told = self.farm.collect(front)

    def ask(self, conn, command, spot, answer):
        """Asks, and has the answer given now or when the drawing has ended."""
        told = self.farm.ask(conn, command, spot)
        if told.split(" ")[0] in ("queued", "joined", "lifted"):
            self.waiting[conn + (int(told.split(" ")[1]),)] = answer
        elif told != "silent":
            answer("done" if told == "done" else "notdone")
        self.changed.notify_all()

    # renderd's protocol

    def renderd(self, number, made):
        kept = b""
        for piece in pieces(made):
            kept += piece
            while len(kept) >= 4:
                version = struct.unpack_from("<I", kept)[0]
                if version not in LENGTHS:
                    return self.leave((0, number), made)
                if len(kept) < LENGTHS[version]:
                    break
                self.message((0, number), made, kept[: LENGTHS[version]])
                kept = kept[LENGTHS[version] :]
        self.leave((0, number), made)

    def message(self, conn, made, data):
        version, command, x, y, z = struct.unpack_from("<5I", data)
        name, kind, options = [field(data[at : at + 41]) for at in (20, 61, 102)]
        if command not in COMMANDS:
            return

        def answer(end):
            told = struct.pack("<5I", version, DONE if end == "done" else NOT_DONE, x, y, z)
            if version > 1:
                told += struct.pack("41s", name)
            if version > 2:
                told += struct.pack("41s41s", kind, options)
            send(made, told.ljust(LENGTHS[version], b"\0"))

        with self.changed:
            spot = ("default" if version == 1 else name.decode("latin-1"), z, x, y)
            self.ask(conn, COMMANDS[command], spot, answer)

    def leave(self, conn, made):
        with self.changed:
            self.farm.leave(conn)
        made.close()

    # Tiles over HTTP

    def tiles(self, number, made):
        kept = b""
        for piece in pieces(made):
            kept += piece
            if re.search(rb"\n\r?\n", kept) or len(kept) >= 8192:
                break
        else:
            return made.close()
        head = kept.split(b"\n")[0].strip().decode("latin-1").split(" ")
        if len(head) != 3 or not re.search(rb"\n\r?\n", kept[:8192]):
            send(made, page(400))
        elif head[0] != "GET":
            send(made, page(405))
        else:
            send(made, self.page((1, number), TARGET.fullmatch(head[1])))
        made.close()

    def page(self, conn, found):
        numbers = [int(number) for number in found.groups()[1:4]] if found else []
        if not found or max(numbers) >= 2**32:
            return page(404)
        spot = (found[1],) + tuple(numbers)
        with self.changed:
            if found[5] == "/status":
                told = self.farm.look(spot)
                return page(404) if told == "unservable" else page(200, told + "\n")
            ends = []
            self.ask(conn, "dirty" if found[5] else "render", spot, ends.append)
            if found[5]:
                return page(200, "dirty\n")
            self.changed.wait_for(lambda: ends)
            return self.picture(spot)

    def picture(self, spot):
        told = self.farm.look(spot)
        if told in ("unservable", "missing"):
            return page(404)
        _, z, x, y = self.farm.key_of(spot)
        data = get(path_of(spot[0], z, x, y))
        if data is None:
            return page(500)
        offset, size = struct.unpack_from("<2I", data, 20 + 8 * place_of(spot[2], spot[3]))
        more = "X-Tile: %s\r\nX-Version: %s\r\n" % tuple(told.split(" "))
        return page(200, data[offset : offset + size], "image/x-portable-pixmap", more)

    # Control lines

    def control(self, _, made):
        kept = b""
        for piece in pieces(made):
            kept += piece
            while b"\n" in kept[:65]:
                line, kept = kept.split(b"\n", 1)
                with self.changed:
                    send(made, self.line(line[:-1] if line.endswith(b"\r") else line).encode() + b"\n")
                    self.changed.notify_all()
            if len(kept) > 64:
                send(made, b"bad line\n")
                break
        made.close()

    def line(self, line):
        words = line.split(b" ")
        number = farms.decimal_of(words[1], 32) if len(words) == 2 else None
        if words == [b"stats"]:
            return self.farm.tally()
        if words == [b"stop"]:
            return self.farm.stop()
        if number is None or words[0] not in (b"update", b"renew", b"restyle", b"expire"):
            return "bad line"
        return getattr(self, words[0].decode())(number)

    def update(self, number, renew=False):
        told = self.farm.update(number, renew)
        if told.startswith("version"):
            self.updates.append((int(renew), number))
        return told.replace("noupdate", "no update")

    def renew(self, number):
        return self.update(number, True)

    def restyle(self, number):
        told = self.farm.restyle(number)
        if told.startswith("styled"):
            self.restyles[self.farm.plan["restyles"][number][0]] = number + 1
        return told.replace("norestyle", "no restyle")

    def expire(self, number):
        if number >= len(self.lists):
            return "no list"
        return "expired %d" % sum(int(self.farm.expire(tile).split(" ")[1]) for tile in self.lists[number])


def field(data):
    return data.split(b"\0")[0][:40]


def page(status, body="", kind="text/plain", more=""):
    body = body or REASONS[status] + "\n"
    body = body if isinstance(body, bytes) else body.encode()
    head = "HTTP/1.1 %d %s\r\nContent-Type: %s\r\nContent-Length: %d\r\n" % (status, REASONS[status], kind, len(body))
    return (head + more + "Connection: close\r\n\r\n").encode() + body


def pieces(made):
    """What a peer sends, until it sends no more."""
    while True:
        try:
            piece = made.recv(4096)
        except OSError:
            return
        if not piece:
            return
        yield piece


def send(made, data):
    try:
        made.sendall(data)
    except OSError:
        pass


def begin(call, *values):
    threading.Thread(target=call, args=values, daemon=True).start()


def listening(address):
    kind, place = address.split(":", 1)
    try:
        if kind == "unix":
            made = socket.socket(socket.AF_UNIX)
            clear(place)
            made.bind(place)
        else:
            made = socket.socket()
            made.setsockopt(socket.SOL_SOCKET, socket.SO_REUSEADDR, 1)
            made.bind((place.rsplit(":", 1)[0], int(place.rsplit(":", 1)[1])))
        made.listen(1024)
        return made
    except OSError:
        raise Ended(7, "tilefarm: the ports failed")


def clear(path):
    """Removes a socket file at which nobody listens."""
    if os.path.exists(path) and stat.S_ISSOCK(os.stat(path).st_mode):
        with socket.socket(socket.AF_UNIX) as made:
            if made.connect_ex(path) != 0:
                os.unlink(path)


def main(words):
    try:
        if len(words) != 1:
            raise Ended(2, tilefarm.USAGE)
        Server(words[0]).run()
    except Ended as end:
        print(end.line, file=sys.stderr)
        return end.status
    return 0


if __name__ == "__main__":
    sys.setrecursionlimit(10000)
    status = main(sys.argv[1:])
    sys.stdout.flush()
    os._exit(status)  # threads that wait for clients are let go
