#!/usr/bin/env python3
"""How long a line of the control front holds a farm: `update`, `renew` and `expire`, over much data and many clean metatiles.

    benchmarks/updates.py [FEATURES [CLEAN]]          (100000 features and 1000000 clean metatiles where none are given)

A farm goes on from a saved one, in which CLEAN metatiles of zoom 18 are clean, shared by 1 map and then by 16 of the same style. They stand
side by side, and the features lie in what they cover, as those of a site do whose viewers look where something is. For updates that move
1, 1,000, a tenth and all of the features (at most 100,000), told is the time until `update` and `renew` are answered, then that until
the expiry of the world is, and of 100,000 tiles of zoom 18 among the clean ones. No time of drawing is in it, since the farm draws nothing
meanwhile. Beside each stands the processor time that it took. Each is one run on a fresh farm. With TILEFARM another program is measured.
"""

import json
import os
import random
import socket
import struct
import subprocess
import sys
import tempfile
import time

TOP = os.path.dirname(os.path.dirname(os.path.abspath(__file__)))
PROGRAM = os.path.abspath(os.environ.get("TILEFARM", os.path.join(TOP, "tilefarm")))
STYLE = {
    "styles": [{"name": "s", "rules": [{"symbolizers": [{"symbolizer": "PolygonSymbolizer"}]}]}],
    "layers": [{"name": "l", "source": "land", "styles": ["s"]}],
}


# The first tile that is clean, how many metatiles stand below one another, and a tile's side in units.
WEST, NORTH, ROWS, SIDE = 120000, 80000, 1024, 4096


def across(maps, clean):
    """How many tiles the clean ones of a map reach to the east."""
    return 8 * -(-(clean // maps) // ROWS)


def square(draw, number, tiles):
    x = WEST * SIDE + draw.randrange(tiles * SIDE)
    y = NORTH * SIDE + draw.randrange(8 * ROWS * SIDE)
    s = 1 + draw.randrange(4096)
    return {"id": number, "geometry": {"polygon": [[[x, y], [x + s, y], [x + s, y + s], [x, y + s]]]}}


def write(path, value):
    with open(path, "w") as out:
        json.dump(value, out)


def write_saved(path, maps, clean):
    """A saved farm (docs/believe/formats.md): nothing was restyled or updated, and so many metatiles are clean."""
    each = clean // maps
    with open(path, "wb") as out:
        out.write(b"FSV1" + struct.pack("<I", maps) + bytes(4 * maps) + struct.pack("<QQ", 0, each * maps))
        for place in range(maps):
            for n in range(each):
                x, y = n // ROWS, n % ROWS
                out.write(struct.pack("<4IQ", place, 18, WEST + 8 * x, NORTH + 8 * y, 0))


class Farm:
    def __init__(self, folder, maps, clean):
        os.makedirs(os.path.join(folder, "tiles"), exist_ok=True)
        write_saved(os.path.join(folder, "tiles", "farm.saved"), maps, clean)
        self.names = ["m%d" % n for n in range(maps)]
        write(os.path.join(folder, "farm.json"), {
            "maps": [{"name": name, "style": "style.json", "tile": 256} for name in self.names],
            "data": "data.json", "updates": ["update.json"], "expiries": ["world.list", "tiles.list"], "resume": True, "workers": 1,
            "renderd": "unix:renderd.sock", "tiles": "unix:tiles.sock", "control": "unix:control.sock"})  # fmt: skip
        self.process = subprocess.Popen([PROGRAM, "serve", "farm.json"], cwd=folder, stdout=subprocess.DEVNULL)
        while True:
            self.control = socket.socket(socket.AF_UNIX)
            try:
                self.control.connect(os.path.join(folder, "control.sock"))
                break
            except OSError:
                self.control.close()
                if self.process.poll() is not None:
                    sys.exit("updates.py: the farm ended with status %d" % self.process.returncode)
                time.sleep(0.05)
        self.line("stats")

    def busy(self):
        """The milliseconds of processor time that the farm's threads took."""
        total = 0
        for task in os.listdir("/proc/%d/task" % self.process.pid):
            with open("/proc/%d/task/%s/schedstat" % (self.process.pid, task)) as stat:
                total += int(stat.read().split()[0])
        return total / 1e6

    def line(self, text):
        """The milliseconds until the answer, those of processor time, and the answer."""
        busy = self.busy()
        begun = time.monotonic()
        self.control.sendall(text.encode() + b"\n")
        got = b""
        while not got.endswith(b"\n"):
            got += self.control.recv(4096)
        took = 1000 * (time.monotonic() - begun)
        return took, self.busy() - busy, got.decode().strip()

    def end(self):
        self.process.kill()
        self.process.wait()
        self.control.close()


def timed(folder, maps, clean, line):
    farm = Farm(folder, maps, clean)
    try:
        return farm.line(line)
    finally:
        farm.end()


def main():
    features = int(sys.argv[1]) if len(sys.argv) > 1 else 100000
    clean = int(sys.argv[2]) if len(sys.argv) > 2 else 1000000
    with tempfile.TemporaryDirectory() as folder:
        write(os.path.join(folder, "style.json"), STYLE)
        with open(os.path.join(folder, "world.list"), "w") as out:
            out.write("0/0/0\n")
        print("load %.1f; %d features, %d clean metatiles" % (os.getloadavg()[0], features, clean))
        for maps in (1, 16):
            measure(folder, maps, features, clean)


def measure(folder, maps, features, clean):
    draw = random.Random(1)
    tiles = across(maps, clean)
    write(os.path.join(folder, "data.json"), {"units": "world", "layers": [
        {"name": "land", "features": [square(draw, number, tiles) for number in range(features)]}]})  # fmt: skip
    with open(os.path.join(folder, "tiles.list"), "w") as out:
        for _ in range(min(features, 100000)):
            out.write("18/%d/%d\n" % (WEST + draw.randrange(tiles), NORTH + draw.randrange(8 * ROWS)))
    for changed in sorted({1, min(features, 1000), features // 10, min(features, 100000)}):
        moved = [square(draw, number, tiles) for number in draw.sample(range(features), changed)]
        write(os.path.join(folder, "update.json"), {"units": "world", "changes": [{"layer": "land", "put": moved}]})
        told = ["%s %.1f ms, %.1f of processor (%s)" % (line, *timed(folder, maps, clean, line)) for line in ("update 0", "renew 0")]
        print("%d maps, %d changed: %s" % (maps, changed, ", ".join(told)), flush=True)
    for line, what in (("expire 0", "the world"), ("expire 1", "the tiles")):
        print("%d maps, %s: %s %.1f ms, %.1f of processor (%s)" % (maps, what, line, *timed(folder, maps, clean, line)), flush=True)


if __name__ == "__main__":
    main()
