#!/usr/bin/env python3
"""What data of a site's size take: GeoJSON of houses becomes data, and a farm reads them and draws.

    benchmarks/sizes.py [FEATURES ..]          (100000 and 1000000 where none are given)
    benchmarks/sizes.py layers

For each number a farm of one map with two workers is started over so many houses, some 8,000 on each tile of zoom 12.
Told are the files' sizes, the processor time and the most memory of `farmctl data` and of the farm until it answers a control
line, and how long the first tile of a metatile takes: one of zoom 14, and one that holds all houses. A million takes
6 GB of memory and of disk in /tmp together, and some minutes. With `layers` it is told what memory a farm takes while it
reads 37 MB of data of three layers, in three orders, without updates and with one of 16 MB, and what stays once it answers.
With TILEFARM another program is measured.
"""

import json
import math
import os
import random
import resource
import subprocess
import sys
import time

TOP = os.path.dirname(os.path.dirname(os.path.abspath(__file__)))
sys.path.insert(0, os.path.join(TOP, "trials"))
import trial  # noqa: E402
from trial import Farm, Folder  # noqa: E402

WEST, SOUTH, SIDE = 8.5, 49.0, 0.3  # degrees; the side of 100,000 houses
KINDS = ("yes", "house", "residential", "garage", "shed")
STREETS = ("Hauptstrasse", "Bahnhofstrasse", "Lindenweg", "Am Markt", "Gartenweg", "Schulstrasse", "Muehlgasse")
SYMBOLS = [
    {"symbolizer": "PolygonSymbolizer", "fill": "#c8bcb0"},
    {"symbolizer": "LineSymbolizer", "stroke": "#806040", "stroke-width": "1"},
]
STYLE = {
    "background-color": "#f4f1ea",
    "styles": [{"name": "houses", "rules": [{"Filter": "[building]", "symbolizers": SYMBOLS}]}],
    "layers": [{"name": "houses", "source": "houses", "styles": ["houses"]}],
}


def house(number, side, draw):
    x, y = WEST + draw.random() * side, SOUTH + 0.7 * draw.random() * side
    turn, dx, dy = draw.random() * math.pi, 8e-5 + 6e-5 * draw.random(), 5e-5 + 4e-5 * draw.random()
    corners = []
    for east, north in ((-1, -1), (1, -1), (1, 1), (-1, 1), (-1, -1)):
        u, v = east * dx, north * dy
        corners.append([round(x + u * math.cos(turn) - v * math.sin(turn), 7),
                        round(y + 0.65 * (u * math.sin(turn) + v * math.cos(turn)), 7)])  # fmt: skip
    properties = {"osm_id": str(10**8 + number), "building": draw.choice(KINDS), "addr:street": draw.choice(STREETS)}
    properties.update({"addr:housenumber": str(draw.randrange(1, 200)), "levels": draw.randrange(1, 6)})
    return {"type": "Feature", "id": number, "properties": properties, "geometry": {"type": "Polygon", "coordinates": [corners]}}


def write_houses(path, count):
    draw, side = random.Random(7), SIDE * math.sqrt(count / 100000)
    with open(path, "w") as out:
        out.write('{"type":"FeatureCollection","features":[\n')
        for number in range(count):
            text = json.dumps(house(number, side, draw), separators=(",", ":"))
            out.write(text + (",\n" if number + 1 < count else "\n"))
        out.write("]}\n")
    return WEST + side / 2, SOUTH + 0.35 * side


def tile_at(zoom, longitude, latitude):
    across = 2**zoom
    row = (1 - math.asinh(math.tan(math.radians(latitude))) / math.pi) / 2
    return zoom, int((longitude + 180) / 360 * across), int(row * across)


def megabytes(count):
    return "%.0f MB" % (count / 1e6)


def spent(process):
    """Processor seconds of a running process, and its memory now and at most, in bytes."""
    with open("/proc/%d/stat" % process.pid) as line:
        parts = line.read().rsplit(")", 1)[1].split()
    with open("/proc/%d/status" % process.pid) as lines:
        sizes = {line.split(":")[0]: int(line.split()[1]) * 1024 for line in lines if line.startswith(("VmRSS", "VmHWM"))}
    return (int(parts[11]) + int(parts[12])) / os.sysconf("SC_CLK_TCK"), sizes["VmRSS"], sizes["VmHWM"]


def convert(folder, path):
    words = [trial.PYTHON, trial.FARMCTL, "data", "houses=" + path, "-o", folder.name("data.json")]
    child = subprocess.Popen(words, stdout=subprocess.DEVNULL, stderr=subprocess.DEVNULL)
    _, status, used = os.wait4(child.pid, 0)
    child.returncode = status
    if status:
        sys.exit("sizes: farmctl data: status %d" % status)
    data = os.path.getsize(folder.name("data.json"))
    told = used.ru_utime + used.ru_stime, megabytes(used.ru_maxrss * 1024), megabytes(data)
    print("  farmctl data  %.1f s, %s; data %s" % told)


def serve(folder, middle):
    began = time.monotonic()
    farm = Farm(folder)
    if not farm.wait(600):
        sys.exit("sizes: the farm does not listen: %s" % (farm.ended(0),))
    farm.stats()
    waited, (seconds, now, most) = time.monotonic() - began, spent(farm.process)
    told = waited, seconds, megabytes(most), megabytes(now)
    print("  the farm      answers after %.1f s, %.1f s of processor; %s at most, %s then" % told)
    for what, zoom in (("of zoom 14", 14), ("with all of it", 8)):
        before, began = spent(farm.process)[0], time.monotonic()
        page = farm.get(tile_at(zoom, *middle))
        waited, (seconds, now, most) = time.monotonic() - began, spent(farm.process)
        told = what, page.status, waited, seconds - before, megabytes(now)
        print("  a metatile    %s: %d after %.2f s, %.2f s of processor; %s then" % told)
    farm.stop()


LAYERS = (("greatest first", (100000, 50000, 10000)), ("in the middle", (10000, 100000, 50000)), ("last", (10000, 50000, 100000)))


def shape(number, draw):
    x, y = draw.randrange(2 * 10**9), draw.randrange(2 * 10**9)
    corners = [[x, y], [x + 900, y + 200], [x + 800, y + 1100], [x - 100, y + 900], [x, y]]
    attrs = {"building": draw.choice(KINDS), "street": draw.choice(STREETS), "number": str(number % 200), "levels": number % 6, "osm": number + 10**8}
    return json.dumps({"id": number, "geometry": {"polygon": [corners]}, "attrs": attrs})


def write_features(out, count, draw):
    for number in range(count):
        out.write((", " if number else "") + shape(number, draw))


def write_layers(path, counts):
    draw = random.Random(7)
    with open(path, "w") as out:
        out.write('{"layers": [')
        for place, count in enumerate(counts):
            out.write(', ' * (place > 0) + '{"name": "%s", "features": [' % ("houses" if place == 0 else "layer%d" % place))
            write_features(out, count, draw)
            out.write("]}")
        out.write("]}")


def write_update(path, count):
    with open(path, "w") as out:
        out.write('{"changes": [{"layer": "houses", "put": [')
        write_features(out, count, random.Random(8))
        out.write("]}]}")


def layers_kept(order, counts, updates):
    folder = Folder()
    folder.config.update(maps=trial.MAPS[:1], updates=updates, restyles=[], expiries=[])
    folder.write("style.json", json.dumps(STYLE))
    write_layers(folder.name("data.json"), counts)
    for name in updates:
        write_update(folder.name(name), 70000)
    try:
        farm = Farm(folder)
        if not farm.wait(600):
            sys.exit("sizes: the farm does not listen: %s" % (farm.ended(0),))
        farm.stats()
        size = sum(os.path.getsize(folder.name(name)) for name in ["data.json"] + updates)
        seconds, now, most = spent(farm.process)
        told = order, len(updates), megabytes(size), seconds, megabytes(most), most / size, megabytes(now), now / size
        print("%-15s %d updates, %s: %.1f s of processor, at most %s (%.1f bytes a byte), %s stay (%.1f)" % told, flush=True)
        farm.stop()
    finally:
        for process in Farm.running:
            if process.poll() is None:
                process.kill()
                process.wait()
        folder.remove()


def measure(count):
    folder = Folder()
    folder.config.update(maps=trial.MAPS[:1], updates=[], restyles=[], expiries=[])
    folder.write("style.json", json.dumps(STYLE))
    path = folder.name("houses.geojson")
    try:
        middle = write_houses(path, count)
        print("%d features, GeoJSON of %s" % (count, megabytes(os.path.getsize(path))), flush=True)
        convert(folder, path)
        os.unlink(path)
        serve(folder, middle)
    finally:
        for process in Farm.running:
            if process.poll() is None:
                process.kill()
                process.wait()
        folder.remove()


if __name__ == "__main__":
    most = resource.getrlimit(resource.RLIMIT_NOFILE)[1]
    resource.setrlimit(resource.RLIMIT_NOFILE, (most, most))
    subprocess.run([trial.PROGRAM], stdout=subprocess.DEVNULL, stderr=subprocess.DEVNULL)  # builds it where it is not built
    if sys.argv[1:] == ["layers"]:
        for updates in ([], ["update.json"]):
            for order, counts in LAYERS:
                layers_kept(order, counts, updates)
    else:
        for number in [int(word) for word in sys.argv[1:]] or [100000, 1000000]:
            measure(number)
    print("load %.1f" % os.getloadavg()[0])
