#!/usr/bin/env python3
"""Small worlds, drawn by the program and by the plain drawing of `tilefarm.py`, and compared byte for byte.

    python3 oracle/drawn_worlds.py [SEED [COUNT [FIRST]]]        (1, 500 and 0 where they are not given)

A world is a style with its raster files, data, an update, a tile size and a tile; the seed and its number give it,
the same at each run. Its shapes lie where a drawing goes wrong most easily: on centres and borders of pixels and one
unit beside them, as far from a centre as a stroke or a mark reaches, at the edges of the tile and of the world, with
points that coincide. The program draws one tile by `render`, and by `script` tiles of that metatile, before and after
the update. With TILEFARM another program than `./tilefarm` is compared.

Each difference is a line, and the files of its world are kept. The last line has the counts; the status is 1 where
anything differs. It needs Python 3 and nothing else, and takes some minutes.
"""

import collections
import json
import os
import random
import shutil
import subprocess
import sys
import tempfile

import farm
import tilefarm
from tilefarm import WORLD

TOP = os.path.dirname(os.path.dirname(os.path.abspath(__file__)))
PROGRAM = os.path.abspath(os.environ.get("TILEFARM", os.path.join(TOP, "tilefarm")))
SECONDS = 600
WIDTHS = "0.01 .03 0.5 1 1.33 2 2.5 3 4 5 6 7.07 10 13 16 20 26 32.05 50 63.99 64".split(" ")
OPACITIES = "1 1 1 1.0 0.999 .999 0.998 0.75 0.5 .5 0.333 0.1 0.001 0 0.000".split(" ")
COLOURS = ("red", "navy", "white", "black", "lime", "#abc", "#0F8", "#123456", "#fefefe", "rgb(1, 2,3)", "rgb(255,0,254)")
FILTERS = (
    "[kind] = 1", "[kind] <> 2", "[kind] >= 2", "[kind] = [size]", "[size] % 2 = 1 or [name] = 'b'", "not [flag]",
    "[name] < 'b' and [kind] < 3", "[gone] = null", "[gone] < 1", "[flag] && !([kind] = 0)", "[size] - 2",
    "-[size] * 3 > 4 || [kind] / 2 = 1",
)
# Right and slanted ways; along the last ones lengths are whole.
WAYS = ((1, 0), (-1, 0), (0, 1), (0, -1), (1, 1), (1, -1), (-2, 1), (1, 7), (3, 4), (-4, 3), (12, -5), (-8, -15))


class Window:
    """A tile, and points in it and round it. `halves` are half the widths of what the style draws."""

    def __init__(self, r):
        self.r = r
        self.z = r.choice((0, 1, 2, 18, r.randrange(19), r.randrange(19), r.randrange(19)))
        self.size = r.choices((16, 32, 64), (8, 4, 1))[0]
        self.x, self.y = self.place(), self.place()
        self.wide = 2 ** (30 - self.z)
        self.pixel = self.wide // self.size
        self.halves = [0, self.pixel // 2]
        self.habit = r.choice(("all", "all", "all", "centres", "borders", "reaches"))

    def place(self):
        most = 2**self.z - 1
        return self.r.choice((0, most, most // 2, (most + 1) // 2, self.r.randint(0, most), self.r.randint(0, most)))

    def coordinate(self, first):
        """One at or near the window's side that begins here."""
        r, pixel = self.r, self.pixel
        border = first + r.randint(-3, self.size + 3) * pixel
        centre = border + pixel // 2
        reach = r.choice(self.halves) + r.choice((-1, 0, 0, 0, 1))
        ways = {
            "centres": (centre, centre, centre, centre + r.choice((-1, 1))),
            "borders": (border, border, border, border + r.choice((-1, 1))),
            "reaches": (centre + reach, centre - reach, border + reach, first - reach, first + self.wide + reach),
            "near": (first + r.randrange(self.wide), first + r.randint(-pixel, self.wide + pixel)),
            "far": (0, WORLD, r.randint(0, WORLD), r.randint(0, WORLD), first + r.randint(-70, 70 + self.size) * pixel),
        }
        kinds = ("centres", "centres", "borders", "reaches", "near", "near", "far")
        habit = self.habit if self.habit != "all" and r.random() < 0.8 else r.choice(kinds)
        return min(max(r.choice(ways[habit]), 0), WORLD)

    def point(self):
        return [self.coordinate(self.x * self.wide), self.coordinate(self.y * self.wide)]

    def stepped(self, point):
        """A point on a right or slanted way from this one."""
        way = self.r.choice(WAYS)
        far = self.r.randint(1, self.size) * self.r.choice((self.pixel, self.pixel // 2, self.r.choice(self.halves), 1))
        return [min(max(c + far * d, 0), WORLD) for c, d in zip(point, way)]

    def path(self, count):
        """Points; one may be the one before it, or the first again."""
        r, points = self.r, [self.point()]
        while len(points) < count:
            new, last = self.point(), points[-1]
            points.append(r.choice((new, new, self.stepped(last), self.stepped(last), last, points[0])))
        return points


# --- Data -------------------------------------------------------------------------------------------------------


def comb(r, window):
    """Up and down along a side, once or twice a pixel, or so often that a row is crossed more than there are pixels."""
    (west, north), (_, south) = window.point(), window.point()
    step, count = r.choice((window.pixel, window.pixel // 2, 2 * window.pixel // 3, 1)), r.randint(6, 2 * window.size)
    if window.size == 16 and r.random() < 0.2:
        step, count = r.choice((1, window.pixel // 40, window.pixel // 7)), r.choice((600, 900))
        north, south = 0, WORLD
    points = [[min(west + i * step, WORLD), north if i % 2 else south] for i in range(count)]
    return [points[0][:1] + [max(north, south)]] + points


def ring(r, window, before):
    """A ring; `before` are those of the same polygon."""
    (west, north), (east, south) = window.point(), window.point()
    corners = [[west, north], [east, north], [east, south], [west, south]]
    ways = (
        (6, window.path(r.randint(3, 9))),
        (5, corners[:: r.choice((1, -1))]),
        (1, corners + corners[:1]),
        (1, corners[:3]),
        (1, [[west, north]] * 3),  # no area
        (1, [[west, north], [east, south], [west, north]]),
        (1, [[west, north], [west, south], [west, north + 1 if north < WORLD else north]]),
        (1, comb(r, window)),  # many crossings
        (2 if before else 0, before and r.choice(before)[::-1]),  # a hole as large as the ring
        (1, [[0, 0], [WORLD, 0], [WORLD, WORLD], [0, WORLD]]),
    )
    return r.choices([points for _, points in ways], [weight for weight, _ in ways])[0]


def geometry(r, window):
    kind = r.choice(("polygon", "polygon", "lines", "lines", "points"))
    if kind == "points":
        return {kind: window.path(r.choice((1, 1, 2, 4, 9)))}
    if kind == "lines":
        return {kind: [window.path(r.choice((2, 2, 3, 5, 9))) for _ in range(r.choice((1, 1, 1, 2, 3)))]}
    rings = []
    for _ in range(r.choice((1, 1, 1, 2, 3, 4))):
        rings.append(ring(r, window, rings))
    return {kind: rings}


def attributes(r):
    made = {"kind": r.randrange(4), "size": r.choice((-3, 0, 1, 2, 5)), "name": r.choice("abc"), "gone": None}
    made["flag"] = r.random() < 0.5
    return {name: made[name] for name in made if r.random() < 0.8}


def feature(r, window, number):
    return {"id": number, "geometry": geometry(r, window), "attrs": attributes(r)}


def small_feature(r, window, number):
    """One of a great many: a mark or a short line, mostly far away."""
    point = window.point() if r.random() < 0.1 else [r.randint(0, WORLD), r.randint(0, WORLD)]
    shape = {"points": [point]} if r.random() < 0.5 else {"lines": [[point, window.stepped(point)]]}
    return {"id": number, "geometry": shape, "attrs": attributes(r)}


def data_layers(r, window, names):
    layers = []
    for name in names:
        ids = r.sample(range(40), r.randint(2, 8))
        features = [feature(r, window, number) for number in ids]
        if r.random() < 0.06:
            features += [small_feature(r, window, number) for number in range(100, 100 + r.choice((250, 256, 257, 600)))]
        layers.append({"name": name, "features": features})
    return layers


def update(r, window, layers):
    """Removals and puts, of old ids and new ones."""
    changes = []
    for layer in layers:
        ids = [item["id"] for item in layer["features"]]
        removed = r.sample(ids, r.randint(0, min(2, len(ids))))
        put = [feature(r, window, r.choice(ids + [50, 2**64 - 1])) for _ in range(r.randrange(3))]
        changes.append({"layer": layer["name"], "remove": removed, "put": put})
    return {"units": "world", "changes": changes}


def in_centimetres(value):
    """Data or an update with their points in centimetres that lie at, or within a unit of, the points that they had."""
    value = json.loads(json.dumps(value))
    turn = lambda c, sign: sign * (-(-c * 4007501668 // WORLD) - 2003750834)
    for layer in value.get("layers", []) + value.get("changes", []):
        for item in layer.get("features", []) + layer.get("put", []):
            ((kind, shapes),) = item["geometry"].items()
            turned = [[[turn(x, 1), turn(y, -1)] for x, y in path] for path in ([shapes] if kind == "points" else shapes)]
            item["geometry"] = {kind: turned[0] if kind == "points" else turned}
    value["units"] = "cm"
    return value


# --- Styles -----------------------------------------------------------------------------------------------------


def width(r, window):
    text = r.choice(WIDTHS) if r.random() < 0.7 else "%d.%02d" % (r.randrange(64), r.randrange(1, 100))
    window.halves.append(tilefarm.decimal_of(text, 2) * window.pixel // 200)
    return text


def symbolizer(r, window, kind):
    colour, opacity = r.choice(COLOURS), r.choice(OPACITIES)
    if kind == "P":
        return {"symbolizer": "PolygonSymbolizer", "fill": colour, "fill-opacity": opacity}
    if kind == "L":
        made = {"symbolizer": "LineSymbolizer", "stroke": colour, "stroke-width": width(r, window)}
        cap = r.choice(({}, {"stroke-linecap": "butt"}, {"stroke-linecap": "round"}, {"stroke-linecap": "square"}))
        return dict(made, **cap, **{"stroke-opacity": opacity})
    if kind == "M":
        wide = width(r, window)
        high = wide if r.random() < 0.4 else width(r, window)
        return {"symbolizer": "MarkersSymbolizer", "fill": colour, "width": wide, "height": high, "opacity": opacity}
    return {"symbolizer": "RasterSymbolizer", "opacity": opacity}


def bounds(r, window, least, most):
    """Now and then bounds of the scale: at that of the tile, a hundredth beside it, or far from it."""
    scale = 559082264 * 256 // (window.size * 2**window.z)
    texts = ("0", str(scale), "%d.00" % scale, "%d.01" % scale, "%d.99" % (scale - 1), str(2 * scale + 1), "999999999999")
    return {key: r.choice(texts) for key in (least, most) if r.random() < 0.06}


def rule(r, window):
    kinds = r.sample("PLMR", r.choice((2, 3, 4))) + r.choice(([], [], ["L"]))
    made = {"symbolizers": [symbolizer(r, window, kind) for kind in kinds]}
    made.update(bounds(r, window, "MinScaleDenominator", "MaxScaleDenominator"))
    if r.random() < 0.4:
        made["Filter"] = r.choice(FILTERS)
    elif r.random() < 0.3:
        made["ElseFilter"] = True
    return made


def style(r, window, sources, rasters):
    names = ["s%d" % number for number in range(r.randint(1, 4))]
    styles = [{"name": name, "rules": [rule(r, window) for _ in range(r.randint(1, 3))]} for name in names]
    for made in styles:
        made.update(r.choice(({}, {"filter-mode": "all"}, {"filter-mode": "first"})))
    layers, shown = [], sources + r.sample(sources + ["nowhere"], r.randrange(2))
    for number, source in enumerate(r.sample(shown, len(shown))):
        layer = {"name": "l%d" % number, "source": source, "styles": r.choices(names, k=r.randint(1, 2))}
        layers.append(dict(layer, **bounds(r, window, "minimum-scale-denominator", "maximum-scale-denominator")))
    made = {"styles": styles, "layers": layers, "rasters": rasters}
    return dict(made, **r.choice(({}, {"background-color": r.choice(COLOURS)})))


# --- Worlds -----------------------------------------------------------------------------------------------------


def raster_files(r, window):
    """What the style says of its rasters, and their files."""
    refs, files = [], {}
    for name in (["relief", r.choice(("cover", "roads"))])[: r.choice((0, 0, 1, 2))]:
        west, north = window.point()
        pixel = r.choice((1, 3, window.pixel // 2, window.pixel, window.pixel + 1, 3 * window.pixel, window.wide, WORLD))
        refs.append({"name": name, "file": name + ".ppm", "west": west, "north": north, "pixel": pixel})
        columns, rows = r.choice((1, 2, 5, 40)), r.choice((1, 3, 40))
        colours = bytes(r.randrange(256) for _ in range(3 * columns * rows))
        files[name + ".ppm"] = b"P6\n%d %d\n255\n" % (columns, rows) + colours
    return refs, files


def script_lines(r, window):
    """A metatile is drawn, tiles of it are fetched, and once more after the update."""
    z, column, row = window.z, window.x // 8 * 8, window.y // 8 * 8
    side = min(8, 2**z)
    tiles = {(window.x, window.y), (column + r.randrange(side), row + r.randrange(side)), (column, row + side - 1)}
    tiles.add((column + min(max(window.x - column + r.choice((-1, 1)), 0), side - 1), window.y))
    lines = []
    for ticket in range(2):
        lines += ["ask 0 render default %d %d %d" % (z, window.x, window.y), "claim 0", "finish %d" % ticket]
        lines += ["fetch default %d %d %d" % (z, x, y) for x, y in sorted(tiles)] + ["renew 0"]
    return "\n".join(lines[:-1]) + "\n"


def world(seed, number):
    """The files of a world, and the words of `render`."""
    r = random.Random("%d %d" % (seed, number))
    window = Window(r)
    refs, files = raster_files(r, window)
    names = ["land", "roads", "spots"][: r.randint(1, 3)]
    made = style(r, window, names + [ref["name"] for ref in refs], refs)
    layers = data_layers(r, window, names)
    data, changes = {"units": "world", "layers": layers}, update(r, window, layers)
    if r.random() < 0.1:
        data, changes = in_centimetres(data), in_centimetres(changes)
    maps = [{"name": "default", "style": "style.json", "tile": window.size}]
    config = {"maps": maps, "data": "data.json", "updates": ["update.json"], "workers": 1}
    texts = {"style.json": made, "data.json": data, "update.json": changes, "config.json": config}
    files.update({name: json.dumps(value).encode() for name, value in texts.items()})
    files["script"] = script_lines(r, window).encode()
    return files, ["render", "style.json", "data.json"] + [str(n) for n in (window.size, window.z, window.x, window.y)]


def counted(files):
    """How many of each shape and symbolizer the files have."""
    found = collections.Counter()
    for layer in json.loads(files["data.json"])["layers"]:
        found.update(next(iter(item["geometry"])) for item in layer["features"])
    for made in json.loads(files["style.json"])["styles"]:
        found.update(s["symbolizer"] for one in made["rules"] for s in one["symbolizers"])
    return found


# --- Comparing --------------------------------------------------------------------------------------------------


def told(seen, wanted):
    """Where two outputs differ first: a pixel of the picture that stands there, or a byte."""
    (out, err, status), (want_out, want_err, want_status) = seen, wanted
    if (err, status) != (want_err, want_status):
        return "status %d %r, not %d %r" % (status, err[-300:], want_status, want_err)
    at = next((i for i, (a, b) in enumerate(zip(out, want_out)) if a != b), min(len(out), len(want_out)))
    first = want_out.rfind(b"P6\n", 0, at + 1)
    if first < 0 or len(out) != len(want_out):
        return "at byte %d %r, not %r" % (at, out[at : at + 40], want_out[at : at + 40])
    columns = int(want_out[first:].split()[1])
    pixel = (at - first - len(b"P6\n%d %d\n255\n" % (columns, columns))) // 3
    at = first + len(b"P6\n%d %d\n255\n" % (columns, columns)) + 3 * pixel
    place = "tile %d, column %d, row %d" % (want_out.count(b"P6\n", 0, first), pixel % columns, pixel // columns)
    return "%s: #%s, not #%s" % (place, out[at : at + 3].hex(), want_out[at : at + 3].hex())


def ran(folder, words):
    try:
        end = subprocess.run([PROGRAM, *words], cwd=folder, capture_output=True, timeout=SECONDS)
    except subprocess.TimeoutExpired:
        return b"", b"no end", -1
    return end.stdout, end.stderr, end.returncode


def compared(folder, number, words):
    """The lines of what differs, and how many pixels of the tile are none of the background."""
    lines = []
    wanted = tilefarm.run(folder, words)
    script = ["script", "config.json", "script"]
    for asked, want in ((words, wanted), (script, farm.run(farm.Files(folder), script))):
        seen = ran(folder, asked)
        if seen != want or want[2] != 0:
            lines.append("world %d: %s: %s; its files are in %s" % (number, " ".join(asked), told(seen, want), folder))
    pixels = wanted[0].split(b"\n", 3)[-1]
    return lines, len({pixels[at : at + 3] for at in range(0, len(pixels), 3)})


def main(seed=1, count=500, first=0):
    found, colours, wrong = collections.Counter(), 0, 0
    top = tempfile.mkdtemp(prefix="drawn_worlds-")
    for number in range(first, first + count):
        files, words = world(seed, number)
        folder = os.path.join(top, str(number))
        os.mkdir(folder)
        for name, text in files.items():
            with open(os.path.join(folder, name), "wb") as made:
                made.write(text)
        found += counted(files)
        lines, shown = compared(folder, number, words)
        colours += shown > 1
        wrong += len(lines)
        print("".join(line + "\n" for line in lines), end="", flush=True)
        if not lines:
            shutil.rmtree(folder)
    if not wrong:
        os.rmdir(top)
    print(", ".join("%s %d" % pair for pair in sorted(found.items())))
    print("%d worlds, %d of them of several colours, %d commands, %d differ" % (count, colours, 2 * count, wrong))
    return 1 if wrong else 0


if __name__ == "__main__":
    sys.exit(main(*map(int, sys.argv[1:])))
