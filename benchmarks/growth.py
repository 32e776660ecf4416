#!/usr/bin/env python3
"""How time and memory grow: each kind of work is doubled four times.

    benchmarks/growth.py [quick] [FAMILY..]          (all families where none is named; -l lists them)

For each family stand its five sizes, the processor time and the memory of each, and their exponents: p where what a figure has over
that of the first size grows as the size has over the first one, to the power p, by least squares over the logarithms; so what is
there at any size does not count. Where a figure grows by less than a fiftieth it has none. Times are the least of so many runs as RUNS
says (3), and memory is the least of their peaks. A row says why, where an exponent may be over 1.1; one that is over it and has no reason
is marked, and the status is then 1. Some ten minutes on a quiet machine; `quick` takes a sixteenth of each size, once. With TILEFARM
another program is measured.
"""

import functools
import json
import math
import os
import random
import resource
import socket
import subprocess
import sys
import tempfile

TOP = os.path.dirname(os.path.dirname(os.path.abspath(__file__)))
sys.path.insert(0, os.path.join(TOP, "benchmarks"))
sys.dont_write_bytecode = True
import beside  # noqa: E402  (the path has to be there first)
import updates  # noqa: E402

PROGRAM = updates.PROGRAM
RUNS = int(os.environ.get("RUNS", "3"))
MOST = 1.1
PLACE = 12, 2048, 2048
TURNS = 5

# ---- what is drawn and read


def square(draw, number, attrs):
    west, north, side, _ = beside.metatile(*PLACE)
    x, y, wide = west + draw.randrange(side), north + draw.randrange(side), 1024 + draw.randrange(4096)
    return {"id": number, "geometry": {"polygon": [[[x, y], [x + wide, y], [x + wide, y + wide], [x, y + wide]]]}, "attrs": attrs}


@functools.lru_cache(maxsize=2)
def squares(count, attrs=lambda number: {"kind": number % 10}):
    draw = random.Random(9)
    return [square(draw, number, attrs(number)) for number in range(count)]


def rule(said, colour="#336699"):
    return ({"Filter": said} if said else {}) | {"symbolizers": [{"symbolizer": "PolygonSymbolizer", "fill": colour}]}


def style(styles, layers=1):
    """So many layers over the one source, each of which has all styles: lists of rules."""
    named = [{"name": "s%d" % place, "rules": rules} for place, rules in enumerate(styles)]
    return {"styles": named, "layers": [{"name": "l%d" % n, "source": "all", "styles": [it["name"] for it in named]} for n in range(layers)]}


def world(features):
    return {"units": "world", "layers": [{"name": "all", "features": features}]}


def ring(points):
    """A polygon of so many points in the metatile."""
    west, north, side, _ = beside.metatile(*PLACE)
    turn = lambda k: 2 * math.pi * k / max(points, 1)
    far = lambda k: side * (0.3 + 0.1 * math.sin(k))
    ring = [[int(west + side / 2 + far(k) * math.cos(turn(k))), int(north + side / 2 + far(k) * math.sin(turn(k)))] for k in range(points)]
    return [{"id": 1, "geometry": {"polygon": [ring]}, "attrs": {"kind": 0}}] if points else []


# ---- measures: each gives the names of its figures and their values


def put(folder, name, value):
    with open(os.path.join(folder, name), "w") as out:
        out.write(json.dumps(value))  # many times as quick as json.dump


def drawn(folder, made_style, made_data):
    """The processor time of one drawing of the metatile, of all before the first one ends, and the peak memory."""
    put(folder, "style.json", made_style)
    put(folder, "data.json", made_data)
    spent, peak = beside.Farm(PROGRAM, folder, PLACE)(TURNS)
    with open(os.path.join(folder, "notes")) as notes:
        first = int(notes.readline()) / 1e9
    return {"reading": first - min(spent), "drawing": min(spent), "memory": peak}


def features(folder, count):
    return drawn(folder, style([[rule("[kind] = 3"), rule("[kind] < 8")]]), world(squares(count)))


def only_drawn(*what):
    """The same where what is read stays as it is."""
    told = drawn(*what)
    return {"drawing": told["drawing"], "memory": told["memory"]}


def layers(folder, count):
    return only_drawn(folder, style([[rule("[kind] = 3")]], count), world(squares(20000)))


def styles(folder, count):
    return only_drawn(folder, style([[rule("[kind] = 3")]] * count), world(squares(20000)))


def rules(folder, count):
    return only_drawn(folder, style([[rule("[kind] = %d" % (10 + n)) for n in range(count)] + [rule("[kind] = 3")]]), world(squares(20000)))


def attributes(folder, count):
    attrs = lambda number: {"name%d" % n: number % 10 for n in range(count)} | {"kind": number % 10}
    return drawn(folder, style([[rule("[kind] = 3")]]), world(squares(10000, attrs)))


def points(folder, count):
    return drawn(folder, style([[rule(None)]]), world(ring(count)))


def scripted(folder, lines):
    with open(os.path.join(folder, "script"), "w") as out:
        out.write("".join(line + "\n" for line in lines))
    seconds, peak = beside.processor([PROGRAM, "script", "config.json", "script"], cwd=folder)
    return {"time": seconds, "memory": peak}


def changes(folder, count):
    """So many updates of 1,000 features, one after another, over 100,000 features."""
    put(folder, "style.json", style([[rule(None)]]))
    put(folder, "data.json", world(squares(100000)))
    draw, names = random.Random(2), ["update%d" % n for n in range(2)]
    for name in names:
        moved = [square(draw, number, {"kind": 1}) for number in draw.sample(range(100000), 1000)]
        put(folder, name, {"units": "world", "changes": [{"layer": "all", "put": moved}]})
    put(folder, "config.json", {"maps": [{"name": "default", "style": "style.json", "tile": 256}], "data": "data.json", "updates": names})
    return scripted(folder, ["update %d" % (n % 2) for n in range(count)])


def served(folder, maps, clean, features, lines):
    """A farm of so many maps and clean metatiles: what it takes until it answers, and what the lines take, one after another."""
    draw, tiles = random.Random(1), updates.across(1, max(clean // maps, 1024))
    put(folder, "style.json", updates.STYLE)
    put(folder, "data.json", {"units": "world", "layers": [{"name": "land", "features": [updates.square(draw, n, tiles) for n in range(features)]}]})
    moved = [updates.square(draw, n, tiles) for n in draw.sample(range(features), features // 10)]
    put(folder, "update.json", {"units": "world", "changes": [{"layer": "land", "put": moved}]})
    for name in ("world.list", "tiles.list"):
        with open(os.path.join(folder, name), "w") as out:
            out.write("0/0/0\n")
    farm = updates.Farm(folder, maps, clean)
    try:
        told = {"start": farm.busy() / 1000}
        for line in lines:
            told[line] = farm.line(line)[1] / 1000
        return told | {"memory": peak_of(farm.process.pid)}
    finally:
        farm.end()


def peak_of(pid):
    with open("/proc/%d/status" % pid) as lines:
        return next(int(line.split()[1]) for line in lines if line.startswith("VmHWM"))


def maps(folder, count):
    return served(folder, count, 50000 * count, 20000, ["update 0", "renew 0", "expire 0"])


def clean(folder, count):
    return served(folder, 1, count, 20000, ["renew 0", "expire 0"])


def connections(folder, count):
    """So many connections at once, each of which asks how a tile stands: what all take together."""
    put(folder, "style.json", updates.STYLE)
    put(folder, "data.json", {"units": "world", "layers": [{"name": "land", "features": []}]})
    for name in ("world.list", "tiles.list"):
        with open(os.path.join(folder, name), "w") as out:
            out.write("0/0/0\n")
    put(folder, "update.json", {"units": "world", "changes": []})
    farm = updates.Farm(folder, 1, 1024)
    try:
        before, made = farm.busy(), []
        for _ in range(count):
            made.append(socket.socket(socket.AF_UNIX))
            made[-1].connect(os.path.join(folder, "tiles.sock"))
        ask = b"GET /m0/18/%d/%d.ppm/status HTTP/1.1\r\n\r\n" % (updates.WEST, updates.NORTH)
        for it in made:
            it.sendall(ask)
        for it in made:
            if not it.recv(4096).startswith(b"HTTP/1.1 200"):
                sys.exit("growth.py: a connection got no answer")
            it.close()
        return {"time": (farm.busy() - before) / 1000, "memory": peak_of(farm.process.pid)}
    finally:
        farm.end()


# The least size, what is measured, and the reason where a figure may grow by more than its size.
FAMILIES = {
    "features": (12500, features, {}),
    "layers": (4, layers, {}),
    "styles": (4, styles, {}),
    "rules": (16, rules, {}),
    "attributes": (8, attributes, {}),
    "points": (16384, points, {}),
    "maps": (1, maps, {}),
    "clean": (62500, clean, {}),
    "updates": (50, changes, {}),
    "connections": (62, connections, {}),
}

# ---- exponents


def exponent(sizes, figures):
    """The slope of the logarithms of what is added, by least squares; None where nothing is."""
    added = [(size - sizes[0], figure - figures[0]) for size, figure in zip(sizes[1:], figures[1:]) if figure > 1.02 * figures[0]]
    if len(added) < 2:
        return None
    xs, ys = [math.log(it) for it, _ in added], [math.log(it) for _, it in added]
    middle, level = sum(xs) / len(xs), sum(ys) / len(ys)
    return sum((x - middle) * (y - level) for x, y in zip(xs, ys)) / sum((x - middle) ** 2 for x in xs)


def least(folder, measured, size, count):
    """The least of each figure over so many runs."""
    runs = [measured(folder, size) for _ in range(count)]
    return {name: min(run[name] for run in runs) for name in runs[0]}


def shown(figure, is_memory):
    return "%.1f MB" % (figure / 1024) if is_memory else "%.4f" % figure


def family(name, part):
    """Prints the family's rows; how many of its exponents are over the most without a reason."""
    first, measured, reasons = FAMILIES[name]
    sizes, wrong = [max(1, first // part) << n for n in range(5)], 0
    with tempfile.TemporaryDirectory() as folder:
        compiled(folder)
        runs = RUNS if part == 1 else 1
        got = [least(folder, measured, size, runs) for size in sizes]
    for figure in got[0]:
        they = [it[figure] for it in got]
        power = exponent(sizes, they)
        over = power is not None and power > MOST and figure not in reasons
        wrong += over
        told = "-" if power is None else "%.2f" % power
        why = reasons.get(figure, "OVER %.1f" % MOST if over else "")
        print("| %s | %s to %s | %s | %s | %s | %s |" % (name, sizes[0], sizes[-1], figure, ", ".join(shown(it, figure == "memory") for it in they), told, why), flush=True)
    return wrong


def compiled(folder):
    """What beside.Farm preloads."""
    source = os.path.join(TOP, "benchmarks", "unwritten.c")
    subprocess.run(["cc", "-O2", "-shared", "-fPIC", "-o", os.path.join(folder, "unwritten.so"), source], check=True)


def main(names):
    if names == ["-l"]:
        print(*FAMILIES)
        return 0
    part = 16 if names[:1] == ["quick"] else 1
    names = names[1:] if part > 1 else names
    most = resource.getrlimit(resource.RLIMIT_NOFILE)[1]
    resource.setrlimit(resource.RLIMIT_NOFILE, (most, most))
    print("load %.1f, %d processors\n" % (os.getloadavg()[0], os.cpu_count()))
    print("| doubled | from | what | seconds of processor time, or memory | exponent | |\n|---|---|---|---|---|---|")
    wrong = sum(family(name, part) for name in names or FAMILIES)
    print("\nload %.1f" % os.getloadavg()[0])
    return 1 if wrong else 0


if __name__ == "__main__":
    sys.exit(main(sys.argv[1:]))
