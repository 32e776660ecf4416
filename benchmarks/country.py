#!/usr/bin/env python3
"""A country of an extract of OpenStreetMap, many times beside itself, and a day's change file of it; both in OPL.

    osmium cat town.osm.pbf -f opl -o - | benchmarks/country.py 118 | osmium cat -F opl - -o country.osm.pbf
    osmium cat country.osm.pbf -t way -f opl -o - | benchmarks/country.py day | osmium cat -F opl - -o day.osc.gz

Ids are spread as those of the whole world are: each copy has its own 100 million of nodes, 10 million of ways and 100,000 of
relations. On the day every 499th road becomes a primary one, and every 997th building goes. docs/operate/days.md, Sizes, has what
`farmctl` and a farm make of 118 times Liechtenstein, a million features.
"""

import re
import sys

SPREAD = {"n": 10**8, "w": 10**7, "r": 10**5}  # ids of one copy lie in so many


def dense(ids, spread):
    """New ids in the same order, in so many."""
    made, last, scale = {}, 0, 0.95 * spread / max(ids)
    for each in sorted(ids):
        last = max(last + 1, int(each * scale))
        made[each] = last
    return made


def main(count):
    objects = {"n": [], "w": [], "r": []}
    for line in sys.stdin:
        words = line.rstrip("\n").split(" ")
        kept = {word[0]: word[1:] for word in words[1:]}
        objects[line[0]].append((int(words[0][1:]), kept))
    ids = {kind: {number for number, _ in each} for kind, each in objects.items()}
    for _, kept in objects["w"]:
        ids["n"].update(int(ref[1:].partition("x")[0]) for ref in kept["N"].split(",") if ref)
    for _, kept in objects["r"]:
        for member in filter(None, kept["M"].split(",")):
            ids[member[0]].add(int(member[1:].partition("@")[0]))
    new = {kind: dense(each, SPREAD[kind]) for kind, each in ids.items()}
    points = [(float(kept["x"]), float(kept["y"])) for _, kept in objects["n"]]
    west, north = min(x for x, _ in points), max(y for _, y in points)
    wide, high = max(x for x, _ in points) - west, north - min(y for _, y in points)
    across = max(1, round(count**0.5))
    write = sys.stdout.write
    nodes = sorted((new["n"][number], float(kept["x"]) - west + 7.0, float(kept["y"]) - north + 48.5, kept["T"]) for number, kept in objects["n"])
    ways = sorted((new["w"][number], [new["n"][int(ref[1:].partition("x")[0])] for ref in kept["N"].split(",") if ref], kept["T"]) for number, kept in objects["w"])
    relations = sorted((new["r"][number], [(m[0], new[m[0]][int(m[1:].partition("@")[0])], m.partition("@")[2]) for m in filter(None, kept["M"].split(","))], kept["T"]) for number, kept in objects["r"])
    for i in range(count):
        base, east, south = i * SPREAD["n"], i % across * wide, i // across * high
        write("".join(["n%d v1 dV T%s x%.7f y%.7f\n" % (base + n, tags, x + east, y - south) for n, x, y, tags in nodes]))
    for i in range(count):
        base, own = i * SPREAD["n"], i * SPREAD["w"]
        write("".join(["w%d v1 dV T%s N%s\n" % (own + n, tags, ",".join(["n%d" % (base + r) for r in refs])) for n, refs, tags in ways]))
    for i in range(count):
        write("".join(["r%d v1 dV T%s M%s\n" % (i * SPREAD["r"] + n, tags, ",".join(["%s%d@%s" % (k, i * SPREAD[k] + r, role) for k, r, role in ms])) for n, ms, tags in relations]))


def day():
    roads = houses = 0
    for line in sys.stdin:
        if re.search(r"[T,]highway=", line):
            roads += 1
            if roads % 499 == 0:
                sys.stdout.write(re.sub(r"highway=[a-z_]+", "highway=primary", line).replace(" v1 ", " v2 ", 1))
        elif "building=" in line:
            houses += 1
            if houses % 997 == 0:
                sys.stdout.write(line.replace(" v1 ", " v2 ", 1).replace(" dV", " dD", 1))


if __name__ == "__main__":
    if len(sys.argv) != 2 or not (sys.argv[1] == "day" or sys.argv[1].isdigit()):
        sys.exit(__doc__.strip())
    day() if sys.argv[1] == "day" else main(int(sys.argv[1]))
