#!/usr/bin/env python3
"""Small worlds for the crate `command_cases`: configurations and scripts over all events, drawn from fixed seeds.

From the repository's top,

    python3 oracle/script_worlds.py crates/command_cases/data

writes the files of the worlds, the same at each run, and prints their lines of `scripts`. What the scripts answer is
`oracle/farm.py`'s business; here it only tells which tickets are in hand. It needs Python 3 and nothing else.
"""

import json
import os
import random
import sys

import farm

WORLDS = 40
SHEETS = {
    "fields": '{"background-color":"#eee","styles":[{"name":"s","rules":[{"Filter":"[kind] = 1","symbolizers":'
    '[{"symbolizer":"PolygonSymbolizer","fill":"green","fill-opacity":"0.6"}]},{"ElseFilter":true,"symbolizers":'
    '[{"symbolizer":"PolygonSymbolizer","fill":"olive"}]}]},{"name":"l","rules":[{"symbolizers":'
    '[{"symbolizer":"LineSymbolizer","stroke":"navy","stroke-width":"3","stroke-linecap":"round"}]}]}],'
    '"layers":[{"name":"a","source":"land","styles":["s","l"]},{"name":"b","source":"roads","styles":["l"]}]}',
    "night": '{"background-color":"black","styles":[{"name":"s","rules":[{"symbolizers":[{"symbolizer":'
    '"PolygonSymbolizer","fill":"rgb(40, 40, 90)"},{"symbolizer":"LineSymbolizer","stroke":"yellow"},{"symbolizer":'
    '"MarkersSymbolizer","fill":"#f80","width":"4","height":"2.5","opacity":"0.5"}]}]}],"layers":[{"name":"a",'
    '"source":"land","styles":["s"]},{"name":"b","source":"roads","styles":["s"]},{"name":"c","source":"spots",'
    '"styles":["s"]}]}',
    "relief": '{"rasters":[{"name":"hills","file":"hills.grid","west":268435456,"north":0,"pixel":134217728}],"styles":'
    '[{"name":"g","rules":[{"symbolizers":[{"symbolizer":"RasterSymbolizer","opacity":"0.75"}]}]},{"name":"m","rules":'
    '[{"symbolizers":[{"symbolizer":"MarkersSymbolizer","fill":"red","width":"6","height":"6"}]}]}],"layers":[{"name":'
    '"a","source":"hills","styles":["g"]},{"name":"b","source":"spots","styles":["m"]}]}',
}
SPOTS = ((0, 0, 0), (1, 1, 0), (2, 1, 2), (3, 0, 0), (3, 7, 7), (4, 3, 3), (4, 8, 0), (4, 15, 15), (5, 31, 0), (5, 8, 8))
WRONG_SPOTS = (("nomap", 0, 0, 0), ("default", 3, 8, 0), ("default", 3, 0, 8), ("default", 19, 0, 0))
COMMANDS = ("render", "render", "render", "prio", "low", "bulk", "dirty")


def point(r):
    step = 2**25
    return [step * r.randrange(33), step * r.randrange(33)]


def feature(r, layer, number):
    points = [point(r) for _ in range(3)]
    while layer != "spots" and (points[0] == points[1] or points[1] == points[2]):
        points = [point(r) for _ in range(3)]
    shape = {"land": {"polygon": [points]}, "roads": {"lines": [points]}, "spots": {"points": points[:2]}}[layer]
    return {"id": number, "geometry": shape, "attrs": {"kind": r.randrange(3)}}


def data_file(r):
    layers = [{"name": n, "features": [feature(r, n, i) for i in range(r.randrange(1, 4))]} for n in ("land", "roads", "spots")]
    return {"units": "world", "layers": layers}


def update_file(r, number):
    """One change: a point or a feature is put, one is removed, which a second time is refused, or a thing is absent."""
    layer = r.choice(("land", "roads", "spots"))
    mark = {"id": 50 + number, "geometry": {"points": [[r.randrange(2**30), r.randrange(2**30)]]}}
    changes = (
        {"layer": "spots", "put": [mark]},
        {"layer": layer, "put": [feature(r, layer, 0), feature(r, layer, number)]},
        {"layer": layer, "remove": [0], "put": [feature(r, layer, 1)]},
        r.choice(({"layer": "sea", "remove": [1]}, {"layer": layer, "remove": [77], "put": [mark]})),
    )
    return {"units": "world", "changes": [changes[number % 4]]}


def config_file(r, sheets):
    maps = [{"name": "default", "style": r.choice(sheets), "tile": 16}]
    if r.random() < 0.6:
        maps.append({"name": "night-2", "style": r.choice(sheets), "tile": r.choice((16, 32)), "maxzoom": r.choice((3, 5))})
    made = {"maps": maps, "data": "world_%d.data" % r.randrange(4), "workers": r.choice((1, 2, 2, 3))}
    made["updates"] = ["world_%d.update" % r.randrange(12) for _ in range(r.randrange(1, 5))]
    made["limits"] = {"prio": 1, "request": r.choice((1, 2, 32)), "low": r.choice((1, 2)), "dirty": r.choice((1, 2, 3, 1000)), "bulk": r.choice((1, 2))}
    made["restyles"] = [{"map": r.choice(maps)["name"], "style": r.choice(sheets)} for _ in range(r.randrange(3))]
    return made


def line(r, maps, hand):
    """One line of a script; `hand` has the tickets in hand."""
    spot = "%s %d %d %d" % (r.choice(WRONG_SPOTS) if r.random() < 0.05 else (r.choice(maps),) + r.choice(SPOTS))
    ticket = r.choice(sorted(hand)) if hand and r.random() < 0.95 else r.randrange(60)
    z = r.choice((0, 1, 2, 3, 4, 7, 18))
    lines = (
        (34, "ask %d %s %s" % (r.randrange(6), r.choice(COMMANDS), spot)),
        (14 if hand else 26, "claim %d" % r.randrange(3)),
        (14 if hand else 2, "finish %d" % ticket),
        (2, "cut %d" % ticket),
        (2, "update %d" % r.randrange(5)),
        (3, "renew %d" % r.randrange(5)),
        (2, "restyle %d" % r.randrange(3)),
        (5, "expire %d %d %d" % (z, r.choice((0, 2**z - 1, 2**z // 2)), r.choice((0, 2**z - 1, 2**z // 2, 2**z)))),
        (4, "fetch %s" % spot),
        (7, "look %s" % spot),
        (9, "collect %d" % r.choice((0, 0, 0, 0, 1))),
        (2, "leave %d" % r.randrange(6)),
        (2, "tally"),
    )
    return r.choices([text for _, text in lines], [weight for weight, _ in lines])[0]


def script_file(r, folder, config, count, line=line):
    """The lines, each drawn with the tickets that the answers before it gave."""
    plan = {"limits": config["limits"], "workers": config["workers"], "layers": {}, "updates": [], "restyles": []}
    plan["maps"] = [dict(entry, maxzoom=entry.get("maxzoom", 18), style=None) for entry in config["maps"]]
    known, hand, lines = farm.Farm(plan), set(), []
    for place in range(count):
        text = "stop" if place == count - 15 and r.random() < 0.5 else line(r, [m["name"] for m in config["maps"]], hand)
        lines.append(text)
        word, values = farm.line_of(text.encode())
        if word != "fetch":
            farm.answer_of(known, hand, word, values)
    return lines


def write(folder, name, text):
    with open(os.path.join(folder, name), "w") as made:
        made.write(text + "\n")


def numbers(r, most, count):
    return " ".join(str(number) for number in sorted(r.sample(range(most), count)))


def main(folder):
    r = random.Random(54)
    for name, text in SHEETS.items():
        write(folder, "world_%s.style" % name, text)
    with open(os.path.join(folder, "hills.grid"), "wb") as made:
        made.write(b"P6\n4 6\n255\n" + bytes(r.randrange(256) for _ in range(72)))
    for number in range(4):
        write(folder, "world_%d.data" % number, json.dumps(data_file(r)))
    for number in range(12):
        write(folder, "world_%d.update" % number, json.dumps(update_file(r, number)))
    sheets = ["world_%s.style" % name for name in SHEETS]
    for number in range(WORLDS):
        r = random.Random(1000 + number)
        config = config_file(r, sheets)
        write(folder, "world_%d.config" % number, json.dumps(config))
        write(folder, "world_%d.script" % number, "\n".join(script_file(r, folder, config, r.randrange(100, 300))))
        calls = " puts %s gets %s" % (numbers(r, 20, 3), numbers(r, 12, 2)) if number % 3 == 0 else ""
        print("script world_%d.config world_%d.script%s" % (number, number, calls))


if __name__ == "__main__":
    main(sys.argv[1])
