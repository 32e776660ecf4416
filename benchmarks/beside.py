"""Makes the cases, runs them in turn and prints the table: see beside.sh, which calls it.

Shapes are in world units, 2^30 across the world, with y to the south. Mapnik gets the same numbers with y turned
round, in one projection for data and map, so that it projects nothing."""

import collections, glob, json, math, os, random, shutil, statistics, struct, subprocess, sys, zlib

sys.path.insert(0, os.path.join(os.path.dirname(os.path.abspath(__file__)), "..", "oracle"))
import farm

WORLD = 2**30
BACKGROUND = (0xF2, 0xEF, 0xE9)
REPEATS = int(os.environ.get("REPEATS", "5"))
# Large pages for both, as the launcher asks for them.
os.environ.setdefault("GLIBC_TUNABLES", "glibc.malloc.hugetlb=1")
MIDDLE = WORLD // 2
SHORE = [MIDDLE + 3 * 2**23, MIDDLE + 2**24]

# ---- shapes: a feature is (kind, "polygon" | "lines" | "points", coordinates), where the kind is a number, or all its
# attributes by their names


def metatile(z, x, y):
    """The west and north edge of the metatile and its side, in units, and its pixel."""
    side = 8 * (WORLD >> z)
    return x // 8 * side, y // 8 * side, side, side // 2048


def around(draw, x, y, radius, count):
    turns = sorted(draw.random() * 2 * math.pi for _ in range(count))
    return [[int(x + radius * (0.7 + 0.3 * draw.random()) * math.cos(t)), int(y + radius * (0.7 + 0.3 * draw.random()) * math.sin(t))] for t in turns]


def along(draw, x, y, step, count):
    line, turn = [[int(x), int(y)]], draw.random() * 2 * math.pi
    for _ in range(count - 1):
        turn += draw.random() - 0.5
        x, y = x + step * math.cos(turn), y + step * math.sin(turn)
        line.append([int(x), int(y)])
    return line


def generated(count):
    """The data of `tilefarm load 7 COUNT`: squares, lines and points in the metatile of zoom 14."""
    draws, features = farm.Draws(7), {}
    for name, layer in farm.generated_layers(draws, count).items():
        features[name] = [(it["attrs"][b"kind"], it["kind"], [list(map(list, path)) for path in it["paths"]]) for it in layer.values()]
    features["spots"] = [(kind, shape, at[0]) for kind, shape, at in features["spots"]]
    return features


def mixed(count):
    """As many polygons as lines and points, large and small, in the square of the metatile of zoom 11."""
    draw, features = random.Random(2026), {"land": [], "roads": [], "spots": []}
    for number in range(count):
        x, y = MIDDLE + draw.randrange(2**22), MIDDLE + draw.randrange(2**22)
        kind = draw.randrange(5)
        if number % 3 == 0:
            features["land"].append((kind, "polygon", [around(draw, x, y, 1024 * (4 + draw.randrange(28)), 4 + draw.randrange(12))]))
        elif number % 3 == 1:
            features["roads"].append((kind, "lines", [along(draw, x, y, 12 * 1024, 2 + draw.randrange(14))]))
        else:
            features["spots"].append((kind, "points", [[x, y]]))
    return features


def boundless(size):
    """A random place of the metatile of zoom 14 at the middle, and so many of its pixels."""
    west, north, side, pixel = metatile(14, 2**13, 2**13)
    return lambda draw: (west + draw.randrange(side), north + draw.randrange(side), pixel * size)


def many(count, kind, make):
    draw = random.Random(1)
    return {"all": [(0, kind, make(draw)) for _ in range(count)]}


def cities():
    place = boundless(683)
    return many(1000, "polygon", lambda draw: [around(draw, *place(draw), 200)])


def strokes(count, step, points):
    place = boundless(step)
    return lambda: many(count, "lines", lambda draw: [along(draw, *place(draw), points)])


def spots(count):
    place = boundless(1)
    return lambda: many(1, "points", lambda draw: [list(place(draw)[:2]) for _ in range(count)])


def coast():
    """An island whose east shore lies at SHORE."""
    draw, ring = random.Random(3), []
    for k in range(60000):
        turn = 2 * math.pi * k / 60000
        far = 2**23 * (1 + 0.1 * math.sin(k / 300) + 0.0001 * draw.random())
        ring.append([int(SHORE[0] - 2**23 + far * math.cos(turn)), int(SHORE[1] + far * math.sin(turn))])
    return {"all": [(0, "polygon", [ring])]}


def long_line():
    """A line from west to east that passes SHORE."""
    draw = random.Random(4)
    return {"all": [(0, "lines", [[[SHORE[0] + 1000 * (k - 32500), int(SHORE[1] + 2**18 * math.sin((k - 32500) / 50) + draw.randrange(2000))] for k in range(65000)]])]}


def wound_line():

    west, north, side, pixel = metatile(14, 2**13, 2**13)
    line = []
    for k in range(65000):
        turn, far = k / 40, side * 0.48 * k / 65000
        line.append([int(west + side / 2 + far * math.cos(turn)), int(north + side / 2 + far * math.sin(turn))])
    return {"all": [(0, "lines", [line])]}


def tracks(count, points):
    """Wandering tracks in the metatile of zoom 14, each of so many points a tenth of a pixel apart."""

    def made():
        west, north, side, pixel = metatile(14, 2**13, 2**13)
        draw, lines = random.Random(11), []
        for _ in range(count):
            x, y, turn, line = west + draw.randrange(side), north + draw.randrange(side), draw.random() * 2 * math.pi, []
            for _ in range(points):
                turn += (draw.random() - 0.5) * 0.1
                x, y = x + pixel / 10 * math.cos(turn), y + pixel / 10 * math.sin(turn)
                line.append([int(x), int(y)])
            lines.append((0, "lines", [line]))
        return {"all": lines}

    return made


def borders(count, points):
    """Borders of countries: rough rings over the metatile of zoom 5 at the middle, most of them seen from far away."""

    def made():
        west, north, side, _ = metatile(5, 2**4, 2**4)
        draw, lines = random.Random(12), []
        for _ in range(count):
            x, y, far, line = west + draw.randrange(side), north + draw.randrange(side), side * (0.02 + 0.1 * draw.random()), []
            rough = [draw.random() * 2 * math.pi for _ in range(8)]
            for k in range(points):
                turn = 2 * math.pi * k / (points - 1)
                radius = far * (1 + sum(0.3 / (n + 1) * math.sin((3 * n + 2) * turn + it) for n, it in enumerate(rough)) + 0.01 * draw.random())
                line.append([int(min(WORLD - 1, max(0, x + radius * math.cos(turn)))), int(min(WORLD - 1, max(0, y + radius * math.sin(turn))))])
            lines.append((0, "lines", [line]))
        return {"all": lines}

    return made


def rivers(count, points):
    """Winding lines that begin in the metatile of zoom 14 and leave it, so that most of each lies outside."""

    def made():
        west, north, side, pixel = metatile(14, 2**13, 2**13)
        draw = random.Random(13)
        return {"all": [(0, "lines", [along(draw, west + draw.randrange(side), north + draw.randrange(side), 4 * pixel, points)]) for _ in range(count)]}

    return made


def across():
    """Straight lines from one side of the metatile of zoom 14 to the other."""
    west, north, side, _ = metatile(14, 2**13, 2**13)
    draw = random.Random(5)
    ends = lambda: (north + draw.randrange(side), north + draw.randrange(side))
    return {"all": [(0, "lines", [[[west, a], [west + side, b]]]) for a, b in (ends() for _ in range(1000))]}


def passing():
    """Long straight lines whose boxes hold the metatile of zoom 18, most of which pass it by."""
    west, north, side, _ = metatile(18, 2**17, 2**17)
    draw = random.Random(6)
    far = lambda: draw.randrange(200 * side)
    return {"all": [(0, "lines", [[[west - far(), north - far()], [west + side + far(), north + side + far()]]]) for _ in range(2000)]}


def contours():
    """Rings of 500 points, as lines: heights round a few summits of the metatile of zoom 14."""
    west, north, side, _ = metatile(14, 2**13, 2**13)
    draw, lines = random.Random(7), []
    summits = [(west + draw.randrange(side), north + draw.randrange(side), draw.random()) for _ in range(12)]
    for number in range(300):
        x, y, bent = summits[number % 12]
        far, line = side * (0.02 + 0.015 * (number // 12)), []
        for k in range(500):
            turn = 2 * math.pi * k / 499
            radius = far * (1 + 0.2 * math.sin(5 * turn + 6 * bent) + 0.05 * math.sin(31 * turn))
            line.append([int(x + radius * math.cos(turn)), int(y + radius * math.sin(turn))])
        lines.append((0, "lines", [line]))
    return {"all": lines}


def comb(teeth):
    """A polygon of so many teeth, each as high as the metatile of zoom 14."""

    def made():
        west, north, side, _ = metatile(14, 2**13, 2**13)
        ring = []
        for k in range(teeth):
            ring += [[west + side * k // teeth, north + side - 1], [west + side * (2 * k + 1) // (2 * teeth), north + 1]]
        return {"all": [(0, "polygon", [ring + [[west + side - 1, north + side - 1]]])]}

    return made


def scattered(count, kinds=1):
    """Small squares in no order of place, over the metatile of zoom 8 at the middle."""
    west, north, side, _ = metatile(8, 2**7, 2**7)
    draw, squares = random.Random(8), []
    for number in range(count):
        x, y, wide = west + draw.randrange(side), north + draw.randrange(side), 1024 + draw.randrange(2048)
        squares.append((number % kinds, "polygon", [[[x, y], [x + wide, y], [x + wide, y + wide], [x, y + wide]]]))
    return {"all": squares}


def squares(count):
    """Small squares of ten kinds in the metatile of zoom 12 at the middle."""
    west, north, side, _ = metatile(12, 2**11, 2**11)
    draw, made = random.Random(9), []
    for _ in range(count):
        x, y, wide = west + draw.randrange(side), north + draw.randrange(side), 1024 + draw.randrange(4096)
        made.append((draw.randrange(10), "polygon", [[[x, y], [x + wide, y], [x + wide, y + wide], [x, y + wide]]]))
    return {"all": made}


def houses(count):
    """Houses of 4 to 15 metres, of ten kinds, in the quarter of the metatile of zoom 12 at the middle that is its north-west."""
    west, north, side, _ = metatile(12, 2**11, 2**11)
    draw, made = random.Random(13), []
    for _ in range(count):
        x, y, wide = west + draw.randrange(side // 2), north + draw.randrange(side // 2), 100 + draw.randrange(300)
        made.append((draw.randrange(10), "polygon", [[[x, y], [x + wide, y], [x + wide, y + wide], [x, y + wide]]]))
    return {"all": made}


# A picture of 1,024 by 1,024 pixels, two of zoom 12 each, that lies over the metatile of zoom 12 at the middle.
BASE_SIDE = 1024


def base_picture():
    """Its bytes, three for each pixel, by rows: a relief that is made, so that neighbours differ."""
    row = lambda j: b"".join(bytes((int(128 + 60 * math.sin(i / 23) + 40 * math.cos(j / 17)) & 255, (i * 7 + j) & 255, (i ^ j) & 255)) for i in range(BASE_SIDE))
    return b"".join(row(j) for j in range(BASE_SIDE))


def roads_on_base():
    """2,000 roads in the metatile of zoom 12 at the middle."""
    west, north, side, pixel = metatile(12, 2**11, 2**11)
    draw = random.Random(10)
    return {"all": [(0, "lines", [along(draw, west + draw.randrange(side), north + draw.randrange(side), 20 * pixel, 12)]) for _ in range(2000)]}


# Thirty attributes, as extracts of maps have them, each with one of six words.
NAMES = "highway surface lanes maxspeed oneway bridge tunnel layer access foot bicycle horse service junction lit width smoothness tracktype sidewalk cycleway railway waterway landuse natural leisure amenity building operator ref name".split()
WORDS = "yes no primary residential unclassified construction".split()


def tagged(count):
    """Small squares with thirty attributes in the metatile of zoom 14 at the middle."""
    west, north, side, pixel = metatile(14, 2**13, 2**13)
    draw, made = random.Random(11), []
    for _ in range(count):
        x, y, wide = west + draw.randrange(side), north + draw.randrange(side), pixel * (2 + draw.randrange(6))
        made.append(({name: draw.choice(WORDS) for name in NAMES}, "polygon", [[[x, y], [x + wide, y], [x + wide, y + wide], [x, y + wide]]]))
    return {"all": made}


# ---- styles: for each layer of data some rules (kind, the text of a filter, or None for the rest; symbolizers; and maybe
# the least and the greatest scale denominator)

# A layer that more than one style draws, each a list of rules; and one that draws the data of another name.
Styled = collections.namedtuple("Styled", "styles")
Over = collections.namedtuple("Over", "source rules")


def fill(colour, opacity=1):
    return {"symbolizer": "PolygonSymbolizer", "fill": colour, "fill-opacity": str(opacity)}


def stroke(colour, width, cap="butt", opacity=1):
    return {"symbolizer": "LineSymbolizer", "stroke": colour, "stroke-width": str(width), "stroke-opacity": str(opacity), "stroke-linecap": cap}


def mark(colour, width, height=None, opacity=1):
    return {"symbolizer": "MarkersSymbolizer", "fill": colour, "width": str(width), "height": str(height or width), "opacity": str(opacity)}


TWELVE = {
    "land": [(0, [fill("#add19e")]), (1, [fill("#b5d0d0"), stroke("#5f9ea0", 1)]), (2, [fill("#d9d0c9", 0.5)]), (None, [fill("#eeeeee"), stroke("#aaaaaa", 2)])],
    "roads": [(0, [stroke("#e892a2", 6, "round"), stroke("#ffffff", 3, "round")]), (1, [stroke("#f9b29c", 4)]), (2, [stroke("#fcd6a4", 3, "butt", 0.8)]), (None, [stroke("#808080", 1)])],
    "spots": [(0, [mark("#2e7d32", 6)]), (1, [mark("#0000ff", 8, 4)]), (2, [mark("#800000", 12, 12, 0.5)]), (None, [mark("#808080", 3)])],
}


def load_style():
    """The twelve rules of `tilefarm load`, four for each layer."""
    colour = lambda r: "#%02x%02x80" % (20 * r, 255 - 20 * r)
    paints = {"land": lambda c: fill(c), "roads": lambda c: stroke(c, 2, "round"), "spots": lambda c: mark(c, 6)}
    return {name: [(q, [paint(colour(4 * place + q))]) for q in range(4)] for place, (name, paint) in enumerate(paints.items())}


def one(*symbolizers):
    return {"all": [(None, list(symbolizers))]}


def beside_others(count, kind=None):
    """One style that draws, all or one kind of ten, and so many of ten rules each that begin at zoom 17 (a denominator of 4,265)."""
    other = [(kind, [fill("#cc0000")], (0, 5000)) for kind in range(10)]
    return {"all": Styled([[(kind, [fill("#336699")])]] + [other] * count)}


def layers_over_one(count):
    """So many layers over the same data, each of which draws one kind."""
    return {"layer%d" % kind: Over("all", [(kind, [fill("#336699")])]) for kind in range(count)}


def nested(draw, depth):
    """A filter of 2 ** depth comparisons of texts, in turn parts of `and` and of `or`."""
    if depth == 0:
        return "[%s] = '%s'" % (draw.choice(NAMES), draw.choice(WORDS))
    return "(%s %s %s)" % (nested(draw, depth - 1), ("and", "or")[depth % 2], nested(draw, depth - 1))


def deep():
    """Twenty rules whose filters are 32 comparisons of texts, nested five deep."""
    draw = random.Random(12)
    return {"all": [(nested(draw, 5), [fill("#%02x6699" % (12 * rule))]) for rule in range(20)]}


def many_rules(count):
    """The style of `tilefarm load` with so many rules for each of its layers, of which the last four match."""
    return {name: [(4 + count - rule, they) for rule in range(count - 4) for they in [of[0][1]]] + of for name, of in load_style().items()}


# what is drawn, how, at which zooms, and round which point
HERE = [MIDDLE, MIDDLE]
FAR = [MIDDLE // 2, MIDDLE // 2]
CASES = {
    "200": (lambda: generated(200), load_style(), [11, 12, 13, 14], HERE),
    "10000": (lambda: generated(10000), load_style(), [11, 12, 13, 14], HERE),
    "100000": (lambda: generated(100000), load_style(), [11, 12, 13, 14], HERE),
    "mixed10000": (lambda: mixed(10000), TWELVE, [11, 12, 13, 14], HERE),
    "mixed100000": (lambda: mixed(100000), TWELVE, [11, 14], HERE),
    "cities": (cities, one(fill("#336699", 0.5)), [14], HERE),
    "opaque": (cities, one(fill("#336699")), [14], HERE),
    "segments": (strokes(50000, 32, 2), one(stroke("#336699", 8, "round")), [14], HERE),
    "lines": (strokes(5000, 32, 20), one(stroke("#336699", 8, "round")), [14], HERE),
    "wide": (strokes(1000, 64, 20), one(stroke("#336699", 64, "round")), [14], HERE),
    "wound": (wound_line, one(stroke("#336699", 32, "round")), [14], HERE),
    "spiral": (wound_line, one(stroke("#336699", 32, "round", 0.5)), [14], HERE),
    "tracks": (tracks(60, 20000), one(stroke("#336699", 3, "round", 0.6)), [14], HERE),
    "tracks_opaque": (tracks(60, 20000), one(stroke("#336699", 3, "round")), [14], HERE),
    "borders": (borders(200, 3000), one(stroke("#663399", 6, "round", 0.4)), [5, 8, 11], HERE),
    "rivers": (rivers(20, 20000), one(stroke("#336699", 4, "round", 0.5)), [14, 18], HERE),
    "short": (strokes(50000, 8, 2), one(stroke("#336699", 1)), [14], HERE),
    "marks": (spots(60000), one(mark("#336699", 6)), [14], HERE),
    "large_marks": (spots(20000), one(mark("#336699", 32)), [14], HERE),
    "coast": (coast, one(fill("#336699")), [8, 12, 18], SHORE),
    "long": (long_line, one(stroke("#336699", 2)), [10, 14, 18], SHORE),
    "alpha": (across, one(stroke("#336699", 2, "butt", 0.5)), [14], HERE),
    "passing": (passing, one(stroke("#336699", 2, "butt", 0.5)), [18], HERE),
    "contours": (contours, one(stroke("#996633", 1, "butt", 0.5)), [14], HERE),
    "comb500": (comb(500), one(fill("#336699")), [14, 18], HERE),
    "scattered": (lambda: scattered(300000), one(fill("#336699")), [18], HERE),
    "layers16": (lambda: scattered(1000000, 16), layers_over_one(16), [18], HERE),
    "layers64": (lambda: scattered(1000000, 64), layers_over_one(64), [18], HERE),
    "layers64_far": (lambda: scattered(1000000, 64), layers_over_one(64), [18], FAR),
    "inactive": (lambda: squares(100000), beside_others(20), [12, 14], HERE),
    "filtered": (lambda: squares(100000), beside_others(20, 3), [12, 14], HERE),
    "houses": (lambda: houses(100000), beside_others(20), [12, 14], HERE),
    "deep": (lambda: tagged(20000), deep(), [14], HERE),
    "rules200": (lambda: generated(10000), many_rules(200), [14], HERE),
    "base": (roads_on_base, {"base": [(None, [{"symbolizer": "RasterSymbolizer", "opacity": "1"}])]} | one(stroke("#ffffff", 2)), [12, 14, 16, 18], HERE),
    "elsewhere": (lambda: mixed(100000), TWELVE, [18], HERE),
    "nothing": (lambda: {"all": []}, one(fill("#336699")), [14], HERE),
}

# The cases whose files are those of another one, drawn at another place.
SAME = {"layers64_far": "layers64"}

# ---- files


def styles_of(name, rules):
    """The names and the rules of the styles that draw a layer."""
    if isinstance(rules, Styled):
        return [("%s%d" % (name, place), they) for place, they in enumerate(rules.styles)]
    return [(name, rules.rules if isinstance(rules, Over) else rules)]


def source_of(name, rules):
    """The name of the data that a layer draws."""
    return rules.source if isinstance(rules, Over) else name


def filter_of(kind):
    """The filter of a rule, as both read it."""
    return kind if isinstance(kind, str) else "[kind] = %d" % kind


def attrs_of(kind):
    return kind if isinstance(kind, dict) else {"kind": kind}


def our_rule(kind, symbolizers, scales=None):
    said = {"ElseFilter": True} if kind is None else {"Filter": filter_of(kind)}
    if scales:
        said |= {"MinScaleDenominator": str(scales[0]), "MaxScaleDenominator": str(scales[1])}
    return said | {"symbolizers": symbolizers}


def ours(features, style):
    layers = []
    for name, items in features.items():
        layers.append({"name": name, "features": [{"id": n, "geometry": {shape: at}, "attrs": attrs_of(kind)} for n, (kind, shape, at) in enumerate(items)]})
    styles, shown = [], []
    for name, rules in style.items():
        they = styles_of(name, rules)
        styles += [{"name": own, "rules": [our_rule(*rule) for rule in of]} for own, of in they]
        shown.append({"name": name, "source": source_of(name, rules), "styles": [own for own, _ in they]})
    said = {"background-color": "#f2efe9", "styles": styles, "layers": shown}
    if "base" in style:
        west, north, side, _ = metatile(12, 2**11, 2**11)
        said["rasters"] = [{"name": "base", "file": "base.ppm", "west": west, "north": north, "pixel": side // BASE_SIDE}]
    return said, {"units": "world", "layers": layers}


def png(side, pixels):
    """A PNG file of so many columns and rows of three bytes each."""
    part = lambda kind, data: struct.pack(">I", len(data)) + kind + data + struct.pack(">I", zlib.crc32(kind + data))
    rows = b"".join(b"\0" + pixels[3 * side * j : 3 * side * (j + 1)] for j in range(side))
    return b"\x89PNG\r\n\x1a\n" + part(b"IHDR", struct.pack(">IIBBBBB", side, side, 8, 2, 0, 0, 0)) + part(b"IDAT", zlib.compress(rows)) + part(b"IEND", b"")


def put_base(folder):
    """The base picture for both."""
    pixels = base_picture()
    with open(folder + "/base.ppm", "wb") as out:
        out.write(b"P6\n%d %d\n255\n" % (BASE_SIDE, BASE_SIDE) + pixels)
    with open(folder + "/base.png", "wb") as out:
        out.write(png(BASE_SIDE, pixels))


def turned(at):
    return [at[0], WORLD - at[1]] if isinstance(at[0], int) else [turned(it) for it in at]


def mapnik_rule(kind, symbolizers, scales=None):
    out = ["<Rule>" + ("<ElseFilter/>" if kind is None else "<Filter>%s</Filter>" % filter_of(kind))]
    if scales:
        out.append("<MinScaleDenominator>%d</MinScaleDenominator><MaxScaleDenominator>%d</MaxScaleDenominator>" % scales)
    for it in symbolizers:
        said = {key: value for key, value in it.items() if key != "symbolizer"}
        if it["symbolizer"] == "LineSymbolizer":
            said["stroke-linejoin"] = "round"
        if it["symbolizer"] == "MarkersSymbolizer":
            said |= {"marker-type": "ellipse", "allow-overlap": "true", "ignore-placement": "true", "stroke-width": "0", "multi-policy": "each"}
        if it["symbolizer"] == "RasterSymbolizer":
            said["scaling"] = "near"
        out.append("<%s %s/>" % (it["symbolizer"], " ".join('%s="%s"' % pair for pair in said.items())))
    return "".join(out) + "</Rule>"


def mapnik_source(name, folder):
    """The parameters of a source. One that many layers share is read from its file, by an index where mapnik-index made one:
    kept, each of its layers has a copy."""
    if name == "base":
        west, north, side, _ = metatile(12, 2**11, 2**11)
        box = {"lox": west, "loy": WORLD - north - side, "hix": west + side, "hiy": WORLD - north}
        return {"type": "raster", "file": folder + "/base.png", "format": "png"} | box
    kept = "false" if os.path.exists("%s/%s.geojson.index" % (folder, name)) else "true"
    return {"type": "geojson", "file": "%s/%s.geojson" % (folder, name), "cache-features": kept}


def put_mapnik_data(name, items, folder, shared):
    """The file of a source, and an index of it where many layers share it."""
    file = "%s/%s.geojson" % (folder, name)
    kinds = {"polygon": "Polygon", "lines": "MultiLineString", "points": "MultiPoint"}
    they = [{"type": "Feature", "properties": attrs_of(kind), "geometry": {"type": kinds[shape], "coordinates": [it + it[:1] for it in turned(at)] if shape == "polygon" else turned(at)}} for kind, shape, at in items]
    with open(file, "w") as out:
        out.write(json.dumps({"type": "FeatureCollection", "features": they}))
    if os.path.exists(file + ".index"):
        os.remove(file + ".index")
    if shared:
        subprocess.run(["mapnik-index", "--files", file], stdout=subprocess.DEVNULL, stderr=subprocess.DEVNULL, check=True)


def of_mapnik(features, style, folder):
    """Mapnik's map file; the data go into files beside it."""
    out = ['<Map background-color="#f2efe9">']
    shown = []
    sources = collections.Counter(source_of(name, rules) for name, rules in style.items())
    for source, layers in sources.items():
        if features.get(source):
            put_mapnik_data(source, features[source], folder, layers > 1)
    for name, rules in style.items():
        they = styles_of(name, rules)
        data = source_of(name, rules)
        out += ['<Style name="%s">%s</Style>' % (own, "".join(mapnik_rule(*rule) for rule in of)) for own, of in they]
        if data != "base" and not features[data]:
            continue
        named = "".join("<StyleName>%s</StyleName>" % own for own, _ in they)
        source = "".join('<Parameter name="%s">%s</Parameter>' % pair for pair in mapnik_source(data, folder).items())
        shown.append('<Layer name="%s">%s<Datasource>%s</Datasource></Layer>' % (name, named, source))
    return "\n".join(out + shown + ["</Map>"])


# ---- runs

MAPNIK = """
import sys, time, mapnik
from mapnik import Box2d, Image, Map, load_map, render
m = Map(2048, 2048)
load_map(m, sys.argv[1])
m.zoom_to_box(Box2d(*map(float, sys.argv[2:6])))
m.aspect_fix_mode = mapnik.aspect_fix_mode.RESPECT
image = Image(2048, 2048)
render(m, image)
if len(sys.argv) > 6:
    with open(sys.argv[6], "wb") as out:
        out.write(image.tostring())
rounds, begin = 0, time.process_time()
while rounds < 1 or time.process_time() - begin < 0.5:
    render(m, Image(2048, 2048))
    rounds += 1
print((time.process_time() - begin) / rounds)
"""


def processor(words, **how):
    """The processor time of a run and its peak memory in KiB."""
    with open(os.devnull, "w") as nothing:
        child = subprocess.Popen(words, stdout=nothing, **how)
    _, status, used = os.wait4(child.pid, 0)
    child.returncode = status
    if status:
        sys.exit("beside.py: %s ended with status %d" % (" ".join(words), status))
    return used.ru_utime + used.ru_stime, used.ru_maxrss


class Farm:
    """A farm that draws one metatile again and again, by a script over the folder's style and data."""

    def __init__(self, program, folder, place):
        self.program, self.folder, self.place = os.path.abspath(program), os.path.abspath(folder), "%d %d %d" % place
        with open(folder + "/config.json", "w") as out:
            json.dump({"maps": [{"name": "default", "style": "style.json", "tile": 256}], "data": "data.json"}, out)

    def drawn(self):
        """The container of the metatile, drawn and written once."""
        shutil.rmtree(self.folder + "/tiles", ignore_errors=True)
        with open(self.folder + "/script", "w") as out:
            out.write("ask 1 render default %s\nclaim 1\nfinish 0\ncollect 0\n" % self.place)
        processor([self.program, "script", "config.json", "script"], cwd=self.folder)
        (path,) = glob.glob(self.folder + "/tiles/default/**/*.meta", recursive=True)
        return path

    def __call__(self, rounds):
        """The processor time of each round, from the end of one drawing to that of the next, and the peak memory in KiB."""
        with open(self.folder + "/script", "w") as out:
            for ticket in range(rounds + 1):
                out.write("ask 1 render default %s\nclaim 1\nfinish %d\ncollect 0\nexpire %s\n" % (self.place, ticket, self.place))
        notes = self.folder + "/notes"
        open(notes, "w").close()
        preloaded = dict(os.environ, LD_PRELOAD=self.folder + "/unwritten.so", NOTES=notes)
        _, peak = processor([self.program, "script", "config.json", "script"], cwd=self.folder, env=preloaded)
        ends = [int(line) / 1e9 for line in open(notes)]
        if len(ends) != rounds + 1:
            sys.exit("beside.py: %d of %d drawings were told" % (len(ends), rounds + 1))
        return [end - begin for begin, end in zip(ends, ends[1:])], peak


def summary(pixels, wide):
    """The mean colour of a picture whose pixels have so many bytes, and how much of it is covered: the share of pixels
    that are more than half as far from the background as the farthest. Of each seventh pixel."""
    bands = [pixels[band::wide][::7] for band in range(3)]
    count = len(bands[0])
    far = [abs(r - BACKGROUND[0]) + abs(g - BACKGROUND[1]) + abs(b - BACKGROUND[2]) for r, g, b in zip(*bands)]
    half = max(far) / 2
    return [sum(band) / count for band in bands], sum(1 for it in far if it > half > 0) / count


def of_container(path):
    """The pixels of the tiles of a container, one tile behind another."""
    with open(path, "rb") as file:
        whole = file.read()
    (count,) = struct.unpack_from("<i", whole, 4)
    entries = [struct.unpack_from("<ii", whole, 20 + 8 * n) for n in range(count)]
    return b"".join(whole[offset : offset + size].split(b"\n", 3)[3] for offset, size in entries)


def alike(farm, mapnik, folder, box):
    """Whether both pictures have the same mean colour, to two levels of 255, and the same cover, to two hundredths: where
    they have not, one of the two left something out, and the times say nothing."""
    container = farm.drawn()
    ours, our_cover = summary(of_container(container), 3)
    subprocess.run([mapnik, "-c", MAPNIK, folder + "/map.xml", *map(str, box), folder + "/picture"], stdout=subprocess.DEVNULL, check=True)
    with open(folder + "/picture", "rb") as file:
        theirs, their_cover = summary(file.read(), 4)
    return all(abs(a - b) <= 2 for a, b in zip(ours, theirs)) and abs(our_cover - their_cover) <= 0.02


def rounds_for(farm):
    (first,), _ = farm(1)
    return max(5, min(100, int(1 / max(first, 0.005))))


def a_copy(raw):
    """The processor time of cutting one picture into one container, without what the program begins with."""
    return max(0.0, processor([raw, "100"])[0] - processor([raw, "0"])[0]) / 100


def ticks():
    """What all processors did since the system began, and what of it the host took."""
    with open("/proc/stat") as file:
        they = [int(it) for it in file.readline().split()[1:9]]
    return sum(they), they[7]


def measure(program, raw, folder, mapnik, z, point):
    place = z, point[0] >> (30 - z), point[1] >> (30 - z)
    west, north, side, _ = metatile(*place)
    farm = Farm(program, folder, place)
    rounds = rounds_for(farm)
    got = {"mapnik": [], "raw": [], "ours": []}
    peak = 0
    box = [west, WORLD - north - side, west + side, WORLD - north]
    same = alike(farm, mapnik, folder, box) if mapnik else None
    all_before, taken_before = ticks()
    for _ in range(REPEATS):
        if mapnik:
            said = subprocess.run([mapnik, "-c", MAPNIK, folder + "/map.xml", *map(str, box)], stdout=subprocess.PIPE, text=True)
            if said.returncode:
                sys.exit("beside.py: Mapnik failed")
            got["mapnik"].append(float(said.stdout))
        got["raw"].append(a_copy(raw))
        spent, most = farm(rounds)
        got["ours"].append(statistics.median(spent))
        peak = max(peak, most)
    all_after, taken_after = ticks()
    steal = 100 * (taken_after - taken_before) / max(1, all_after - all_before)
    return {key: statistics.median(all_of) if all_of else None for key, all_of in got.items()}, peak, steal, same


def beside(mapnik, style):
    """Mapnik, but not where many layers share data and nothing can make an index of them."""
    shared = len(set(source_of(*layer) for layer in style.items())) < len(style)
    return mapnik if shutil.which("mapnik-index") or not shared else None


def ratio(a, b):
    return "%.2f" % (a / b) if a is not None and b else "-"


def slowest(ratios):
    """Which of the cases is the slowest against Mapnik."""
    if not ratios:
        return "Slowest against Mapnik: not known, since no case was measured beside it"
    times, name, z = min(ratios)
    return "Slowest against Mapnik: %s at zoom %d, where Mapnik takes %.2f times as long" % (name, z, times)


def make(name, folder, peer):
    """The files of a case in the folder, for both; `made` is the last of them."""
    shapes, style, _, _ = CASES[name]
    features = shapes()
    style_said, data_said = ours(features, style)
    for file, said in (("style", style_said), ("data", data_said)):
        with open("%s/%s.json" % (folder, file), "w") as out:
            out.write(json.dumps(said))
    if "base" in style:
        put_base(folder)
    if peer:
        with open(folder + "/map.xml", "w") as out:
            out.write(of_mapnik(features, style, folder))
    with open(folder + "/made", "w") as out:
        out.write(name)


def folder_of(name, folder, peer):
    """The folder that has the files of the case: one of its own, where they were made before, below the folder that KEEP names."""
    kept = os.environ.get("KEEP")
    here = os.path.join(os.path.abspath(kept), SAME.get(name, name)) if kept else folder
    if here != folder:
        os.makedirs(here, exist_ok=True)
        shutil.copy(folder + "/unwritten.so", here)
    if here == folder or not os.path.exists(here + "/made"):
        make(name, here, peer)
    return here


ROW = "%-12s %3s %9s %8s %8s %12s %12s %9s %5s %7s %5s"


def row_of(name, z, got, peak, steal, same):
    number = lambda it: "-" if it is None else "%.4f" % it
    return ROW % (name, z, number(got["mapnik"]), number(got["raw"]), number(got["ours"]), ratio(got["mapnik"], got["ours"]), ratio(got["ours"], got["raw"]), peak, "%.1f" % os.getloadavg()[0], "%.1f" % steal, {None: "-", True: "yes", False: "NO"}[same])


def main():
    program, folder, mapnik, *names = sys.argv[1:]
    if names == ["-l"]:
        print(*CASES)
        return
    if names[:1] == ["ready"]:
        for name in names[1:] or CASES:
            folder_of(name, folder, beside(mapnik, CASES[name][1]))
        return
    print("peer: Mapnik's drawing alone; limit: the writing of a container of one colour, in C")
    print(ROW % ("case", "z", "peer s", "limit s", "ours s", "peer / ours", "ours / limit", "peak KiB", "load", "steal %", "alike"))
    ratios = []
    for name in names or CASES:
        _, style, zooms, point = CASES[name]
        peer = beside(mapnik, style)
        here = folder_of(name, folder, peer)
        for z in zooms:
            got, peak, steal, same = measure(program, folder + "/raw", here, peer, z, point)
            print(row_of(name, z, got, peak, steal, same), flush=True)
            if got["mapnik"] is not None and got["ours"] and same:
                ratios.append((got["mapnik"] / got["ours"], name, z))
    print(slowest(ratios))


if __name__ == "__main__":
    main()
