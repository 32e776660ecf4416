#!/usr/bin/python3
"""Draws the same data by Mapnik and by tilefarm, writes both pictures beside each other, and tells how far they agree.

    examples/own-style/beside.py FOLDER [Z X Y]
    examples/own-style/beside.py FOLDER STYLE.json DATA.json Z X Y

The first form draws Mapnik's own demo: map.xml in FOLDER is what the demo of Debian's python3-mapnik saves, style.json and
data.json are made of it and of its shapefiles by mapnik.py and `farmctl data`. The second draws a style and data of the
farm: map.xml and a GeoJSON file for each layer are made of them for Mapnik. farm.ppm is the tile that tilefarm draws, 512
pixels wide, mapnik.png what Mapnik draws in the same place, both.png the two beside each other, the farm's at the left.

Told are the cover of each, which is the share of pixels that are not of the background, and its mean colour, and the share of
pixels that differ by more than 96 of 255 in a channel. Debian: python3-mapnik, python3-pil, python3-numpy, python3-gdal. With
TILEFARM another program draws.
"""

import json
import os
import shlex
import subprocess
import sys
from xml.sax.saxutils import escape, quoteattr

HERE = os.path.dirname(os.path.abspath(__file__))
sys.path.remove(HERE)  # whose mapnik.py is not Mapnik

import mapnik  # noqa: E402
import numpy  # noqa: E402
from PIL import Image  # noqa: E402

TOP = os.path.dirname(os.path.dirname(HERE))
PROGRAM = os.environ.get("TILEFARM", os.path.join(TOP, "tilefarm"))
DEMO = "/usr/share/doc/python3-mapnik/examples/demo/python/rundemo.py"
MERCATOR = "+proj=merc +a=6378137 +b=6378137 +lat_ts=0.0 +lon_0=0.0 +x_0=0.0 +y_0=0.0 +k=1.0 +units=m +nadgrids=@null +wktext +no_defs +over"
SIZE, FAR, NEAR = 512, 96, 8
HALF = 20037508.342789244  # metres of half the equator
MARKERS = {"marker-type": "ellipse", "allow-overlap": "true", "ignore-placement": "true", "stroke-width": "0", "multi-policy": "each"}
LINES = {"stroke-linejoin": "round"}
KINDS = {"polygon": "Polygon", "lines": "MultiLineString", "points": "MultiPoint"}


def run(folder, *words, **more):
    """What a command writes; where it fails, so does this."""
    return subprocess.run(words, cwd=folder, stdout=subprocess.PIPE, check=True, **more).stdout


def write(folder, name, content):
    with open(os.path.join(folder, name), "wb") as out:
        out.write(content)


def of_demo(folder):
    """Mapnik's demo as Mapnik saves it, and the farm's style and data of it, by what mapnik.py tells."""
    if not os.path.exists(DEMO):
        sys.exit("beside.py: %s is not there (Debian: python3-mapnik)" % DEMO)
    run(folder, "/usr/bin/python3", DEMO)
    with open(os.path.join(folder, "map.xml"), encoding="utf-8") as source:
        text = source.read()
    # what Mapnik saves has the number of a line cap, and it reads its name alone
    write(folder, "map.xml", text.replace('stroke-linecap="2"', 'stroke-linecap="round"').encode())
    done = subprocess.run([sys.executable, os.path.join(HERE, "mapnik.py"), "map.xml"], cwd=folder, check=True,
                          stdout=subprocess.PIPE, stderr=subprocess.PIPE, text=True)  # fmt: skip
    write(folder, "style.json", done.stdout.encode())
    for line in done.stderr.splitlines():
        print(line)
        _, found, command = line.partition("make the data with: farmctl ")
        if found:
            print(run(folder, os.path.join(TOP, "farmctl", "bin", "farmctl"), *shlex.split(command), text=True))


def metres(points):
    return [[x / 100, y / 100] for x, y in points]


def feature_of(it, names):
    """A feature of the farm's data as GeoJSON in metres. Every attribute is there, since Mapnik takes those of the first."""
    ((kind, parts),) = it["geometry"].items()
    coordinates = metres(parts) if kind == "points" else [metres(part + part[:1] if kind == "polygon" else part) for part in parts]
    values = dict.fromkeys(names)
    values.update(it.get("attrs", {}))
    return {"type": "Feature", "properties": values, "geometry": {"type": KINDS[kind], "coordinates": coordinates}}


def rule_of(rule):
    """A rule as Mapnik has it, with the farm's own defaults written out."""
    parts = ["<Filter>%s</Filter>" % escape(rule["Filter"])] if "Filter" in rule else ["<ElseFilter/>"] if "ElseFilter" in rule else []
    parts += ["<%s>%s</%s>" % (key, rule[key], key) for key in rule if key.endswith("ScaleDenominator")]
    for it in rule["symbolizers"]:
        more = MARKERS if it["symbolizer"] == "MarkersSymbolizer" else LINES if it["symbolizer"] == "LineSymbolizer" else {}
        words = {**{key: value for key, value in it.items() if key != "symbolizer"}, **more}
        parts.append("<%s %s/>" % (it["symbolizer"], " ".join("%s=%s" % (key, quoteattr(value)) for key, value in words.items())))
    return "<Rule>%s</Rule>" % "".join(parts)


def style_of(each):
    rules = "".join(map(rule_of, each["rules"]))
    return "<Style name=%s filter-mode=%s>%s</Style>" % (quoteattr(each["name"]), quoteattr(each.get("filter-mode", "all")), rules)


def layer_of(each, files):
    scales = " ".join("%s=%s" % (key, quoteattr(each[key])) for key in each if key.endswith("scale-denominator"))
    names = "".join("<StyleName>%s</StyleName>" % escape(name) for name in each["styles"])
    source = '<Parameter name="type">geojson</Parameter><Parameter name="file">%s</Parameter>' % files[each["source"]]
    return "<Layer name=%s srs=%s %s>%s<Datasource>%s</Datasource></Layer>" % (quoteattr(each["name"]), quoteattr(MERCATOR), scales, names, source)


def of_farm(folder, style_path, data_path):
    """Mapnik's map of a style and data of the farm."""
    with open(style_path, encoding="utf-8") as source:
        style = json.load(source)
    with open(data_path, encoding="utf-8") as source:
        data = json.load(source)
    write(folder, "style.json", json.dumps(style).encode())
    write(folder, "data.json", json.dumps(data).encode())
    files = {}
    for number, layer in enumerate(data["layers"]):
        names = sorted({name for it in layer["features"] for name in it.get("attrs", {})})
        features = [feature_of(it, names) for it in layer["features"]]
        files[layer["name"]] = os.path.join(os.path.abspath(folder), "layer-%d.geojson" % number)
        write(folder, "layer-%d.geojson" % number, json.dumps({"type": "FeatureCollection", "features": features}).encode())
    layers = [layer_of(each, files) for each in style["layers"] if each["source"] in files]
    head = "<Map background-color=%s srs=%s>" % (quoteattr(style.get("background-color", "#ffffff")), quoteattr(MERCATOR))
    write(folder, "map.xml", "\n".join([head, *map(style_of, style["styles"]), *layers, "</Map>"]).encode())


def by_farm(folder, place):
    farm = run(folder, PROGRAM, "render", "style.json", "data.json", str(SIZE), *place)
    write(folder, "farm.ppm", farm)
    return Image.open(os.path.join(folder, "farm.ppm")).convert("RGB")


def by_mapnik(folder, place):
    z, x, y = map(int, place)
    side = 2 * HALF / 2**z
    drawn = mapnik.Map(SIZE, SIZE)
    mapnik.load_map(drawn, os.path.join(folder, "map.xml"))
    drawn.zoom_to_box(mapnik.Box2d(x * side - HALF, HALF - (y + 1) * side, (x + 1) * side - HALF, HALF - y * side))
    image = mapnik.Image(SIZE, SIZE)
    mapnik.render(drawn, image)
    path = os.path.join(folder, "mapnik.png")
    image.save(path, "png32")
    return Image.open(path).convert("RGB"), drawn.background


def cover(pixels, background):
    return float((abs(pixels - background).max(axis=2) > NEAR).mean())


def tell(ours, theirs, background):
    """How far two pictures agree."""
    a, b = (numpy.asarray(picture, dtype=int) for picture in (ours, theirs))
    for name, pixels in (("tilefarm", a), ("Mapnik", b)):
        colour = ", ".join("%.1f" % mean for mean in pixels.mean(axis=(0, 1)))
        print("%-8s covers %.1f %%, mean colour %s" % (name, 100 * cover(pixels, background), colour))
    far = (abs(a - b).max(axis=2) > FAR).mean()
    print("%.2f %% of the pixels differ by more than %d of 255" % (100 * far, FAR))


def main(folder, files, place):
    os.makedirs(folder, exist_ok=True)
    if files:
        of_farm(folder, *files)
    else:
        of_demo(folder)
    ours = by_farm(folder, place)
    theirs, background = by_mapnik(folder, place)
    both = Image.new("RGB", (2 * SIZE, SIZE))
    both.paste(ours, (0, 0))
    both.paste(theirs, (SIZE, 0))
    both.save(os.path.join(folder, "both.png"))
    tell(ours, theirs, (background.r, background.g, background.b))


if __name__ == "__main__":
    if len(sys.argv) not in (2, 5, 7):
        sys.exit(__doc__.strip())
    main(sys.argv[1], sys.argv[2:-3], sys.argv[-3:] if len(sys.argv) > 2 else ["4", "4", "5"])
