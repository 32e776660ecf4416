"""Makes a farm's data of what GDAL reads: extracts of OpenStreetMap (.osm.pbf), shapefiles, GeoPackage, GeoJSON.

Each layer of a FILE becomes a layer of the data, by its name or by NAME=FILE; an extract has the layers areas, lines,
points, routes and relations. With --style only the attributes and layers are kept that the style names: the data are a
part of what they were, and so is the farm's memory. What is null is never kept, since an absent attribute is null.
Coordinates of any system become Web Mercator in centimetres. Ids are OpenStreetMap's, those of an attribute `id`, or the
place in the file; `farmctl changes` tells features apart by them.

Files are read feature by feature. A file that is cut, of another projection than it says, or has a feature that cannot be
kept (none or a collection of geometries, an id for the second time, a text that is no UTF-8) is refused with the feature's
place, unless --leave-out has such features left out. The data are written beside OUT and renamed: what is refused leaves
nothing behind. At the end stand what was left out, the box, and a tile to look at first.
"""

from __future__ import annotations

import argparse
import math
import tempfile
from pathlib import Path

from farmctl.commands.status import size
from farmctl.datafile import Layers
from farmctl.errors import FarmError
from farmctl.metatiles import DEEPEST, Box, column_at, row_at
from farmctl.sources import DEGREES, MERCATOR, Libraries, Source, add_options, wanted_of

HELP = "make data of an extract, a shapefile, GeoPackage or GeoJSON"
EXAMPLE = """
    farmctl data town.osm.pbf --style style.json -o data.json
    farmctl data land=coast.shp lakes=lakes.gpkg --round area=100 -o data.json
"""
READING, STAYS = 5, 3  # times the data's bytes in a farm's memory: while it reads them, and then
AROUND = 4007501668  # the equator in centimetres
ADDRESS = "http://127.0.0.1:8080/"  # where the gateway shows its page


def add(parser: argparse.ArgumentParser) -> None:
    parser.add_argument("files", metavar="[NAME=]FILE", nargs="+", help="what is read")
    parser.add_argument("-o", "--output", metavar="OUT", type=Path, required=True, help="where the data are written")
    add_options(parser)


def read(words: list[str], args: argparse.Namespace, folder: Path) -> tuple[Layers, list[Source]]:
    """All features of the sources, layer by layer in the folder."""
    folder.mkdir(parents=True, exist_ok=True)
    wanted, libraries = wanted_of(args), Libraries(folder)
    sources = [Source(word, wanted, libraries) for word in words]
    layers = Layers(folder, [name for source in sources for name in source.taken()], wanted.leaves_out)
    try:
        for source in sources:
            layers.add(source.items())
            source.close()
    finally:
        layers.close()
    if layers.count == 0:
        passed = sum(count for source in sources for count in source.passed.values())
        told = f"; {passed:,} are of layers that are not taken" if passed else ""
        raise FarmError(f"{', '.join(source.path for source in sources)}: no feature to keep{told}")
    return layers, sources


def tell_left(layers: Layers, sources: list[Source]) -> None:
    for source in sources:
        for name, left in source.left.items():
            for reason, count in sorted(left.counts.items()):
                print(f"{source.path}: {name}: left out {count:,} (the first: {left.first[reason]}): {reason}")
        for name, count in source.passed.items():
            print(f"{source.path}: {name}: {count:,} features are not taken: no style draws them, or --layers does not name them")
    for layer in layers.layers.values():
        if layer.twice:
            print(f"{layer.name}: left out {layer.twice:,}: feature with the id of an earlier one")
        print(f"{layer.name}: {layer.count:,} features, {size(layer.bytes)}")


def degrees_of(box: tuple[int, int, int, int], libraries: Libraries) -> Box:
    back = libraries.osr.CoordinateTransformation(libraries.system(MERCATOR), libraries.system(DEGREES))
    west, south, east, north = (number / 100 for number in box)
    (first, last) = back.TransformPoints([(west, south), (east, north)])
    return Box(first[0], first[1], last[0], last[1])


def first_zoom(box: tuple[int, int, int, int]) -> int:
    """The zoom at which the box is one to two tiles wide."""
    wide = max(box[2] - box[0], box[3] - box[1], 1)
    return max(0, min(DEEPEST, math.ceil(math.log2(AROUND / wide))))


def tell_place(box: Box, z: int, args: argparse.Namespace) -> None:
    """The box, a tile to look at first, and how to see it."""
    longitude, latitude = (box.west + box.east) / 2, (box.south + box.north) / 2
    x, y = column_at(longitude, z), row_at(latitude, z)
    edges = ",".join(f"{number:.5f}" for number in (box.west, box.south, box.east, box.north))
    style = args.style[0] if args.style else "STYLE"
    print(f"the box in degrees: {edges}")
    print(f"to look at first: tilefarm render {style} {args.output} 256 {z} {x} {y} > tile.ppm")
    print(f"in a browser: farmctl gateway --view {z}/{latitude:.5f}/{longitude:.5f}, and {ADDRESS}")
    print(f"drawn beforehand: farmctl seed default {edges} 0..{min(DEEPEST, z + 4)}")


def run(args: argparse.Namespace) -> int:
    if not args.output.absolute().parent.is_dir():
        raise FarmError(f"{args.output.absolute().parent} is no folder")
    with tempfile.TemporaryDirectory(prefix=".farmctl-", dir=args.output.absolute().parent) as folder:
        layers, sources = read(args.files, args, Path(folder))
        length = layers.write(args.output)
    tell_left(layers, sources)
    needs = f"a farm needs some {size(READING * length)} of memory while it reads them, and {size(STAYS * length)} then"
    print(f"{args.output}: {layers.count:,} features, {size(length)}; {needs}")
    if layers.box is not None:
        tell_place(degrees_of(layers.box, sources[0].libraries), first_zoom(layers.box), args)
    return 0
