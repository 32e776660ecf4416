"""Files of geographic data, read feature by feature over GDAL's Python binding, so that memory does not grow with them."""

from __future__ import annotations

import argparse
import json
import re
from collections.abc import Iterator
from dataclasses import dataclass, field
from pathlib import Path
from typing import Any

from farmctl.errors import FarmError, library
from farmctl.shapes import LONGEST_NAME, Bad, Left, Outside, attributes_of, box_of, geometry_of, is_text, tags_of

PACKAGE = "python3-gdal"
DEGREES = "EPSG:4326"
MERCATOR = "EPSG:3857"
OSM_NAMES = {
    "points": "points",
    "lines": "lines",
    "multipolygons": "areas",
    "multilinestrings": "routes",
    "other_relations": "relations",
}
OTHER_TAGS = "other_tags"
# An extract's nodes are kept in a file: GDAL's own index takes a kilobyte of memory or eight for each 65,536 ids of the world;
# and its threads unpack some 140 MB beforehand
OSM_OPTIONS = {"OSM_MAX_TMPFILE_SIZE": "20", "OSM_USE_CUSTOM_INDEXING": "NO", "GDAL_NUM_THREADS": "1"}
FAR = 1e-4  # of a coordinate; there and back it differs by far less

Box = tuple[int, int, int, int]


@dataclass(frozen=True)
class Item:
    """A feature of a layer, as one line of JSON, its box in centimetres, and where it stands."""

    layer: str
    id: int
    line: bytes
    box: Box
    place: str


@dataclass
class Wanted:
    """What is taken of the sources."""

    attributes: frozenset[str] | None = None  # all where it is None
    layers: frozenset[str] | None = None
    rounds: dict[str, float] = field(default_factory=dict)
    id_field: str | None = None
    system: str | None = None  # the coordinates' where a file does not say it
    encoding: str | None = None  # the texts' of a shapefile, where it does not say it
    leaves_out: bool = False  # what is wrong in a file is left out, in place of the whole file


def add_options(parser: argparse.ArgumentParser) -> None:
    """The words that say what is taken, which `data` and `changes` have in common."""
    parser.add_argument("--style", metavar="FILE", type=Path, action="append", default=[],
                        help="keep the attributes and layers that this style names; may come again")  # fmt: skip
    parser.add_argument("--attributes", metavar="NAME,..", help="keep these attributes (beside those of --style)")
    parser.add_argument("--layers", metavar="NAME,..", help="take these layers (those of --style, or all)")
    parser.add_argument("--round", metavar="NAME[=FACTOR]", action="append", default=[],
                        help="keep numbers of this name as whole ones, times FACTOR")  # fmt: skip
    parser.add_argument("--id", metavar="NAME", help="the attribute that is the id (of OpenStreetMap its own; else `id`, or the place)")
    parser.add_argument("--srs", metavar="EPSG:N", help="the coordinate system of files that do not say it")
    parser.add_argument("--encoding", metavar="NAME", help="the encoding of a shapefile's texts, where it does not say it (ISO-8859-1)")
    parser.add_argument("--leave-out", action="store_true",
                        help="leave out features that cannot be kept, and say how many, in place of refusing the file")  # fmt: skip


def names_of(text: str) -> frozenset[str]:
    return frozenset(name.strip() for name in text.split(",") if name.strip())


def style_names(path: Path) -> tuple[frozenset[str], frozenset[str]]:
    """The attributes that a style's filters name, and the sources of its layers."""
    try:
        style = json.loads(path.read_text(encoding="utf-8"))
        filters = [rule.get("Filter", "") for each in style["styles"] for rule in each["rules"]]
        sources = [layer["source"] for layer in style["layers"]]
    except OSError as fault:
        raise FarmError(f"{path}: {fault.strerror}") from fault
    except (ValueError, LookupError, TypeError, AttributeError) as fault:
        raise FarmError(f"{path}: no style: {fault} (farmctl check says more)") from fault
    return frozenset(name for text in filters for name in re.findall(r"\[([^\]]+)\]", text)), frozenset(sources)


def rounds_of(words: list[str]) -> dict[str, float]:
    made = {}
    for word in words:
        name, _, factor = word.partition("=")
        try:
            made[name] = float(factor or "1")
        except ValueError as fault:
            raise FarmError(f"--round {word}: no NAME or NAME=FACTOR, as area=100") from fault
    return made


def wanted_of(args: argparse.Namespace) -> Wanted:
    found = [style_names(path) for path in args.style]
    attributes = frozenset().union(*(names for names, _ in found), names_of(args.attributes or ""))
    layers = names_of(args.layers) if args.layers else frozenset().union(*(sources for _, sources in found))
    return Wanted(
        attributes if args.style or args.attributes else None,
        layers if args.style or args.layers else None,
        rounds_of(args.round),
        args.id,
        args.srs,
        args.encoding,
        args.leave_out,
    )


class Libraries:
    """GDAL, and its two coordinate systems. What it must keep of a file goes into files of the folder."""

    def __init__(self, folder: Path) -> None:
        self.gdal = library("osgeo.gdal", PACKAGE)
        self.osr = library("osgeo.osr", PACKAGE)
        self.ogr = library("osgeo.ogr", PACKAGE)
        for each in (self.gdal, self.osr, self.ogr):
            each.UseExceptions()
        for name, value in {**OSM_OPTIONS, "CPL_TMPDIR": str(folder)}.items():
            self.gdal.SetConfigOption(name, value)
        self.told = ""  # the last that GDAL said, which not every exception of it has
        self.gdal.PushErrorHandler(self.hear)
        self.degrees = self.system(DEGREES)
        self.project = self.osr.CoordinateTransformation(self.degrees, self.system(MERCATOR)).TransformPoints

    def hear(self, _class: int, _number: int, text: str) -> None:
        self.told = text

    def fault(self, fault: Exception) -> str:
        """One line of what went wrong."""
        return " ".join((str(fault).strip() or self.told).split())[:300] or "it cannot be read"

    def system(self, name: str) -> Any:
        made = self.osr.SpatialReference()
        try:
            made.SetFromUserInput(name)
        except RuntimeError as fault:
            raise FarmError(f"no coordinate system {name}") from fault
        made.SetAxisMappingStrategy(self.osr.OAMS_TRADITIONAL_GIS_ORDER)
        return made


def first_point(geometry: Any) -> tuple[float, float]:
    while geometry.GetGeometryCount():
        geometry = geometry.GetGeometryRef(0)
    return geometry.GetX(0), geometry.GetY(0)


class ToDegrees:
    """Makes degrees of coordinates of another system. What lies outside of that system is turned round the world, so the way
    back tells it.
    """

    def __init__(self, libraries: Libraries, system: Any) -> None:
        self.forth = libraries.osr.CoordinateTransformation(system, libraries.degrees)
        self.back = libraries.osr.CoordinateTransformation(libraries.degrees, system)

    def __call__(self, geometry: Any) -> None:
        before = first_point(geometry)
        geometry.Transform(self.forth)
        after = self.back.TransformPoint(*first_point(geometry))
        if any(abs(was - now) > FAR * (1 + abs(was)) for was, now in zip(before, after, strict=False)):
            raise Outside(f"its coordinates {before[0]:.6g}, {before[1]:.6g} are none of its coordinate system")


@dataclass
class Column:
    """An attribute of a layer that is taken."""

    place: int
    name: str
    is_truth: bool
    is_binary: bool


class Layer:
    """A layer of a file: its name in the data, its columns, and how its coordinates become degrees."""

    def __init__(self, source: Source, layer: Any) -> None:
        self.source = source
        self.own = layer.GetName()
        self.name = source.name or (OSM_NAMES.get(self.own, self.own) if source.is_osm else self.own)
        wanted, ogr = source.wanted, source.libraries.ogr
        self.is_taken = wanted.layers is None or self.name in wanted.layers or source.name is not None
        if self.is_taken and not (is_text(self.name) and 1 <= len(self.name.encode()) <= LONGEST_NAME):
            raise FarmError(f"{source.path}: the layer {self.name} has a name of over {LONGEST_NAME} bytes: NAME=FILE gives another")
        self.to_degrees = self.transformation(layer) if self.is_taken else None
        definition = layer.GetLayerDefn()
        fields = [definition.GetFieldDefn(place) for place in range(definition.GetFieldCount())]
        self.names = {each.GetName(): place for place, each in enumerate(fields)}
        self.columns = [
            Column(place, each.GetName(), each.GetSubType() == ogr.OFSTBoolean, each.GetType() == ogr.OFTBinary)
            for place, each in enumerate(fields)
            if (wanted.attributes is None or each.GetName() in wanted.attributes) and each.GetName() != OTHER_TAGS
        ]
        self.tags = self.names.get(OTHER_TAGS) if source.is_osm and wanted.attributes is not None else None
        if wanted.id_field and self.is_taken and wanted.id_field not in self.names:
            raise FarmError(f"{source.path}: the layer {self.own} has no attribute {wanted.id_field}")

    def transformation(self, layer: Any) -> Any:
        """What makes degrees of its coordinates; None where they are that."""
        libraries, named = self.source.libraries, self.source.wanted.system
        system = layer.GetSpatialRef() or (libraries.system(named) if named else None)
        if system is None:
            told = f"the layer {self.own} has no coordinate system: --srs EPSG:4326 says that it is in degrees"
            raise FarmError(f"{self.source.path}: {told}")
        system.SetAxisMappingStrategy(libraries.osr.OAMS_TRADITIONAL_GIS_ORDER)
        return None if system.IsSame(libraries.degrees) else ToDegrees(libraries, system)

    def id_of(self, feature: Any) -> int | None:
        """Its id: the named attribute, OpenStreetMap's, an attribute `id`, or its place in the file."""
        field_name = self.source.wanted.id_field
        if field_name is None and self.source.is_osm:
            way = self.number(feature, "osm_way_id") if self.own == "multipolygons" else None
            relation = self.number(feature, "osm_id")
            if self.own != "multipolygons":
                return relation
            return 2 * way if way is not None else None if relation is None else 2 * relation + 1
        if field_name is None and "id" not in self.names:
            return feature.GetFID()
        return self.number(feature, field_name or "id")

    def number(self, feature: Any, name: str) -> int | None:
        place = self.names[name]
        text = feature.GetField(place) if feature.IsFieldSetAndNotNull(place) else None
        try:
            return int(text) if text is not None and int(text) == float(text) else None
        except (TypeError, ValueError):
            return None

    def values(self, feature: Any) -> dict[str, Any]:
        """Its attributes that are not null."""
        found: dict[str, Any] = {}
        for column in self.columns:
            if feature.IsFieldSetAndNotNull(column.place):
                value = None if column.is_binary else feature.GetField(column.place)
                found[column.name] = bool(value) if column.is_truth else value
        if self.tags is not None and feature.IsFieldSetAndNotNull(self.tags):
            tags = feature.GetFieldAsString(self.tags)
            wanted = self.source.wanted.attributes or frozenset()
            named = tags_of(tags) if isinstance(tags, str) else {}
            found.update({name: value for name, value in named.items() if name in wanted})
        return found


class Source:
    """A file, and what is taken of it."""

    def __init__(self, word: str, wanted: Wanted, libraries: Libraries) -> None:
        name, sign, path = word.partition("=")
        self.name = name if sign else None
        self.path = path if sign else word
        self.wanted = wanted
        self.libraries = libraries
        self.left: dict[str, Left] = {}
        self.passed: dict[str, int] = {}  # features of layers that are not taken
        if not Path(self.path).exists():
            raise FarmError(f"{self.path}: no such file")
        options = [f"ENCODING={wanted.encoding}"] if wanted.encoding else []
        try:
            self.dataset = libraries.gdal.OpenEx(self.path, libraries.gdal.OF_VECTOR, open_options=options)
        except RuntimeError as fault:
            raise FarmError(f"{self.path}: {libraries.fault(fault)}") from fault
        self.is_osm = self.dataset.GetDriver().ShortName == "OSM"
        layers = [self.dataset.GetLayer(place) for place in range(self.dataset.GetLayerCount())]
        if self.name is not None and len(layers) != 1:
            told = ", ".join(layer.GetName() for layer in layers)
            raise FarmError(f"{self.path} has the layers {told}: they keep their names, and --layers takes some")
        self.layers = {layer.GetName(): Layer(self, layer) for layer in layers}

    def taken(self) -> list[str]:
        return list(dict.fromkeys(layer.name for layer in self.layers.values() if layer.is_taken))

    def items(self) -> Iterator[Item]:
        """Its features, in the order of the file."""
        count = 0
        while True:
            try:
                feature, layer = self.dataset.GetNextFeature()
            except RuntimeError as fault:
                raise FarmError(f"{self.path}: after {count:,} features: {self.libraries.fault(fault)}") from fault
            if feature is None:
                return
            count += 1
            known = self.layers[layer.GetName()]
            if not known.is_taken:
                self.passed[known.name] = self.passed.get(known.name, 0) + 1
                continue
            made = self.item(known, feature, count)
            if made is not None:
                yield made

    def close(self) -> None:
        """The library lets go of the file; what was left out of it is still known."""
        self.dataset = None

    def left_of(self, layer: Layer) -> Left:
        """What is left out of a layer. An extract's relations are cut at its edge, so nothing of it is refused for that."""
        if layer.name not in self.left:
            self.left[layer.name] = Left(not (self.wanted.leaves_out or self.is_osm))
        return self.left[layer.name]

    def item(self, layer: Layer, feature: Any, count: int) -> Item | None:
        left, number = self.left_of(layer), layer.id_of(feature)
        left.feature = f"feature {count:,}" if number is None else f"feature {count:,}, id {number}"
        try:
            return self.made(layer, feature, number, left)
        except Bad as fault:
            told = f"{fault}; --leave-out leaves out what is like it"
            raise FarmError(f"{self.path}: layer {layer.own}, {left.feature}: {told}") from fault
        except (Outside, RuntimeError) as fault:
            raise FarmError(f"{self.path}: layer {layer.own}, {left.feature}: {self.libraries.fault(fault)}") from fault

    def made(self, layer: Layer, feature: Any, number: int | None, left: Left) -> Item | None:
        if number is None or not 0 <= number < 2**64:
            left.bad("feature whose id is no whole number from 0 on")
            return None
        geometry = geometry_of(feature.GetGeometryRef(), layer.to_degrees, self.libraries.project, left)
        if geometry is None:
            return None
        value: dict[str, Any] = {"id": number, "geometry": geometry}
        attributes = attributes_of(layer.values(feature), self.wanted.rounds, left)
        if attributes:
            value["attrs"] = attributes
        line = json.dumps(value, ensure_ascii=False, separators=(",", ":")).encode()
        return Item(layer.name, number, line, box_of(geometry), f"{self.path}: layer {layer.own}, {left.feature}")
