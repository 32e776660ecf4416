"""`data` and `changes`: what of files as they come from elsewhere becomes data, and what is told of the rest.

Wanted values are of EPSG:3857 (the worked example of IOGP's guidance note 7-2), of RFC 7946, or by hand.
"""

from __future__ import annotations

import importlib.util
import json
import shutil
import unittest
from pathlib import Path
from typing import Any

from farmctl import shapes
from farmctl.sources import style_names
from tests.support import InFolder, farmctl

HAS_GDAL = importlib.util.find_spec("osgeo") is not None
NEEDS = "not installed (Debian: python3-gdal)"
EXAMPLE = [-(100 + 20 / 60), 24 + 22 / 60 + 54.433 / 3600]  # degrees, whose centimetres are
CENTIMETRES = [-1116905558, 280000000]
SQUARE = [[10, 50], [11, 50], [11, 51], [10, 51], [10, 50]]
WORLD = [[-180, -80], [180, -80], [180, 80], [-180, 80], [-180, -80]]
STYLE = {
    "styles": [{"name": "s", "rules": [{"Filter": "[kind] = 'a' and [name]", "symbolizers": []}]}],
    "layers": [{"name": "l", "source": "places", "styles": ["s"]}],
}


def feature(kind: str, coordinates: Any, number: int | None = 7, **properties: Any) -> dict[str, Any]:
    made = {"type": "Feature", "properties": properties, "geometry": {"type": kind, "coordinates": coordinates}}
    return made if number is None else dict(made, id=number)


def collection(*features: Any, **more: Any) -> dict[str, Any]:
    return {"type": "FeatureCollection", "features": list(features), **more}


class Shapes(unittest.TestCase):
    """What needs no library."""

    def test_attributes_of_a_style(self) -> None:
        path = Path(__file__).with_name("style.tmp.json")
        path.write_text(json.dumps(STYLE))
        self.addCleanup(path.unlink)
        self.assertEqual(style_names(path), ({"kind", "name"}, {"places"}))

    def test_tags(self) -> None:
        self.assertEqual(shapes.tags_of(r'"a"=>"1","b c"=>"say \"hi\"","d"=>""'), {"a": "1", "b c": 'say "hi"', "d": ""})

    def test_attributes(self) -> None:
        left = shapes.Left()
        values = {"a": 8.0, "b": 2.55, "c": "x", "d": True, "e": 2**63, "f": None, "g": "\ud800", "": 1, "n" * 65: 1, "h": float("nan")}
        self.assertEqual(shapes.attributes_of(values, {"b": 100.0}, left), {"a": 8, "b": 255, "c": "x", "d": True})
        self.assertEqual(left.counts.total(), 6)

    def test_parts_that_are_too_short_are_left_out(self) -> None:
        left = shapes.Left()
        self.assertEqual(shapes.shape_of("polygon", [[(0, 0), (1, 0), (1, 1), (0, 0)], [(0, 0), (1, 1), (0, 0)]], left),
                         {"polygon": [[(0, 0), (1, 0), (1, 1)]]})  # fmt: skip
        self.assertIsNone(shapes.shape_of("lines", [[(0, 0)]], left))
        self.assertEqual(left.counts.total(), 2)


@unittest.skipUnless(HAS_GDAL, NEEDS)
class Data(InFolder):
    def make(self, content: Any, *words: str, name: str = "places.geojson") -> tuple[int, str, str]:
        if content is not None:
            text = content if isinstance(content, bytes) else json.dumps(content).encode()
            (self.folder / name).write_bytes(text)
        self.out = self.folder / "out.json"
        self.out.unlink(missing_ok=True)
        return farmctl("data", f"places={self.folder / name}", "-o", self.out, *words)

    def features(self) -> list[dict[str, Any]]:
        (layer,) = json.loads(self.out.read_text())["layers"]
        self.assertEqual(layer["name"], "places")
        return layer["features"]

    def test_the_worked_example(self) -> None:
        status, out, _ = self.make(collection(feature("Point", EXAMPLE, name="a", none=None, whole=8.0, part=2.5)))
        self.assertEqual(status, 0)
        self.assertEqual(self.features(), [{"id": 7, "geometry": {"points": [CENTIMETRES]}, "attrs": {"name": "a", "whole": 8}}])
        self.assertIn("left out 1 (the first: feature 1, id 7): attribute part, a number with a fraction", out)
        self.make(None, "--round", "part=10", "--attributes", "part")
        self.assertEqual(self.features()[0]["attrs"], {"part": 25})

    def test_each_kind(self) -> None:
        kinds = [
            (feature("MultiPoint", [[1, 1], [2, 2]], 1), "points", 2),
            (feature("LineString", [[1, 1], [2, 2], [2, 2]], 2), "lines", 1),
            (feature("MultiLineString", [[[1, 1], [2, 2]], [[3, 3], [4, 4]]], 3), "lines", 2),
            (feature("Polygon", [SQUARE, SQUARE], 4), "polygon", 2),
            (feature("MultiPolygon", [[SQUARE], [SQUARE]], 5), "polygon", 2),
            (feature("Polygon", [WORLD], 6), "polygon", 1),
        ]
        self.make(collection(*(made for made, _, _ in kinds)))
        found = [next(iter(each["geometry"].items())) for each in self.features()]
        self.assertEqual([(name, len(parts)) for name, parts in found], [(name, count) for _, name, count in kinds])
        self.assertEqual(len(found[1][1][0]), 2)  # a point that is repeated comes once
        self.assertEqual(len(found[3][1][0]), 4)  # and a ring does not repeat its first

    def test_the_edges_of_the_world(self) -> None:
        self.make(collection(feature("Polygon", [[[-180, -90], [180, -90], [180, 90], [-180, 90], [-180, -90]]])))
        points = {tuple(point) for point in self.features()[0]["geometry"]["polygon"][0]}
        # half the equator of a sphere of 6,378,137 m
        self.assertEqual(points, {(x, y) for x in (-2003750834, 2003750834) for y in (-2003750834, 2003750834)})

    def test_what_is_left_out(self) -> None:
        antimeridian = feature("LineString", [[170, 0], [-170, 9]], 2)
        status, out, _ = self.make(collection(feature("Point", [1, 1], 1), antimeridian, feature("LineString", [[1, 1], [1, 1]], 3)))
        self.assertEqual((status, [each["id"] for each in self.features()]), (0, [1]))
        for told in ("left out 1 (the first: feature 2, id 2): geometry that may cross the antimeridian", "feature 3, id 3): geometry with too few points"):
            self.assertIn(told, out)

    def test_a_feature_that_cannot_be_kept(self) -> None:
        """It refuses the file, and says where it is; or it is left out, and told, where the user says so."""
        none = {"type": "Feature", "id": 3, "properties": {}, "geometry": {"type": "GeometryCollection", "geometries": []}}
        point, filled = feature("Point", [1, 1], 1), {"type": "GeometryCollection", "geometries": [{"type": "Point", "coordinates": [1, 1]}]}
        latin = json.dumps(collection(feature("Point", [1, 1], 1, name="strasse"), feature("Point", [1, 1], 3, name="XX")))
        for content, words, told in [
            (collection(point, dict(none, geometry=None)), "", "layer places, feature 2, id 3: feature without a geometry"),
            (collection(point, none), "", "feature 2, id 3: feature without a geometry"),
            (collection(point, dict(none, geometry=filled)), "", "feature 2, id 3: geometry of the kind GEOMETRYCOLLECTION"),
            (collection(point, feature("Polygon", [[]], 3)), "", "feature 2, id 3: feature without a geometry"),
            (collection(point, point), "", "feature 2, id 1: an earlier feature has this id"),
            (collection(feature("Point", [1, 1], None, n=1), feature("Point", [1, 1], None, n=-5)), "--id n", "feature 2, id -5: feature whose id"),
            (latin.encode().replace(b"XX", b"stra\xdfe"), "", "feature 2, id 3: attribute name that is no text in UTF-8"),
        ]:
            with self.subTest(told):
                status, _, err = self.make(content, *words.split())
                self.assertEqual((status, err.count("\n"), self.out.exists()), (1, 1, False), err)
                self.assertIn(told, err)
                self.assertIn("--leave-out", err)
                status, out, err = self.make(None, "--leave-out", *words.split())
                self.assertEqual((status, err, self.features()[0]["id"], "left out 1" in out), (0, "", 1, True), out)

    def test_a_file_in_another_encoding(self) -> None:
        from osgeo import gdal

        self.make(collection(feature("Point", [1, 1], 1, name="XX")))
        gdal.VectorTranslate(str(self.folder / "old.shp"), str(self.folder / "places.geojson"), layerCreationOptions=["ENCODING="])
        (self.folder / "old.cpg").unlink(missing_ok=True)
        table = (self.folder / "old.dbf").read_bytes().replace(b"XX", b"\xdf\xe4")
        (self.folder / "old.dbf").write_bytes(table[:29] + b"\0" + table[30:])
        status, _, err = self.make(None, name="old.shp")
        self.assertEqual((status, "--encoding" in err), (1, True), err)
        self.assertEqual(self.make(None, "--encoding", "ISO-8859-1", name="old.shp")[0], 0)
        self.assertEqual(self.features()[0]["attrs"]["name"], "ßä")

    def test_ids(self) -> None:
        self.make(collection(*(feature("Point", [1, 1], None, id=n) for n in (5, 9, 5, 2, 2))), "--leave-out")
        self.assertEqual([each["id"] for each in self.features()], [5, 9, 2])
        self.make(collection(*(feature("Point", [1, 1], None) for _ in range(3))))
        self.assertEqual(len({each["id"] for each in self.features()}), 3)
        self.make(collection(feature("Point", [1, 1], None, ref="12"), feature("Point", [1, 1], None, ref="x")), "--id", "ref", "--leave-out")
        self.assertEqual([each["id"] for each in self.features()], [12])

    def test_nothing_to_keep(self) -> None:
        """An empty file is a fault of what made it; as a day's data it would remove the whole map."""
        status, _, err = self.make(collection())
        self.assertEqual((status, err.count("\n"), self.out.exists()), (1, 1, False), err)
        self.assertIn("places.geojson: no feature to keep", err)

    def test_what_is_refused_is_one_line_and_leaves_nothing(self) -> None:
        point = feature("Point", [1, 1])
        files = {
            "missing.geojson": None,
            "empty.geojson": b"",
            "cut.geojson": json.dumps(collection(point, point)).encode()[:-40],
            "text.txt": b"hello",
            "metres.geojson": collection(feature("Point", [1.2e6, 6.2e6])),
            "pole.geojson": collection(feature("Point", [0, 91])),
            "cut.osm.pbf": b"\x00\x00\x00\x0d\x0a\x09OSMHeader\x18\x7c\x10\x71",
            "cut.osm": b"<osm version='0.6'><node id='1' lat='49' lon='8'><tag k='place' v='town'/></node><node id='2'",
            "nan.geojson": b'{"type":"Feature","properties":{},"geometry":{"type":"Point","coordinates":[NaN,1]}}',
            "empty.osm": b"<osm version='0.6'></osm>",
            "cut.shp": b"\0\0\x27\x0a" + b"\0" * 28 + b"\xe8\x03\0\0" + b"\xff" * 64,
            "cut.gpkg": b"SQLite format 3\0" + b"\0" * 200,
        }
        for name, content in files.items():
            with self.subTest(name):
                status, _, err = self.make(content, name=name)
                self.assertEqual((status, err.count("\n")), (1, 1), err)
                self.assertIn(name, err)
                self.assertEqual([path.name for path in self.folder.glob("*out*")] + list(self.folder.glob(".farmctl*")), [])

    def test_coordinate_systems(self) -> None:
        from osgeo import ogr, osr

        def shapefile(name: str, code: int | None, point: tuple[float, float]) -> None:
            system = osr.SpatialReference()
            system.ImportFromEPSG(code or 4326)
            made = ogr.GetDriverByName("ESRI Shapefile").CreateDataSource(str(self.folder / name))
            layer = made.CreateLayer("places", system if code else None, ogr.wkbPoint)
            layer.CreateField(ogr.FieldDefn("name", ogr.OFTString))
            each = ogr.Feature(layer.GetLayerDefn())
            each.SetGeometry(ogr.CreateGeometryFromWkt("POINT (%r %r)" % point))
            each.SetField("name", "a")
            layer.CreateFeature(each)

        shapefile("metres.shp", 3857, (-11169055.58, 2800000.0))
        self.assertEqual(self.make(None, name="metres.shp")[0], 0)
        self.assertEqual(self.features()[0]["geometry"], {"points": [CENTIMETRES]})
        shapefile("bare.shp", None, (EXAMPLE[0], EXAMPLE[1]))
        self.assertIn("has no coordinate system", self.make(None, name="bare.shp")[2])
        self.make(None, "--srs", "EPSG:4326", name="bare.shp")
        self.assertEqual(self.features()[0]["geometry"], {"points": [CENTIMETRES]})
        self.assertIn("no coordinate system EPSG:1", self.make(None, "--srs", "EPSG:1", name="bare.shp")[2])

    def test_the_greatest_layer_comes_last(self) -> None:
        for name, count in (("big", 20), ("small", 1)):
            (self.folder / f"{name}.geojson").write_text(json.dumps(collection(*(feature("Point", [1, 1], n) for n in range(count)))))
        words = [f"{name}={self.folder / name}.geojson" for name in ("big", "small")]
        status, out, _ = farmctl("data", *words, "-o", self.folder / "out.json")
        self.assertEqual((status, "21 features" in out), (0, True))
        self.assertEqual([layer["name"] for layer in json.loads((self.folder / "out.json").read_text())["layers"]], ["small", "big"])

    def test_an_extract_and_its_changes(self) -> None:
        town = Path(__file__).resolve().parents[2] / "examples" / "first-map" / "town.osm"
        if not town.exists():
            self.skipTest("the town is not here")
        style = town.with_name("style.json")
        out = self.folder / "out.json"
        self.assertEqual(farmctl("data", town, "--style", style, "-o", out)[0], 0)
        data = {layer["name"]: layer["features"] for layer in json.loads(out.read_text())["layers"]}
        self.assertEqual({name: len(features) for name, features in data.items()}, {"points": 2, "lines": 18, "areas": 52})
        self.assertEqual(data["points"][0]["attrs"], {"place": "town"})  # its name no filter asks for
        later = self.folder / "later.osm"
        later.write_text(town.read_text().replace("'Townsend'", "'Townsville'").replace("v='town'", "v='city'"))
        update = self.folder / "update.json"
        self.assertEqual(farmctl("changes", town, town, "--style", style, "-o", update)[0], 3)
        self.assertFalse(update.exists())
        status, told, err = farmctl("changes", town, later, "--style", style, "-o", update)
        self.assertEqual(status, 0, err)
        changes = {change["layer"]: change for change in json.loads(update.read_text())["changes"]}
        self.assertEqual([put["attrs"] for put in changes["points"]["put"]], [{"place": "city"}])
        self.assertIn("points: removes 0 and puts 1 features", told)
        self.assertIn("it touches 1 metatiles of zoom 14", told)

    @unittest.skipUnless(shutil.which("osmium"), "not installed (Debian: osmium-tool)")
    def test_a_change_file_over_an_extract(self) -> None:
        nodes = "".join(f"<node id='{n}' version='1' lat='49.{n}' lon='8.{n}'><tag k='place' v='town'/></node>" for n in (1, 2))
        (self.folder / "old.osm").write_text(f"<osm version='0.6'>{nodes}</osm>")
        changed = "<node id='1' version='2' lat='49.1' lon='8.1'><tag k='place' v='city'/></node>"
        (self.folder / "day.osc").write_text(
            f"<osmChange version='0.6'><modify>{changed}</modify><delete><node id='2' version='2' lat='49.2' lon='8.2'/></delete></osmChange>"
        )
        words = [self.folder / "old.osm", self.folder / "day.osc", "--layers", "points", "-o", self.folder / "u.json"]
        status, _, err = farmctl("changes", *words, "--keep", self.folder / "new.osm.pbf")
        self.assertEqual(status, 0, err)
        (change,) = json.loads((self.folder / "u.json").read_text())["changes"]
        self.assertEqual((change["remove"], [put["id"] for put in change["put"]]), ([2], [1]))
        self.assertEqual(farmctl("changes", self.folder / "new.osm.pbf", *words[1:])[0], 3)  # a second time it changes nothing
        (self.folder / "day.osc").write_text("<osmChange")
        status, _, err = farmctl("changes", *words)
        self.assertEqual((status, err.count("\n")), (1, 1), err)

    def test_changes_by_hand(self) -> None:
        old = collection(*(feature("Point", [n, 1], n, name="a") for n in range(4)))
        new = collection(feature("Point", [0, 1], 0, name="a"), feature("Point", [1, 2], 1, name="a"), feature("Point", [9, 9], 9))
        for name, content in (("old", old), ("new", new)):
            (self.folder / f"{name}.geojson").write_text(json.dumps(content))
        words = [f"places={self.folder / name}.geojson" for name in ("old", "new")]
        self.assertEqual(farmctl("changes", *words, "-o", self.folder / "u.json")[0], 0)
        (change,) = json.loads((self.folder / "u.json").read_text())["changes"]
        self.assertEqual((change["layer"], change["remove"], [put["id"] for put in change["put"]]), ("places", [2, 3], [1, 9]))
        (self.folder / "farm.json").write_text(json.dumps({"updates": ["u.json"] * 255}))
        words += ["-c", self.folder / "farm.json", "-o", self.folder / "u.json"]
        self.assertIn("has 255 of 256 updates", farmctl("changes", *words)[1])
        (self.folder / "farm.json").write_text(json.dumps({"updates": ["u.json"] * 256}))
        self.assertIn("has 256 updates, and may have no more: put the newest data", farmctl("changes", *words)[2])
        words = [words[0], words[1].replace("places=", "others=")]
        self.assertIn("others: no layer of", farmctl("changes", *words, "-o", self.folder / "u.json")[2])


if __name__ == "__main__":
    unittest.main()
