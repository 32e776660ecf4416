"""Metatiles: places in degrees, paths, bytes, and what an expired tile overlaps."""

import unittest
from pathlib import Path

from farmctl import metatiles
from farmctl.client import Tile
from farmctl.commands.expire import Expired
from farmctl.errors import FarmError
from farmctl.metatiles import Metatile
from tests.support import HERE, InFolder, WithFarm, farmctl


class Places(unittest.TestCase):
    """Columns and rows by the formulas of slippy maps; the wanted numbers are those of well-known places."""

    def test_tiles_of_degrees(self) -> None:
        shibuya = metatiles.column_at(139.7006793, 18), metatiles.row_at(35.6590699, 18)
        self.assertEqual(shibuya, (232798, 103246))  # the worked example of OpenStreetMap's wiki
        self.assertEqual((metatiles.column_at(0, 1), metatiles.row_at(0, 1)), (1, 1))
        self.assertEqual((metatiles.column_at(180, 3), metatiles.row_at(-90, 3)), (7, 7))
        self.assertEqual((metatiles.column_at(-180, 3), metatiles.row_at(90, 3)), (0, 0))

    def test_metatiles_of_a_box(self) -> None:
        world = metatiles.box_of("-180,-90,180,90")
        self.assertEqual([metatiles.count_in_box(world, z) for z in range(6)], [1, 1, 1, 1, 4, 16])
        self.assertEqual([len(list(metatiles.in_box("m", world, z))) for z in range(6)], [1, 1, 1, 1, 4, 16])
        small = metatiles.box_of("13.37,52.51,13.38,52.52")
        self.assertEqual(list(metatiles.in_box("m", small, 16)), [Metatile("m", 16, 35200, 21488)])

    def test_a_path_is_that_of_mod_tile(self) -> None:
        self.assertEqual(metatiles.path_of(Metatile("default", 2, 0, 0)), Path("default/2/0/0/0/0/0.meta"))
        # column 8200 is 0x2008 and row 8192 0x2000: four bits of each, the highest first
        self.assertEqual(metatiles.path_of(Metatile("m", 14, 8200, 8192)), Path("m/14/0/34/0/0/128.meta"))

    def test_bytes_of_a_container(self) -> None:
        self.assertEqual(metatiles.container_bytes(14, 256), 532 + 64 * 196623)
        self.assertEqual(metatiles.container_bytes(2, 16), 532 + 16 * 781)

    def test_what_is_no_place_is_refused(self) -> None:
        for text in ("1,2,3", "a,b,c,d", "5,0,4,1", "0,0,181,1"):
            self.assertRaises(FarmError, metatiles.box_of, text)
        for text in ("", "5..4", "19", "0..19", "-1"):
            self.assertRaises(FarmError, metatiles.zooms_of, text)
        for text in ("14/0/99999", "1/2", "1/2/0", "x"):
            self.assertRaises(FarmError, metatiles.tile_of, text)
        self.assertEqual(metatiles.zooms_of("3..5"), range(3, 6))
        self.assertEqual(metatiles.zooms_of("7"), range(7, 8))


class Overlaps(unittest.TestCase):
    def test_a_tile_touches_all_above_and_below_it(self) -> None:
        expired = Expired([Tile(14, 8192, 8192)])
        touched = [Metatile("m", 0, 0, 0), Metatile("m", 3, 0, 0), Metatile("m", 14, 8192, 8192), Metatile("m", 18, 131072, 131072)]
        self.assertEqual([expired.overlaps(each) for each in touched], [True] * 4)
        apart = [Metatile("m", 14, 8200, 8192), Metatile("m", 18, 0, 0)]
        self.assertEqual([expired.overlaps(each) for each in apart], [False] * 2)


class Command(WithFarm):
    def test_what_overlaps_becomes_dirty(self) -> None:
        for tile in (HERE, Tile(14, 8200, 8192), Tile(0, 0, 0)):
            self.get(tile)
        self.write("today.list", "14/8192/8192\n\n")
        self.assertEqual(self.farmctl("expire", self.folder / "today.list"), (0, "clean metatiles made dirty: 2\n", ""))
        self.write("today.list", "14/0/99999\n")
        self.assertEqual(self.farmctl("expire", self.folder / "today.list")[0], 1)


class Several(WithFarm):
    def test_a_line_goes_to_all_farms(self) -> None:
        self.write("farms", f"{self.address('control')}\nunix:/nowhere/x\n")
        status, out, err = farmctl("control", "--farms", self.folder / "farms", "stats")
        self.assertEqual((status, out.count(": stats: asks 0"), out.count("no answer")), (1, 1, 1))
        self.assertIn("unix:/nowhere/x missed a line", err)

    def test_again_sends_lines_to_a_farm_at_version_0_alone(self) -> None:
        self.write("farm.lines", "renew 0\n")
        self.assertIn("renew 0: version 1 renewed 0", self.farmctl("again")[1])
        self.assertIn("lines sent again: 0", self.farmctl("again")[1])
        self.assertEqual(self.farmctl("--control-address", "unix:/nowhere/x", "again", "--wait", "0")[0], 1)


class Check(InFolder):
    def test_it_reads_all_files_and_tries_each_update(self) -> None:
        self.assertIn("1 lines (0 of farm.lines)", self.farmctl("check")[1])
        self.assertEqual(list((self.folder).glob("tiles")), [])
        self.write("farm.json", dict(self.config, updates=["road.json", "wrong.json"]))
        told = "farmctl check: renew 1 (wrong.json): refused 2: it removes a feature that is not there\n"
        self.assertEqual(self.farmctl("check")[2], told)
        self.assertEqual(self.farmctl("check", "--sent")[0], 0)
        self.write("farm.json", dict(self.config, updates=["bad.json"]))
        self.assertIn("too few points", self.farmctl("check", "--sent")[2])
        self.write("farm.json", "{")
        self.assertIn("config 1", self.farmctl("check")[2])


if __name__ == "__main__":
    unittest.main()
