"""`seed`: says how much it is, draws it, goes on where it was, and waits for a farm that is away."""

import threading
import time
import unittest

from farmctl.metatiles import Metatile, container_bytes, path_of
from farmctl.seeding import Seeding, of_log
from tests.support import SECONDS, WithFarm

WORLD = "-180,-85,180,85"


class Seed(WithFarm):
    def stats(self) -> dict[str, int]:
        words = self.farmctl("control", "stats")[1].split()
        return {word: int(number) for word, number in zip(words[::2], words[1::2], strict=True)}

    def test_it_says_how_much_and_draws_nothing(self) -> None:
        status, out, _ = self.farmctl("seed", "default", WORLD, "0..4", "--count")
        self.assertEqual((status, out.splitlines()[0][:42]), (0, "8 metatiles, 0 of them stored already; 0.0"))
        self.assertEqual(self.stats()["asks"], 0)

    def test_a_box_is_drawn_and_what_is_clean_is_not_drawn_again(self) -> None:
        status, out, err = self.farmctl("seed", "default", WORLD, "0..5", "-y", "-q", "-n", "4")
        self.assertEqual((status, err), (0, ""))
        self.assertIn("24 metatiles are done", out)
        self.assertEqual(self.stats()["stored"], 24)
        for z in range(6):
            path = self.folder / "tiles" / path_of(Metatile("default", z, 0, 0))
            self.assertEqual(path.stat().st_size, container_bytes(z, 16))
        self.assertIn("24 of them stored already; 0.00 GiB", self.farmctl("seed", "default", WORLD, "0..5", "-y", "-q")[1])
        self.assertEqual(self.stats()["stored"], 24)

    def test_a_list_and_a_log(self) -> None:
        self.write("tiles.list", "14/8192/8192\n14/8193/8193\n3/0/0\n")
        self.assertIn("2 metatiles are done", self.farmctl("seed", "default", "--list", self.folder / "tiles.list", "-y", "-q")[1])
        asked = ("9/9/9", "5/31/31", "5/30/31", "2/9/9")
        lines = [f'1.2.3.4 - - [30/Nov/2026] "GET /default/{tile}.png HTTP/1.1" 200 9 "-" "x"' for tile in asked]
        self.write("access.log", "\n".join([*lines, '"GET /other/1/0/0.png', '"GET /default/99/0/0.png']))
        self.assertEqual(of_log("default", self.folder / "access.log", 10), [Metatile("default", 5, 24, 24), Metatile("default", 9, 8, 8)])
        told = self.farmctl("seed", "default", "--from-log", self.folder / "access.log", "--top", "1", "-y", "-q")
        self.assertIn("1 metatiles are done", told[1])
        self.assertEqual(self.stats()["stored"], 3)

    def test_more_than_the_queue_has_room_for(self) -> None:
        self.stop()
        self.write("farm.json", dict(self.config, limits={"bulk": 1, "dirty": 1}))
        self.start()
        status, out, _ = self.farmctl("seed", "default", WORLD, "5", "-y", "-q", "-n", "32")
        self.assertEqual(status, 0)
        self.assertIn("16 metatiles are done", out)

    def test_a_farm_that_is_restarted_is_waited_for(self) -> None:
        metatiles = [Metatile("default", 7, 8 * x, 8 * y) for x in range(16) for y in range(16)]
        done: list[int] = []
        seeding = Seeding(self.address("renderd"), metatiles, 4, lambda: done.append(1), 60)
        thread = threading.Thread(target=seeding.run)
        thread.start()
        while not done:
            time.sleep(0.01)
        self.stop()
        self.start()
        thread.join(SECONDS)
        self.assertEqual(len(done), 256)

    def test_a_farm_that_is_away_is_given_up(self) -> None:
        self.stop()
        status, _, err = self.farmctl("seed", "default", WORLD, "0", "-y", "-q", "--patience", "0.1")
        self.assertEqual(status, 1)
        self.assertIn("nothing was drawn for 0 s", err)

    def test_what_cannot_be_is_one_line(self) -> None:
        cases = {
            ("seed", "other", WORLD, "0"): "no map other: there are default",
            ("seed", "default", WORLD, "0..19"): "no zooms",
            ("seed", "default", "1,2,3", "0"): "no box",
            ("seed", "default", WORLD): "name a box and zooms",
            ("seed", "default"): "name a box and zooms",
            ("seed", "default", WORLD, "0"): "nobody to ask",
        }
        for words, told in cases.items():
            with self.subTest(words):
                status, _, err = self.farmctl(*words)
                self.assertNotEqual(status, 0)
                self.assertIn(told, err)
                self.assertEqual(err.count("\n"), 1)


if __name__ == "__main__":
    unittest.main()
