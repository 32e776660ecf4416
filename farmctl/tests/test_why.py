"""`why` has an answer for every line that tilefarm can write on standard error, by the tables of docs/operate/commands.md
and the pages that it names.
"""

import json
import tempfile
import unittest
from pathlib import Path

from farmctl import why
from farmctl.errors import FarmError

PARTS = ["map", "style 0 0 0", "rule 0 1 0", "symbolizer 0 1 2", "layer 3 0 0", "raster 0 0 0"]
LINES = ["tilefarm: out of memory", "tilefarm: the store failed", "tilefarm: the ports failed", "tilefarm: turns used up",
         "usage: tilefarm render STYLE DATA T Z X Y | script CONFIG SCRIPT | serve CONFIG | load SEED N | meta FILE",
         "tilefarm: a: b: cannot be read", "tilefarm: f: style 1", "tilefarm: f: dataset 1", "tilefarm: f: config 1",
         "tilefarm: f: ppm 2", "tilefarm: f: grid 1", "tilefarm: f: list 1 at line 3", "tilefarm: f: script 1 at line 1",
         "tilefarm: f: ppm 1 at 17", "tilefarm: f: dataset 2 at 0", "tilefarm: f: dataset 5 at 1",
         "tilefarm: f: dataset 4 at 0 id 18446744073709551615", "tilefarm: f: dataset 6 at 0"]  # fmt: skip
LINES += [f"tilefarm: f: style {k} at {part}" + " 0 0 0" * (part == "map") for k in range(2, 9) for part in PARTS]
LINES += [f"tilefarm: f: style 3 at rule 0 1 0 filter {k} 5" for k in (1, 2, 3)]
LINES += [f"tilefarm: f: dataset 3 at 0 999999 geometry {k}" for k in (1, 2, 3, 4)]
LINES += [f"tilefarm: f: config {k} at {key}" for k in (2, 3) for key in range(12)]
LINES += ["tilefarm: f: config 4 at 1"]
LINES += [f"tilefarm: f: meta {k}" for k in range(1, 7)]
LINES += [f"tilefarm: farm.saved: saved {k}" for k in range(1, 6)]
LINES += [f"tilefarm: farm.saved: resume {k}" for k in range(1, 5)]
FILES = [None, b"", b"\xff\xfe", b"{}", b"[]", b'{"styles": 7, "maps": 3, "layers": [1]}',
         json.dumps({"styles": [{"name": "s", "rules": [{}, {"Filter": "[a] =", "symbolizers": [{}, {}, {"symbolizer": "X"}]}]}]}).encode()]  # fmt: skip

NAMED = [
    "style 4 at symbolizer 0 1 2", "style 3 at rule 0 1 0 filter 1 4", "dataset 2 at 0 0", "config 2 at 1", "list 1 at line 9",
]  # fmt: skip


class EachLine(unittest.TestCase):
    def setUp(self) -> None:
        folder = tempfile.TemporaryDirectory()
        self.addCleanup(folder.cleanup)
        self.folder = Path(folder.name)

    def told(self, line: str) -> str:
        return "\n".join(why.explain(line, folder=self.folder))

    def test_has_an_answer(self) -> None:
        for line in LINES:
            with self.subTest(line):
                self.assertIn("why: ", self.told(line))
                self.assertNotRegex(self.told(line), "(?m)not known$")

    def test_has_one_whatever_the_file_holds(self) -> None:
        for content in FILES:
            if content is not None:
                (self.folder / "f").write_bytes(content)
            for line in NAMED:
                with self.subTest(line, content=content):
                    self.assertIn("why: ", self.told(f"tilefarm: f: {line}"))

    def test_any_other_is_refused_with_one_line(self) -> None:
        for line in ("nonsense", "tilefarm: f: style", "tilefarm: f: list 1"):
            with self.subTest(line), self.assertRaises(FarmError):
                self.told(line)

    def test_names_the_object(self) -> None:
        (self.folder / "s.json").write_text(json.dumps({"styles": [{"name": "roads", "rules": [{"Filter": "[a] ="}]}]}))
        told = self.told("tilefarm: s.json: style 3 at rule 0 0 0 filter 1 5").splitlines()
        self.assertEqual(told[1], 'where: style 0 ("roads"), rule 0')
        self.assertEqual(told[3:5], ["filter: [a] =", "             ^ the byte or word there cannot stand there"])


if __name__ == "__main__":
    unittest.main()
