"""`backup` and `restore`: what is kept comes back, and clean tiles only with the files that they were drawn of."""

import fcntl
import io
import json
import shutil
import tarfile
import tempfile
import unittest
from pathlib import Path

from tests.support import HERE, WithFarm, farmctl


class Backup(WithFarm):
    def setUp(self) -> None:
        super().setUp()
        self.farmctl("control", "renew 0")
        self.write("farm.lines", "renew 0\n")
        self.get(HERE)
        self.there = Path(tempfile.mkdtemp(prefix="farmctl-"))
        self.addCleanup(shutil.rmtree, self.there, True)
        self.saved = self.folder / "tiles" / "farm.saved"
        self.out = self.there / "b.tar.gz"

    def whole(self) -> None:
        """A backup with tiles, of the stopped farm."""
        self.stop()
        self.assertEqual(self.farmctl("backup", "--tiles", self.out)[0], 0)

    def restore(self, *words: str, folder: Path | None = None) -> tuple[int, str, str]:
        return farmctl("-c", (folder or self.folder) / "farm.json", "restore", *words, self.out)

    def test_files_of_a_running_farm_come_back_elsewhere(self) -> None:
        status, out, _ = self.farmctl("backup", self.out)
        self.assertEqual((status, out), (0, f"{self.out}: farm.json, 4 files\n"))
        status, out, _ = self.restore(folder=self.there)
        self.assertEqual(status, 0)
        self.assertIn("the farm begins anew", out)
        for name in ("farm.json", "style.json", "data.json", "road.json", "farm.lines"):
            self.assertEqual((self.there / name).read_bytes(), (self.folder / name).read_bytes())
        self.assertFalse((self.there / "tiles").exists())

    def test_tiles_are_kept_of_a_farm_that_was_stopped(self) -> None:
        status, _, err = self.farmctl("backup", "--tiles", self.out)
        self.assertEqual((status, "the farm runs" in err, self.out.exists()), (1, True, False))
        self.whole()
        before = self.saved.read_bytes()
        for path in self.folder.iterdir():
            shutil.rmtree(path) if path.is_dir() else path.unlink()
        status, out, err = self.restore()
        self.assertEqual((status, "goes on from its clean tiles" in out), (0, True), err)
        self.assertEqual(self.saved.read_bytes(), before)
        self.start()
        self.assertEqual(self.get(HERE, "/status").body, b"clean 1\n")

    def test_tiles_with_other_data_are_not_clean(self) -> None:
        self.whole()
        for name in ("data.json", "style.json", "road.json"):
            with self.subTest(name):
                old = (self.folder / name).read_text()
                self.write(name, old + "\n")
                status, out, _ = self.restore("--only", "tiles")
                self.assertEqual(status, 0)
                self.assertIn(f"not the same as when the tiles were saved: {name}", out)
                self.assertFalse(self.saved.exists())
                self.write(name, old)
        config = json.loads((self.folder / "farm.json").read_text())
        self.write("farm.json", dict(config, updates=[]))
        self.assertIn("updates of farm.json", self.restore("--only", "tiles")[1])
        self.write("farm.json", dict(config, workers=3))
        self.assertIn("goes on from", self.restore("--only", "tiles")[1])

    def test_files_over_tiles_of_another_day(self) -> None:
        self.stop()
        self.farmctl("backup", self.out)
        self.assertIn("goes on from", self.restore()[1])  # nothing changes, so what is there stays right
        self.write("data.json", (self.folder / "data.json").read_text() + "\n")
        self.assertIn("changed: data.json", self.restore()[1])
        self.assertFalse(self.saved.exists())

    def test_what_cannot_be_is_one_line(self) -> None:
        self.farmctl("backup", self.out)
        self.assertIn("is there: -f", self.farmctl("backup", self.out)[2])
        self.assertIn("the farm runs", self.restore()[2])
        self.stop()
        whole = self.out.read_bytes()
        for text in (whole[:200], b"", b"rubbish" * 99):
            self.out.write_bytes(text)
            self.assertEqual((self.restore()[0], self.restore()[2].count("\n")), (1, 1), self.restore()[2])
        self.write("farm.json", dict(self.config, data="/etc/hostname"))
        self.assertIn("outside the farm's folder", self.farmctl("backup", "-f", self.out)[2])

    def test_a_folder_that_is_locked_is_left_alone(self) -> None:
        self.farmctl("backup", self.out)
        self.stop()
        with (self.folder / "tiles" / ".lock").open("wb") as lock:
            fcntl.flock(lock, fcntl.LOCK_EX)
            self.assertIn("the farm runs", self.restore()[2])
        self.assertEqual(self.restore()[0], 0)

    def test_an_archive_that_leads_outside_is_refused(self) -> None:
        self.stop()
        listed = {"config": "farm.json", "files": {"../x": "0"}, "saved": None, "time": "", "form": 1}
        for manifest, name in ((listed, "files/../x"), (dict(listed, files={}), "tiles/../../x"), (dict(listed, files={}), "files/x")):
            with tarfile.open(self.out, "w") as archive:
                for member, text in (("farmctl-backup.json", json.dumps(manifest)), (name, "x")):
                    made = tarfile.TarInfo(member)
                    made.size = len(text)
                    archive.addfile(made, io.BytesIO(text.encode()))
            self.assertEqual(self.restore()[0], 1)


if __name__ == "__main__":
    unittest.main()
