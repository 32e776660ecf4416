"""The command line: help, usage, and that each error is one line with a status."""

import contextlib
import io
import tempfile
import unittest
from pathlib import Path

from farmctl import cli


def run(*words: str) -> tuple[int, str, str]:
    """Status, standard output and standard error of farmctl with these words."""
    out, err = io.StringIO(), io.StringIO()
    with contextlib.redirect_stdout(out), contextlib.redirect_stderr(err):
        try:
            status = cli.main(words)
        except SystemExit as end:
            status = int(end.code or 0)
    return status, out.getvalue(), err.getvalue()


class Help(unittest.TestCase):
    def test_each_command_has_help_with_an_example(self) -> None:
        for name in cli.all_commands():
            with self.subTest(name):
                status, out, err = run(name, "--help")
                self.assertEqual((status, err), (0, ""))
                self.assertIn("for example:", out)
                self.assertIn(f"farmctl {name}", out.replace("-c farm.json ", ""))

    def test_no_command_is_usage(self) -> None:
        self.assertEqual(run()[0], 2)
        self.assertEqual(run("nothing")[0], 2)


class Errors(unittest.TestCase):
    def test_no_configuration_is_one_line(self) -> None:
        status, out, err = run("-c", "/nowhere/farm.json", "control", "stats")
        self.assertEqual((status, out), (1, ""))
        self.assertEqual(err.count("\n"), 1)
        self.assertIn("/nowhere/farm.json", err)

    def test_files_that_are_none(self) -> None:
        with tempfile.TemporaryDirectory() as folder:
            for name, text in {"bytes": bytes(range(256)), "deep": b"[" * 99999, "list": b"[]", "kinds": b'{"maps": 7}'}.items():
                (Path(folder) / name).write_bytes(text)
                for words in (["control", "stats"], ["seed", "a", "1,2,3,4", "0"], ["gateway"], ["update", "x"]):
                    with self.subTest(f"{name} {words[0]}"):
                        status, out, err = run("-c", f"{folder}/{name}", *words)
                        self.assertEqual((status, out, err.count("\n"), "TRACE" in err), (1, "", 1, False), err)
            status, out, err = run("--tiles-address", "tcp:127.0.0.1:1", "expire", f"{folder}/bytes")
            self.assertEqual((status, out, err), (1, "", f"farmctl expire: {folder}/bytes: no text in UTF-8: byte 128\n"))

    def test_no_time_is_refused_as_words(self) -> None:
        words = {"again": ["--wait"], "gateway": ["--keep"], "metrics": ["--walk"], "run": ["--grace"], "seed": ["default", "--patience"],
                 "turn": ["a", "b", "--drain"], "update": ["file", "--wait"], "watch": ["-n"], "status": ["--slow"]}  # fmt: skip
        for name, before in words.items():
            for number in ("nan", "-1", "inf", "1e10", "soon"):
                with self.subTest(f"{name} {number}"):
                    status, out, err = run(name, *before, number)
                    self.assertEqual((status, out, "invalid seconds value" in err), (2, "", True))

    def test_nobody_at_the_address_is_one_line(self) -> None:
        status, out, err = run("--control-address", "unix:/nowhere/sock", "control", "stats")
        self.assertEqual((status, out), (1, ""))
        self.assertEqual(err, "farmctl control: unix:/nowhere/sock: [Errno 2] No such file or directory\n")


if __name__ == "__main__":
    unittest.main()
