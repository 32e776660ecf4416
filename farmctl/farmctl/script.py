"""Control lines tried beforehand, by the program itself: `tilefarm script` reads every file that a configuration names,
makes the updates, and touches no store, so it goes on beside a running farm.
"""

from __future__ import annotations

import json
import re
import subprocess
import tempfile
from collections.abc import Iterable, Sequence
from dataclasses import dataclass
from pathlib import Path
from typing import Any

from farmctl import why
from farmctl.errors import FarmError
from farmctl.files import text_of

SECONDS = 600.0  # the greatest data take some ten seconds
LINES = "farm.lines"  # what was sent to a farm since it began anew, one line each
MISFITS = {
    "1": "it names a layer that is not there",
    "2": "it removes a feature that is not there",
    "3": "a layer would have more than 1,000,000 features",
}
NOTHING = {"noupdate": "the list `updates` has no such place", "norestyle": "the list `restyles` has no such place"}
TAKEN = ("version", "styled", "expired")  # how the answer to a line begins that was taken


class Refused(FarmError):
    """The program refuses a file, or a line does not fit what the lines before it left."""


@dataclass(frozen=True)
class Tried:
    """Control lines with what the program answers to each."""

    lines: tuple[str, ...]
    answers: tuple[str, ...]


def lines_of(path: Path) -> list[str]:
    """The control lines of a file; none where there is no file."""
    text = text_of(path) if path.exists() else ""
    return [line.strip() for line in text.splitlines() if line.strip()]


def kept_lines(folder: Path) -> list[str]:
    """The lines of `farm.lines`, in the order in which a farm that began anew is told them."""
    return lines_of(folder / LINES)


def keep_line(folder: Path, line: str) -> None:
    with (folder / LINES).open("a", encoding="utf-8") as out:
        out.write(line + "\n")


def changing(lines: Iterable[str]) -> list[str]:
    """Those that change data or styles: only these depend on one another, and only these count for the version."""
    return [line for line in lines if re.fullmatch(r"(update|renew|restyle) \d+", line)]


def explained(line: str, folder: Path, config: Path) -> str:
    """A refusal of the program on a line, and what it means on the lines after it."""
    try:
        named = config if ": config " in line or "ports" in line else None
        return "\n  ".join([line, *why.explain(line, named, folder)])
    except FarmError:
        return line


def tried(program: str, folder: Path, config: Path, lines: Sequence[str]) -> Tried:
    """What the program answers to the lines over the configuration's files, from the beginning; or its refusal."""
    with tempfile.NamedTemporaryFile("w", suffix=".script", encoding="utf-8") as script:
        script.write("".join(f"{line}\n" for line in lines))
        script.flush()
        words = [program, "script", str(config), script.name]
        try:
            done = subprocess.run(words, cwd=folder, capture_output=True, text=True, timeout=SECONDS)
        except subprocess.TimeoutExpired as fault:
            raise FarmError(f"{program} has not read the files after {SECONDS:.0f} s") from fault
        except OSError as fault:
            raise FarmError(f"{program}: {fault.strerror}") from fault
    if done.returncode != 0:
        told = done.stderr.strip() or f"{program}: status {done.returncode}"
        raise Refused(explained(told.replace(f"{script.name}:", "the lines:"), folder, config))
    return Tried(tuple(lines), tuple(done.stdout.splitlines()))


def misfit(answer: str) -> str | None:
    """Why a line was not taken; None where it was."""
    if answer.startswith(TAKEN):
        return None
    kind, _, number = answer.partition(" ")
    return f"{answer}: {MISFITS.get(number, '')}" if kind == "refused" else NOTHING.get(kind, answer)


def updates_of(config: dict[str, Any]) -> list[str]:
    found = config.get("updates", [])
    return found if isinstance(found, list) else []


def name_of(line: str, config: dict[str, Any]) -> str:
    """A line with the file that its number means."""
    word, _, number = line.partition(" ")
    updates = updates_of(config)
    if word in ("renew", "update") and number.isdecimal() and int(number) < len(updates):
        return f"{line} ({updates[int(number)]})"
    return line


def checked(program: str, folder: Path, config: Path, lines: Sequence[str]) -> Tried:
    """All files of the configuration, and that each line is taken after those before it; or a refusal."""
    done = tried(program, folder, config, lines)
    parsed = json.loads(config.read_text(encoding="utf-8"))
    for line, answer in zip(done.lines, done.answers, strict=True):
        fault = misfit(answer)
        if fault:
            raise Refused(f"{name_of(line, parsed)}: {fault}")
    return done
