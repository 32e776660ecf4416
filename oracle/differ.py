#!/usr/bin/env python3
"""The built program against the second implementations of this folder, case by case, within about two minutes.

    python3 oracle/differ.py [PROGRAM [SECONDS]]        (crates/tilefarm/out/tilefarm and 120 where they are not given)

Cases of five kinds are drawn, half of each kind from a fixed seed and half from one that the commit gives: worlds with
small tiles (`drawn_worlds.py`); scripts (`script_worlds.py`); texts of styles, data, updates, configurations, lists,
scripts, grids and containers that were changed somewhere; and, in `differ_serve.py`, saved farms that a server goes on
from, and messages, heads and lines on its sockets. Of each kind as many are tried as its share of the time allows.

Where the two differ the case is made smaller while they still do, within half a minute, and printed; it is kept in a
folder too. The last line is `N passed, M failed`; the status is 1 where anything differs. It needs Python 3 and nothing
else.
"""

import contextlib
import copy
import json
import os
import random
import shutil
import subprocess
import sys
import tempfile
import time

import differ_serve
import drawn_worlds
import farm
import script_worlds
import serve
import tilefarm

TOP = os.path.dirname(os.path.dirname(os.path.abspath(__file__)))
BUILT = os.path.join(TOP, "crates", "tilefarm", "out", "tilefarm")
FIXED = 1
EACH = 60  # seconds for one command
SHRINK = 30  # seconds for making a case smaller
SHARES = (("tiles", 0.3), ("scripts", 0.2), ("texts", 0.25), ("saved", 0.1), ("sockets", 0.15))
LEAST = {"tiles": 20, "scripts": 40, "texts": 60, "saved": 100, "sockets": 300}  # cases, however long they take
MOST_FOUND = 5  # cases that differ, after which no more of a kind are looked for


def commit_seed():
    """A number that the commit gives, and 2 where there is none."""
    others = {name: value for name, value in os.environ.items() if not name.startswith("GIT_")}
    told = subprocess.run(["git", "rev-parse", "HEAD"], cwd=TOP, capture_output=True, text=True, env=others)
    return int(told.stdout[:8], 16) if told.returncode == 0 else 2


# --- One case: files, and the words of a command ----------------------------------------------------------------


class Case:
    """A command over files, which both run."""

    def __init__(self, name, files, words):
        self.name, self.files, self.words = name, files, words

    def with_files(self, files):
        return Case(self.name, files, self.words)

    def size(self):
        return sum(map(len, self.files.values()))

    def write(self, folder):
        for name, content in self.files.items():
            with open(os.path.join(folder, name), "wb") as out:
                out.write(content)


def ran(program, folder, words):
    try:
        end = subprocess.run([program, *words], cwd=folder, stdin=subprocess.DEVNULL, capture_output=True, timeout=EACH)
    except subprocess.TimeoutExpired:
        return b"", b"no end within %d seconds" % EACH, -1
    return end.stdout, end.stderr, end.returncode


def wanted(folder, words):
    if words[0] in ("script", "load"):
        return farm.run(farm.Files(folder), words)
    return tilefarm.run(folder, words)


def difference(program, case):
    """How the two differ, or None."""
    with tempfile.TemporaryDirectory(prefix="differ-") as folder:
        case.write(folder)
        seen, want = ran(program, folder, case.words), wanted(folder, case.words)
    return None if seen == want else drawn_worlds.told(seen, want)


# --- Smaller cases ----------------------------------------------------------------------------------------------


def places(value, at=()):
    """Where items of lists and members of objects stand in a JSON value, outer ones first."""
    keys = range(len(value)) if isinstance(value, list) else list(value) if isinstance(value, dict) else ()
    for key in keys:
        yield at + (key,)
    for key in keys:
        yield from places(value[key], at + (key,))


def without(value, at):
    made = copy.deepcopy(value)
    inner = made
    for key in at[:-1]:
        inner = inner[key]
    del inner[at[-1]]
    return made


def shorter_texts(content):
    """A text with a part left out: of JSON an item, else a run of lines."""
    try:
        value = json.loads(content)
        for at in list(places(value)):
            yield json.dumps(without(value, at)).encode()
        return
    except ValueError:
        pass
    lines = content.split(b"\n")
    length = len(lines) // 2
    while length and len(lines) <= 10000:
        for first in range(0, len(lines), length):
            yield b"\n".join(lines[:first] + lines[first + length :])
        length //= 2


def smaller(case):
    """The case without one of its files, then with one of them shorter, the longest first."""
    by_size = sorted(case.files, key=lambda name: -len(case.files[name]))
    for gone in by_size:
        yield case.with_files({name: content for name, content in case.files.items() if name != gone})
    for name in by_size:
        for content in shorter_texts(case.files[name]):
            if len(content) < len(case.files[name]):
                yield case.with_files(dict(case.files, **{name: content}))


def smallest(case, differs):
    """The case made smaller as long as the two differ, or until the time is over."""
    end, is_done = time.monotonic() + SHRINK, False
    while not is_done:
        is_done = True
        for made in smaller(case):
            if time.monotonic() > end:
                return case
            if differs(made):
                case, is_done = made, False
                break
    return case


def shown(content):
    """A file's bytes for a reader, cut where they are many."""
    text = content.decode("utf-8", "backslashreplace")
    text = text if all(letter.isprintable() or letter in "\n\t" for letter in text) else repr(content)[1:]
    return text if len(text) < 1500 else "%s .. (%d bytes)" % (text[:400], len(content))


def tell(case, told):
    """Prints a case that differs, and keeps its files."""
    folder = tempfile.mkdtemp(prefix="differ-kept-")
    case.write(folder)
    print("DIFFERS  %s: %s\n  %s\n  its files are in %s" % (case.name, told, " ".join(case.words), folder))
    for name, content in sorted(case.files.items()):
        print("  %s: %s" % (name, shown(content)))


# --- Worlds and scripts -----------------------------------------------------------------------------------------


def tiles(seed, number):
    """A world whose tiles have 16 pixels, by `render` or by `script`."""
    for more in range(100):
        files, words = drawn_worlds.world(seed, 100 * number + more)
        if words[3] == "16":
            break
    return Case("tiles %d %d" % (seed, number), files, words if number % 2 else ["script", "config.json", "script"])


def scripts(seed, number):
    r = random.Random("scripts %d %d" % (seed, number))
    files = {"world_%s.style" % name: text.encode() for name, text in script_worlds.SHEETS.items()}
    files["hills.grid"] = b"P6\n4 6\n255\n" + bytes(r.randrange(256) for _ in range(72))
    files.update({"world_%d.data" % at: json.dumps(script_worlds.data_file(r)).encode() for at in range(4)})
    files.update({"world_%d.update" % at: json.dumps(script_worlds.update_file(r, at)).encode() for at in range(12)})
    config = script_worlds.config_file(r, ["world_%s.style" % name for name in script_worlds.SHEETS])
    lines = script_worlds.script_file(r, None, config, r.randrange(50, 250))
    used = [config["data"], *config["updates"], "hills.grid"]
    used += [name for name in files if name.endswith(".style")]
    files = {name: files[name] for name in used}
    files.update({"config": json.dumps(config).encode(), "script": "\n".join(lines).encode()})
    return Case("scripts %d %d" % (seed, number), files, ["script", "config", "script"])


# --- Texts that were changed ------------------------------------------------------------------------------------

ODD = (
    None, True, 0, -1, 1, 17, 2**30, 2**30 + 1, 2**63, 2**64 - 1, 2**64, 1.5, -0.0, 1e300, "", "x", "x" * 64, "x" * 65, "red", "#12",
    "#12345g", "rgb(1,2,300)", "rgb( 1 , 2,3)", "0.001", "1.", ".5", "64.01", "default", "first", "round", "cm", "world",
    "tcp:127.0.0.1:70000", "tcp:1.2.3.4:5", "unix:", "\u00e4", "\0", [], {}, [[]], [1, 2], {"x": 1},
)  # fmt: skip
TOKENS = (
    "[kind]", "[size]", "[none]", "[]", "1", "0", "007", "9223372036854775807", "9223372036854775808", "'a'", "\"it's\"", "'\\''",
    "true", "false", "null", "and", "or", "not", "&&", "||", "!", "=", "!=", "<>", "<", "<=", ">", ">=", "+", "-", "*", "/", "%", "(",
    ")", "(", ")", "x", "'", "[a", "\u00e4", "&", "\t", "  ",
)  # fmt: skip
LINES = (
    "ask 0 render default 0 0 0", "claim 0", "finish 0", "collect 0", "look default 0 0 0", "fetch default 0 0 0", "tally", "stop", "",
    "# a line", "expire 5 3 3", "update 0", "renew 0", "restyle 0", "cut 0", "leave 0", "claim", "claim 00", "claim 4294967296",
    "finish 18446744073709551615", "finish 18446744073709551616", "look  0 0 0", "expire 19 0 0", "tally ", " tally", "5/3/3", "0/0/0",
    "18/262143/262143", "1/2/0", "01/0/0", "1/1/1/1", "/", "1//1",
)  # fmt: skip


def changed_value(r, value):
    """A JSON value with one thing in it another one, or gone, or more."""
    at = r.choice(list(places(value)))
    made = copy.deepcopy(value)
    inner = made
    for key in at[:-1]:
        inner = inner[key]
    way = r.random()
    if way < 0.5:
        inner[at[-1]] = r.choice(ODD)
    elif way < 0.7:
        del inner[at[-1]]
    elif isinstance(inner, list):
        inner.insert(r.randrange(len(inner) + 1), copy.deepcopy(r.choice(inner)))
    else:
        inner[r.choice(("x", "name", "Filter", "ElseFilter", "remove", "id", at[-1].upper()))] = r.choice(ODD)
    return made


def changed_bytes(r, content):
    """Bytes with a few of them gone, more, others, or standing elsewhere too."""
    at, length = r.randrange(len(content) + 1), r.choice((1, 1, 2, 5, 40))
    other = r.choice((b"", bytes([r.randrange(256)]), b'"', b"{", b"]", b",", b"0", b"-", b"\\u00e4", b"\\ud800", b"\n", content[at : at + 60]))
    return content[:at] + other + content[at + (length if r.random() < 0.7 else 0) :]


def changed_filter(r, style):
    rules = [rule for made in style["styles"] for rule in made["rules"]]
    rule = r.choice(rules)
    rule.pop("ElseFilter", None)
    rule["Filter"] = r.choice((" ", "")).join(r.choice(TOKENS) for _ in range(r.randrange(1, 9)))
    return style


def full_world(seed, number):
    """A world with each thing that a configuration may have."""
    case = tiles(seed, 2 * number)
    config = json.loads(case.files["config.json"])
    config.update(expiries=["list"], restyles=[{"map": "default", "style": "style.json"}], resume=False)
    config.update(limits={"prio": 2, "dirty": 9}, renderd="unix:r", tiles="tcp:127.0.0.1:1", control="unix:c")
    config["maps"].append({"name": "b-2", "style": "style.json", "tile": 32, "maxzoom": 3})
    draw = lambda place: b"P6\n1 1\n255\n" + bytes([place[0] % 256, 0, 0])
    held = serve.container(2, 0, 0, {(x, y): draw((x, y)) for x in range(4) for y in range(4)})
    case.files.update({"config.json": json.dumps(config).encode(), "list": b"5/3/3\n\n0/0/0", "held.meta": held})
    return case


def texts(seed, number):
    """A world of which one file is changed, and the command that reads it."""
    r = random.Random("texts %d %d" % (seed, number))
    case = full_world(seed, number)
    names = ["style.json", "style.json", "data.json", "data.json", "update.json", "config.json", "script", "list", "held.meta"]
    name = r.choice(names + [name for name in case.files if name.endswith(".ppm")])
    content = case.files[name]
    if name.endswith(".json") and r.random() < 0.7:
        value = json.loads(content)
        value = changed_filter(r, value) if name == "style.json" and r.random() < 0.4 else changed_value(r, value)
        content = json.dumps(value, ensure_ascii=r.random() < 0.5).encode()
    elif name in ("script", "list") and r.random() < 0.7:
        content = b"\n".join(r.choice(LINES).encode() for _ in range(r.randrange(6))) + r.choice((b"", b"\n", b"\r\n"))
    else:
        content = changed_bytes(r, content)
    case.files[name] = content
    words = ["render", "style.json", "data.json", "16", "0", "0", "0"] if name in ("style.json", "data.json") else case.words
    words = ["meta", name] if name == "held.meta" else words
    case.files["script"] = case.files["script"] if name == "script" else b"tally\n"
    return Case("texts %d %d (%s)" % (seed, number, name), case.files, words)


# --- All of it --------------------------------------------------------------------------------------------------


def tried(program, kind, seconds, seeds, begin=0):
    """How many cases of a kind agreed, those of each seed in turn from a number on, and which did not."""
    end, agreed, found = time.monotonic() + seconds, 0, []
    while len(found) < MOST_FOUND and (time.monotonic() < end or agreed + len(found) < LEAST[kind]):
        at = begin + agreed + len(found)
        case = {"tiles": tiles, "scripts": scripts, "texts": texts}[kind](seeds[at % len(seeds)], at // len(seeds))
        if difference(program, case) is None:
            agreed += 1
        else:
            found.append(case)
    return agreed, found


def tell_smallest(program, found):
    """Of the cases that differ the smallest is made smaller, told and kept."""
    case = min(found, key=Case.size)
    case = smallest(case, lambda made: difference(program, made) is not None)
    tell(case, difference(program, case))


def counted(program, kind, seconds, seeds, begin=0):
    """How many cases of any kind agreed, and how many did not; of these the smallest is told."""
    if kind in ("saved", "sockets"):
        return differ_serve.tried(program, kind, seconds, seeds, LEAST[kind], begin)
    agreed, found = tried(program, kind, seconds, seeds, begin)
    if found:
        tell_smallest(program, found)
    return agreed, len(found)


@contextlib.contextmanager
def copied(program):
    """A copy of a program, since one of the gate's folder may be built anew meanwhile."""
    with tempfile.TemporaryDirectory(prefix="differ-") as folder:
        copy = os.path.join(folder, "tilefarm")
        shutil.copyfile(program, copy)
        os.chmod(copy, 0o755)
        yield copy


def main(words):
    program = os.path.abspath(words[0] if words else BUILT)
    seconds = float(words[1]) if len(words) > 1 else 120
    if not os.path.exists(program):
        print("differ: FAILED: %s is not there: rt ci builds it" % program)
        return 1
    with copied(program) as copy:
        return compared(copy, seconds, (FIXED, commit_seed()))


def compared(program, seconds, seeds):
    passed = failed = 0
    for kind, share in SHARES:
        agreed, differ = counted(program, kind, share * seconds, seeds)
        print("%s: %d cases of the seeds %d and %d, %d differ" % ((kind, agreed + differ) + seeds + (differ,)), flush=True)
        print("differ: tried %d %s" % (agreed + differ, kind), flush=True)
        passed, failed = passed + agreed, failed + differ
    print("%d passed, %d failed" % (passed, failed))
    return 1 if failed else 0


if __name__ == "__main__":
    sys.setrecursionlimit(10000)
    sys.exit(main(sys.argv[1:]))
