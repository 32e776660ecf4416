#!/usr/bin/env python3
"""Every growth of memory refused in turn: the program runs once for each, and no other answer may come of it.

    python3 oracle/refused.py [PROGRAM [SERVES [STEP]]]

PROGRAM is the built program and SERVES that of the crate `command_cases`; where they are not given, those that `rt ci` built.
A proved program takes its memory by `malloc` and `realloc` of the C library alone, and `refused.c` answers one of these
calls, by its number, that there is none. The runs are

    render, meta     the first drawing, and a container
    script           the life of a tile, over a store in memory: asks, an expiry in its drawing, fetches
    load             200 features and 32 tiles, each STEP-th growth (101 where it is not given)
    serve            three fronts and two workers over ports in memory, each growth of ten

A command ends as without a refusal, or with status 5, `tilefarm: out of memory` on err and a beginning of its output.
Of `serve` each connection is sent what it is sent else, or a beginning of it, and the status is 0 or 5. None is ended by
a signal, and none goes on for ever. The last line is `N passed, M failed`; the status is 1 where one failed. It needs
Python 3 and a C compiler (`cc`, glibc), starts no server, and takes a few minutes.
"""

import collections
import os
import re
import shutil
import subprocess
import sys
import tempfile

import serve_cases

HERE = os.path.dirname(os.path.abspath(__file__))
CRATES = os.path.join(os.path.dirname(HERE), "crates")
BUILT = [os.path.join(CRATES, name, "out", name) for name in ("tilefarm", "command_cases")]
EACH = 120  # seconds for one run
NO_MEMORY = b"tilefarm: out of memory\n"


class Ran:
    """How a run ended."""

    def __init__(self, status, out, err):
        self.status, self.out, self.err = status, out, err

    def is_same(self, other):
        return (self.status, self.out, self.err) == (other.status, other.out, other.err)

    def told(self):
        return "status %s, %r, %r" % (self.status, self.out[-200:], self.err[-200:])


class Program:
    """A program with its words, in a folder of its own."""

    def __init__(self, shim, program, words, source, files=None):
        self.shim, self.words, self.folder = shim, [program] + words, tempfile.mkdtemp(prefix="refused-")
        for name in os.listdir(source):
            shutil.copy(os.path.join(source, name), self.folder)
        for name, content in (files or {}).items():
            with open(os.path.join(self.folder, name), "wb") as out:
                out.write(content)

    def run(self, number, **more):
        env = dict(os.environ, LD_PRELOAD=self.shim, REFUSE=str(number), **more)
        how = {"cwd": self.folder, "env": env, "stdin": subprocess.DEVNULL, "capture_output": True, "timeout": EACH}
        try:
            end = subprocess.run(self.words, **how)
        except subprocess.TimeoutExpired:
            return Ran("no end within %d seconds" % EACH, b"", b"")
        return Ran(end.returncode, end.stdout, end.stderr)

    def growths(self):
        """How often it grows where nothing is refused, and how it ends then."""
        name = os.path.join(self.folder, "growths")
        whole = self.run(0, GROWTHS=name)
        with open(name) as counted:
            return int(counted.read()), whole

    def remove(self):
        shutil.rmtree(self.folder)


# --- What may come ----------------------------------------------------------------------------------------------


def command_kind(ran, whole):
    """What came of a command, or None where it is wrong."""
    if ran.is_same(whole):
        return "as without"
    is_beginning = whole.out.startswith(ran.out)
    return "status 5" if (ran.status, ran.err) == (5, NO_MEMORY) and is_beginning else None


def told_of(out):
    """The status that a played case tells, and what was sent on each connection."""
    status = re.search(rb"^status (\d+)$", out, re.M)
    sent, place = {}, 0
    found = re.compile(rb"^(open|closed) (\d\.\d+) (\d+)\n", re.M)
    while True:
        head = found.search(out, place)
        if not head:
            return int(status[1]) if status else None, sent
        length = int(head[3])
        sent[head[2]] = out[head.end() : head.end() + length]
        place = head.end() + length


def serve_kind(ran, whole):
    """The same of the program that plays cases, which ends with status 1 where it finds no memory for the case itself."""
    if ran.is_same(whole):
        return "as without"
    if ran.status == 1:
        return "no memory for the case"
    status, sent = told_of(ran.out)
    wanted = told_of(whole.out)[1]
    # The first peer leaves; where its drawing ends before that, it is sent its Done.
    wanted[b"0.0"] = serve_cases.message(serve_cases.DONE, 5, 8, 8)
    is_beginning = all(wanted.get(conn, b"").startswith(data) for conn, data in sent.items())
    return "status %s" % status if ran.status == 0 and status in (0, 5) and is_beginning else None


# --- All of it --------------------------------------------------------------------------------------------------


def tried(name, program, kind_of, step):
    """Refuses each growth of so many; how many runs were right, and how many were not."""
    growths, whole = program.growths()
    if whole.status != 0:
        print("%s: it fails without a refusal: %s" % (name, whole.told()))
        return 0, 1
    kinds, wrong = collections.Counter(), 0
    for number in range(1, growths + 1, step):
        ran = program.run(number)
        kind = kind_of(ran, whole)
        if kind is None:
            wrong += 1
            print("%s: growth %d refused: %s" % (name, number, ran.told()))
        else:
            kinds[kind] += 1
    told = ", ".join("%d %s" % (count, kind) for kind, count in kinds.most_common())
    print("%s: %d growths, each of %d refused: %s, %d wrong" % (name, growths, step, told or "none", wrong), flush=True)
    return sum(kinds.values()), wrong


def three_fronts():
    """The case in which all three fronts are asked: no drawing is held, so that none is waited for in vain."""
    case = serve_cases.three_fronts("three fronts")
    files = {name: content if isinstance(content, bytes) else content.encode() for name, content in serve_cases.FILES.items()}
    with open(os.path.join(CRATES, "command_cases", "data", "old.data"), "rb") as old:
        files["old.data"] = old.read()
    return dict(files, texts=b"", serves=case.text().encode(), scripts=b"", drawings=b"")


def main(words):
    program, serves = [os.path.abspath(given or built) for given, built in zip(words[:2] + [""] * 2, BUILT)]
    step = int(words[2]) if len(words) > 2 else 101
    with tempfile.TemporaryDirectory(prefix="refused-") as folder:
        shim = os.path.join(folder, "refused.so")
        subprocess.run(["cc", "-O2", "-shared", "-fPIC", "-o", shim, os.path.join(HERE, "refused.c")], check=True)
        data = lambda crate: os.path.join(CRATES, crate, "data")
        render = ["render", "style.json", "data.json", "16", "0", "0", "0"]
        runs = (
            ("render", Program(shim, program, render, data("tilefarm")), command_kind, 1),
            ("meta", Program(shim, program, ["meta", "world.meta"], data("command_cases")), command_kind, 1),
            ("script", Program(shim, program, ["script", "square.config", "life_of_a_tile.script"], data("command_cases")), command_kind, 1),
            ("load", Program(shim, program, ["load", "7", "200"], folder), command_kind, step),
            ("serve", Program(shim, serves, [], folder, three_fronts()), serve_kind, 10),
        )
        passed = failed = 0
        try:
            for name, made, kind_of, every in runs:
                right, wrong = tried(name, made, kind_of, every)
                passed, failed = passed + right, failed + wrong
        finally:
            for _, made, _, _ in runs:
                made.remove()
    print("%d passed, %d failed" % (passed, failed))
    return 1 if failed else 0


if __name__ == "__main__":
    sys.exit(main(sys.argv[1:]))
