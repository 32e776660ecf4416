#!/usr/bin/env python3
"""What single calls of the farm cost, through `tilefarm script` over generated worlds.

    benchmarks/script.py [SHOWN [FEATURES]]     (100,000 shown metatiles and data of 100,000 features if not said)

Each figure is processor time of the program, by the system's count of nanoseconds, divided by the calls: so it holds
the reading of the script's line and the putting of its answer too, which `nojob` alone shows. Tiles have 16 pixels and no features lie in them, so a shown metatile takes
50 KB of the disk while this runs. A shown metatile's memory is what the program has grown by. With TILEFARM another
program is measured.
"""

import fcntl
import json
import os
import shutil
import subprocess
import sys
import tempfile

TOP = os.path.dirname(os.path.dirname(os.path.abspath(__file__)))
PROGRAM = os.environ.get("TILEFARM", os.path.join(TOP, "tilefarm"))
PIPE = 4096  # bytes that the program may be ahead of the reading
MIDDLE = 131072
LIMIT = 1000000  # lines of a script
CALLS, UPDATES = 100000, 100


def row(what, figure):
    print("%-78s %s" % (what, figure), flush=True)


def run(folder, config, before, sections):
    """Runs the lines before, and then the sections: how many KiB the program has grown by the lines before, and of each
    section its processor time in nanoseconds and its last answer.

    A `tally` tells where a section begins. Behind it stand fetches of one tile, whose answers are more bytes than the
    program may be ahead of the reading, so that it has not begun the section when its tally is read. What they take is
    measured twice, and taken off."""
    pad = ["tally"] + ["fetch " + spot(0)] * 16
    lines = ["tally"] + before
    for section in [[], []] + sections + [[]]:
        lines += pad + section
    assert len(lines) <= LIMIT, len(lines)
    with open(os.path.join(folder, "config"), "w") as out:
        json.dump(config, out)
    with open(os.path.join(folder, "script"), "w") as out:
        out.write("\n".join(lines) + "\n")
    shutil.rmtree(os.path.join(folder, "tiles"), ignore_errors=True)
    farm = subprocess.Popen([PROGRAM, "script", "config", "script"], cwd=folder, stdout=subprocess.PIPE, bufsize=PIPE)
    fcntl.fcntl(farm.stdout, fcntl.F_SETPIPE_SZ, PIPE)
    seen, last = [], b""
    for answer in farm.stdout:
        if answer.startswith(b"asks "):
            with open("/proc/%d/schedstat" % farm.pid) as told, open("/proc/%d/status" % farm.pid) as status:
                memory = [line for line in status if line.startswith("VmRSS")]
                seen.append((int(told.read().split()[0]), int(memory[0].split()[1]), last.decode("latin-1").strip()))
        last = answer
    if farm.wait() != 0:
        sys.exit("script.py: the program ended with status %d" % farm.returncode)
    times = [seen[place + 1][0] - seen[place][0] for place in range(1, len(seen) - 1)]
    of_pad = min(times[:2])
    return seen[1][1] - seen[0][1], [(time - of_pad, seen[place][2]) for place, time in enumerate(times[2:], 4)]


def spot(number):
    return "default 18 %d %d" % (MIDDLE + 8 * (number % 1000), MIDDLE + 8 * (number // 1000))


def world(folder, features):
    """Data of so many features, and an update of ten of them."""
    def feature(number):
        x, y = 8 * (number % 1000), 8 * (number // 1000)
        return {"id": number, "geometry": {"points": [[x, y]]}, "attrs": {"kind": number % 4}}
    with open(os.path.join(folder, "data%d" % features), "w") as out:
        json.dump({"units": "world", "layers": [{"name": "land", "features": [feature(n) for n in range(features)]}]}, out)
    step = max(features // 10, 1)
    with open(os.path.join(folder, "update"), "w") as out:
        json.dump({"units": "world", "changes": [{"layer": "land", "put": [feature(step * n) for n in range(10)]}]}, out)
    return {"maps": [{"name": "default", "style": "style", "tile": 16}], "data": "data%d" % features, "updates": ["update"]}


def shown_calls(folder, config, shown):
    """Calls over so many shown metatiles."""
    calls, tiles = min(CALLS, (LIMIT - 4 * shown - 3000) // 4), min(1000, shown)
    if calls < 1000:
        sys.exit("script.py: at most 240,000 metatiles may be shown")
    before = []
    for number in range(shown):
        before += ["ask 1 render " + spot(number), "claim 1", "finish %d" % number, "collect 0"]
    grown, seen = run(folder, config, before, [
        ["finish %d" % shown] * calls,
        ["look " + spot(7919 * n % shown) for n in range(calls)],
        ["ask 1 render " + spot(7919 * n % shown) for n in range(calls)],
        ["expire 18 0 0"] * calls,
        ["expire " + spot(shown // tiles * n).split(" ", 1)[1] for n in range(tiles)],
        ["expire 0 0 0"],
    ])
    among = " among {:,} shown".format(shown)
    row("memory of a shown metatile" + among, "%d bytes" % (grown * 1024 // shown))
    names = ("a line without a call, answered nojob", "look of a clean metatile" + among,
             "ask for a clean metatile" + among, "expire of a tile with nothing shown" + among)
    for name, (time, answer) in zip(names, seen):
        row(name, "%.2f us" % (time / calls / 1000))
    row("expire of a tile of zoom 18 with one clean metatile" + among, "%.2f us" % (seen[4][0] / tiles / 1000))
    row("expire 0 0 0" + among + ", answered " + seen[5][1], "%.2f ms" % (seen[5][0] / 1e6))


def data_calls(folder, config, features):
    """Calls over so many features."""
    before = ["ask 1 render " + spot(0), "claim 1", "finish 0", "collect 0"]
    rounds = []
    for number in range(1, CALLS + 1):
        rounds += ["ask 1 render " + spot(number), "claim 1", "cut %d" % number, "collect 0"]
    seen = run(folder, config, before, [rounds, ["update 0"] * UPDATES, ["renew 0"] * UPDATES])[1]
    over = " over {:,} features".format(features)
    row("a round of ask, claim, end without a picture and reply" + over, "%.2f us" % (seen[0][0] / CALLS / 1000))
    row("update of 10 features" + over, "%.3f ms" % (seen[1][0] / UPDATES / 1e6))
    row("renew of 10 features" + over, "%.3f ms" % (seen[2][0] / UPDATES / 1e6))


def main():
    shown, features = [int(word) for word in sys.argv[1:]] + [100000, 100000][len(sys.argv) - 1:]
    subprocess.run([PROGRAM], stdout=subprocess.DEVNULL, stderr=subprocess.DEVNULL)  # builds the program where it is not built yet
    folder = tempfile.mkdtemp()
    try:
        with open(os.path.join(folder, "style"), "w") as out:
            json.dump({"styles": [], "layers": []}, out)
        shown_calls(folder, world(folder, 10), shown)
        for count in (10, features):
            data_calls(folder, world(folder, count), count)
    finally:
        shutil.rmtree(folder)


if __name__ == "__main__":
    main()
