#!/usr/bin/env bash
# Processor time and greatest memory of one `tilefarm render` whose data have many features, nearly all of which lie
# outside the tile: what is measured is reading. By default 100,000 features, some 23 MB. With TILEFARM another
# program is measured.
#
#     benchmarks/read.sh [FEATURES]
#     KEEP=FOLDER benchmarks/read.sh ready [FEATURES]     (makes the data there; with the same KEEP they are measured without)
#
# Beside it stand its peers, Mapnik that reads the same features as GeoJSON and Python's json that reads the same file, and the
# limit: looking at each byte of the file once. Each is the least of RUNS runs (5). Those units stand before the layers; a second row has them behind.
set -eu
top="$(cd "$(dirname "${BASH_SOURCE[0]}")/.." && pwd)"
program="${TILEFARM:-$top/tilefarm}"
ready=
if [ "${1:-}" = ready ]; then ready=1; shift; fi
if [ -n "${KEEP:-}" ]; then
    folder="$KEEP/read${1:-100000}"
    mkdir -p "$folder"
else
    folder="$(mktemp -d)"
    trap 'rm -rf "$folder"' EXIT
fi
"$program" >/dev/null 2>&1 || true # builds the program where it is not built yet
[ -e "$folder/made" ] || python3 - "$folder" "${1:-100000}" <<'PYTHON'
import json, os, random, sys

folder, count = sys.argv[1], int(sys.argv[2])


def opened(name):
    return open(os.path.join(folder, name), "w")


draw = random.Random(1)
with opened("data.json") as data, opened("behind.json") as behind, opened("peer.geojson") as peer:
    data.write('{"units": "world", "layers": [{"name": "land", "features": [')
    behind.write('{"layers": [{"name": "land", "features": [')
    peer.write('{"type": "FeatureCollection", "features": [')
    for number in range(count):
        x, y, s = draw.randrange(2**29), draw.randrange(2**29), 1 + draw.randrange(4096)
        ring = [[x, y], [x + s, y], [x + 2 * s, y + s], [x + 2 * s, y + 2 * s], [x + s, y + 3 * s], [x, y + 2 * s]]
        attrs, parted = {"kind": number % 4, "name": "feature %d" % number}, ", " if number else ""
        text = parted + json.dumps({"id": number, "geometry": {"polygon": [ring]}, "attrs": attrs})
        data.write(text)
        behind.write(text)
        turned = {"type": "Polygon", "coordinates": [[[x, 2**30 - y] for x, y in ring + ring[:1]]]}
        peer.write(parted + json.dumps({"id": number, "geometry": turned, "type": "Feature", "properties": attrs}))
    data.write("]}]}")
    behind.write(']}], "units": "world"}')
    peer.write("]}")
with opened("style.json") as out:
    json.dump({"styles": [{"name": "s", "rules": [{"Filter": "[kind] = 1", "symbolizers": [{"symbolizer": "PolygonSymbolizer"}]}]}],
               "layers": [{"name": "l", "source": "land", "styles": ["s"]}]}, out)
opened("made").close()
PYTHON
[ -z "$ready" ] || exit 0
# In a process of its own, since a child's greatest memory is at first that of its parent.
python3 - "$program" "$folder" "${1:-100000}" <<'PYTHON'
import os, subprocess, sys

program, folder, count = sys.argv[1:]
RUNS = int(os.environ.get("RUNS", "5"))
MAPNIK = "import sys, mapnik; print(mapnik.GeoJSON(file=sys.argv[1]).envelope())"
JSON = "import sys, json; json.load(open(sys.argv[1]))"


def file(name):
    return os.path.join(folder, name)


def run(words):
    """The processor time of one run, its greatest memory in KiB and its status."""
    child = subprocess.Popen(words, stdout=subprocess.DEVNULL, stderr=subprocess.DEVNULL, env=dict(os.environ, LC_ALL="C"))
    _, status, used = os.wait4(child.pid, 0)
    child.returncode = status
    return used.ru_utime + used.ru_stime, used.ru_maxrss, status


def row(what, words, name):
    runs = [run(words + [file(name)] + (["256", "18", "0", "0"] if words[0] == program else [])) for _ in range(RUNS)]
    seconds, memory, status = min(it[0] for it in runs), max(it[1] for it in runs), max(it[2] for it in runs)
    told = what, os.path.getsize(file(name)) / 1e6, seconds, memory / 1024
    print("%-44s %7.1f MB: " % told[:2] + ("ended with status %d" % status if status else "%6.2f s of processor time, at most %5.0f MB" % told[2:]), flush=True)


print("%s features, load %.1f" % (count, os.getloadavg()[0]))
render = [program, "render", file("style.json")]
row("a tile, and the reading of all", render, "data.json")
row("the same, with the units behind", render, "behind.json")
if subprocess.run(["/usr/bin/python3", "-c", "import mapnik"], stderr=subprocess.DEVNULL).returncode == 0:
    row("peer: Mapnik, the same features as GeoJSON", ["/usr/bin/python3", "-c", MAPNIK], "peer.geojson")
row("peer: Python's json, the same file", [sys.executable, "-c", JSON], "data.json")
row("limit: each byte looked at once (wc -l)", ["wc", "-l"], "data.json")
print("load %.1f" % os.getloadavg()[0])
PYTHON
