#!/usr/bin/env bash
# The drawing of one metatile of 64 tiles of 256 pixels, beside Mapnik's drawing of the same shapes and beside
# what writing a container alone costs: processor time of one round, medians of interleaved runs, of ours of the medians
# of their rounds. Beside each figure stand the load and what the host took of all processors meanwhile.
#
#   benchmarks/beside.sh [CASE..]       (all cases of benchmarks/beside.py where none is named)
#   KEEP=FOLDER benchmarks/beside.sh ready [CASE..]     (makes their files there; with the same KEEP they are measured without)
#
# A case is a number of features of generated work, those of `tilefarm load 7 NUMBER`, as 10000, or a name, as
# wide; `benchmarks/beside.sh -l` lists them. REPEATS sets how many runs a median is taken of (5). With TILEFARM another
# program is measured than the one that was built here or, where none was, the released one.
#
# A case counts where both pictures agree in mean colour and cover (`alike`): Mapnik leaves parts of some pictures out. The
# last line says which of the cases that count is the slowest against Mapnik.
#
# A row has the peer, Mapnik, and the limit, what a container costs that nothing is drawn in.
# Mapnik is Debian's python3-mapnik; where no python3 has it, its column stays empty, and in the cases of many layers over
# the same data where mapnik-index (mapnik-utils) is not there. Ours is `tilefarm script`: an ask,
# its claim, its end and its reply, of which the drawing and packing take nearly all, from the end of one to that of the
# next, so that reading is in none; the write is left out (unwritten.c). Mapnik's is drawing alone.
set -eu
top="$(cd "$(dirname "${BASH_SOURCE[0]}")/.." && pwd)"
built="$top/crates/tilefarm/out/tilefarm"
[ -x "$built" ] || built="$top/release/tilefarm"
program="${TILEFARM:-$built}"
folder="$(mktemp -d)"
trap 'rm -rf "$folder"' EXIT
cc -O3 -o "$folder/raw" "$top/benchmarks/raw.c"
cc -O2 -shared -fPIC -o "$folder/unwritten.so" "$top/benchmarks/unwritten.c"
mapnik=
for python in python3 /usr/bin/python3; do
    if "$python" -c 'import mapnik' 2>/dev/null; then mapnik="$python"; fi
done
[ -n "$mapnik" ] || echo "beside.sh: no python3 has mapnik, so its column stays empty (Debian: python3-mapnik)" >&2
echo "$(date +%F), $(nproc) processors, $(sed -n 's/^model name[^:]*: //p' /proc/cpuinfo | head -n 1), load $(cut -d' ' -f1 /proc/loadavg)"
python3 "$top/benchmarks/beside.py" "$program" "$folder" "$mapnik" "$@"
