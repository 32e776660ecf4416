#!/usr/bin/env bash
# How fast a running farm answers, over loopback, with a client on the same machine.
#
#   benchmarks/serve.sh [quick]             (with `quick` a tenth of everything)
#   benchmarks/serve.sh waits [FOLDER..]    (what drawings cost others, below each folder: /dev/shm and /var/tmp; some 4 minutes)
#   benchmarks/serve.sh workers             (how the workers scale where nothing is written; a minute)
#   benchmarks/serve.sh rates               (clean tiles over HTTP beside nginx, in turn; half a minute)
#
# starts `tilefarm serve` in a folder of its own, with sixteen maps over 10,000 features that all lie in one metatile of
# zoom 14, and measures: clean metatiles answered Done on one connection of renderd's protocol; clean tiles of 256
# pixels over HTTP, one connection each; how long one ask takes; what 1,000 idle connections cost; the farm's memory
# before and after all these asks; and metatiles over 200 of these features and over all, drawn with 1, 2 and 4 workers, with
# tiles of 256 pixels, of which the writing takes much of the time, and of 32, of which it takes none, and what one
# who looks at a clean tile waits beside workers that draw all the time.
# The tiles lie in memory where the system has /dev/shm, so that no disk is measured; TMPDIR names another folder.
#
# With `waits` it measures only what 1, 2 and 4 workers (or as many as WORKERS names) store in ten rounds over all
# features, and what 1 and 4 who look at a clean tile wait beside them. PEER, as "tcp:127.0.0.1:80 /a/page", is a page
# of another server that is looked at in the same way, as a tile of mod_tile's while its renderd draws.
#
# With `rates` it measures only clean tiles over HTTP, for 1, 4 and 16 clients, three times in turn with the peer and limit:
# nginx with one process, which sends the same bytes from a file by sendfile, where it is installed.
#
# With `workers` it measures only what 1, 2 and 4 workers (or as many as WORKERS names) draw in ten rounds, with tiles of
# 32 and of 256 pixels over 200 and over all features; each write of a container is left out (unwritten.c).
# The client is benchmarks/serve_client.c, compiled by cc. With TILEFARM another program is measured.
set -eu
top="$(cd "$(dirname "${BASH_SOURCE[0]}")/.." && pwd)"
program="${TILEFARM:-$top/tilefarm}"
part=1
only=
preloaded=
rates=
case "${1:-}" in
    quick) part=10 ;;
    waits)
        shift
        [ $# -gt 0 ] || set -- /dev/shm /var/tmp
        for place in "$@"; do TMPDIR="$place" "$0" below "$place"; done
        exit
        ;;
    below) only="$2" ;;
    workers) preloaded=unwritten.so ;;
    rates) rates=1 ;;
esac
if [ -z "${TMPDIR:-}" ] && [ -w /dev/shm ]; then export TMPDIR=/dev/shm; fi
folder="$(mktemp -d)"
farm=
idle=
nginx=
ended() {
    for number in $farm $idle $nginx; do kill "$number" 2>/dev/null || true; done
    rm -rf "$folder"
}
trap ended EXIT
cc -O2 -Wall -pthread -o "$folder/client" "$top/benchmarks/serve_client.c"
cc -O2 -shared -fPIC -o "$folder/unwritten.so" "$top/benchmarks/unwritten.c"
"$program" >/dev/null 2>&1 || true # builds the program where it is not built yet
ulimit -n "$(ulimit -H -n)" 2>/dev/null || true

# The files of a farm with so many workers: sixteen maps, and `default`.
python3 - "$folder" <<'PYTHON'
import json, os, random, sys

folder, middle, draw = sys.argv[1], 2**29, random.Random(7)
layers = {"land": [], "roads": [], "spots": []}
for number in range(10000):
    x, y, s = middle + draw.randrange(520192), middle + draw.randrange(520192), 1 + draw.randrange(4096)
    name, geometry = (
        ("land", {"polygon": [[[x, y], [x + s, y], [x + s, y + s], [x, y + s]]]}),
        ("roads", {"lines": [[[x, y], [x + s, y + s]]]}),
        ("spots", {"points": [[x, y]]}),
    )[number % 3]
    layers[name].append({"id": number, "geometry": geometry, "attrs": {"kind": number % 4}})
paints = (
    ("land", lambda c: {"symbolizer": "PolygonSymbolizer", "fill": c}),
    ("roads", lambda c: {"symbolizer": "LineSymbolizer", "stroke": c, "stroke-width": "2", "stroke-linecap": "round"}),
    ("spots", lambda c: {"symbolizer": "MarkersSymbolizer", "fill": c, "width": "6", "height": "6"}),
)
colours = ("red", "green", "blue", "purple")
rules = lambda paint: [{"Filter": "[kind] = %d" % k, "symbolizers": [paint(c)]} for k, c in enumerate(colours)]
style = {
    "styles": [{"name": name, "rules": rules(paint)} for name, paint in paints],
    "layers": [{"name": name, "source": name, "styles": [name]} for name, _ in paints],
}
def write(name, value):
    with open(os.path.join(folder, name), "w") as out:
        out.write(value if isinstance(value, str) else json.dumps(value))


for count in (200, 10000):
    kept = [{"name": n, "features": [one for one in f if one["id"] < count]} for n, f in layers.items()]
    write("data%d.json" % count, {"units": "world", "layers": kept})
write("style.json", style)
write("all.list", "14/8192/8192\n")
for workers, count, tile in ((w, c, t) for w in (1, 2, 4) for c in (200, 10000) for t in (32, 256)):
    names = ["m%d" % number for number in range(15)] + ["default"]
    write("farm%d_%d_%d.json" % (workers, count, tile), {
        "maps": [{"name": name, "style": "style.json", "tile": tile} for name in names],
        "data": "data%d.json" % count, "expiries": ["all.list"], "workers": workers,
        "renderd": "unix:%s/renderd.sock" % folder, "tiles": "unix:%s/tiles.sock" % folder,
        "control": "unix:%s/control.sock" % folder,
    })
PYTHON

client() { "$folder/client" "$@"; }
control() { "$top/farmctl/bin/farmctl" --control-address "unix:$folder/control.sock" control "$@"; }
memory() { awk '/^VmRSS/ { print $2 }' "/proc/$farm/status"; }
rate() { awk '{ printf "%.0f", $1 / $2 }'; }
row() { printf '%-80s %14s  %s\n' "$1" "$2" "$3"; }

# Starts a farm with so many workers over so many features, with tiles of so many pixels, at $tiles; waits until it listens.
start() {
    python3 - "$folder/farm$1_$2_$3.json" "$tiles" <<'PYTHON'
import json, sys
config = json.load(open(sys.argv[1]))
config["tiles"] = sys.argv[2]
json.dump(config, open(sys.argv[1], "w"))
PYTHON
    (cd "$folder" && exec ${preloaded:+env LD_PRELOAD="$folder/$preloaded"} "$program" serve "farm$1_$2_$3.json" >out 2>err) &
    farm=$!
    for _ in $(seq 600); do
        control stats >/dev/null 2>&1 && return
        kill -0 "$farm" 2>/dev/null || break
        sleep 0.1
    done
    echo "serve.sh: the farm does not listen: $(cat "$folder/err")" >&2
    exit 1
}

stop() {
    control stop >/dev/null
    wait "$farm" || { echo "serve.sh: the farm ended with status $?: $(cat "$folder/err")" >&2; exit 1; }
    farm=
}

renderd="unix:$folder/renderd.sock"
port="$(python3 -c 'import socket; s = socket.socket(); s.bind(("127.0.0.1", 0)); print(s.getsockname()[1])')"
tiles="tcp:127.0.0.1:$port"
machine="$(sed -n 's/^model name[^:]*: //p' /proc/cpuinfo | head -n 1)"
echo "$(date +%F), $(nproc) processors, $machine, load $(cut -d' ' -f1 /proc/loadavg)"

tile='14 8192 8192'
# Metatiles of these maps and zooms that are drawn in a second: at first, and as the middle of five times of all again.
drawn() { client draw "$renderd" 15 $tile "$1" | awk '{ printf "%.1f\n", $1 / $2 }'; }
again() {
    for _ in 1 2 3 4 5; do
        control 'expire 0' >/dev/null
        drawn "$1"
    done | sort -n | sed -n 3p
}
# What so many who look wait, at a clean tile that lies elsewhere, while all of them are drawn again and again.
beside() {
    client done "$renderd" 1 1 14 0 0 >/dev/null
    "$folder/client" view "$tiles" $((20 / part)) "$1" 14 0 0 >"$folder/viewed" &
    viewer=$!
    while kill -0 "$viewer" 2>/dev/null; do
        control 'expire 0' >/dev/null
        drawn 3 >/dev/null
    done
    wait "$viewer"
    cat "$folder/viewed"
}
# Metatiles that are drawn in a second in ten rounds together, and in the slowest and the quickest of them.
rounds() {
    for _ in 1 2 3 4 5 6 7 8 9 10; do
        control 'expire 0' >/dev/null
        client draw "$renderd" 15 $tile 3
    done | awk '{ n += $1; s += $2; r = $1 / $2; if (NR == 1 || r < low) low = r; if (r > high) high = r }
        END { printf "%.0f (%.0f to %.0f)", n / s, low, high }'
}
# Starts nginx at $pages with a file of the tile's own bytes, which it sends by sendfile, each over a connection of its own.
beside_nginx() {
    port="$(python3 -c 'import socket; s = socket.socket(); s.bind(("127.0.0.1", 0)); print(s.getsockname()[1])')"
    pages="tcp:127.0.0.1:$port"
    mkdir -p "$folder/pages/default/14/8192" "$folder/nginx"
    python3 - "${tiles#tcp:}" >"$folder/pages/default/14/8192/8192.ppm" <<'PYTHON'
import sys, urllib.request
sys.stdout.buffer.write(urllib.request.urlopen("http://%s/default/14/8192/8192.ppm" % sys.argv[1]).read())
PYTHON
    cat >"$folder/nginx.conf" <<END
pid $folder/nginx/pid;
error_log $folder/nginx/log;
worker_processes 1;
daemon off;
events { worker_connections 1024; }
http {
    access_log off;
    sendfile on;
    keepalive_timeout 0;
    open_file_cache max=16;
    client_body_temp_path $folder/nginx/body; proxy_temp_path $folder/nginx/proxy; fastcgi_temp_path $folder/nginx/fastcgi;
    uwsgi_temp_path $folder/nginx/uwsgi; scgi_temp_path $folder/nginx/scgi;
    server { listen 127.0.0.1:$port; root $folder/pages; }
}
END
    chmod 755 "$folder"
    nginx -p "$folder" -c "$folder/nginx.conf" 2>/dev/null &
    nginx=$!
    for _ in $(seq 100); do (exec 3<>"/dev/tcp/127.0.0.1/$port") 2>/dev/null && break; sleep 0.1; done
}
if [ -n "$only" ]; then
    part=2
    echo "tiles below $only, $(df --output=fstype "$only" | tail -n 1)"
    for workers in ${WORKERS:-1 2 4}; do
        rm -rf "$folder/tiles"
        start "$workers" 10000 256
        drawn 3 >/dev/null
        row "metatiles over 10000 features drawn again, ten rounds, $workers workers" "$(rounds)" "a second"
        for viewers in 1 4; do
            row "a clean tile beside that, every 2 ms, $viewers viewers: middle, 99 of 100, longest" "$(beside $viewers)" "ms"
        done
        stop
    done
    if [ -n "${PEER:-}" ]; then
        for viewers in 1 4; do
            row "a page of $PEER, $viewers viewers" "$(client view "${PEER% *}" 10 $viewers $tile "${PEER#* }")" "ms"
        done
    fi
    exit
fi
if [ -n "$preloaded" ]; then
    for pixels in 32 256; do
        for features in 200 10000; do
            for workers in ${WORKERS:-1 2 4}; do
                start "$workers" "$features" "$pixels"
                drawn 3 >/dev/null
                row "metatiles over $features features, tiles of $pixels pixels, not written, ten rounds, $workers workers" "$(rounds)" "a second"
                stop
            done
        done
    done
    exit
fi

start 4 10000 256
client done "$renderd" 1 1 $tile >/dev/null
if [ -n "$rates" ]; then
    PATH="$PATH:/usr/sbin" # where Debian has servers, which the path of others than root lacks
    if command -v nginx >/dev/null; then beside_nginx; else echo "serve.sh: no nginx, so the farm has no peer" >&2; fi
    for round in 1 2 3; do
        for threads in 1 4 16; do
            for server in "$tiles farm" ${nginx:+"$pages nginx"}; do
                echo "$threads ${server#* } $(client tiles "${server% *}" $((16000 / part)) "$threads" $tile | rate)"
            done
        done
    done | awk '{ if (!(($1, $2) in most) || $3 > most[$1, $2]) most[$1, $2] = $3 }
        END { for (n = 1; n <= 16; n *= 4) if ((n, "nginx") in most)
                printf "%2d clients: the farm %d, nginx %d a second, %.2f\n", n, most[n, "farm"], most[n, "nginx"], most[n, "farm"] / most[n, "nginx"]
            else printf "%2d clients: the farm %d a second\n", n, most[n, "farm"] }'
    stop
    echo "load $(cut -d' ' -f1 /proc/loadavg)"
    exit
fi
before="$(memory)"
told() { client done "$renderd" "$1" "$2" $tile | rate; }
row "clean metatiles answered Done, 256 at a time" "$(told $((400000 / part)) 256)" "a second"
row "clean metatiles answered Done, one at a time" "$(told $((50000 / part)) 1)" "a second"
for threads in 1 4 16; do
    row "clean 256-pixel tiles over HTTP, a connection each, $threads clients" \
        "$(client tiles "$tiles" $((16000 / part)) "$threads" $tile | rate)" "a second"
done
waits() { client wait "$renderd" $((20000 / part)) $tile; }
row "one ask for a clean metatile: least, middle, 99 of 100, longest" "$(waits)" "microseconds"
"$folder/client" idle "$renderd" 1000 >"$folder/idle" &
idle=$!
for _ in $(seq 100); do [ -s "$folder/idle" ] && break; sleep 0.1; done
row "the same beside 1,000 idle connections" "$(waits)" "microseconds"
row "Done beside them, 256 at a time" "$(told $((200000 / part)) 256)" "a second"
row "memory with them" "$(memory)" "KiB"
kill "$idle"
wait "$idle" 2>/dev/null || true
idle=
after="$(memory)"
row "memory before all these asks, and after" "$before $after" "KiB"
told $((1000000 / part)) 256 >/dev/null
row "memory after $((1000000 / part)) asks more" "$(memory)" "KiB"
row "asks in all" "$(control stats | cut -d' ' -f2)" ""
stop

for pixels in 256 32; do
    for features in 200 10000; do
        for workers in 1 2 4; do
            rm -rf "$folder/tiles"
            start "$workers" "$features" "$pixels"
            row "metatiles over $features features, zooms 11 to 14, tiles of $pixels pixels, $workers workers" "$(drawn 3)" "a second"
            row "the same drawn again" "$(again 3)" "a second"
            row "of zoom 14 alone, drawn again" "$(again 0)" "a second"
            row "a clean tile over HTTP beside that, every 2 ms: middle, 99 of 100, longest" "$(beside 1)" "ms"
            row "memory at the end" "$(memory)" "KiB"
            stop
        done
    done
done
