#!/bin/sh
# Lines per second and the time that an answer takes, of a site served over loopback: a preset, which runs a program, a
# `show`, and looks, on 1 and on 8 connections, each of which sends a line and waits for its answer; `show` on 8
# connections beside presets on 8, by a short rule and by a long one, and looks beside presets. Takes some two minutes.
#
#     bench/serve.sh [LINES [--journal]]      LINES of each connection, 20000 where it isn't said; --journal: kept in a file
#
# With --sync in its place: presets on 1 and on 8 connections, where the journal is synced, once by a program that syncs
# the file after each line while it writes, and once by `--journal --sync`, whose syncs are for all that wait. The disk
# may be made to take so many microseconds longer for each sync; give few LINES then.
#
#     bench/serve.sh LINES --sync [MICROSECONDS]
#
# With --null: presets and `show` on 8 and on 64 connections, in turns beside a server that answers without a site
# (bench/null_server.c) and one that serves a site in C (bench/site_server.c), 8 times LINES in all each, as a table in
# Markdown of the medians of TURNS turns, 7 where it isn't said, and the ratios to the server without a site. With BYTES
# the server without a site takes a lock twice for each line and appends so many bytes to a list; it may hold the lock
# for FIRST and SECOND nanoseconds more, and write the memory of READY such pieces before it serves.
#
#     bench/serve.sh LINES --null [TURNS [BYTES [FIRST SECOND [READY]]]]
#
# With --looks: presets on 8 connections at a site without a page, at one with a page at which nobody looks, and at one
# at which somebody looks 8 times a second (bench/looks.py), in turns, as a table in Markdown of the medians of TURNS
# turns, 7 where it isn't said. Lines on standard error say how long the looks of each turn took.
#
#     bench/serve.sh LINES --looks [TURNS]
#
# With --days: how long tills wait where one day follows another while they ask (bench/days.py). LINES is how many days
# of each kind end, and 5 is enough.
#
#     bench/serve.sh ENDS --days
#
# The program is out/fc, which ./fc builds, or $FC.
set -eu
here=$(CDPATH='' cd -- "$(dirname -- "$0")" && pwd -P)
fc=${FC:-$here/../out/fc}
[ -x "$fc" ] || { echo "bench: build the program first: ./fc --version" >&2; exit 1; }
work=$(mktemp -d)
trap 'kill "$served" 2>/dev/null || true; rm -rf "$work"' EXIT
served=
kept=${2:-}
synced=''
preload=''
each=''
null=''
bytes=''
page=''
looks=''
cc -O2 -pthread -o "$work/driver" "$here/serve.c"

# Starts a site on ports that are free, with so many workers for tills; each serves one connection.
start() {
    port=$((20000 + $$ % 20000))
    for _ in 1 2 3 4 5 6 7 8 9 10; do
        port=$((port + 17))
        cat >"$work/site.toml" <<END
tills = 1
price_slot = 2
prices = [1799, 1849, 0, 0, 0, 0, 0, 0]
point = [{release = 0, preset = 1}]
[serve]
till_port = $port
dispenser_port = $((port + 1))
owner_port = $((port + 2))
till_workers = $1
dispenser_workers = 1
connections = 1
${page:+page_port = $((port + 3))}
END
        : >"$work/said"
        rm -f "$work/day.journal"
        if [ "$null" = site_server ]; then
            "$work/site_server" "$port" "$1" </dev/null 2>"$work/said" &
        elif [ -n "$null" ]; then
            # shellcheck disable=SC2086 # BYTES and what stands behind it are words of their own
            "$work/null_server" "$port" "$1" $bytes </dev/null 2>"$work/said" &
        else
            # shellcheck disable=SC2086 # no word where no journal is kept, or none is synced
            env ${preload:+LD_PRELOAD=$preload} ${each:+SYNC_EACH_WRITE=1} \
                "$fc" serve ${kept:+--journal "$work/day.journal"} $synced "$work/site.toml" </dev/null \
                >"$work/journal" 2>"$work/said" &
        fi
        served=$!
        for _ in 1 2 3 4 5 6 7 8 9 10 11 12 13 14 15 16 17 18 19 20; do
            grep -q serving "$work/said" && return
            kill -0 "$served" 2>/dev/null || break
            sleep 0.1
        done
        kill "$served" 2>/dev/null || true
    done
    echo "bench: no free ports" >&2
    exit 1
}

two=79101800000000009500000000000000
# 500 instructions: r0 = 5000, 498 times r0 += 0, exit
long=b700000088130000$(awk 'BEGIN { for (i = 0; i < 498; i++) printf "0700000000000000" }')9500000000000000
lines=${1:-20000}

# Serves so many tills, and drives them by the driver's words.
measure() {
    start "$1"
    shift
    [ -z "$looks" ] || "$here/looks.py" $((port + 3)) "$looks" >&2 &
    timeout 60 "$work/driver" "$port" "$lines" "$@"
    wait "$served"
    served=
    wait
}

if [ "$kept" = --days ]; then
    "$here/days.py" "$fc" "$lines"
    exit
fi

if [ "$kept" = --sync ]; then
    cc -O2 -shared -fPIC -o "$work/slow_disk.so" "$here/slow_disk.c" -ldl
    preload=$work/slow_disk.so
    export SYNC_MICROSECONDS="${3:-0}"
    for connections in 1 8; do
        echo 'a sync for each line'
        each=1
        measure "$connections" "$two" "$connections" 'till 1 preset 1 5000'
        each=''
        echo 'one sync for all that wait'
        synced=--sync
        measure "$connections" "$two" "$connections" 'till 1 preset 1 5000'
        synced=''
    done
    exit
fi

# What the driver said in turns, as the medians of lines a second, p50, p99 and p99.9.
medians() {
    awk '{ print $(NF - 10), $(NF - 7), $(NF - 4), $(NF - 1) }' "$1" | awk '
        function median(column,    i, j, kept) {
            for (i = 2; i <= NR; i++)
                for (j = i; j > 1 && said[j, column] < said[j - 1, column]; j--) {
                    kept = said[j, column]
                    said[j, column] = said[j - 1, column]
                    said[j - 1, column] = kept
                }
            return said[int((NR + 1) / 2), column]
        }
        { for (i = 1; i <= 4; i++) said[NR, i] = $i + 0 }
        END { print median(1), median(2), median(3), median(4) }'
}

if [ "$kept" = --looks ]; then
    kept='' turns=${3:-7} turn=0
    while [ "$turn" -lt "$turns" ]; do
        measure 8 "$two" 8 'till 1 preset 1 5000' >>"$work/0.turns"
        page=1
        measure 8 "$two" 8 'till 1 preset 1 5000' >>"$work/1.turns"
        looks=8
        measure 8 "$two" 8 'till 1 preset 1 5000' >>"$work/2.turns"
        page='' looks=''
        turn=$((turn + 1))
    done
    echo '| site | lines a second | p50, us | p99, us | p99.9, us |'
    echo '|---|---|---|---|---|'
    for site in 'without a page' 'with a page' 'with 8 looks a second'; do
        case $site in
            without*) file=0 ;;
            *looks*) file=2 ;;
            *) file=1 ;;
        esac
        medians "$work/$file.turns" |
            awk -v site="$site" '{ printf "| %s | %.0f | %.1f | %.1f | %.1f |\n", site, $1, $2, $3, $4 }'
    done
    exit
fi

if [ "$kept" = --null ]; then
    cc -O2 -pthread -o "$work/null_server" "$here/null_server.c"
    cc -O2 -pthread -o "$work/site_server" "$here/site_server.c"
    kept='' all=$((8 * lines)) turns=${3:-7} bytes="${4:-} ${5:-} ${6:-} ${7:-}"
    echo '| line | connections | server | lines a second | p50, us | p99, us | p99.9, us |'
    echo '|---|---|---|---|---|---|---|'
    for connections in 8 64; do
        lines=$((all / connections))
        for line in 'till 1 preset 1 5000' 'till 1 show 1'; do
            turn=0
            rm -f "$work"/*.turns
            while [ "$turn" -lt "$turns" ]; do
                for null in '' site_server null_server; do
                    measure "$connections" "$two" "$connections" "$line" >>"$work/${null:-fc}.turns"
                done
                turn=$((turn + 1))
            done
            echo "$line $connections $(medians "$work/fc.turns") $(medians "$work/site_server.turns")" \
                "$(medians "$work/null_server.turns")" | awk '{
                split($0, w, " ")
                n = NF - 12
                head = "| " w[3] " | " w[n] " |"
                format = "%s %s | %.0f | %.1f | %.1f | %.1f |\n"
                printf format, head, "fc", w[n + 1], w[n + 2], w[n + 3], w[n + 4]
                printf format, head, "a site in C", w[n + 5], w[n + 6], w[n + 7], w[n + 8]
                printf format, head, "no site", w[n + 9], w[n + 10], w[n + 11], w[n + 12]
                format = "%s %s | %.2f | %.2f | %.2f | %.2f |\n"
                printf format, head, "fc, of no site", w[n + 1] / w[n + 9], w[n + 2] / w[n + 10], w[n + 3] / w[n + 11],
                    w[n + 4] / w[n + 12]
                printf format, head, "a site in C, of no site", w[n + 5] / w[n + 9], w[n + 6] / w[n + 10],
                    w[n + 7] / w[n + 11], w[n + 8] / w[n + 12]
            }'
        done
    done
    exit
fi
for line in 'till 1 preset 1 5000' 'till 1 show 1' 'look point 1' 'look unpaid'; do
    for connections in 1 8; do
        measure "$connections" "$two" "$connections" "$line"
    done
done
echo 'a show beside presets by a rule of 2 instructions, and by one of 500'
measure 16 "$two" 8 'till 1 preset 1 5000' 8 'till 1 show 1'
measure 16 "$long" 8 'till 1 preset 1 5000' 8 'till 1 show 1'
echo 'presets beside looks'
measure 16 "$two" 8 'till 1 preset 1 5000' 8 'look point 1'
measure 16 "$two" 8 'till 1 preset 1 5000' 8 'look unpaid'
