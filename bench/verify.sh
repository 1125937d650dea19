#!/bin/sh
# Verifies programs of 512 units of each kind, one after another, and prints for each kind the processor's time that one
# takes and the memory that a kept one takes; then how long many of them take at once, by 1, 2 and 4 threads.
# Usage: bench/verify.sh [PROGRAMS]; without a number 20000. Of five runs the least time counts.
# The driver (verify_driver.txt) is built in a folder of its own beside copies of the crates, which are proved there
# first: that takes as long as the first call of ./fc.
set -eu
here=$(CDPATH='' cd -- "$(dirname -- "$0")" && pwd -P)
[ -x /usr/bin/time ] || { echo "verify.sh: GNU time is not at /usr/bin/time" >&2; exit 1; }
command -v rt >/dev/null || { echo "verify.sh: the command rt (Rattle's kit) is not on PATH" >&2; exit 1; }
work=$(mktemp -d)
trap 'rm -rf "$work"' EXIT
programs=${1:-20000}

# shellcheck source=bench/driver.sh
. "$here/driver.sh"
driver_workspace "bpf_model verifier interp \
fuelling_point till_request decision_journal line_session site_core site_lock" \
    'drive may_wait=4: site_lock verifier hex' verify_driver.txt
(cd "$work/crates/drive" && rt run -- time 1 /dev/null </dev/null >"$work/log" 2>&1) ||
    { tail -n 20 "$work/log" >&2; exit 1; }
drive=$work/crates/drive/out/drive

# program KIND: its 512 units in hexadecimal.
program() {
    awk -v kind="$1" 'BEGIN {
        move = "b700000001000000"
        units = 511
        text = move
        said = 1
        if (kind == "mixed")
            for (; said + 4 <= units; said += 4)
                text = text "7b0af8ff00000000" "79a0f8ff00000000" "0700000003000000" "57000000ff000000"
        diamonds = kind == "64 diamonds" ? 64 : (kind == "254 diamonds" ? 254 : 0)
        for (; diamonds > 0; diamonds--) {
            text = text "1500010000000000" move
            said += 2
        }
        for (; said < units; said++)
            text = text move
        print text "9500000000000000"
    }'
}

# measured FORMAT WORDS..: the least of five runs of the driver, each of which accepts all programs.
measured() {
    format=$1
    shift
    for _ in 1 2 3 4 5; do
        /usr/bin/time -a -o "$work/times" -f "$format" "$drive" "$@" >"$work/out" </dev/null
        [ "$(cat "$work/out")" = "$2" ] ||
            { echo "verify.sh: not every program is accepted" >&2; exit 1; }
    done
    sort -n "$work/times" | head -n 1
    rm "$work/times"
}

printf '%-24s%20s%20s\n' program microseconds 'kept KB'
for kind in straight mixed "64 diamonds" "254 diamonds"; do
    program "$kind" >"$work/program"
    time=$(measured %U time "$programs" "$work/program")
    few=$(measured %M keep 1000 "$work/program")
    many=$(measured %M keep 3000 "$work/program")
    awk -v kind="$kind" -v time="$time" -v few="$few" -v many="$many" -v count="$programs" 'BEGIN {
        printf "%-24s%20.1f%20.1f\n", kind, 1e6 * time / count, (many - few) / 2000
    }'
done
program straight >"$work/program"
printf '\n%-24s%20s\n' threads 'programs a second'
for workers in 1 2 4; do
    time=$(measured %e all "$programs" "$workers" "$work/program")
    awk -v workers="$workers" -v time="$time" -v count="$programs" 'BEGIN {
        printf "%-24s%20.0f\n", workers, count / time
    }'
done
