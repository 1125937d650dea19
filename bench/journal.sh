#!/bin/sh
# Plays scripts of so many lines, audits the journals that this gives, and prints for each step its lines per second and its
# most memory, beside sha256sum over the same journal.
# Usage: bench/journal.sh [ENTRIES ..]; without numbers 1000, 100000 and 1048576, which is a full journal.
# The program is out/fc, which ./fc builds, or $FC.
set -eu
here=$(CDPATH='' cd -- "$(dirname -- "$0")" && pwd -P)
fc=${FC:-$here/../out/fc}
[ -x /usr/bin/time ] || { echo "journal.sh: GNU time is not at /usr/bin/time" >&2; exit 1; }
[ -x "$fc" ] || { echo "journal.sh: $fc is not there; ./fc --version builds it" >&2; exit 1; }
site=$here/station.toml
work=$(mktemp -d)
trap 'rm -rf "$work"' EXIT
[ $# -gt 0 ] || set -- 1000 100000 1048576

# measure NAME LINES COMMAND ..: runs it and prints a row; what it prints goes to $work/out.
measure() {
    name=$1 lines=$2
    shift 2
    /usr/bin/time -o "$work/time" -f '%e %U %S %M' "$@" >"$work/out" </dev/null || { echo "journal.sh: $name failed" >&2; exit 1; }
    awk -v name="$name" -v lines="$lines" '{
        cpu = $2 + $3
        printf "%-22s%10d%10.2f%10.2f%14s%12.1f\n", name, lines, $1, cpu, (cpu > 0 ? int(lines / cpu) : "-"), $4 / 1024
    }' "$work/time"
}

printf '%-22s%10s%10s%10s%14s%12s\n' step lines seconds cpu lines/cpu-s peak-MB
for entries in "$@"; do
    awk -v lines="$entries" -f "$here/script.awk" >"$work/script"
    measure "play" "$entries" "$fc" play "$site" "$work/script"
    tail -n 1 "$work/out" | grep -q "^$entries " || { echo "journal.sh: the last answer is not of entry $entries" >&2; exit 1; }
    echo journal >>"$work/script"
    measure "play and its journal" "$((2 * entries))" "$fc" play "$site" "$work/script"
    tail -n "+$((entries + 1))" "$work/out" >"$work/journal"
    measure "sha256sum" "$entries" sha256sum "$work/journal"
    measure "audit" "$entries" "$fc" audit "$site" "$work/journal"
    [ "$(cat "$work/out")" = "legal $entries" ] || { echo "journal.sh: the audit says $(head -n 1 "$work/out")" >&2; exit 1; }
    echo "journal of $(wc -c <"$work/journal") bytes"
done
