#!/bin/sh
# Plays and audits by fc and by the same in C (site.c, by gcc -O2), in turns, and prints tables in Markdown: processor
# time, nanoseconds a line, most memory, and their ratios, over scripts of all kinds of lines and of decisions alone; the
# same of audits by fc of these journals, and of the journals with another answer in the last grant, which are refused;
# and what a line costs in a play of 1,000,000 lines against one in a play of 10,000.
# Usage: bench/site.sh [LINES ..]; without numbers 100000 and 1048576, which is a full journal. TURNS is the number of
# turns, 7 where it isn't set. Answers, journals and what the audits say have to be the same.
# The program is out/fc, which ./fc builds, or $FC.
set -eu
here=$(CDPATH='' cd -- "$(dirname -- "$0")" && pwd -P)
fc=${FC:-$here/../out/fc}
station=$here/station.toml
[ -x "$fc" ] || { echo "site.sh: $fc is not there; ./fc --version builds it" >&2; exit 1; }
work=$(mktemp -d)
trap 'rm -rf "$work"' EXIT
turns=${TURNS:-7}
[ $# -gt 0 ] || set -- 100000 1048576
# A cleared stack by vectors, as in interp.sh.
gcc -O2 -mmemset-strategy=vector_loop:-1:align -o "$work/site" "$here/site.c"
gcc -O2 -o "$work/taken" "$here/taken.c"

# make_script KIND LINES: the script, and its journal, in which both agree.
make_script() {
    decisions=''
    [ "$1" = decisions ] && decisions=1
    awk -v lines="$2" -v decisions="$decisions" -f "$here/script.awk" >"$work/script"
    { cat "$work/script" && echo journal; } | "$fc" play "$station" - >"$work/ours"
    "$work/site" journal "$work/script" | cmp -s - "$work/ours" ||
        { echo "site.sh: other answers or another journal, of $2 lines of $1" >&2; exit 1; }
    tail -n "+$(($2 + 1))" "$work/ours" >"$work/journal"
    rm "$work/ours"
    for said in "$("$fc" audit "$station" "$work/journal")" "$("$work/site" audit "$work/journal")"; do
        [ "$said" = "legal $2" ] || { echo "site.sh: an audit says $said" >&2; exit 1; }
    done
    at=$(grep -n ' = granted ' "$work/journal" | tail -n 1 | cut -d: -f1)
    sed "${at}s/ = granted / = granted 1/" "$work/journal" >"$work/refused"
    said=$("$fc" audit "$station" "$work/refused" 2>/dev/null) || true
    [ "$said" = "F3 $at" ] || { echo "site.sh: the audit of another answer says $said" >&2; exit 1; }
}

# run NAME COMMAND ..: the microseconds and KB that one run takes, a line more in $work/NAME; and its status.
run() {
    name=$1
    shift
    "$work/taken" "$work/$name" "$@" >/dev/null 2>&1 </dev/null
}

# measure NAME COMMAND ..: the same of a run that has to succeed.
measure() {
    run "$@" || { echo "site.sh: $1 failed" >&2; exit 1; }
}

# the middle and the least of the microseconds, and the most KB
summary() {
    sort -n "$work/$1" | awk '{ taken[NR] = $1; if ($2 > most) most = $2 }
        END { print taken[int((NR + 1) / 2)], taken[1], most }'
}

# row STEP KIND LINES NAME NAME: a row of the table, of ours and of theirs
row() {
    echo "$(summary "$4") $(summary "$5")" | awk -v step="$1" -v kind="$2" -v lines="$3" '{
        printf "| %s | %s | %d | %.3f | %.3f | %.0f | %.0f | %.2f | %.2f | %.0f | %.0f |\n", step, kind, lines,
            $1 / 1e6, $4 / 1e6, 1e3 * $1 / lines, 1e3 * $4 / lines, $1 / $4, $2 / $5, $3 / 1024, $6 / 1024
    }'
}

echo '| step | script | lines | fc, s | C, s | fc, ns a line | C, ns a line | ratio | of the least | fc, MB | C, MB |'
echo '|---|---|---|---|---|---|---|---|---|---|---|'
for kind in all decisions; do
    for lines in "$@"; do
        make_script "$kind" "$lines"
        rm -f "$work"/*.play "$work"/*.audit
        turn=0
        while [ "$turn" -lt "$turns" ]; do
            measure ours.play "$fc" play "$station" "$work/script"
            measure theirs.play "$work/site" play "$work/script"
            measure ours.audit "$fc" audit "$station" "$work/journal"
            measure theirs.audit "$work/site" audit "$work/journal"
            run refused.audit "$fc" audit "$station" "$work/refused" && exit 1
            turn=$((turn + 1))
        done
        row play "$kind" "$lines" ours.play theirs.play
        row audit "$kind" "$lines" ours.audit theirs.audit
        row 'refused audit' "$kind" "$lines" refused.audit ours.audit >>"$work/refused.rows"
    done
done
echo
echo '| step | script | lines | refused, s | legal, s | ns a line | ns a line | ratio | of the least | refused, MB | legal, MB |'
echo '|---|---|---|---|---|---|---|---|---|---|---|'
cat "$work/refused.rows"

# Without the start of the program, which counts for much at 10,000 lines.
for lines in 0 10000 1000000; do
    awk -v lines="$lines" -f "$here/script.awk" >"$work/script.$lines"
done
turn=0
while [ "$turn" -lt "$turns" ]; do
    for lines in 0 10000 10000 10000 1000000; do
        measure "ours.$lines" "$fc" play "$station" "$work/script.$lines"
        measure "theirs.$lines" "$work/site" play "$work/script.$lines"
    done
    turn=$((turn + 1))
done
echo
echo '| play | ns a line of 10,000 | ns a line of 1,000,000 | ratio |'
echo '|---|---|---|---|'
for name in ours theirs; do
    echo "$(summary "$name.0") $(summary "$name.10000") $(summary "$name.1000000")" |
        awk -v name="$([ $name = ours ] && echo fc || echo C)" '{
            few = ($5 - $2) / 10
            many = ($8 - $2) / 1000
            printf "| %s | %.0f | %.0f | %.2f |\n", name, few, many, many / few
        }'
done
