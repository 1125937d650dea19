#!/bin/sh
# Brings a copy of a folder of days up to date: of each journal only what was appended is read. What is copied at any moment
# are days that follow one another, so that `fc audit --days` takes the copy, and `fc serve --days` goes on from it.
# usage: copy-days.sh FROM TO    FROM: a folder of this machine, or HOST:FOLDER, which is read by ssh
#
# The status is 0 if all is copied; else nothing of what the copy had is lost, and the next call goes on.
set -eu
[ $# -eq 2 ] || { sed -n '4p' "$0" >&2; exit 2; }
from=$1 to=$2
# This much of a journal's end is compared before it is appended to. The first machine can have lost unsynced lines.
overlap=1048576

at_from() {
    case $from in
    *:*) ssh -o BatchMode=yes "${from%%:*}" "cd '${from#*:}' && $1" ;;
    *) (cd "$from" && sh -c "$1") ;;
    esac
}

size_of() { wc -c <"$1" | tr -d ' '; }

# Copies a whole file, by another name.
whole() {
    at_from "cat $1" >"$to/$1.new"
    mv "$to/$1.new" "$to/$1"
}

# Copies the configuration of the day whose journal this is.
configuration() {
    own=${1%.journal}.toml
    ! printf '%s\n' "$names" | grep -qx "$own" || whole "$own"
}

# Appends what a journal has behind the copy's whole lines. A day that has no line yet can take another configuration, so
# that is read behind the first lines, and is there before them.
append() {
    : >>"$to/$1"
    have=$(size_of "$to/$1")
    start=$((have > overlap ? have - overlap : 0))
    tail -c +$((start + 1)) "$to/$1" >"$to/.had.new"
    at_from "tail -c +$((start + 1)) $1" >"$to/.comes.new"
    if head -c "$(size_of "$to/.had.new")" "$to/.comes.new" | cmp -s - "$to/.had.new"; then
        [ "$have" -gt 0 ] || configuration "$1"
        tail -c +$((have - start + 1)) "$to/.comes.new" >"$to/.more.new"
        cat "$to/.more.new" >>"$to/$1"
    else
        at_from "cat $1" >"$to/.whole.new"
        configuration "$1"
        mv "$to/.whole.new" "$to/$1"
    fi
    # A line of which a part was copied is read again.
    have=$(size_of "$to/$1")
    cut=$(tail -c 16384 "$to/$1" | tr '\n' '\001' | sed 's/.*\x01//' | wc -c | tr -d ' ')
    [ "$cut" -eq 0 ] || truncate -s $((have - cut)) "$to/$1"
}

mkdir -p "$to"
# Openings first: a day's journal is whole once the next opening is there.
listing=$(at_from ls)
names=$(printf '%s\n' "$listing" | grep -E '^[0-9]{6,}\.(journal|opening|toml)$' | sort -n) || names=
for name in $names; do
    case $name in
    *.opening | *.toml) [ -e "$to/$name" ] || whole "$name" ;;
    esac
done
first=1
for name in $names; do
    case $name in
    *.journal) ;;
    *) continue ;;
    esac
    day=${name%.journal}
    # A later day that began meanwhile is for the next call.
    if [ "$first" -eq 1 ] || [ -e "$to/$day.opening" ]; then append "$name"; fi
    first=0
done
rm -f "$to"/.had.new "$to"/.comes.new "$to"/.more.new "$to"/.whole.new
