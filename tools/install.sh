#!/bin/sh
# Installs the proved program below PREFIX, with its systemd units, its manual page and its completions for bash:
#   bin/fc  lib/systemd/system/fc.service  lib/systemd/system/fc-new-day.service  lib/systemd/system/fc-new-day.timer
#   share/man/man1/fc.1  share/bash-completion/completions/fc
# and share/fc, which has README, tools/rule.sh and examples/ (with forecourt.h, ask.py and the rules), as a checkout.
# With --uninstall it removes exactly these files, and of share/fc the folders that are empty then; other folders stay.
# If DESTDIR is set, all are below DESTDIR, but the units name the program by its path below PREFIX. An older file of fc
# in one of these places is replaced. If something else is there (also a link), that is printed, and nothing is changed.
# usage: tools/install.sh [--uninstall] PREFIX
# Status: 0 done, 1 it can't be done, 2 the arguments are wrong.
set -u
umask 022
here=$(CDPATH='' cd -P -- "$(dirname -- "$0")/.." && pwd) || exit 1
program=$here/out/fc
system=$here/examples/system
units='lib/systemd/system/fc.service lib/systemd/system/fc-new-day.service lib/systemd/system/fc-new-day.timer'
mark=share/fc/README
places="bin/fc $units share/man/man1/fc.1 share/bash-completion/completions/fc $mark"
# These words are in each of these files, and in the program as a part of its help. A file without them isn't ours.
ours="a petrol station's site"
# The other files of share/fc are as in this checkout. They are ours where README is, or if they are the same.
shared=$(
    cd "$here" || exit
    for file in tools/rule.sh tools/in_order.awk examples/*/*.*; do [ ! -f "$file" ] || echo "share/fc/$file"; done
)
places="$places $shared"

say() { printf 'install.sh: %s\n' "$*" >&2; }
stop() {
    say "$*"
    exit 1
}
usage() {
    [ $# = 0 ] || say "$*"
    echo 'usage: tools/install.sh [--uninstall] PREFIX' >&2
    exit 2
}

has_words() { [ -f "$1" ] && [ ! -L "$1" ] && LC_ALL=C grep -q "$ours" "$1"; }

# Whether the file at the place $1 is one of ours.
is_ours() {
    case $1 in
        "$mark") has_words "$root/$1" ;;
        share/fc/*)
            [ -f "$root/$1" ] && [ ! -L "$root/$1" ] || return 1
            has_words "$root/$mark" || text_of "$1" | cmp -s - "$root/$1"
            ;;
        *) has_words "$root/$1" ;;
    esac
}

is_there() { [ -e "$1" ] || [ -L "$1" ]; }

look_at_places() {
    for place in $places; do
        file=$root/$place
        is_there "$file" || continue
        is_ours "$place" || stop "$file is there, and is none of fc's files: nothing is changed"
    done
}

look_at_program() {
    [ -x "$program" ] || stop "there is no proved program in $program: ./fc --version proves and builds it"
    has_words "$program" || stop "$program is none of fc's programs: ./fc --version proves and builds it"
    set -- "$here/crates.txt" "$here"/crates/*/src "$here"/crates/*/specs
    [ -z "$(find "$@" -newer "$program.mark" -print 2>/dev/null)" ] ||
        say "the sources are newer than $program, which is installed as it is"
}

make_folders() {
    for place in $places; do
        folder=$root/${place%/*}
        mkdir -p -- "$folder" 2>/dev/null
        [ -d "$folder" ] || stop "the folder $folder can't be made: nothing is installed"
        [ -w "$folder" ] || stop "the folder $folder can't be written: nothing is installed"
    done
}

# Prints the content of the file that is installed at the place $1.
text_of() {
    case $1 in
        bin/fc) cat "$program" ;;
        */completions/fc) cat "$system/fc.bash" ;;
        "$mark")
            echo "This folder is of fc, which keeps a petrol station's site. Its next installation replaces the files."
            echo 'tools/rule.sh compiles a rule in C, and examples/clients/ask.py sends lines to a site that is served.'
            ;;
        share/fc/*) cat "$here/${1#share/fc/}" ;;
        *) sed "s|/usr/bin/fc |$prefix/bin/fc |" "$system/${1##*/}" ;;
    esac
}

# A file of share/fc can be run if it can be in the checkout.
mode_of() {
    case $1 in
        bin/*) echo 755 ;;
        *) if [ -x "$here/${1#share/fc/}" ]; then echo 755; else echo 644; fi ;;
    esac
}

# Says that the place $1 is done, with the words before it. Of share/fc README alone is named.
tell() {
    case $2 in
        "$mark") echo "$1 $root/share/fc" ;;
        share/fc/*) ;;
        *) echo "$1 $root/$2" ;;
    esac
}

take_new_away() {
    for place in $places; do rm -f -- "$root/$place.new$$"; done
}

# Writes all files beside their places first, and then renames them. A program that is running goes on as it was.
put_in_place() {
    trap take_new_away EXIT
    trap 'exit 1' HUP INT TERM
    for place in $places; do
        new=$root/$place.new$$
        { text_of "$place" >"$new" && chmod "$(mode_of "$place")" "$new"; } 2>/dev/null ||
            stop "$root/$place can't be written: nothing is installed"
    done
    for place in $places; do
        mv -f -- "$root/$place.new$$" "$root/$place" || stop "$root/$place can't be replaced: it stays as it was"
        tell installed "$place"
    done
}

# README goes last: until then what is left is known as ours.
take_away() {
    set --
    for place in $places; do
        file=$root/$place
        is_there "$file" || continue
        [ -w "${file%/*}" ] || stop "the folder ${file%/*} can't be written: nothing is taken away"
        [ "$place" = "$mark" ] || set -- "$@" "$place"
    done
    ! is_there "$root/$mark" || set -- "$@" "$mark"
    [ $# != 0 ] || say "nothing of fc is below $root/"
    for place in "$@"; do
        rm -f -- "$root/$place" 2>/dev/null || stop "$root/$place can't be taken away"
        tell 'taken away' "$place"
    done
    rmdir "$root"/share/fc/examples/* "$root"/share/fc/* "$root/share/fc" 2>/dev/null
    return 0
}

job=install
case ${1-} in
    --uninstall)
        job=uninstall
        shift
        ;;
    -h | --help)
        sed -n '2,/^set/s/^# //p' "$0"
        exit 0
        ;;
    -*) usage "there is no option $1" ;;
esac
[ $# -le 1 ] || usage "one PREFIX is wanted, and here are $#"
[ -n "${1-}" ] || usage "a PREFIX is wanted, as /usr/local"
case $1 in
    -*) usage "there is no option $1" ;;
    /*) ;;
    *) usage "PREFIX begins with /, and $1 doesn't" ;;
esac
# A PREFIX can't have these characters. In a unit systemd gives them a meaning of their own, and so does sed to & and |.
case $1 in
    *[[:space:][:cntrl:]\"\'\\%\$\;\&\|]*)
        stop "a unit can't name a program below $1: a PREFIX has no blanks, and none of \" ' \\ % \$ ; & |"
        ;;
esac
prefix=$1
while [ "$prefix" != "${prefix%/}" ]; do prefix=${prefix%/}; done
root=${DESTDIR-}$prefix
[ $job = uninstall ] || look_at_program
look_at_places
if [ $job = install ]; then
    make_folders
    put_in_place
else
    take_away
fi
