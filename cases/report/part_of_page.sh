#!/bin/sh
# Prints a part of the page that `fc report` makes of a script's day: the lines behind the one that has MARK, up to the
# end of its table, list, picture or band, as their words alone; of a path in a band its class and what is drawn. If
# there is a script FIRST, the day begins with what the day of that script left.
# usage: part_of_page.sh SCRIPT MARK [FIRST]
site=../audit/two_points.toml
# A day of a script, which begins with the opening in the file $2, if there is one: its journal.
day() { fc play ${2:+--opening "$2"} "$site" "$1" | grep ' = '; }

opening=''
if [ -n "${3-}" ]; then
    opening=$(mktemp)
    trap 'rm -f "$opening"' EXIT
    day "$3" | fc carry "$site" - >"$opening"
fi
day "$1" "$opening" | fc report ${opening:+--opening "$opening"} "$site" - |
    sed -n "\\|$2|,\\=</table>\\|<ul\\|</ul>\\|</svg>\\|</g>=p" | tail -n +2 |
    sed -e 's/<path class="band \([^"]*\)" d="\([^"]*\)".*/\1: \2/' -e 's/<[^>]*>/ /g' -e 's/  */ /g' \
        -e 's/^ //' -e 's/ $//' -e '/^$/d'
