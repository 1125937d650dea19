#!/bin/sh
# Plays what docs/use/cookbook.md sends to one of its rules, with the rule in C in its place, and says whether the
# answers are those of the document.
# usage: cookbook.sh RULE    in this folder, with fc on the path and a folder ROOM to write to
set -u
cd ../.. || exit 1
awk -v rule="$1" -v room="$ROOM" '
    $1 == "$" && $2 == "sh" && $3 == "try" && $4 == "examples/rules/" rule ".bpf" {
        print ($7 == "load2" ? "load2" : "load"), $5, $6 > (room "/load")
        sending = 1
        next
    }
    sending && $0 == "END" { sending = 0; wanted = 1; next }
    sending { print > (room "/lines") }
    /^```$/ { wanted = 0 }
    wanted { print > (room "/wanted") }' docs/use/cookbook.md
echo "$(cat "$ROOM/load") $(tr -d '\n' <"examples/c/$1.hex")" | cat - "$ROOM/lines" |
    fc play examples/sites/cookbook.toml - | diff - "$ROOM/wanted" && echo 'the same'
