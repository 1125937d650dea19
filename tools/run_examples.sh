#!/bin/sh
# Runs the examples of the documents. In each block marked `console`, a line that begins with `$ ` is a command, and the
# lines below it are what it must print on standard output. If the command ends with <<'END', the lines up to END are
# its input. The commands of one document run in one new folder, with `fc`, `examples` and `tools` in it. A block marked
# `console clang` needs the command clang, and likewise for other names. If the machine doesn't have the command, the
# block is skipped, which is printed. Prints each example that differs, and then 'N passed, M failed'.
# The exit status is 0 only if nothing failed.
# usage: tools/run_examples.sh PROGRAM DOCUMENT..
set -u
program=$(readlink -f -- "$1") || exit 1
shift
here=$(CDPATH='' cd -- "$(dirname -- "$0")/.." && pwd -P) || exit 1
work=$(mktemp -d) || exit 1
TMPDIR=$work FC=$program
export TMPDIR FC
trap 'rm -rf "$work"' EXIT
passed=0 failed=0
for document in "$@"; do
    folder=$work/$(basename "$document" .md)
    mkdir -p "$folder/run" "$folder/parts"
    cat >"$folder/run/fc" <<FC
#!/bin/sh
if [ "\${1-}" = --unproved ]; then exec "$here/fc" "\$@"; fi
exec "$program" "\$@"
FC
    chmod +x "$folder/run/fc"
    ln -s "$here/examples" "$here/tools" "$folder/run/"
    awk -v parts="$folder/parts" -v document="$document" '
        /^```console( |$)/ {
            inside = 1
            for (i = 2; i <= NF; i++)
                if (system("command -v " $i " >/dev/null")) {
                    print document ":" NR ": a block is skipped: there is no " $i " here"
                    inside = 0
                    break
                }
            next
        }
        /^```/ { inside = 0; text = 0; next }
        !inside { next }
        text { print > command; if ($0 == "END") text = 0; next }
        /^\$ / {
            count++
            command = sprintf("%s/%03d.command", parts, count)
            wanted = sprintf("%s/%03d.wanted", parts, count)
            printf "" > wanted
            print substr($0, 3) > command
            text = /<<.END.$/
            next
        }
        { print > wanted }
    ' "$document"
    for command in "$folder"/parts/*.command; do
        [ -f "$command" ] || continue
        part=${command%.command}
        (cd "$folder/run" && timeout 900 sh "$command") >"$part.printed" 2>"$part.errors" </dev/null
        if cmp -s "$part.printed" "$part.wanted"; then
            passed=$((passed + 1))
        else
            failed=$((failed + 1))
            echo "$document: $(head -n 1 "$command")"
            diff "$part.printed" "$part.wanted" | head -n 20
            head -n 5 "$part.errors"
        fi
    done
done
echo "$passed passed, $failed failed"
[ "$failed" = 0 ]
