#!/bin/sh
# Compiles a rule in C, or assembles one, and has it verified by fc. Prints its units as `fc asm` does, and a line on
# standard error: how many units there are, the mask of the counters that the rule uses, and the layout of its request.
# With -o the units go to FILE.hex, and the line to standard output. If the rule can't be loaded, the reason is printed
# with its line of C, and FILE.hex stays as it was.
# With --test each line of FILE.tests is a request that the rule is run on, and a line that it answers otherwise is named.
# usage: tools/rule.sh [-o FILE.hex | --test FILE.tests] FILE.c
#        or FILE.o, an object that was compiled before, or FILE.bpf
# LLVM is the end of the names of the compiler and its tools (LLVM=-19 for clang-19). FC is the fc that verifies;
# without it that is the one of this checkout, or of this installation.
# FILE.tests is CSV. Its first line names fields as `fc run` takes them, and a column `answer` (what the rule leaves in
# r0), or `granted` (the amount or the price that this grants, 0 for none). An empty cell gives its field nothing. A line
# that begins with # is passed over.
# Status: 0 done, 1 the rule is refused, or answers otherwise than a line of FILE.tests, 2 the arguments are wrong, 3 a
# tool or a file can't be used.
set -u
here=$(CDPATH='' cd -- "$(dirname -- "$(readlink -f -- "$0")")/.." && pwd -P) || exit 3
fc=$here/fc
[ -x "$fc" ] || fc=$here/../../bin/fc
fc=${FC-$fc}
LLVM=${LLVM-}

say() { echo "rule.sh: $*" >&2; }
stop() {
    status=$1
    shift
    say "$*"
    exit "$status"
}
usage() {
    echo 'usage: tools/rule.sh [-o FILE.hex | --test FILE.tests] FILE.c|FILE.o|FILE.bpf' >&2
    exit 2
}

need_compiler() {
    for tool in clang llvm-objdump llvm-objcopy; do
        command -v "$tool$LLVM" >/dev/null ||
            stop 3 "there is no $tool$LLVM here; Debian's packages are clang$LLVM and llvm$LLVM"
    done
}

# Compiles the file $1. Functions are inlined, and loops with a constant number of turns are unrolled, however large
# they get: fc accepts neither calls of a rule's own functions nor loops. A switch isn't compiled to a table. An if
# stays a branch, which is shorter here.
compile() {
    "clang$LLVM" --target=bpfel -mcpu=v3 -O2 -g -ffreestanding -fno-jump-tables \
        -mllvm -inline-threshold=20000 -mllvm -unroll-threshold=20000 -mllvm -two-entry-phi-node-folding-threshold=0 \
        -Wall -Wextra -Wconditional-uninitialized -Werror=implicit-function-declaration -fmacro-backtrace-limit=1 \
        -fno-crash-diagnostics \
        -I "$here/examples/c" -c -o "$object" -- "$1" >&2 || exit 1
}

# Assembles the file $1 to the file of units. It is for the second layout if it is accepted for that one alone.
assemble() {
    "$fc" asm "$1" >"$work/hex" 2>"$work/said" || {
        status=$?
        sed 's/^fc: //' "$work/said" | while read -r words; do say "$words"; done
        exit "$status"
    }
    : >"$work/places"
    layout=1
    find_mask
    "$fc" verify --counters "$mask" "$work/hex" >"$work/said" 2>&1 ||
        ! "$fc" verify --counters "$mask" --context 2 "$work/hex" >"$work/said" 2>&1 || layout=2
}

# Checks the first bytes of the object: ELF, 64 bits, least significant byte first, and the machine 247, which is BPF.
look_at_target() {
    begins=$(od -An -v -tx1 -N20 "$object" | tr -d ' \n')
    case $begins in
        7f454c460201????????????????????????f700) ;;
        7f454c46*) stop 1 "$source: compiled for another target: clang --target=bpfel" ;;
        *) stop 1 "$source: no object file" ;;
    esac
}

# Finds the section of the rule. Writes to files its units, the place of each unit in the source, and its relocations.
read_section() {
    "llvm-objdump$LLVM" -h "$object" | awk '$NF == "TEXT" && $3 !~ /^0+$/ { print $2 }' >"$work/sections"
    section=$(grep -x -e rule -e rule2 "$work/sections" | head -n 1)
    case $section in
        rule) layout=1 ;;
        rule2) layout=2 ;;
        *) stop 1 "$source: no rule: begin it by RULE(name, request)" ;;
    esac
    "llvm-objcopy$LLVM" -O binary --only-section="$section" "$object" "$work/bytes" || exit 3
    od -An -v -tx1 "$work/bytes" | tr -d ' \n' | fold -w 16 >"$work/hex"
    echo >>"$work/hex"
    "llvm-objdump$LLVM" -d -l --no-show-raw-insn -j "$section" "$object" | awk '
        /^; .*:[0-9]+$/ { place = substr($0, 3) }
        /^ *[0-9]+:/ { print $1 place }' >"$work/places"
    "llvm-objdump$LLVM" -r "$object" | awk -v section="$section" '
        /^RELOCATION RECORDS/ { inside = $NF == "[" section "]:"; next }
        inside && $1 ~ /^[0-9a-f]+$/' >"$work/references"
}

# Prints that at the unit $1 this is wrong: $2. Prints its line of C too, and ends with status 1.
fault() {
    place=$(sed -n "s/^$1://p" "$work/places")
    line=${place##*:}
    file=${place%:*}
    file=${file#"$PWD/"}
    case $line in
        '' | *[!0-9]*) stop 1 "$source: unit $1: $2" ;;
    esac
    say "$file:$line: unit $1: $2"
    [ ! -r "$file" ] || sed -n "${line}p" "$file" >&2
    exit 1
}

# Checks that all code is one function in one section.
look_at_functions() {
    "llvm-objdump$LLVM" -t "$object" | awk '$3 == "F" { print $4, $6 }' >"$work/functions"
    [ "$(grep -c '^rule2\{0,1\} ' "$work/functions")" = 1 ] || stop 1 "$source: two rules: a file has one"
    grep -vx "$section" "$work/sections" >"$work/others" || return 0
    read -r other <"$work/others"
    name=$(sed -n "s/^$other //p" "$work/functions" | head -n 1)
    words="a second function, $name, in a second section, $other: make it static inline"
    unit=$(unit_of "$name" || unit_of "$other") && fault "$unit" "$words"
    stop 1 "$source: $words"
}

# Prints the first unit that refers to the name $1. The status isn't 0 if there is none.
unit_of() {
    awk -v name="$1" '$3 == name { print $1; exit }' "$work/references" >"$work/reference"
    read -r offset <"$work/reference" && echo $((0x$offset / 8))
}

# Checks that a linker would have nothing to fill in.
look_at_references() {
    read -r offset type name <"$work/references" || return 0
    unit=$((0x$offset / 8))
    ! grep -qx "$section $name" "$work/functions" || fault "$unit" "the rule calls itself: write its turns out"
    case $name in
        .*) name='' ;;
        *) name=", $name" ;;
    esac
    case $type in
        R_BPF_64_32) fault "$unit" "a function that isn't here$name: a rule calls its own and the helpers alone" ;;
        *) fault "$unit" "a table of constants or a global variable$name: use a switch, or a counter" ;;
    esac
}

# Whether a jump goes backwards. The distance of a jump is in its offset, or for gotol (06) in its immediate value.
jumps_backwards() {
    awk '
        wide { wide = 0; next }
        { opcode = substr($0, 1, 2); wide = opcode == "18" }
        opcode == "85" || opcode !~ /[56de]$/ { next }
        substr($0, opcode == "06" ? 15 : 7, 1) ~ /[89a-f]/ { found = 1; exit }
        END { exit !found }' "$work/hex"
}

# Puts the units in an order in which no jump goes backwards, and their places too. If there is none, it is a loop.
put_in_order() {
    jumps_backwards || return 0
    awk -f "$here/tools/in_order.awk" "$work/hex" >"$work/order" || exit 3
    read -r word unit <"$work/order" || return 0
    [ "$word" != loop ] ||
        fault "$unit" "a loop that isn't unrolled: give it a constant number of turns, or #pragma unroll"
    sed 's/ .*//' "$work/order" >"$work/hex"
    awk '
        NR == FNR { unit = $0; sub(/:.*/, "", unit); sub(/^[0-9]*:/, ""); place[unit] = $0; next }
        { print FNR - 1 ":" place[$2] }' "$work/places" "$work/order" >"$work/ordered"
    mv "$work/ordered" "$work/places"
}

# Writes the units of the object's rule, and their places, to files.
read_object() {
    look_at_target
    read_section
    look_at_functions
    look_at_references
    put_in_order
}

# Sets `mask` to the counters that the code uses: the last constant in r1 before each call of the helpers 1 to 3.
find_mask() {
    awk '/^(b[47]|18)01/ { counter = substr($0, 9, 2) } /^850000000[123]/ && counter { print counter }' "$work/hex" |
        sort -u >"$work/counters"
    mask=0
    while read -r counter; do
        [ $((0x$counter)) -gt 31 ] || mask=$((mask | 1 << 0x$counter))
    done <"$work/counters"
}

verify() {
    accepted=$("$fc" verify --counters "$mask" --context "$layout" "$work/hex" 2>"$work/said") && return
    words=$(sed -n "s|^fc: $work/hex: ||p" "$work/said")
    case $words in
        'unit '*)
            words=${words#unit }
            fault "${words%%:*}" "${words#*: }"
            ;;
        ?*) stop 1 "$source: $words" ;;
    esac
    cat "$work/said" >&2
    stop 3 "$fc gave no answer"
}

# Writes a line for each request of the file $1: its line's number, the column and its number that are wanted, and the
# words for `fc run`. Of a file that isn't one of requests it writes a line with what is wrong.
read_tests() {
    awk -v FS=' *, *' '
        /^#/ || /^[ \t\r]*$/ { next }
        { sub(/[ \t\r]+$/, ""); sub(/^[ \t]+/, "") }
        !columns {
            columns = NF
            for (i = 1; i <= NF; i++) {
                name[i] = $i
                if ($i == "answer" || $i == "granted") { wanted = i; found++ }
            }
            if (found == 1) next
            print FNR, "fault", "one column has to be named answer or granted, and " found + 0 " are"
            exit
        }
        NF != columns { print FNR, "fault", "it has " NF " cells, and not " columns; exit }
        $wanted == "" { print FNR, "fault", "nothing is wanted: the cell of " name[wanted] " is empty"; exit }
        {
            words = ""
            for (i = 1; i <= NF; i++) if (i != wanted && $i != "") words = words " " name[i] "=" $i
            print FNR, name[wanted], $wanted words
        }' "$1" >"$work/requests" || exit 3
}

# Runs the rule on each request of the file $1, and names the lines that it answers otherwise.
test_rule() {
    read_tests "$1"
    count=0 others=0
    while read -r line column wanted words; do
        [ "$column" != fault ] || stop 2 "$1:$line: $wanted $words"
        # shellcheck disable=SC2086 # the words are several
        "$fc" run --json --counters "$mask" --context "$layout" "$work/hex" $words >"$work/answer" 2>"$work/said" ||
            stop 2 "$1:$line: $(sed 's/^fc: //' "$work/said")"
        answered=$(sed "s/.*\"$column\":\([0-9]*\).*/\1/" "$work/answer")
        count=$((count + 1))
        [ "$answered" != "$wanted" ] || continue
        echo "$1:$line: $wanted wanted, $answered answered"
        others=$((others + 1))
    done <"$work/requests"
    [ "$count" -gt 0 ] || stop 2 "$1: it has no request"
    [ "$others" = 0 ] || exit 1
    echo "$count answered as wanted"
}

source='' kept='' tests=''
while [ $# -gt 0 ]; do
    case $1 in
        -o)
            [ $# -gt 1 ] || usage
            kept=$2
            shift
            ;;
        --test)
            [ $# -gt 1 ] || usage
            tests=$2
            shift
            ;;
        -*) usage ;;
        *)
            [ -z "$source" ] || usage
            source=$1
            ;;
    esac
    shift
done
case $source in *.c | *.o | *.bpf) ;; *) usage ;; esac
[ -z "$tests" ] || [ -z "$kept" ] || usage
if [ -n "$tests" ] && { [ ! -f "$tests" ] || [ ! -r "$tests" ]; }; then stop 3 "$tests can't be read"; fi
if [ ! -f "$source" ] || [ ! -r "$source" ]; then stop 3 "$source can't be read"; fi
[ "$source" != "${source%.bpf}" ] || need_compiler
"$fc" --version >/dev/null || stop 3 "$fc doesn't run"
work=$(mktemp -d) || stop 3 "no folder can be made below ${TMPDIR:-/tmp}"
trap 'rm -rf "$work"' EXIT
object=$source
case $source in
    *.bpf) assemble "$source" ;;
    *.c)
        object=$work/rule.o
        compile "$source"
        read_object
        ;;
    *.o) read_object ;;
esac
find_mask
verify
if [ -n "$tests" ]; then
    test_rule "$tests"
    exit
fi
told="$accepted, mask $mask, layout $layout"
if [ -n "$kept" ]; then
    [ ! -d "$kept" ] || stop 3 "$kept is a folder"
    if ! cp -- "$work/hex" "$kept.new" || ! mv -- "$kept.new" "$kept"; then stop 3 "$kept can't be written"; fi
    echo "$told"
else
    cat "$work/hex" || stop 3 "the units can't be written"
    echo "$told" >&2
fi
