#!/bin/sh
# Runs programs of each kind by the interpreter and by the same loop as a C switch (interp.c, machine.h, by gcc -O2), in
# turns, and prints for each the nanoseconds of one run by both, their ratio, and at last the ratios' geometric mean.
# Usage: bench/interp.sh [ROUNDS]; without a number 20. Of all turns the least time counts, since other work on the
# machine only adds to it. Both must give the same answers.
# The driver (interp_driver.txt) is built in a folder of its own beside copies of the crates, which are proved there
# first: that takes some minutes.
set -eu
here=$(CDPATH='' cd -- "$(dirname -- "$0")" && pwd -P)
command -v rt >/dev/null || { echo "interp.sh: the command rt (Rattle's kit) is not on PATH" >&2; exit 1; }
command -v gcc >/dev/null || { echo "interp.sh: gcc is not on PATH" >&2; exit 1; }
work=$(mktemp -d)
trap 'rm -rf "$work"' EXIT
rounds=${1:-20}

# shellcheck source=bench/driver.sh
. "$here/driver.sh"
driver_workspace 'bpf_model verifier interp' \
    'drive: interp verifier hex' interp_driver.txt
(cd "$work/crates/drive" && rt run -- 1 1 /dev/null </dev/null >"$work/log" 2>&1) || true
drive=$work/crates/drive/out/drive
[ -x "$drive" ] || { tail -n 20 "$work/log" >&2; exit 1; }
# Its clearing of the stack by vectors is no slower than ours; the default (rep stos) takes 10 nanoseconds more.
gcc -O2 -mmemset-strategy=vector_loop:-1:align -o "$work/switch" "$here/interp.c"

# program KIND: its units in hexadecimal.
program() {
    awk -v kind="$1" '
        function byte(n) { return sprintf("%02x", n % 256) }
        function number(n, size,    i, text) {
            if (n < 0)
                n += 4294967296
            for (i = 0; i < size; i++) {
                text = text byte(n)
                n = int(n / 256)
            }
            return text
        }
        # unit OPCODE DESTINATION SOURCE OFFSET NUMBER, the opcode in hexadecimal
        function unit(opcode, dst, src, offset, imm) {
            if (offset < 0)
                offset += 65536
            text = text opcode byte(16 * src + dst) number(offset, 2) number(imm, 4)
            said++
        }
        # registers 0 to 9 but 1 get numbers
        function numbers(    i) {
            for (i = 0; i <= 9; i++)
                if (i != 1)
                    unit("b7", i, 0, 0, 1000003 * i + 17)
        }
        function arithmetic() {
            unit("0f", 0, 2, 0, 0); unit("07", 3, 0, 0, 7); unit("2f", 4, 3, 0, 0); unit("af", 5, 4, 0, 0)
            unit("0c", 6, 5, 0, 0); unit("67", 7, 0, 0, 3); unit("77", 8, 0, 0, 5); unit("bf", 9, 0, 0, 0)
            unit("57", 9, 0, 0, 65535); unit("4f", 2, 9, 0, 0); unit("1f", 0, 6, 0, 0); unit("b4", 3, 0, 0, 12345)
            unit("c7", 7, 0, 0, 2); unit("87", 4, 0, 0, 0); unit("24", 5, 0, 0, 31); unit("a4", 8, 0, 0, 99)
        }
        function division() {
            unit("bf", 0, 9, 0, 0); unit("3f", 0, 2, 0, 0); unit("37", 0, 0, 0, 7); unit("bf", 4, 8, 0, 0)
            unit("9f", 4, 3, 0, 0); unit("3c", 5, 2, 0, 0); unit("07", 5, 0, 0, 1000000); unit("97", 6, 0, 0, 1000)
        }
        function memory() {
            unit("7b", 10, 3, -8, 0); unit("79", 4, 10, -8, 0); unit("63", 10, 4, -16, 0); unit("61", 5, 10, -16, 0)
            unit("61", 2, 1, 8, 0); unit("15", 5, 0, 0, 5); unit("73", 10, 2, -17, 0); unit("71", 6, 10, -17, 0)
            unit("05", 0, 0, 0, 0); unit("6b", 10, 6, -20, 0); unit("69", 7, 10, -20, 0); unit("79", 0, 1, 24, 0)
            unit("7a", 10, 0, -32, 77); unit("2d", 0, 7, 0, 0); unit("7b", 10, 0, -40, 0); unit("79", 8, 10, -40, 0)
        }
        # what is asked, up to a limit by the till and the hour
        function rule27() {
            unit("61", 2, 1, 0, 0); unit("61", 3, 1, 4, 0); unit("79", 4, 1, 24, 0); unit("79", 5, 1, 32, 0)
            unit("b7", 0, 0, 0, 0); unit("15", 4, 0, 20, 0); unit("97", 5, 0, 0, 86400); unit("37", 5, 0, 0, 3600)
            unit("b7", 6, 0, 0, 5000); unit("55", 2, 0, 1, 1); unit("b7", 6, 0, 0, 10000); unit("a5", 5, 0, 2, 6)
            unit("35", 5, 0, 1, 22); unit("05", 0, 0, 1, 0); unit("77", 6, 0, 0, 1); unit("bf", 7, 6, 0, 0)
            unit("7b", 10, 7, -8, 0); unit("79", 8, 10, -8, 0); unit("0f", 8, 3, 0, 0); unit("1f", 8, 3, 0, 0)
            unit("bd", 4, 8, 2, 0); unit("bf", 0, 8, 0, 0); unit("05", 0, 0, 3, 0); unit("bf", 0, 4, 0, 0)
            unit("57", 0, 0, 0, -1); unit("47", 0, 0, 0, 0)
        }
        BEGIN {
            if (kind == "rule of 2")
                unit("b7", 0, 0, 0, 8000)
            else if (kind == "rule of 5") {
                unit("61", 2, 1, 0, 0); unit("b7", 0, 0, 0, 5000); unit("55", 2, 0, 1, 1); unit("b7", 0, 0, 0, 10000)
            } else if (kind == "rule of 27")
                rule27()
            else {
                numbers()
                if (kind == "512 of arithmetic")
                    while (said + 16 < 512)
                        arithmetic()
                else if (kind == "512 of divisions")
                    while (said + 8 < 512)
                        division()
                else if (kind == "512 of memory")
                    while (said + 16 < 512)
                        memory()
                else
                    for (i = 0; i < 64; i++) {
                        unit("15", 2, 0, 2, 17 + 2000006 + i % 3); unit("07", 0, 0, 0, 1)
                        unit("05", 0, 0, 1, 0); unit("07", 2, 0, 0, 1)
                    }
                if (kind != "64 diamonds")
                    while (said < 511)
                        unit("b7", 3, 0, 0, 1)
            }
            unit("95", 0, 0, 0, 0)
            print text
        }'
}

printf '%-20s%8s%16s%16s%8s\n' program units 'ours, ns' 'C switch, ns' ratio
for kind in "rule of 2" "rule of 5" "rule of 27" "512 of arithmetic" "512 of divisions" "512 of memory" "64 diamonds"; do
    program "$kind" >"$work/program"
    units=$(awk '{ print length($0) / 16 }' "$work/program")
    runs=$((400000 / (units + 20)))
    : >"$work/ours"
    : >"$work/theirs"
    round=0
    while [ "$round" -lt "$rounds" ]; do
        "$drive" 20 "$runs" "$work/program" >>"$work/ours"
        "$work/switch" 20 "$runs" "$work/program" >>"$work/theirs"
        round=$((round + 1))
    done
    [ "$(cut -d ' ' -f 2 "$work/ours" "$work/theirs" | sort -u | wc -l)" = 1 ] ||
        { echo "interp.sh: other answers in $kind" >&2; exit 1; }
    ours=$(sort -n "$work/ours" | head -n 1 | cut -d ' ' -f 1)
    theirs=$(sort -n "$work/theirs" | head -n 1 | cut -d ' ' -f 1)
    awk -v kind="$kind" -v units="$units" -v runs="$runs" -v ours="$ours" -v theirs="$theirs" 'BEGIN {
        printf "%-20s%8d%16.1f%16.1f%8.2f\n", kind, units, ours / runs, theirs / runs, ours / theirs
    }' | tee -a "$work/table"
done
awk '{ sum += log($NF) } END { printf "geometric mean of the ratios: %.2f\n", exp(sum / NR) }' "$work/table"
