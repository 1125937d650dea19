#!/usr/bin/env python3
"""Compares what `fc dis --units` and `llvm-objdump -d` show of a program, by the table of spellings in
docs/use/assembler.md.

    objdump.py FILE.hex    prints 'the same', or the first line that differs; works in the folder ROOM
    objdump.py -- TEXT     prints an instruction of llvm-objdump as fc spells it
"""
import os
import re
import subprocess
import sys


def spelled(text):
    """Returns an instruction of llvm-objdump as fc spells it."""
    text = re.sub(r" <[^<>]*>$", "", text)
    text = re.sub(r"0x[0-9a-f]+", lambda it: str(int(it[0], 16)), text)
    text = re.sub(r"^w(\d+ = \*\()", r"r\1", text)
    text = re.sub(r"^(\*\(.* = )w(\d+)$", r"\1r\2", text)
    return re.sub(r"-(\d+) ll$", lambda it: f"{2 ** 64 - int(it[1])} ll", text)


def shown_by_llvm(units):
    """Returns what llvm-objdump shows of units: each instruction behind the number of its first unit."""
    version, room = os.environ.get("LLVM", ""), os.environ["ROOM"]
    code = ", ".join(f"0x{at:02x}" for at in bytes.fromhex(units))
    with open(f"{room}/units.s", "w", encoding="utf-8") as file:
        file.write(f'.section rule, "ax"\n.byte {code}\n')
    subprocess.run(["clang" + version, "--target=bpfel", "-c", "-o", f"{room}/units.o", f"{room}/units.s"], check=True)
    command = ["llvm-objdump" + version, "-d", "--mcpu=v3", "--no-show-raw-insn", "-j", "rule", f"{room}/units.o"]
    shown = subprocess.run(command, stdout=subprocess.PIPE, text=True, check=True).stdout
    return [f"{at}: {spelled(text)}" for at, text in re.findall(r"^ *(\d+):\t(.*)$", shown, re.MULTILINE)]


def main():
    if sys.argv[1] == "--":
        print(spelled(sys.argv[2]))
        return
    with open(sys.argv[1], encoding="utf-8") as file:
        by_llvm = shown_by_llvm(file.read())
    shown = subprocess.run(["fc", "dis", "--units", sys.argv[1]], stdout=subprocess.PIPE, text=True, check=True)
    by_fc = shown.stdout.splitlines()
    pairs = [pair for pair in zip(by_fc, by_llvm) if pair[0] != pair[1]]
    print(pairs[0] if pairs else "the same" if by_fc and len(by_fc) == len(by_llvm) else "not as many")


main()
