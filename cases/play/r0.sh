#!/bin/sh
# Prints what a program of these units, and the exit behind them, leaves in r0 when till 1 asks for a release of 8,000
# cents at point 1, which is idle: the journal tells it.
# usage: r0.sh UNIT..
set -u
program=$(printf %s "$@" 9500000000000000)
printf '%s\n' "load 0 0 $program" 'till 1 open 1' 'till 1 release 1 8000' journal | fc play ../audit/one_point.toml - |
    sed -n 's/.* ; 0 1 \([0-9]*\) .*/\1/p'
