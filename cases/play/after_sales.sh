#!/bin/sh
# Prints what a release is answered at a site of one point where COUNT deliveries were sold, by a program for the second
# layout of the context, of these units and the exit behind them.
# usage: after_sales.sh COUNT UNIT..
set -u
count=$1
shift
lines() {
    printf '%s\n' 'load 0 0 79101800000000009500000000000000' 'till 1 open 1'
    for number in $(seq "$count"); do
        printf '%s\n' 'disp 1 up 1' 'till 1 release 1 1' 'disp 1 order' 'disp 1 started' 'disp 1 flow 1 1' 'disp 1 down'
        printf '%s\n' "till 1 lock 1 $number" "till 1 clear 1 $number"
    done
    printf '%s\n' "load2 0 0 $(printf %s "$@" 9500000000000000)" 'till 1 release 1 8000'
}
lines "$@" | fc play ../audit/one_point.toml - | tail -n 1 | cut -d ' ' -f 2-
