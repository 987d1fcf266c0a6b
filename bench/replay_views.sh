#!/usr/bin/env bash
# How many packets a second `replay` delivers on a script with 16 nodes and many views: all nodes come
# up, then again and again one crashes and comes up, which posts a view to each member, and all that
# was posted is delivered. Five runs, as `time` tells them; the last line says how many packets were
# delivered in each.
set -eu
top=$(cd "$(dirname "$0")/.." && pwd)
work=$(mktemp -d)
trap 'rm -rf "$work"' EXIT
awk 'BEGIN {
    print "config nodes=16"
    for (n = 1; n <= 16; n++) print "up", n
    print "pump 10000"
    for (i = 0; i < 3000; i++) {
        n = i % 16 + 1
        print "crash", n
        print "up", n
        print "pump 10000"
    }
}' >"$work/script"
"$top/run.sh" --build
program="$top/crates/sharder/out/sharder"
for _ in 1 2 3 4 5; do
    ( time "$program" replay <"$work/script" >"$work/trace" ) 2>&1 | tr '\n' ' '
    echo
done
grep -c '^got ' "$work/trace"
