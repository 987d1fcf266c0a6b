#!/usr/bin/env bash
# How long `solo` takes on a script of 20,000 lines with 1,000 names and 4,000 pairs of producer and
# entity: first a script that is refused at its last line (reading alone), then the same script
# whole (reading, recording and printing). Five runs each, as `time` tells them.
set -eu
top=$(cd "$(dirname "$0")/.." && pwd)
work=$(mktemp -d)
trap 'rm -rf "$work"' EXIT
awk 'BEGIN {
    print "config shards=8 producers=4"
    for (i = 0; i < 12000; i++) print "send " i % 4 + 1, "e" int(i / 4) % 1000, "add 1"
    for (i = 1; i <= 7999; i++) print "deliver", i
}' >"$work/whole"
sed '$s/.*/deliver/' "$work/whole" >"$work/refused"
"$top/run.sh" --build
program="$top/crates/sharder/out/sharder"
for script in refused whole; do
    echo "$script"
    for _ in 1 2 3 4 5; do
        ( time "$program" solo <"$work/$script" >/dev/null 2>"$work/said" ) 2>&1 | tr '\n' ' ' || true
        echo
    done
done
