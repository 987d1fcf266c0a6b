#!/usr/bin/env bash
# Draws the pictures of docs/pictures again from what PROGRAM prints, and compares them, byte for byte; looks
# whether a line crosses a text in them, or in folded ones, and whether what is no trace is refused. Then runs what
# stands in trace/checks. Without Python it says so and passes.
#   trace/check.sh PROGRAM               for instance trace/check.sh ./run.sh
#   trace/check.sh --pictures PROGRAM    the pictures alone
#   trace/check.sh --draw PROGRAM        puts the new pictures there instead
set -u
top=$(cd "$(dirname "$0")/.." && pwd)
pictures="$top/docs/pictures"

usage() {
    echo "use: trace/check.sh [--pictures | --draw] PROGRAM" >&2
    exit 2
}

# the picture of an example's trace: its name, the words of the command line, the options of draw.py
picture() {
    local script="$top/examples/$1.txt" words=$2
    shift 2
    (cat "$script" && echo trace && "$program" "$words" <"$script") | python3 "$top/trace/draw.py" "$@" 2>/dev/null
}

# what the status and the line on standard error are where the input isn't a trace
refuses() {
    local said
    said=$(printf '%b' "$1" | python3 "$top/trace/draw.py" 2>&1 >/dev/null)
    if [ $? -ne 1 ] || [ "$said" != "draw.py: $2" ]; then
        echo "trace/check.sh: of $1 it says: $said" >&2
        failed=1
    fi
}

keep='' rest=yes
case ${1-} in
--draw) keep=yes rest='' && shift ;;
--pictures) rest='' && shift ;;
esac
[ $# -eq 1 ] || usage
program=$(cd "$(dirname "$1")" && pwd)/$(basename "$1")
if ! command -v python3 >/dev/null; then
    echo "trace/check.sh: no python3 here: the pictures aren't drawn again" >&2
    exit 0
fi
new=$(mktemp -d) || exit 1
trap 'rm -rf "$new"' EXIT

failed=0
while read -r name first last; do
    if ! picture "$name" replay --lines "$first" "$last" >"$new/$name.svg" || [ ! -s "$new/$name.svg" ]; then
        echo "trace/check.sh: $name can't be drawn" >&2
        failed=1
    elif [ -n "$keep" ]; then
        cp "$new/$name.svg" "$pictures/$name.svg"
    elif ! cmp -s "$new/$name.svg" "$pictures/$name.svg"; then
        echo "trace/check.sh: docs/pictures/$name.svg isn't what is drawn now; trace/check.sh --draw makes it anew" >&2
        failed=1
    fi
done <<'PICTURES'
failover 61 104
handoff 80 139
coordinator_crash 113 171
PICTURES

# pictures that nobody keeps: parts and folds, and workers that pull
picture failover replay --entity c1 --mark 99 >"$new/entity.svg" || failed=1
picture handoff replay --orders 16 21 --shard 0 >"$new/shard.svg" || failed=1
picture coordinator_crash replay --fold >"$new/fold.svg" || failed=1
picture pull pull >"$new/pull.svg" || failed=1
if ! grep -q '···  [0-9]* lines' "$new/fold.svg" || grep -q 'is up, node 4' "$new/pull.svg"; then
    echo "trace/check.sh: nothing is folded in a picture, or a node that never came up has a box" >&2
    failed=1
fi

if ! crossed=$(cd "$new" && python3 "$top/trace/overlaps.py" ./*.svg); then
    echo "trace/check.sh: $crossed" >&2
    failed=1
fi
refuses 'at 7\nup 1.1\nup one\n' "line 3: no fact: 'up one'; its form is 'up X'"
refuses 'config nodes=2\nup 1\n' "line 1: a script, and no line 'trace' behind it with a trace"
refuses '' 'line 1: no trace: the input is empty'
if [ -n "$rest" ]; then
    python3 "$top/trace/checks/known.py" || failed=1
    python3 "$top/trace/checks/page.py" "$program" || failed=1
fi
exit "$failed"
