#!/usr/bin/env bash
# crash.sh PROGRAM [COUNT [FOLDER [SEED]]]: kills `sharder log` at COUNT random moments (300), resumes, and compares.
#
# PROGRAM is the built sharder. The log is written in a new folder in FOLDER (the current one), which should be on the
# file system that is meant: a folder in memory syncs nothing. Of each run that was killed by SIGKILL it is looked at
#
#   printed     what it had printed: a front of what `sharder replay` prints of the same script;
#   first       the first report of `sharder resume`: that of the first orders, each whole, of which none lacks
#               that had printed a byte;
#   second      its last report: that of `sharder replay` of the script with a settle at its end, but for the epochs,
#               which another life of the cluster goes on with.
#
# It ends with a line of counts, and with status 1 if a run differs; what that one wrote is kept. A process that is
# killed leaves the pages that the system has: it shows the order of writes and lines, and not what a loss of power does.
set -euo pipefail
unset CDPATH

if [ $# -lt 1 ] || [ $# -gt 4 ]; then
    sed -n '2,15s/^# \{0,1\}//p' "$0"
    exit 2
fi
program=$(readlink -f "$1")
count=${2:-300}
room=$(mktemp -d "${3:-.}/crash-XXXXXX")
RANDOM=${4:-1}
kept=
cd "$room"
trap '[ -n "$kept" ] || rm -rf "$PWD"' EXIT

# The script: three producers, each with entities of its own, so that journals don't depend on who comes first.
awk 'BEGIN {
    print "config nodes=3 shards=8 producers=3 window=8 snapshot=5 remember=on"
    for (n = 1; n <= 3; n++) print "up", n
    print "pump 60"
    for (p = 1; p <= 3; p++) print "produce", p, p
    for (i = 0; i < 240; i++) {
        print "send", i % 3 + 1, "e" (i % 3 + 1) "-" (i % 7), "add", i % 9 + 1
        if (i % 2) print "pump 30"
        if (i % 40 == 20) { print "crash", i / 20 % 2 + 2; print "pump 30"; print "tick 1" }
        if (i % 40 == 39) { for (n = 2; n <= 3; n++) { print "up", n; print "produce", n, n }; print "pump 60"; print "rebalance 2"; print "pump 60" }
    }
}' >script
(cat script && echo settle) >settled_script

# The last report of what was printed, with no epochs.
last_report() {
    awk '/^report$/ { text = "" } { text = text $0 "\n" } END { printf "%s", text }' "$1" | sed 's/^\(record [0-9]*\) epoch [0-9]*/\1/'
}

# The first report of what was printed.
first_report() {
    sed '/^end$/q' "$1"
}

# Of which orders a report is that, by the whole trace: `FIRST LAST PRINTED`, where the fronts of FIRST to LAST orders have
# this report, and PRINTED orders had printed a byte of so many bytes. It fails where no front has it.
# shellcheck disable=SC2016 # (what stands between the quotes is awk's)
readonly ORDERS='
    FNR == NR && /^entity / { entity = $2 }
    FNR == NR && /^record / { has[entity " " $0] = 1; records++ }
    FNR == NR && /^queue / { queued[$2, $3] = $5; confirmed[$2, $3] = $7; all_queued += $5; all_confirmed += $7 }
    FNR == NR { next }
    function behind_order(    i, it) {
        if (wrote != records + 0 || were_queued != all_queued + 0 || were_confirmed != all_confirmed + 0) return
        for (i = 1; i <= wrote; i++) if (!(journal[i] in has)) return
        for (it in number) if (number[it] != queued[it] || known[it] + 0 != confirmed[it] + 0) return
        if (first == "") first = orders + 0
        last = orders + 0
    }
    /^report$/ { exit }
    /^at / { behind_order(); orders++; if (offset < size) printed = orders }
    { offset += length($0) + 1 }
    /^wrote / { entity = $2; line = $0; sub(/^wrote [^ ]* /, "record ", line); journal[++wrote] = entity " " line }
    /^queued / { number[$2, $3] = $4; were_queued++ }
    /^confirmed / { were_confirmed += $4 - known[$2, $3]; known[$2, $3] = $4 }
    END { behind_order(); if (first == "") exit 1; print first, last, printed + 0 }'

# Tells what is amiss with a run, and keeps what it wrote.
differs() {
    echo "run $run, killed after $moment s: $1; see $room"
    kept=yes
    exit 1
}

"$program" replay <script >whole
"$program" replay <settled_script >settled
last_report settled >wanted
began=$(date +%s%N)
"$program" log <script >printed
took=$((($(date +%s%N) - began) / 1000))
cmp -s printed whole || { run=0 moment=- && differs "a log that isn't killed prints otherwise than replay"; }
orders=$(grep -c '^at ' whole)
echo "$orders orders, $(stat -c %s sharder.log) bytes of log, $((took / 1000)) ms"

killed=0 ahead=0 empty=0 least=$orders most=0
for ((run = 1; run <= count; run++)); do
    rm -f sharder.log
    : >printed
    moment=$(awk -v r="$RANDOM" -v s="$RANDOM" -v took="$took" 'BEGIN { printf "%.6f", (r * 32768 + s) / 1073741824 * took * 1.02 / 1000000 }')
    "$program" log <script >printed 2>said &
    it=$!
    sleep "$moment"
    kill -KILL "$it" 2>/dev/null || true
    status=0
    wait "$it" 2>/dev/null || status=$?
    case $status in
    137) killed=$((killed + 1)) ;;
    0) ;;
    *) differs "log ended with status $status: $(cat said)" ;;
    esac
    size=$(stat -c %s printed)
    cmp -s -n "$size" printed whole || differs "what it printed is no front of the trace"
    "$program" resume <script >resumed 2>said || differs "resume ended with status $?: $(cat said)"
    first_report resumed >first
    last_report resumed >second
    found=$(LC_ALL=C awk -v size="$size" "$ORDERS" first whole) || differs "the first report is that of no front of the orders"
    read -r from to printed <<<"$found"
    [ "$to" -ge "$printed" ] || differs "$printed orders were printed, and the log has $to at most"
    cmp -s second wanted || differs "the last report is not the settled one"
    if [ "$from" -gt "$printed" ]; then ahead=$((ahead + 1)); fi
    if [ "$printed" = 0 ]; then empty=$((empty + 1)); fi
    if [ "$printed" -lt "$least" ]; then least=$printed; fi
    if [ "$printed" -gt "$most" ]; then most=$printed; fi
done
echo "$count runs, $killed of them killed after $least to $most printed orders, 0 differ; $ahead logs were ahead of the lines, $empty runs had printed nothing"
