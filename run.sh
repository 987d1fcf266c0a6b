#!/usr/bin/env bash
# Runs sharder on these words, as `./run.sh replay < examples/failover.txt`; behind the word `judge`, the
# program of that name, as `./run.sh judge < examples/unsafe_two_incarnations.trace`. (build/programs lists them.)
#
# The proved program is run where it was built of the sources that stand here, and nothing else is said. Else an
# unproved one of these sources is run, and one line on standard error says so. It is compiled where there is none,
# which takes some two minutes, and is kept: the next run begins at once, until a source is changed.
#
#   ./run.sh --build        proves the programs, and builds them
#   ./run.sh --sum          prints the sum of the sources that they are built of
#   ./run.sh --built [SUM]  says by its status whether they are built of the sources that stand here;
#                           with a sum, notes that `rt ci` has built them of the sources with that sum
#
# Standard output and the exit status are the program's. Statuses of its own: 1 there is no answer, and a line says
# why; 127 there is no `rt` on the path; above 128 a signal ended it.
set -euo pipefail
unset CDPATH

top=$(dirname "$(readlink -f "${BASH_SOURCE[0]}")")
readonly top

# Whether nothing was touched that decides which program is run, since this file noted that it is this one, of a kit.
is_untouched() {
    local rt of=("$top/crates" "$top/crates.txt" "$top/build/programs" "$top/crates/sharder/out/built.sum" "$2")
    if rt=$(command -v rt); then
        rt=$(readlink -f "$rt")
        [ "$rt" = "$3" ] || return 1
        of+=("$rt" "${rt%/*/*}/KIT-ID")
    fi
    [ -z "$(find "${of[@]}" -name out -prune -o -cnewer "$1" -print -quit 2>/dev/null)" ]
}

case $#:${1-} in
1:--build | 1:--sum | 1:--built | 2:--built) exec python3 "$top/build/run.py" "$@" ;;
esac

{
    read -r name
    while read -r other; do
        if [ "$other" = "${1-}" ]; then
            name=$other
            shift
            break
        fi
    done
} <"$top/build/programs"

note=$top/out/run/$name
if [ -r "$note" ]; then
    { read -r program && read -r said && read -r rt; } <"$note"
    program=$top/$program
    if [ -x "$program" ] && is_untouched "$note" "$program" "$rt"; then
        [ -z "$said" ] || echo "run.sh: $said" >&2
        exec "$program" "$@"
    fi
fi
exec python3 "$top/build/run.py" --run "$name" "$@"
