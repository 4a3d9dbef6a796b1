#!/usr/bin/env bash
# Fails each allocation of the handoff in turn, from the first on up to the first run that ends well: every run before it
# must end with status 7 and the line `out of memory`, and write nothing to standard output. It runs the program as
# written, before any proof; it takes minutes, so it is no part of the gate. Its arguments are how many runs go side by
# side, 4 if none is given, and the allocation to begin with, 1 if none is given.
cd "$(dirname "$0")/../crates/itron" || exit 1
work=$(mktemp -d) || exit 1
trap 'rm -rf "$work"' EXIT
jobs=${1:-4}
first=${2:-1}

# one N: runs the program with its Nth allocation failing, and prints N, the exit status and what was written.
one() {
    rt try --fail-alloc "$1" -- sim <stdin >"$2/$1.log" 2>&1
    status=$(sed -n 's/^checked: ended status=//p' "$2/$1.log")
    if [ "$status" = 0 ] && [ "$(grep -cx stop "$2/$1.log")" = 1 ]; then
        echo "$1 whole"
    elif [ "$status" = 7 ] && grep -qx 'out of memory' "$2/$1.log" && ! grep -qx 'itron 1' "$2/$1.log"; then
        echo "$1 refused"
    else
        echo "$1 WRONG: status $status"
    fi
}
export -f one

until grep -q 'whole\|WRONG' "$work/results" 2>/dev/null; do
    seq "$first" $((first + jobs - 1)) | xargs -P "$jobs" -I N bash -c "one N $work" >>"$work/results"
    first=$((first + jobs))
done
sort -n "$work/results" >"$work/sorted"
grep WRONG "$work/sorted"
echo "allocations: $(grep -c refused "$work/sorted") refused, the first whole run is $(awk '/whole/ { print $1; exit }' "$work/sorted")"
! grep -q WRONG "$work/sorted"
