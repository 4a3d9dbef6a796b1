# What the tests of the program share: a folder of their own, and the comparison of a run with what it must give.
work=$(mktemp -d) || exit 1
trap 'rm -rf "$work"' EXIT
passed=0
failed=0

# expect NAME STATUS OUTPUT-FILE ERROR-TEXT: compares the last run, whose status, output and errors are in $work/status, out and err.
expect() {
    local name=$1 want=$2 output=$3 errors=$4 got
    got=$(cat "$work/status")
    printf '%s' "$errors" >"$work/errors"
    if [ "$got" != "$want" ]; then
        echo "FAILED $name: status $got in place of $want"
    elif ! cmp -s "$work/out" "$output"; then
        echo "FAILED $name: another output:"
        diff "$output" "$work/out" | head -5
    elif ! cmp -s "$work/err" "$work/errors"; then
        echo "FAILED $name: another text on standard error:"
        head -c 300 "$work/err"
    else
        passed=$((passed + 1))
        return
    fi
    failed=$((failed + 1))
}
