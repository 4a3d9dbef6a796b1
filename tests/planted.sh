#!/usr/bin/env bash
# Plants each bug of tests/planted in a copy of the repository, and sees that the prover refuses it, at the goal that the
# patch names, or, where the patch names a script of tests/ and what it tries, that this test of the built program fails.
# Its arguments are names of patches, or of crates: of a crate all the patches that it is to refuse, which is what a change
# of it asks for. With no argument it plants all. It prints a line a patch, `refused NAME: crate function goal`, `PROVED
# NAME` or `FAILED NAME: why`, and ends with status 1 where a patch does not apply, the crate is still proved or the test
# passed, the check ended for another reason than a goal that is not proved, or the goal that the patch names is not among
# those refused. It takes half a minute or more a patch, so it is no part of the gate.
cd "$(dirname "$0")/.." || exit 1
root=$PWD
work=$(mktemp -d) || exit 1
trap 'rm -rf "$work"' EXIT

# below CRATE: the crates that it stands on, each at least once.
below() {
    local name
    for name in $(sed -n "s/^$1://p" crates.txt); do
        echo "$name"
        below "$name"
    done
}

# copied CRATE FOLDER: a copy of the checked-out files, with what checks of the crate and those below it have kept.
copied() {
    local name
    mkdir "$2" && git ls-files -z | xargs -0 cp -p --parents -t "$2" || return 1
    for name in "$1" $(below "$1" | sort -u); do
        [ ! -d "crates/$name/out" ] || cp -a "crates/$name/out" "$2/crates/$name" || return 1
    done
}

# refusals CRATE LOG: the functions of the crate that are not proved, each with its goals, one a line. Those that only call
# such a function are left out, and a proof that names what the patch took away, since that says nothing of the contract.
refusals() {
    sed -nE -e '/which (is|are) not proved$|has no field|has no `|is not in scope|was not admitted/d' \
        -e "s/^fn $1::([^ ]*): no proof: .* did not prove (\`.*\`).*/\1 \2/p" \
        -e 's,^(\./)?proofs/([^:]*)/[A-Za-z]*\.antt:[0-9]+:[0-9]+: error: `([^`]*)`: .*,\2 \3,p' "$2" |
        tr -d '`,' | sed 's,/,::,g' | awk '{ for (i = 2; i <= NF; i++) print $1, $i }'
}

# planted NAME: plants the bug and checks the crate that is to refuse it.
planted() {
    local patch=$root/tests/planted/$1.patch copy=$work/$1 log=$work/$1.log crate function goal status refused
    IFS=', ' read -r crate function goal < <(sed -n 's/^Refused by: //p' "$patch")
    if [ ! -d "crates/${crate:-none}" ]; then
        echo "FAILED $1: no crate is named that refuses it"
        return 1
    elif ! copied "$crate" "$copy" || ! (cd "$copy" && git apply "$patch"); then
        echo "FAILED $1: the patch does not apply"
        return 1
    fi
    (cd "$copy/crates/$crate" && rt check >"$log" 2>&1)
    status=$?
    rm -rf "$copy"
    refused=$(refusals "$crate" "$log")
    if [ "$status" -eq 0 ]; then
        echo "PROVED $1"
        return 1
    elif [ "$status" -ne 1 ] || ! grep -q '^logic=not-proved' "$log" || [ -z "$refused" ]; then
        echo "FAILED $1: the check ended with status $status, for another reason than a goal that is not proved:"
        grep -m 3 error "$log" || tail -n 3 "$log"
        return 1
    elif ! grep -qxF "$function $goal" <<<"$refused"; then
        # A clause says more than an invariant.
        echo "FAILED $1: refused at another goal: $crate $(grep -m 1 ' returns' <<<"$refused" || head -n 1 <<<"$refused")"
        return 1
    fi
    echo "refused $1: $crate $function $goal"
}

# planted_for_test NAME: plants a bug that no clause refuses, builds the program, and runs the script that is to refuse it.
planted_for_test() {
    local patch=$root/tests/planted/$1.patch copy=$work/$1 log=$work/$1.log script tried
    read -r script tried < <(sed -n 's/^Refused by: \([^,]*\), /\1 /p' "$patch")
    if ! copied itron "$copy" || ! (cd "$copy" && git init -q && git apply "$patch" && git add -A); then
        echo "FAILED $1: the patch does not apply"
        return 1
    fi
    (cd "$copy/crates/itron" && rt run </dev/null >"$log" 2>&1)
    if [ ! -x "$copy/crates/itron/out/itron" ]; then
        echo "FAILED $1: the program is not built"
        return 1
    fi
    (cd "$copy" && "$script" >"$log" 2>&1)
    rm -rf "$copy"
    if ! grep -q "^FAILED $tried:" "$log"; then
        echo "PROVED $1: $script passed: $tried"
        return 1
    fi
    echo "refused $1: $script: $tried"
}

# named NAME: the patches that an argument names, one a line.
named() {
    if [ -d "crates/$1" ]; then
        grep -l "^Refused by: $1," tests/planted/*.patch
    else
        echo "$1"
    fi
}

[ "$#" -gt 0 ] || set -- tests/planted/*.patch
failed=0
for name in $(for argument; do named "$argument"; done | sed 's,.*/,,; s/\.patch$//' | sort -u); do
    if grep -q '^Refused by: tests/' "tests/planted/$name.patch"; then
        planted_for_test "$name" || failed=1
    else
        planted "$name" || failed=1
    fi
done
exit "$failed"
