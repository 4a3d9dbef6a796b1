#!/usr/bin/env bash
# Runs the program as it is written, before any proof: by the launcher in a checkout where nothing is built, on an example, a wrong script
# and a faulty command line; and with one allocation failing, that of the list of words, the fifth, and a later one. Then a stand-in for
# `rt` gives no answer: the launcher has it prove and build the program, which gets the same words and input.
cd "$(dirname "$0")/.." || exit 1
. tests/expecting.sh

notice='itron: this run is of a program that is not proved yet; rt ci proves and builds it
'
building='itron: the program is proved and built first, which takes minutes
'
: >"$work/empty"
head -c -1 examples/handoff.itron >"$work/wrong"
mkdir "$work/checkout" && git ls-files -z | xargs -0 cp -p --parents -t "$work/checkout" || exit 1

# launched NAME INPUT WORDS..: a run of the launcher, in the background.
launched() {
    local name=$1 input=$2
    shift 2
    {
        "$work/checkout/itron" "$@" <"$input" >"$work/$name.out" 2>"$work/$name.err"
        echo $? >"$work/$name.status"
    } &
}

# without_allocation NAME NUMBER: the handoff with the allocation of this number failing, in the background. The lines with which `rt try`
# tells how the run went are left out.
without_allocation() {
    {
        (cd crates/itron && rt try --fail-alloc "$2" -- sim <stdin >"$work/$1.out" 2>"$work/$1.errors")
        echo $? >"$work/$1.status"
        grep -v '^allocations: \|^interpreter: \|^checked: \|^run=' "$work/$1.errors" >"$work/$1.err"
    } &
}

# expect_of RUN and what `expect` takes: compares a run that went in the background.
expect_of() {
    local file
    for file in out err status; do
        mv "$work/$1.$file" "$work/$file"
    done
    shift
    expect "$@"
}

launched example examples/exchange.itron sim
launched wrong "$work/wrong" sim
launched words examples/handoff.itron sim sim
without_allocation words_memory 5
without_allocation later 60
wait
expect_of example 'an example before any proof' 0 examples/exchange.txt "$notice"
expect_of wrong 'a wrong script before any proof' 3 "$work/empty" "${notice}line 12: missing
"
expect_of words 'a faulty command line before any proof' 2 "$work/empty" "${notice}usage: itron sim, audit, shape, run or gen N
"
expect_of words_memory 'no memory for the words' 7 "$work/empty" 'out of memory
'
expect_of later 'no memory later on' 7 "$work/empty" 'out of memory
'

# The stand-in builds a program that writes its words and its input, and ends with status 6.
mkdir "$work/tools" && cat >"$work/tools/rt" <<'STAND_IN'
#!/usr/bin/env bash
case $1 in
    try) cat >/dev/null && printf 'checked: no-answer: too much output\nrun=no-answer proved=no\n' >&2 && exit 6 ;;
    run) mkdir -p out && printf '#!/usr/bin/env bash\necho "$@"\ncat\nexit 6\n' >out/itron && chmod +x out/itron ;;
esac
STAND_IN
chmod +x "$work/tools/rt"
{ echo sim && cat examples/exchange.itron; } >"$work/want"
PATH="$work/tools:$PATH" launched unanswered examples/exchange.itron sim
wait
expect_of unanswered 'a run without an answer' 6 "$work/want" "$notice$building"
rm -r "$work/checkout/crates/itron/out"
PATH="$work/tools:$PATH" ITRON_PROVED=1 launched proved examples/exchange.itron sim
wait
expect_of proved 'a run that is to be proved' 6 "$work/want" "$building"

echo "unproved: $passed passed, $failed failed"
[ "$failed" -eq 0 ]
