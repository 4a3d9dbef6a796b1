#!/usr/bin/env bash
# Runs the built program on thousands of inputs derived from good scripts, most of them wrong, and compares with a second
# reader of scripts. With the word kinds it tells the counts of each kind of input too. `./itron` builds the program.
cd "$(dirname "$0")/.." || exit 1
program=crates/itron/out/itron
if ! command -v python3 >/dev/null; then
    echo "FAILED wrong scripts: python3 is not installed"
    exit 1
fi
if [ ! -x "$program" ]; then
    echo "FAILED wrong scripts: $program is not built"
    exit 1
fi
exec python3 tests/wrong_scripts.py "$program" "$@"
