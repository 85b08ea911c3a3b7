#!/usr/bin/env bash
# Compares the proved library with the second program, which is written from the rules alone: hand-checked answers, the
# manual's examples, and generated texts, images and sources, in every word, label, register, symbol, tree and byte.
# The programs are those that `rt ci` proved, built and left in out/; where a file changed since, `rt run` does so. The archive of `testbed`,
# the exports, is made by `rt lib`, which proves that crate once more, over what earlier checks kept: `rt ci` makes none.
set -euo pipefail
cd "$(dirname "$0")/.."
mkdir -p target/tests

quietly() { # NAME COMMAND..: what the command says is shown where it fails
    "${@:2}" > "target/tests/$1.log" 2>&1 || { tail -n 40 "target/tests/$1.log"; exit 1; }
}

in_crate() ( # NAME COMMAND..
    cd "crates/$1" && "${@:2}"
)

proved() { # NAME: sees to the program crates/NAME/out/NAME
    local program=crates/$1/out/$1
    if [ ! -x "$program" ] || [ -n "$(find crates/*/src crates/*/specs crates/*/proofs crates.txt -newer "$program" -print -quit)" ]; then
        quietly "$1" in_crate "$1" rt run < /dev/null
    fi
}

built() { # NAME SOURCE [WORDS]: a program of tests/second, as target/tests/NAME
    rustc -O --edition 2021 "${@:3}" "tests/second/$2" -o "target/tests/$1"
}

with_library() { # NAME SOURCE: the same, with the proved library
    built "$1" "$2" --cfg proved -L crates/testbed/out -l static=testbed
}

beside() { # NAME COMMAND: begins the command; what it says is shown by `ended NAME`
    "$2" > "target/tests/$1.log" 2>&1 &
    begun[$1]=$!
}

ended() { # NAME
    local status=0
    wait "${begun[$1]}" || status=$?
    cat "target/tests/$1.log"
    return "$status"
}

second_alone() {
    built selftest selftest.rs --test
    target/tests/selftest --quiet
    built rules_check rules_check.rs --test
    target/tests/rules_check --quiet
    built programs_compare programs_compare.rs
    target/tests/programs_compare --self-check 2000
    built second second.rs
    tests/run-examples.sh target/tests/second
    built second-bcpl bcpl.rs
    tests/run-examples.sh target/tests/second-bcpl tests/examples b
    tests/run-examples.sh target/tests/second-bcpl examples b
}

commands() {
    proved minicode
    proved bcpl
    tests/run-examples.sh crates/minicode/out/minicode
    tests/messages.sh crates/minicode/out/minicode
    tests/run-examples.sh crates/bcpl/out/bcpl tests/examples b
    tests/run-examples.sh crates/bcpl/out/bcpl examples b
    tests/both-ways.sh crates/bcpl/out/bcpl crates/minicode/out/minicode tests/examples examples
    tests/manual.sh crates/bcpl/out/bcpl crates/minicode/out/minicode docs/MANUAL.md docs/TUTORIAL.md
    quietly try in_crate bcpl rt try -- data/commas.b < crates/bcpl/stdin
}

texts_and_sources() {
    with_library compare compare.rs
    target/tests/compare --self-check
    target/tests/compare
    with_library sources_compare sources_compare.rs
    target/tests/sources_compare --self-check 20000
    target/tests/sources_compare 20000
}

declare -A begun
beside alone second_alone
commands
quietly testbed in_crate testbed rt lib
ended alone
beside texts texts_and_sources
with_library programs_compare_proved programs_compare.rs
target/tests/programs_compare_proved 30000
ended texts
