#!/bin/sh
# The gate. First the prover over every crate (`rt ci`), then the tests, by the command given, on the programs that the prover linked and
# on libraries of the same sources.
#
#     gate.sh COMMAND [WORD...]
#
# The last line is the prover's verdict, taken from what it printed, and it stands there only if everything passed. Each line of
# the prover is shown behind `rt ci: `, so that no line before the last can be taken for the verdict; target/rt-ci.out has them all.
set -u

fail() {
    echo "gate: failed: $*"
    exit 1
}

# Prints the last line of the prover's output, if the prover ended with status 0 and that line says that nothing failed.
verdict() {
    [ "$(cat "$store/status")" = 0 ] && tail -n 1 "$store/out" | grep -x '[0-9][0-9]* passed, 0 failed'
}

# Whether the prover's line `rt: ok` stands there once, and tells of no bad edit: one that could not be tried shows nothing, and the
# prover passes it all the same.
every_edit_tried() {
    [ "$(grep -c '^rt: ok; ' "$store/out")" = 1 ] && ! grep -q '^rt: ok; .*, [0-9][0-9]* bad' "$store/out"
}

# Puts the programs that the prover linked where the tests look for them.
take_programs() {
    mkdir -p target/bin || return
    for main in crates/*/src/main.rt; do
        name=${main#crates/}
        name=${name%/src/main.rt}
        cp "crates/$name/out/$name" "target/bin/$name" || return
    done
}

store=$(mktemp -d) || fail "no room for the prover's output"
trap 'rm -rf "$store"' EXIT

{
    rt ci 2>&1
    echo $? >"$store/status"
} | tee "$store/out" | sed -u 's/^/rt ci: /'
mkdir -p target && cp "$store/out" target/rt-ci.out || fail "no room for the prover's output"
verdict >"$store/verdict" || fail "the prover"
every_edit_tried || fail "an edit that could not be tried"
take_programs || fail "a program that the prover did not link"
"$@" || fail "the tests"
verdict || fail "the prover"
