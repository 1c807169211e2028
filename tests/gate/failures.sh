#!/bin/sh
# Shows that the gate fails when it must: small repositories with one fault each are put through gate.sh, and each has to end with
# another status than 0 and a last line that is no verdict. One without a fault has to pass, by the prover's own verdict.
set -u

gate=$(cd "$(dirname "$0")" && pwd)/gate.sh
room=$(mktemp -d) || exit 1
trap 'rm -rf "$room"' EXIT
mkdir "$room/runs" "$room/failed"

# A repository of a library with one edit that must be refused, and of a program that writes nothing.
repository() { # FOLDER
    mkdir -p "$1/.git" "$1/crates/seven/src" "$1/crates/seven/must-fail" "$1/crates/silent/src"
    printf 'seven:\nsilent: seven\n' >"$1/crates.txt"
    cat >"$1/crates/seven/src/lib.rt" <<'RATTLE'
// A library of one function.
#![tactic(auto)]

ghost use Rattle.std.specs.Prelude.{◌≡◌};

pub fn seven() -> usize
    ensures { result ≡ 7 }
{
    7
}
RATTLE
    printf 'file: src/lib.rt\nold:     7\nnew:     8\n' >"$1/crates/seven/must-fail/eight.edit"
    printf '// Writes nothing.\n#![tactic(auto)]\n\nfn main() {}\n' >"$1/crates/silent/src/main.rt"
}

# Puts a repository through the gate with the tests COMMAND, and says whether it ended as it must: with `passes` by status 0, with
# `fails` by another, with that last line, and with that text before it, which is the reason.
expect() { # passes|fails LAST-LINE TEXT FOLDER COMMAND [WORD...]
    wanted=$1 line=$2 text=$3 folder=$4
    shift 4
    name=$(basename "$folder")
    (cd "$folder" && sh "$gate" "$@") >"$room/runs/$name" 2>&1
    status=$?
    last=$(tail -n 1 "$room/runs/$name")
    case $wanted in
    passes) [ "$status" -eq 0 ] ;;
    fails) [ "$status" -ne 0 ] ;;
    esac && [ "$last" = "$line" ] && grep -q "$text" "$room/runs/$name" && echo "the gate $wanted as it must: $name" && return
    cat "$room/runs/$name"
    echo "the gate did not end as it must: $name ended with status $status"
    : >"$room/failed/$name"
}

# The same with a prover that prints what the true one printed for `whole`, changed by a filter, and ends with a status of its own.
expect_with_prover() { # LAST-LINE FOLDER STATUS FILTER
    wanted_last=$1
    shift
    mkdir -p "$1" "$room/bin"
    printf '#!/bin/sh\n[ "$1" = ci ] || exit 0\n%s <"%s"\nexit %s\n' "$3" "$room/whole/target/rt-ci.out" "$2" >"$room/bin/rt"
    chmod +x "$room/bin/rt"
    (
        PATH=$room/bin:$PATH
        expect fails "$wanted_last" 'rt ci: ' "$1" true
    )
}

repository "$room/whole"
repository "$room/failing_test"
repository "$room/not_proved"
sed -i 's/≡ 7/≡ 8/' "$room/not_proved/crates/seven/src/lib.rt"
repository "$room/edit_not_refused"
printf 'file: src/lib.rt\nold: pub fn seven() -> usize\nnew: pub fn  seven() -> usize\n' >"$room/edit_not_refused/crates/seven/must-fail/eight.edit"
repository "$room/other_output"
echo spoken >"$room/other_output/crates/silent/stdout"
repository "$room/not_laid_out"
printf '// Writes nothing.\n#![tactic(auto)]\n\nfn main() { }\n' >"$room/not_laid_out/crates/silent/src/main.rt"
repository "$room/bad_edit"
printf 'file: src/lib.rt\nold:     9\nnew:     8\n' >"$room/bad_edit/crates/seven/must-fail/nine.edit"

expect passes '3 passed, 0 failed' 'rt ci: 3 passed, 0 failed' "$room/whole" test -x target/bin/silent &
expect fails 'gate: failed: the tests' 'rt ci: 3 passed, 0 failed' "$room/failing_test" false &
wait
expect fails 'gate: failed: the prover' 'seven NOT PROVED' "$room/not_proved" true &
expect fails 'gate: failed: the prover' 'seven/eight.edit: NOT REFUSED' "$room/edit_not_refused" true &
wait
expect fails 'gate: failed: the prover' 'what the program wrote, .* is not what its file stdout has' "$room/other_output" true &
expect fails 'gate: failed: the prover' 'not in the layout' "$room/not_laid_out" true &
expect fails 'gate: failed: an edit that could not be tried' 'nine.edit: BAD EDIT' "$room/bad_edit" true &
wait
expect_with_prover 'gate: failed: the prover' "$room/missing_verdict" 0 "sed '\$d'"
expect_with_prover 'gate: failed: the prover' "$room/verdict_before_the_last_line" 0 'sed "\$arefused"'
expect_with_prover 'gate: failed: the prover' "$room/status_not_0" 1 cat
expect_with_prover 'gate: failed: an edit that could not be tried' "$room/missing_count_of_edits" 0 "sed '/^rt: ok;/d'"

[ "$(ls "$room/runs" | wc -l)" -eq 11 ] || { echo "the gate: not every case was tried"; exit 1; }
[ -z "$(ls "$room/failed")" ]
