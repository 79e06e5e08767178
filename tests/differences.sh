#!/bin/sh
# drive, rehearse and flowmods print what the Rust side of tests/rust has for random and damaged inputs of a fixed seed,
# call by call; isolated answers what trying everything finds there; random runs keep what document 01 claims of a run;
# the Rust side passes its own tests; and every fault that is seeded in it (tests/differences/traps) is found. Every pair
# of call and answer that the documents allow is met, or a test fails.
set -u
if ! cargo --version >/dev/null 2>&1; then
    echo 'not run: tests/differences.sh needs cargo'
    exit 0
fi
. tests/inputs
drive=crates/drive/out/drive
rehearse=crates/rehearse/out/rehearse
flowmods=crates/flowmods/out/flowmods
isolated=crates/isolated/out/isolated
for program in $drive $rehearse $flowmods $isolated crates/assemble/out/assemble; do
    if [ ! -x "$program" ]; then
        echo "tests/differences.sh: $program is not there; rt ci makes it, or rt run in its crate's folder"
        echo '0 passed, 1 failed'
        exit 1
    fi
done
work=${TMPDIR:-/tmp}/differences-test.$$
lanes=
trap 'kill $lanes 2>/dev/null; rm -rf "$work"' EXIT
trap 'exit 1' HUP INT TERM
mkdir "$work" || exit 1
programs=$(pwd)/crates/assemble/out
# What cargo keeps for itself goes to the temporary folder, what it builds to target.
CARGO_HOME=$work/home
CARGO_TARGET_DIR=$(pwd)/target/differences
export CARGO_HOME CARGO_TARGET_DIR
build='cargo build --quiet --offline --locked'
compare=$CARGO_TARGET_DIR/release/differences
# A program that hangs fails its test, where the system can stop it.
limit=
if command -v timeout >/dev/null; then limit='timeout 120'; fi
passed=0
failed=0

# ended STATUS NAME FILE: counts a test; a failed one shows what it printed at last.
ended() {
    if [ "$1" -eq 0 ]; then
        passed=$((passed + 1))
    else
        echo "tests/differences.sh: $2"
        tail -n 20 "$3"
        failed=$((failed + 1))
    fi
}

# The fixed run of each kind, with the seed 1.
fixed_calls="calls --scripts 160 --drive $drive"
fixed_rehearsals="rehearsals --scripts 600 --rehearse $rehearse"
fixed_flowmods="flowmods --scripts 300 --flowmods $flowmods"
fixed_isolation="isolation --scripts 4000 --isolated $isolated"
fixed_runs="runs --scripts 240"

# Seeded faults: each is made in a copy, built, and must be found by every check that its `by` line names.

# found EDIT LANE: whether the fault is found; says what went wrong otherwise.
found() {
    name=$(basename "$1" .edit)
    copy=$work/$name
    mkdir -p "$copy/rust" "$copy/differences" || return 1
    for part in rust differences; do
        cp -R "tests/$part/Cargo.toml" "tests/$part/Cargo.lock" "tests/$part/src" "$copy/$part" || return 1
    done
    "$compare" edit "$1" "$copy/rust" || return 1
    CARGO_TARGET_DIR=$work/built.$2 $build --profile quick --manifest-path "$copy/differences/Cargo.toml" || return 1
    checks=$(sed -n 's/^by //p' "$1")
    [ -n "$checks" ] || return 1
    for check in $checks; do
        case $check in
        calls) run=$fixed_calls ;;
        rehearsals) run=$fixed_rehearsals ;;
        flowmods) run=$fixed_flowmods ;;
        isolation) run=$fixed_isolation ;;
        runs) run=$fixed_runs ;;
        *) return 1 ;;
        esac
        # shellcheck disable=SC2086
        $limit "$work/built.$2/quick/differences" $run >"$copy/$check" 2>&1
        if [ $? -ne 1 ] || ! grep -q '^script [0-9]*: ' "$copy/$check"; then
            echo "not found by $check: $(tail -n 1 "$copy/$check")"
            return 1
        fi
    done
}

# lane NUMBER: every second fault, one after another.
lane() {
    turn=0
    for edit in tests/differences/traps/*.edit; do
        turn=$((turn + 1))
        [ $((turn % 2)) -eq "$1" ] || continue
        name=$(basename "$edit" .edit)
        if found "$edit" "$1" >"$work/$name.log" 2>&1; then
            echo "$name" >>"$work/found.$1"
        fi
    done
}

if ! $build --release --manifest-path tests/differences/Cargo.toml; then
    echo 'tests/differences.sh: tests/differences is not built'
    echo '0 passed, 1 failed'
    exit 1
fi
for kind in calls rehearsals flowmods isolation runs; do
    eval "run=\$fixed_$kind"
    # shellcheck disable=SC2086
    $limit "$compare" $run --pairs >"$work/$kind" 2>&1
    ended $? "$kind" "$work/$kind"
    tail -n 1 "$work/$kind"
done
# Comparing a run's calls takes longer than checking it.
$limit "$compare" runs --scripts 24 --drive $drive >"$work/compared" 2>&1
ended $? 'runs compared' "$work/compared"
tail -n 1 "$work/compared"
assembled >"$work/tests" 2>&1 &&
    cargo test --quiet --offline --locked --release --manifest-path tests/rust/Cargo.toml >>"$work/tests" 2>&1
ended $? "the Rust side's own tests" "$work/tests"

: >"$work/found.0"
: >"$work/found.1"
lane 0 &
lanes=$!
lane 1 &
lanes="$lanes $!"
wait
lanes=
for edit in tests/differences/traps/*.edit; do
    name=$(basename "$edit" .edit)
    grep -qx "$name" "$work/found.0" "$work/found.1"
    ended $? "the fault $name" "$work/$name.log"
done

echo "$passed passed, $failed failed"
[ "$failed" -eq 0 ]
