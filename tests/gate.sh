#!/bin/sh
# The gate tells the truth about its stages: it is run on a small tree with a stand-in for rt that passes, fails, has a bad
# edit, tries nothing, or dies, and its last line and exit status are compared with what they should be.
set -u
gate=$(pwd)/.ci/run
tree=${TMPDIR:-/tmp}/gate-test.$$
trap 'rm -rf "$tree"' EXIT
mkdir -p "$tree/.ci" "$tree/bin" "$tree/crates/one" "$tree/tests" || exit 1
cp "$gate" "$tree/.ci/run"
scratch=$tree
path=$PATH
passed=0
failed=0

# rt_does CI: what the stand-in does where it is asked for a plain rt ci; all else that it is asked for fails.
rt_does() {
    printf '#!/bin/sh\n[ "$*" = ci ] || exit 9\n[ -f crates.txt ] || exit 9\n%s\n' "$1" >"$tree/bin/rt"
    chmod +x "$tree/bin/rt"
}

# expect NAME STATUS LINE: runs the gate on the tree. LINE is a pattern: how far a killed stage came may differ.
expect() {
    out=$(PATH="$tree/bin:$path" TMPDIR="$scratch" sh "$tree/.ci/run" 2>&1)
    status=$?
    last=$(echo "$out" | tail -n 1)
    tallies=$(echo "$out" | grep -cE '^[0-9]+ passed, [0-9]+ failed')
    case $status,$tallies,$last in
    $2,1,$3)
        passed=$((passed + 1))
        ;;
    *)
        failed=$((failed + 1))
        echo "$1: status $status, $tallies tallies, last line: $last; expected status $2, one tally, and: $3"
        ;;
    esac
}

printf '# a comment: none\none staticlib may_wait=1: other\n' >"$tree/crates.txt"
# said EDITS: the last lines of rt ci where all is well, with what its line 'rt: ok' says of the must-fail edits.
said() {
    echo "echo 'rt: ok; handles allowed: none$1; every proof and must-fail edit was done in this run'"
}
edits='; must-fail edits: 3 refused'
good="$(said "$edits"); echo '7 passed, 0 failed'"
rt_does "$good"
expect 'all stages pass' 0 '9 passed, 0 failed'
rt_does "$(said ''); echo '7 passed, 0 failed'"
expect 'there is no must-fail edit' 0 '9 passed, 0 failed'
rt_does "$(said "$edits, 2 of them only by a limit"); echo '7 passed, 0 failed'"
expect 'two edits are refused by a limit' 0 '9 passed, 0 failed'
rt_does "$(said "$edits, 1 bad"); echo '7 passed, 0 failed'"
expect 'an edit is bad' 1 '8 passed, 1 failed'
rt_does "$(said "$edits, 2 of them only by a limit, 12 bad"); echo '7 passed, 0 failed'"
expect 'twelve edits are bad' 1 '8 passed, 1 failed'
rt_does "$(said '; must-fail edits: 0 refused, 1 bad'); echo '7 passed, 0 failed'"
expect 'the only edit is bad' 1 '8 passed, 1 failed'
rt_does 'echo "7 passed, 0 failed"'
expect 'rt does not tell of its edits' 1 '8 passed, 1 failed'
rt_does 'echo "6 passed, 2 failed"; exit 1'
expect 'proofs fail' 1 '7 passed, 2 failed'
rt_does "$good; exit 3"
expect 'rt ends with a status after a good tally' 1 '8 passed, 1 failed'
rt_does "$(said ''); echo '0 passed, 0 failed'"
expect 'rt tries nothing' 1 '2 passed, 1 failed'
rt_does "$(said '')"
expect 'rt ends well and counts nothing' 1 '2 passed, 1 failed'
rt_does 'echo "5 passed, 0 failed"; kill -KILL $$'
expect 'rt is killed' 1 '* passed, 1 failed'
rt_does 'kill -TERM $PPID; sleep 1; '"$good"
expect 'the stage is killed' 1 '* passed, 1 failed'
rt_does 'kill -TERM $(ps -o ppid= -p $PPID); '"$good"
expect 'the gate is killed' 1 '1 passed, 1 failed'
rt_does "$good"
mkdir "$tree/crates/two"
expect 'a crate is not listed' 1 '8 passed, 1 failed'
rmdir "$tree/crates/two"
echo 'echo "4 passed, 0 failed"' >"$tree/tests/four.sh"
expect 'a script passes' 0 '13 passed, 0 failed'
echo 'echo "3 passed, 1 failed"' >"$tree/tests/four.sh"
expect 'a script counts a failure and exits well' 1 '12 passed, 1 failed'
echo 'echo "not run: no tool for it"' >"$tree/tests/four.sh"
expect 'a script is not run' 0 '9 passed, 0 failed'
echo 'echo "not run: no tool for it"; exit 1' >"$tree/tests/four.sh"
expect 'a script is not run and fails' 1 '9 passed, 1 failed'
echo 'exit 0' >"$tree/tests/four.sh"
expect 'a script counts nothing' 1 '9 passed, 1 failed'
echo 'exit 2' >"$tree/tests/four.sh"
expect 'a script fails' 1 '9 passed, 1 failed'
rm "$tree/tests/"*.sh
scratch=$tree/nowhere
expect 'there is no place for its files' 1 '0 passed, 1 failed'
scratch=$tree
rm "$tree/bin/rt"
for tool in cat dirname grep mkdir mv rm sed sh tail tee; do
    ln -s "$(command -v $tool)" "$tree/bin/$tool"
done
path=$tree/bin
expect 'the kit is missing' 1 '1 passed, 1 failed'

echo "$passed passed, $failed failed"
[ "$failed" -eq 0 ]
