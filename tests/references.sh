#!/bin/sh
# The cases of the test programs, and the lines they must print, are what tests/trials.py, drills.py, flowmods.py and
# duties.py work out from the papers alone. The compiled drive is then run on many more calls than its file has.
set -u
export PYTHONDONTWRITEBYTECODE=1
if ! command -v python3 >/dev/null; then
    echo "not run: tests/references.sh needs Python 3"
    exit 0
fi
passed=0
failed=0
ended() {
    if [ "$1" -eq 0 ]; then
        passed=$((passed + 1))
    else
        echo "$2"
        failed=$((failed + 1))
    fi
}

for part in stdin stdout; do
    python3 tests/trials.py "$part" | cmp -s - "crates/trials/$part"
    ended $? "crates/trials/$part is not what tests/trials.py works out"
    { python3 tests/drills.py "$part" && python3 tests/flowmods.py "$part" && python3 tests/duties.py "$part"; } |
        cmp -s - "crates/drive/$part"
    ended $? "crates/drive/$part is not what tests/drills.py, flowmods.py and duties.py work out"
done

work=${TMPDIR:-/tmp}/references.$$
mkdir "$work" || exit 1
for calls in drills flowmods duties; do
    python3 "tests/$calls.py" stdout long >"$work/expected"
    python3 "tests/$calls.py" stdin long | crates/drive/out/drive >"$work/printed"
    [ -s "$work/expected" ] && cmp "$work/expected" "$work/printed"
    ended $? "drive does not print what tests/$calls.py works out for the long list of calls"
done
rm -rf "$work"

echo "$passed passed, $failed failed"
[ "$failed" -eq 0 ]
