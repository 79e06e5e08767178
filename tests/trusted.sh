#!/bin/sh
# docs/TRUSTED.md is the map that tests/trusted.py makes of the definitions, and somebody uses every definition. The
# script is then tried on a copy of the tree: it must tell a definition that nobody uses, and count one that the claim
# uses.
set -u
if ! command -v python3 >/dev/null; then
    echo "not run: tests/trusted.sh needs Python 3"
    exit 0
fi
script=trusted.sh
. tests/counting

python3 tests/trusted.py >"$work/page" && cmp docs/TRUSTED.md "$work/page"
ended $? 'docs/TRUSTED.md is not the map; python3 tests/trusted.py >docs/TRUSTED.md makes it'
python3 tests/trusted.py dead
ended $? 'some definitions serve nobody'

# rows PAGE: how many lines the first table counts of a file that the claim uses, and how many it has.
rows() {
    sed -n 's/^| protocol\/specs\/Orders.antt | \([0-9]*\) of \([0-9]*\) .*/\1 \2/p' "$1" | head -n 1
}

tree=$work/tree
mkdir -p "$tree/docs" || exit 1
copied "$tree" crates.txt tests && cp docs/CLAIMS.md "$tree/docs" || exit 1
cd "$tree" || exit 1
set -- $(rows "$work/page")
printf '\nabbrev pub fallen : List ℕ → List ℕ\nfallen ks = falling ks\n' >>crates/protocol/specs/Orders.antt
python3 tests/trusted.py dead 2>&1 | grep -qx 'nobody uses fallen of crates/protocol/specs/Orders.antt'
ended $? 'a definition that nobody uses is not told'
python3 tests/trusted.py >"$work/other"
[ "$(rows "$work/other")" = "$1 $(($2 + 2))" ]
ended $? 'a definition that nobody uses is counted with the claim'
sed -i.bak -e 's/{falling}/{falling, fallen}/' -e 's/(falling (answered r))).refused/(fallen (answered r))).refused/' \
    crates/domain/specs/Claim.antt
python3 tests/trusted.py dead 2>&1 | grep -q fallen
[ $? -ne 0 ]
ended $? 'a definition that the claim uses is told to serve nobody'
python3 tests/trusted.py >"$work/other"
[ "$(rows "$work/other")" = "$(($1 + 2)) $(($2 + 2))" ]
ended $? 'a definition that the claim uses is not counted with it'
finish
