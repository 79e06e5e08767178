#!/bin/sh
# Every law, definition and must-fail edit that docs/CLAIMS.md cites is where it says; every must-fail edit is cited, and
# still fits the crate that it edits; each claim has an id. Every decision that the tree cites is in docs/DECISIONS.md,
# which lists each once. The checks of the two pages are then tried on damaged copies, which they must refuse.
set -u
if ! command -v python3 >/dev/null; then
    echo "not run: tests/claims.sh needs Python 3"
    exit 0
fi
script=claims.sh
. tests/counting

for test in claims edits decisions; do
    python3 "tests/$test.py"
    ended $? "tests/$test.py finds a fault"
done

# refuses TEST PAGE EDIT SAYS: of the page, edited by sed, the test says this, and it ends with status 1.
refuses() {
    sed "$3" "$2" >"$work/page"
    ! cmp -s "$2" "$work/page"
    ended $? "'$3' alters nothing in $2"
    said=$(python3 "tests/$1.py" "$work/page")
    [ $? -eq 1 ] && printf '%s\n' "$said" | grep -q "^$4"
    ended $? "tests/$1.py does not say '$4' of '$3', but: $said"
}

page=docs/CLAIMS.md
refuses claims $page 's/^| D1\.3 |/| D1.2 |/' 'the id D1\.2 does not rise'
refuses claims $page '/^| D2\.4 |/{h;d;};/^| D2\.5 |/G' 'the id D2\.4 does not rise'
refuses claims $page 's/^| D1\.3 |/| |/' 'a row has no id: '
refuses claims $page 's/^| D3\.2 |/| D2.2 |/' 'the ids of one table begin in more than one way: D3\.1 '
refuses claims $page 's/^| E\([0-9]* |\)/| S\1/' 'the id S1 is in two tables'
refuses claims $page 's/`demand3` (domain/`demand4` (domain/' 'demand4 is not in crates/domain/proofs/Theorem\.antt'
refuses claims $page 's/`tag\/tag_of_15_bytes`/`tag\/tag_of_14_bytes`/' 'there is no must-fail edit tag/tag_of_14_bytes'
refuses claims $page 's/, `edges\/quorum_of_four_is_one`//' 'no claim cites the must-fail edit edges/quorum_of_four_is_one'
page=docs/DECISIONS.md
refuses decisions $page 's/^\*\*96\. /**97. /' 'decision 97 stands more than once'
refuses decisions $page '/^\*\*5\. /{h;d;};/^\*\*6\. /G' 'decision 5 stands behind decision 6'
refuses decisions $page 's/^\*\*93\. /**93 /' 'decision 93 is missing, and not withdrawn'
refuses decisions $page 's/^\*\*65\. /**165. /' '.* cites decision 65, which is not there'
refuses decisions $page 's/^Withdrawn: /&8, a reason; /' 'decision 8 is withdrawn, and still there'
refuses decisions $page '/^| \*\*7\.\*\* /s/ N / T /' 'the table at the top is another one'
finish
