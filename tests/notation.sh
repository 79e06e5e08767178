#!/bin/sh
# Every case's text is assembled to bytes that `disassemble` tells by the same text, up to comments and spacing, and the
# map names the lines that have records. Both programs do what tests/notation.py computes, on the cases, on random and
# damaged inputs and texts, in shorthand too, and on each fault of the page. Lost output is told.
set -u
script=notation.sh
. tests/counting
. tests/inputs
there assemble disassemble

# mapped MAP TEXT: the lines of the text that the map names, without comments and free spacing.
mapped() {
    awk 'NR == FNR { named[$1]; next } FNR in named' "$1" "$2" | plain
}

# again TEXT: it and its bytes come back, with maps that name all its lines, and nothing else is on standard error.
again() {
    plain <"$1" >"$work/plain"
    "$programs/assemble" <"$1" >"$work/bytes" 2>"$work/map" &&
        mapped "$work/map" "$1" | cmp - "$work/plain" &&
        "$programs/disassemble" <"$work/bytes" >"$work/text" 2>"$work/errors" &&
        plain <"$work/text" | cmp - "$work/plain" &&
        "$programs/assemble" <"$work/text" 2>"$work/map" | cmp - "$work/bytes" &&
        mapped "$work/map" "$work/text" | cmp - "$work/plain" && [ ! -s "$work/errors" ]
}

for text in $texts; do
    again "$text"
    ended $? "$text does not come back"
done
by_python 'tests/notation.py computes something else' tests/notation.py compare "$programs"

# lost STATUS WHERE: assemble said that its output, which went there, was lost, and no more.
lost() {
    [ "$1" -eq 0 ] && [ "$(cat "$work/errors")" = 'not all of the output could be written' ]
    ended $? "assemble does not tell that its output to $2 is lost"
}
"$programs/assemble" <examples/second-evening.txt 2>"$work/errors" >&-
lost $? 'a closed descriptor'
if [ -c /dev/full ]; then
    "$programs/assemble" <examples/second-evening.txt 2>"$work/errors" >/dev/full
    lost $? /dev/full
fi
finish
