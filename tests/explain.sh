#!/bin/sh
# For every case: `explain` prints the case's own lines beside its words, all of it is as tests/stories.py computes it,
# and `picture` draws the same records with the same words, and marks as tests/pictures.py expects them. The verdicts of
# tests/verdicts stand beside their texts; they were written by hand from the definitions of tests/verdict.py.
set -u
script=explain.sh
. tests/counting
. tests/inputs
there assemble explain picture

assembled
ended $? 'the text of a case has a fault'
for input in "$inputs"/*.in; do
    name=tests/cases/$(basename "$input" .in)
    "$programs/explain" <"$input" >"$work/explained"
    grep '^[0-9]* [0-9]* [0-9]*  ' "$work/explained" >"$work/told"
    sed 's/^\([0-9]* [0-9]* [0-9]*\)  .*/\1/' "$work/told" | cmp - "$name.out"
    ended $? "$name is explained beside other lines than its own"
    "$programs/picture" <"$input" >"$work/picture"
    case $(cat "$work/told") in
    '0 '*) grep -q "^<text class='heading' [^>]*>$(cat "$name.out")<" "$work/picture" ;;
    *) sed -n 's/.*<title>\([0-9]* [0-9]* [0-9]*  [^<]*\)<.*/\1/p' "$work/picture" | cmp - "$work/told" ;;
    esac
    ended $? "$name is drawn with other words than it is explained in"
done
verdicts=$work/verdicts
mkdir "$verdicts"
for text in tests/verdicts/*.txt; do
    name=$(basename "$text" .txt)
    "$programs/assemble" <"$text" >"$verdicts/$name.in" 2>"$work/said"
    "$programs/explain" <"$verdicts/$name.in" | sed -n '/^verdict$/,$p' | cmp - "tests/verdicts/$name.out"
    ended $? "tests/verdicts/$name.out is not the verdict on $text"
done
by_python 'tests/stories.py computes other explanations' tests/stories.py compare "$programs/explain" \
    "$inputs"/*.in "$verdicts"/*.in

# More rules under one number than there are letters, numbers of ten digits, decisions past change 99, and a band that
# begins at such a change.
crowded() {
    end='controller 0 switch 5'
    echo 'controllers 1'
    echo 'plan switch 5 cause 1'
    k=0
    while [ $k -lt 32 ]; do
        echo 'change flow 0 switch 5 10.0.0.0/8 port 1'
        k=$((k + 1))
    done
    echo end
    echo "decide $end serial 1 cause 1"
    for number in 32 64 96; do
        echo "decide $end serial $number cause 1"
        echo "raw switch 5 share $end number $number 10.0.0.0/8 port 1 key $end"
        echo "report switch 5 controller 0"
    done
    echo "keep $end place 0"
    k=0
    while [ $k -lt 28 ]; do
        echo "raw switch 5 share $end number 4294967295 10.$k.0.0/16 port 1 key $end"
        echo 'deliver place 0'
        k=$((k + 1))
    done
}
crowded | "$programs/assemble" >"$work/crowded.in" 2>"$work/lines"
by_python 'tests/pictures.py expects other pictures' tests/pictures.py "$programs/picture" "$programs/explain" \
    "$inputs"/*.in "$work/crowded.in"
finish
