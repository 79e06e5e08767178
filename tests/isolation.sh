#!/bin/sh
# bin/isolation on plans and links: what it says and its status, the rehearsal of each no at rest, the picture, and bad
# input. The sentences follow from the plans. Counts of states and steps for far-first and under-way are those of the laws
# in isolation/proofs/Evenings.antt, but for the 3 states once the move is made: two for A and one for B.
set -u
script=isolation.sh
. tests/counting
there assemble disassemble survey rehearse links isolated
kept=tests/isolation
plans=examples/isolation

# says WHAT STATUS WORDS..: bin/isolation ends so and prints these lines.
says() {
    what=$1 status=$2 words=$3
    shift 3
    bin/isolation "$@" >"$work/printed" 2>"$work/errors"
    got=$?
    printf '%s' "$words" | cmp -s - "$work/printed" && [ $got -eq "$status" ] && [ ! -s "$work/errors" ]
    ended $? "$what: status $got, not $status, or other words: $(cat "$work/printed" "$work/errors")"
}

# refuses WHAT STATUS PATTERN COMMAND..: bin/isolation prints nothing, ends so, and says something like PATTERN.
refuses() {
    what=$1 status=$2 pattern=$3
    shift 3
    tried "$what" "$status" /dev/null "$pattern" bin/isolation "$@"
}

# rehearsed WHAT NUMBERS: the rehearsal that was written makes these changes, in this order, and no other.
rehearsed() {
    "$programs/assemble" <"$work/shown.txt" 2>/dev/null | "$programs/rehearse" >"$work/lines"
    [ "$(awk '$2 == 1 { printf " %d", $3 }' "$work/lines")" = "$2" ] && ! awk '$2 > 2 { found = 1 } END { exit !found }' "$work/lines"
    ended $? "$1: its rehearsal does not make exactly the changes$2"
}

# shown PAGE: every line that was printed last stands in a page.
shown() {
    while IFS= read -r line; do
        grep -qxF "$line" "$1" || return 1
    done <"$work/printed"
}

# Plans

says 'the far switch first' 0 "no order of arrival takes a result off its lab's links: 13 states checked
nor one under way while tables change: 8 steps checked
2 clients, 7 links, 6 changes of 2 decisions
" $plans/far-first.txt $plans/links.txt
shown README.md
ended $? 'README shows other words for the far switch first'
says 'the near switch first' 6 'packets of A to 10.1.0.0 leave switch 5 by port 2, a link of B, once changes 1 3 4 5 are made
their way: switch 1 port 2, switch 5 port 2
' --rehearsal "$work/shown.txt" --picture "$work/shown.svg" $plans/near-first.txt $plans/links.txt
shown README.md && shown docs/ISOLATION.md
ended $? 'README or docs/ISOLATION.md shows other words for the near switch first'
rehearsed 'the near switch first' ' 1 3 4 5'
cmp "$work/shown.svg" $plans/near-first.svg
ended $? "$plans/near-first.svg is not the picture of its plan"
[ "$(grep -c '#d00000' "$work/shown.svg")" -eq 3 ]
ended $? 'the way that crosses is not drawn in red, two steps and a legend'
says 'two flows do not wait for each other' 6 'packets of A to 10.1.0.0 leave switch 5 by port 2, a link of B, once changes 1 3 4 6 are made
their way: switch 1 port 2, switch 5 port 2
' --rehearsal "$work/shown.txt" $kept/two-flows.txt $plans/links.txt
rehearsed 'two flows' ' 1 3 4 6'
says 'clean at rest, and not under way' 6 "while all stands still no order of arrival takes a result off its lab's links: 12 states checked
packets of A to 10.1.0.0 that are under way may leave switch 4 by port 2, a link of B, once changes 1 2 3 4 5 6 are made
" $plans/under-way.txt $plans/links.txt
shown docs/ISOLATION.md
ended $? 'docs/ISOLATION.md shows other words for the move'
says 'once the move is made' 0 "no order of arrival takes a result off its lab's links: 3 states checked
nor one under way while tables change: 3 steps checked
2 clients, 7 links, 6 changes of 2 decisions, those up to 5 made
" --settled 5 $plans/under-way.txt $plans/links.txt
says 'where a prefix ends' 6 'packets of A to 10.1.128.0 leave switch 1 by port 3, a link of B, once changes 1 2 are made
their way: switch 1 port 3
' --rehearsal "$work/shown.txt" $kept/upper-half.txt $kept/upper-half.links.txt
rehearsed 'where a prefix ends' ' 1 2'
printf 'client B 0.0.0.0/0 at switch 3\n' >"$work/bare.txt"
says 'a port without a link' 6 'packets of B to 0.0.0.0 leave switch 3 by port 65535, which has no link, once changes 1 are made
their way: switch 3 port 65535
' --rehearsal "$work/shown.txt" $kept/no-link.txt "$work/bare.txt"
rehearsed 'a port without a link' ' 1'
bin/isolation $kept/lost.txt $plans/links.txt >"$work/printed" 2>&1
[ $? -eq 0 ] && grep -qx 'note: packets of A to 10.1.0.0 are lost at switch 4, once changes 1 are made' "$work/printed"
ended $? 'packets that are lost past their first switch get no note'

# The two evenings, in text and in bytes

for name in first second; do
    for form in txt bin; do
        bin/isolation examples/$name-evening.$form $plans/$name-evening.links.txt >"$work/printed" 2>"$work/errors"
        [ $? -eq 0 ] && grep -q "^no order of arrival takes a result off its lab's links: " "$work/printed"
        ended $? "the $name evening ($form) is not found to keep to its links: $(cat "$work/printed" "$work/errors")"
    done
done

# Every list of decisions, and budgets

bin/isolation --any 2 $plans/far-first.txt $plans/links.txt >"$work/printed" 2>&1
[ $? -eq 0 ] && grep -q '^no order of arrival .*: 6 lists of up to 2 decisions, ' "$work/printed"
ended $? "not every list of two decisions was found fine: $(cat "$work/printed")"
bin/isolation --any 2 $plans/near-first.txt $plans/links.txt >"$work/printed" 2>&1
[ $? -eq 6 ] && grep -q ', in list [0-9]* of 6: switch 2 cause 1, then switch 4 cause 1$' "$work/printed"
ended $? "the list that crosses was not told: $(cat "$work/printed")"
sed 's/^agreed.*//' $plans/near-first.txt >"$work/any.txt"
bin/isolation --any 3 --rehearsal "$work/shown.txt" "$work/any.txt" $plans/links.txt >"$work/printed" 2>&1
[ $? -eq 6 ] && grep -q ', in list [0-9]* of 14: switch 2 cause 1, then switch 4 cause 1$' "$work/printed"
ended $? "an evening without decisions was not tried with every list: $(cat "$work/printed")"
rehearsed 'every list' ' 1 3 4 5'
says 'a budget that is too small' 7 'undecided: 12 states were not enough; give a larger --budget, --settled, or fewer decisions
' --budget 12 $plans/far-first.txt $plans/links.txt
bin/isolation --budget 13 $plans/far-first.txt $plans/links.txt >"$work/printed" 2>&1
ended $? 'the least budget is not enough'

# Bad input

far=$plans/far-first.txt
net=$plans/links.txt
: >"$work/empty"
refuses 'an empty text of links' 3 "$work/empty:1: expected a client line*" $far "$work/empty"
refuses 'an empty evening' 4 "$work/empty*" "$work/empty" $net
for line in 'link switch 16 port 1 to outside of A' 'link switch 1 port 0 to outside of A' 'client A 10.1.0.0/16' \
    'client A 10.1.0.1/16 at switch 1' 'link switch 1 port 1 to switch 16 of A'; do
    printf '# a fault\n%s\n' "$line" >"$work/bad.txt"
    refuses "$line" 3 "$work/bad.txt:2: *" $far "$work/bad.txt"
done
head -c 3000 /dev/urandom >"$work/noise"
for side in "$work/noise $net" "$far $work/noise"; do
    # shellcheck disable=SC2086
    bin/isolation $side >/dev/null 2>"$work/errors"
    case $? in
    3 | 4) [ -s "$work/errors" ] ;;
    *) false ;;
    esac
    ended $? "noise is not refused with words: $side"
done
sed 's/^agreed.*//' $far >"$work/none.txt"
refuses 'no decision' 3 "$work/none.txt: nothing is decided*" "$work/none.txt" $net
{ cat "$work/none.txt" && echo 'decide controller 0 switch 2 serial 1 cause 1' && echo 'decide controller 1 switch 4 serial 1 cause 1'; } >"$work/apart.txt"
refuses 'different lists' 3 "*controllers 0 and 1 decide different lists*" "$work/apart.txt" $net
{ cat "$work/none.txt" && echo 'agreed switch 2 serial x cause 1'; } >"$work/worse.txt"
refuses 'a faulty agreed line' 3 "$work/worse.txt:*: expected *" "$work/worse.txt" $net
refuses 'a missing file' 2 'bin/isolation: cannot read *' $far "$work/missing"
refuses 'one file' 2 '*usage: bin/isolation *' $far
refuses 'a budget that is no number' 2 '*--budget is a number*' --budget x $far $net
refuses 'a list of four decisions' 2 '*--any is a number from 1 to 3*' --any 4 $far $net
refuses 'settled numbers of many lists' 2 '*--settled speaks*' --any 2 --settled 1 $far $net
refuses 'a picture over the links' 2 '* is read, and nothing is written there' --picture $net $far $net
bin/isolation --help >"$work/printed" && grep -q '^  8   a program crashed$' "$work/printed"
ended $? 'the help does not list every status'

# More changes than there is room for: 17 plans of 16 changes

{
    echo controllers 4
    plan=0
    while [ $plan -lt 17 ]; do
        echo "plan switch 1 cause $plan"
        change=0
        while [ $change -lt 16 ]; do
            echo "change flow 0 switch $change 10.1.0.0/16 port 1"
            change=$((change + 1))
        done
        plan=$((plan + 1))
    done
    echo end
    plan=0
    while [ $plan -lt 17 ]; do
        echo "agreed switch 1 serial $((plan + 1)) cause $plan"
        plan=$((plan + 1))
    done
} >"$work/many.txt"
says 'too many changes' 4 '272 changes are agreed, and the check has room for 256; give fewer decisions
' "$work/many.txt" $net
finish
