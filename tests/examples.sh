#!/bin/sh
# The examples are what the programs make of their texts: the bytes, the lines of the case with the same name, the text
# again, the explanation and the picture. README and docs/PLANNING.md show what is there: their lines of an explanation
# are the program's, their rehearsals have the answers that they tell, and their commands run. The pictures of docs/ are
# what their script draws.
set -u
script=examples.sh
. tests/counting
there assemble disassemble explain flowlist flowmods isolated links picture rehearse survey

# The examples

names=
for text in examples/*.txt; do
    case $text in
    *.explained.txt) continue ;;
    esac
    name=${text%.txt}
    "$programs/assemble" <"$text" >"$work/bytes" 2>/dev/null
    cmp "$name.bin" "$work/bytes"
    ended $? "$name.bin is not what $text is assembled to"
    "$programs/rehearse" <"$name.bin" | cmp - "tests/cases/${name#examples/}.out"
    ended $? "$name.bin prints other lines than the case of that name"
    plain <"$text" >"$work/plain"
    "$programs/disassemble" <"$name.bin" | plain | cmp - "$work/plain"
    ended $? "$name.bin is told by another text than $text"
    "$programs/explain" <"$name.bin" | cmp - "$name.explained.txt"
    ended $? "$name.explained.txt is not the explanation of $name.bin"
    "$programs/picture" <"$name.bin" | cmp - "$name.svg"
    ended $? "$name.svg is not the picture of $name.bin"
    names="$names ${name#examples/}"
done
[ "$names" = ' first-evening second-evening' ]
ended $? 'the examples are not the two evenings'
[ "$(find examples -maxdepth 1 -type f | wc -l)" -eq 8 ]
ended $? 'an example has more or fewer files than text, bytes, explanation and picture'

# README and the planner's page

# block PAGE BEGINNING: the part of a page between fences whose first line begins so.
block() {
    awk -v start="$2" '
        /^```/ { inside = !inside; first = 1; next }
        inside && first { shown = index($0, start) == 1; first = 0 }
        inside && shown
    ' "$1"
}
page=docs/PLANNING.md
block README.md '6 ' >"$work/excerpt"
[ -s "$work/excerpt" ] && ! grep -v -x -F -f examples/second-evening.explained.txt "$work/excerpt"
ended $? 'README tells the second evening otherwise than it is explained'

# Its first rehearsal prints the lines of the table behind it, and two of them are explained, with their lines.
block $page '# tonight.txt' >"$work/tonight.txt"
"$programs/assemble" <"$work/tonight.txt" 2>/dev/null >"$work/tonight.bin"
"$programs/rehearse" <"$work/tonight.bin" >"$work/lines"
sed -n 's/^| `\([0-9]* [0-9]* [0-9]*\)` .*/\1/p' $page >"$work/told"
[ -s "$work/told" ] && cmp "$work/told" "$work/lines"
ended $? "$page tells other lines of tonight.txt than are printed"
"$programs/explain" <"$work/tonight.bin" | grep '^[0-9]* [0-9]* [0-9]*  ' >"$work/explained"
awk '{ sub(/#.*/, "") } NF && end { print "line " NR ": " } $1 == "end" { end = 1 }' "$work/tonight.txt" |
    paste -d '\0' - "$work/explained" >"$work/numbered"
block $page 'line ' >"$work/excerpt"
[ -s "$work/excerpt" ] && ! grep -v -x -F -f "$work/numbered" "$work/excerpt"
ended $? "$page explains tonight.txt otherwise"
"$programs/explain" <"$work/tonight.bin" | sed -n '/^verdict/,$p' >"$work/verdict"
block $page verdict | cmp - "$work/verdict"
ended $? "$page has another verdict of tonight.txt"

# Nine changes, worked out by hand from document 01. In a round switch 5 comes first, then 7 and 9, each with the four
# controllers; reports stand before shares.
# four ANSWER FIGURE: the same for each controller.
four() {
    printf '%s\n' "$1 $2" "$1 $2" "$1 $2" "$1 $2"
}
# made BEFORE NUMBER: a switch at one change makes another: held, applied, and two shares too late.
made() {
    printf '%s\n' "0 $1" "1 $2" "16 $2" "16 $2"
}
{
    four 0 9
    # Nobody has news, and change 1 alone waits for nothing.
    four 2 9 && four 2 9 && four 2 9
    four 26 0 && four 26 0 && made 0 1
    # Change 1 is told: change 2 of its flow and change 4 on its switch are ready.
    four 2 9 && four 2 9 && four 0 8
    four 26 0 && made 0 2 && made 1 4
    # Changes 2 and 4 are told: 3 waited for 2, 5 for both, 7 for 4.
    four 2 8 && four 0 7 && four 0 6
    made 0 3 && made 2 5 && made 4 7
    # Changes 3, 5 and 7 are told: 6 waited for 3 and 5, 8 for 5 and 7. Switch 9 has made all of its own.
    four 0 5 && four 0 4 && four 0 3
    made 3 6 && made 5 8 && four 26 7
    # Changes 6 and 8 are told: 9 waited for both.
    four 0 2 && four 0 1 && four 2 1
    made 6 9 && four 26 8 && four 26 7
    # Change 9 is told.
    four 0 0 && four 2 0 && four 2 0
} | awk '{ print NR, $0 }' >"$work/told"
block $page '# nine.txt' >"$work/nine.txt"
"$programs/assemble" <"$work/nine.txt" 2>/dev/null >"$work/nine.bin"
"$programs/rehearse" <"$work/nine.bin" | cmp - "$work/told"
ended $? "nine.txt of $page has other answers than were worked out by hand"
"$programs/survey" <"$work/nine.bin" | sed 1d >"$work/uses"
block $page '1 of 64 plans' | cmp - "$work/uses"
ended $? "nine.txt of $page uses more or less of the limits than the page says"

# What its table of mistakes quotes is said, and the fault below it.
# says EDIT WORDS: tonight.txt with an edit is explained with these words, and so the page says.
says() {
    sed "$1" "$work/tonight.txt" | "$programs/assemble" 2>/dev/null | "$programs/explain" | grep -q -F "$2" &&
        grep -q -F "\`$2\`" $page
    ended $? "tonight.txt with the edit $1 is not explained with: $2; or $page quotes that otherwise"
}
says '' 'nothing is ready to send: change 2 waits for change 1 on switch 2'
says '/^decide controller 1/d' 'has 1 of 2 controllers'
says '/^decide controller 1/i\
decide controller 0 switch 5 serial 1 cause 1
' 'its serial is not above the last one decided for that switch, 0 at first'
says 's/serial 1 cause 1/serial 1 cause 2/' 'taken, and no change is planned for it'
says 's/^decide controller 1/decide controller 4/' 'there is no controller 4'
says 's/10\.0\.0\.0\/8 port 2/10.0.0.1\/8 port 2/' 'a length above 32, or bits of the address past its length'
says '/^end/i\
plan switch 5 cause 1
' 'two plans have the same switch and cause'
says '/^end/d' 'a playbook has plans and changes only, and ends with end'
says '/^end/a\
plan switch 6 cause 1
' 'here the script stops: refused, a script has no such record'
sed '4s/switch/swich/' "$work/tonight.txt" >"$work/faulty.txt"
"$programs/assemble" <"$work/faulty.txt" 2>&1 | sed 's/^/tonight.txt:/' >"$work/fault"
block $page tonight.txt: | cmp - "$work/fault"
ended $? "the fault of $page is told otherwise"

# FLOW_MODs of the first evening in words, and what the page says of refusals.
{ printf '\005' && cat examples/first-evening.bin; } | "$programs/flowlist" >"$work/list"
block $page 'change ' >"$work/told"
[ -s "$work/told" ] && cmp "$work/told" "$work/list"
ended $? "$page lists other FLOW_MODs of the first evening"
# refuses STATUS WORDS SWITCH EDIT: bin/flowmods says this of tonight.txt with an edit, and so the page says.
refuses() {
    mkdir -p "$work/edited"
    sed "$4" "$work/tonight.txt" >"$work/edited/tonight.txt"
    said=$(cd "$work/edited" && "$top/bin/flowmods" "$3" tonight.txt 2>&1 >"$work/printed")
    [ $? -eq "$1" ] && [ "$said" = "$2" ] && grep -q -F "| \`$2\` | $1 |" $page
    ended $? "bin/flowmods $3 of tonight.txt with the edit $4 says: $said; or $page tells it otherwise"
}
refuses 3 'bin/flowmods: there is no switch 16: switches are 0 to 15 (12)' 16 ''
refuses 3 'tonight.txt:4: expected switch, found swich; did you mean switch?' 2 '4s/switch/swich/'
refuses 3 'tonight.txt:6: refused, a length above 32, or bits of the address past its length' 2 \
    's/10\.0\.0\.0\/8 port 2/10.0.0.1\/8 port 2/'
refuses 4 'tonight.txt:19: the script stops here, since this is no record of a script' 2 '$a\
plan switch 6 cause 1
'

# The commands of both pages end well, but for those that show a FILE. Files without a folder stand in this run's own.
for shown in README.md $page; do
    block "$shown" bin/
done | grep '^bin/[a-z]* ' | grep -v ' FILE' | sed "s| \([a-z]*\.[a-z]*\)| $work/\1|g" >"$work/commands"
[ -s "$work/commands" ]
ended $? 'no page shows a command'
while read -r line; do
    eval "$line" >"$work/printed" 2>"$work/errors" </dev/null && [ -s "$work/printed" ]
    ended $? "this command of a page prints nothing or fails: $line: $(head -n 3 "$work/errors")"
done <"$work/commands"

by_python 'the pictures of docs/ are not what docs/pictures/draw.py draws' docs/pictures/draw.py compare

finish
