#!/bin/sh
# The program rehearse prints the expected lines for every case, and for inputs that come in pieces, are empty, too long
# or not there at all; no case is lost; and the commands of bin/ tell of texts and bytes as they say. (tests/statuses.sh
# tries them with stand-ins for the programs.)
set -u
script=rehearse.sh
. tests/counting
. tests/inputs
there assemble disassemble explain picture rehearse survey
program=$programs/rehearse
cases=$(pwd)/tests/cases
command=$(pwd)/bin/rehearse
# A program that hangs fails its test, where the system can stop it.
limit=
if command -v timeout >/dev/null; then limit='timeout 10'; fi

# prints NAME EXPECTED: on this function's standard input the program prints the file EXPECTED, and ends well.
prints() {
    $limit "$program" >"$work/printed" 2>"$work/errors"
    status=$?
    cmp "$2" "$work/printed" && [ "$status" -eq 0 ] && [ ! -s "$work/errors" ]
    ended $? "$1: other lines than expected, or status $status"
}

# The cases

assembled
ended $? 'the text of a case has a fault'
for input in "$inputs"/*.in; do
    [ -e "$input" ] || continue
    name=$(basename "$input" .in)
    prints "case $name" "$cases/$name.out" <"$input"
done
for part in in out; do
    for file in "$inputs"/*."$part" "$cases"/*."$part"; do
        [ ! -e "$file" ] || basename "$file" ".$part"
    done | sort >"$work/$part"
done
[ -s "$work/in" ]
ended $? 'there are no cases'
cmp "$work/in" "$work/out"
ended $? 'a case has no .out, or an .out has no case'
# shellcheck disable=SC2086
awk 'FNR == 1 && !/^# [[:alnum:]]/ { print FILENAME; bad = 1 } END { exit bad }' $texts
ended $? 'these texts do not begin with a comment that says what they are'
by_python 'tests/rehearsals.py works out other lines, or EVENINGS.md tells others' tests/rehearsals.py cases

# Inputs of any length, however they come

first=$inputs/00001.in
if [ ! -s "$first" ]; then
    ended 1 'case 00001 is not there, and what follows needs it'
    finish
fi
mkfifo "$work/pipe" || exit 1
in_pieces() {
    dd bs=1 count=1 2>/dev/null
    sleep 1
    dd bs=7 count=1 2>/dev/null
    sleep 1
    cat
}
in_pieces <"$first" >"$work/pipe" &
prints 'an input in pieces' "$cases/00001.out" <"$work/pipe"

# doubled TIMES: the file script, so often doubled.
doubled() {
    i=0
    while [ $i -lt "$1" ]; do
        cat "$work/script" "$work/script" >"$work/twice"
        mv "$work/twice" "$work/script"
        i=$((i + 1))
    done
}

# The longest playbook has 64 plans of 3 bytes, 512 changes of 10, here 8 to a plan, and an end; the longest script is
# 8,192 bytes, here of 'deliver place 0', which is empty: 26. A byte n stands before them.
longest=$((1 + 64 * 3 + 512 * 10 + 1 + 8192))
changes='\0022\0000\0002\0012\0000\0000\0000\0010\0000\0003'
changes=$changes$changes$changes$changes$changes$changes$changes$changes
{
    printf '\004'
    i=0
    while [ $i -lt 64 ]; do
        printf '%b' "\\0021\\000$((i / 8))\\000$((i % 8))$changes"
        i=$((i + 1))
    done
    printf '\023'
} >"$work/book"
printf '\046\000' >"$work/script"
doubled 12
cat "$work/book" "$work/script" >"$work/longest"
{ cat "$work/longest" && printf '\046'; } >"$work/longer"
doubled 7
cat "$work/book" "$work/script" >"$work/million"
[ "$(wc -c <"$work/longest")" -eq $longest ] && [ "$(wc -c <"$work/longer")" -eq $((longest + 1)) ] &&
    [ "$(wc -c <"$work/million")" -gt 1000000 ]
ended $? 'the long inputs are not as long as they should be'
awk 'BEGIN { for (i = 1; i <= 4096; i++) print i, 26, 0 }' >"$work/expected"
prints "an input of $longest bytes" "$work/expected" <"$work/longest"
echo '0 28 0' >"$work/expected"
prints "an input of $((longest + 1)) bytes" "$work/expected" <"$work/longer"
prints 'an input of a million bytes' "$work/expected" <"$work/million"
cat "$work/million" >"$work/pipe" 2>/dev/null &
prints 'a million bytes through a pipe' "$work/expected" <"$work/pipe"
echo '0 30 0' >"$work/expected"
prints 'an empty input' "$work/expected" </dev/null
# With standard input closed there is nothing to read. The program ends by itself; what it prints then is left open.
$limit "$program" <&- >"$work/printed" 2>&1
[ $? -lt 124 ]
ended $? 'the program does not end by itself when standard input is closed'

# bin/rehearse

in_folder() {
    (cd "$1" && shift && "$@")
}
tried 'a file' 0 "$cases/00001.out" '*00001.in is in bytes' "$command" "$first"
tried 'a file beside it, from another folder' 0 "$cases/00001.out" '*: 00001.in is in bytes' \
    in_folder "$inputs" "$command" 00001.in
tried 'standard input' 0 "$cases/00001.out" '*standard input is in bytes' "$command" - <"$first"

# The notation, and what is printed of it

evening=second-evening
text=$(pwd)/examples/$evening.txt
bytes=$(pwd)/examples/$evening.bin
tried 'the notation' 0 "$cases/$evening.out" "*$evening.txt is in the notation" "$command" "$text"
tried 'the notation from standard input' 0 "$cases/$evening.out" '*standard input is in the notation' \
    "$command" - <"$text"
tried 'an explanation of bytes, the option last' 0 "examples/$evening.explained.txt" '*in bytes' "$command" \
    "$bytes" --explain
tried 'a picture' 0 "$cases/$evening.out" '*notation' "$command" --picture "$work/evening.svg" "$text"
cmp "examples/$evening.svg" "$work/evening.svg"
ended $? 'bin/rehearse --picture writes another picture'
plain <"$text" >"$work/plain"
"$command" --expand "$text" 2>/dev/null | plain | cmp - "$work/plain"
ended $? 'bin/rehearse --expand prints another text'

# An explanation of a text has the line of each record. The evening's records stand one to a line, and its script begins
# behind the line `end`.
grep -n '^[a-z]' "$text" | sed '1,/:end/d; s/:.*//' >"$work/numbers"
awk -v numbers="$work/numbers" '
    /^[0-9]+ [0-9]+ [0-9]+  / { getline n <numbers; printf "line %s: ", n }
    { print }' "examples/$evening.explained.txt" >"$work/explained"
[ "$(grep -c '^line ' "$work/explained")" -eq "$(wc -l <"$cases/$evening.out")" ]
ended $? 'the expected explanation lacks lines'
tried 'an explanation' 0 "$work/explained" '*notation' "$command" --explain "$text"
tried 'a picture and an explanation' 0 "$work/explained" '*notation' "$command" --explain \
    --picture "$work/evening.svg" "$text"

# Faults, with their lines

sed 's/^end/emd/' "$text" >"$work/faulty.txt"
tried 'a faulty text' 3 /dev/null '*faulty.txt:13: expected plan, change, end, *found emd*' \
    in_folder "$work" "$command" faulty.txt
echo '0 15 0' >"$work/expected"
sed 's/10.1.0.0\(.16 port 3\)/10.1.0.1\1/' "$text" >"$work/refused.txt"
tried 'a rule that is not well formed' 4 "$work/expected" '*notation*refused.txt:10: refused, *' \
    "$command" "$work/refused.txt"
tried 'a rule that is not well formed, --check' 4 /dev/null '*refused.txt:10: refused, *' \
    "$command" --check "$work/refused.txt"
"$programs/assemble" <"$work/refused.txt" >"$work/refused.in" 2>/dev/null
"$programs/rehearse" <"$work/refused.in" | cmp - "$work/expected"
ended $? 'bin/rehearse and the program rehearse tell a refused playbook otherwise'
tried 'a rule that is not well formed, in bytes' 4 "$work/expected" \
    '*in bytes*refused.in: record 2 of the playbook: refused, *' "$command" "$work/refused.in"
"$programs/explain" <"$work/refused.in" >"$work/explained"
tried 'a rule that is not well formed, explained' 4 "$work/explained" '*refused.txt:10: refused, *' \
    "$command" --explain "$work/refused.txt"
echo '0 31 0' >"$work/expected"
sed '/^end/d' "$text" >"$work/refused.txt"
tried 'a playbook without its end' 4 "$work/expected" '*notation*refused.txt:15: refused, *' \
    "$command" "$work/refused.txt"
echo '0 30 0' >"$work/expected"
echo 'controllers 4' >"$work/refused.txt"
tried 'a playbook that is not there' 4 "$work/expected" '*notation*refused.txt: refused, *' \
    "$command" "$work/refused.txt"
echo '0 20 0' >"$work/expected"
printf '# many\ncontrollers 17\nend\n' >"$work/refused.txt"
tried 'too many controllers' 4 "$work/expected" '*notation*refused.txt:2: refused, *' "$command" "$work/refused.txt"
echo '1 31 0' >"$work/expected"
printf 'controllers 4 # four\n\nend\n\n# the script\nplan switch 1 cause 1\nend\n' >"$work/refused.txt"
tried 'a plan in the script' 4 "$work/expected" '*notation*refused.txt:6: the script stops here, *no record*' \
    "$command" "$work/refused.txt"
# The same with a mark before it and with carriage returns, as other systems write text.
{ printf '\357\273\277' && sed "s/\$/$(printf '\r')/" "$work/refused.txt"; } >"$work/foreign.txt"
tried 'a plan in a foreign script' 4 "$work/expected" '*notation*foreign.txt:6: the script stops here, *' \
    "$command" "$work/foreign.txt"
echo '1 30 0' >"$work/expected"
printf 'controllers 4\nend\n\nbytes 22 00\n' >"$work/refused.txt"
tried 'a record that is cut' 4 "$work/expected" '*notation*refused.txt:4: the script stops here, *ends within*' \
    "$command" "$work/refused.txt"
printf 'controllers 4\r\n\r\nplan switch 1 cause 1\r\n\r\nsend controller 0 switch 1\r\n' >"$work/foreign.txt"
echo '0 31 0' >"$work/expected"
tried 'a foreign playbook without its end' 4 "$work/expected" '*notation*foreign.txt:5: refused, *' \
    "$command" "$work/foreign.txt"

# --check and --strict

"$command" --check "$text" >"$work/printed" 2>/dev/null && [ -s "$work/printed" ] &&
    ! grep -q '^[0-9]* [0-9]*$' "$work/printed"
ended $? 'bin/rehearse --check tells nothing of a good playbook, or the numbers that it is for itself'
# The second evening has records 14 and 23 refused by 17, 16 by 18 and 17 by 14.
grep -n '^[a-z]' "$text" | sed '1,/:end/d; s/:.*//' | sed -n '14p; 16p; 17p; 23p' | tr '\n' ' ' >"$work/lines"
read -r a b c d <"$work/lines"
says="*:$a: record 14 is refused by 17*:$b: record 16 is refused by 18*:$c: record 17 is refused by 14"
tried '--strict' 4 "$cases/$evening.out" "$says*:$d: record 23 is refused by 17" "$command" --strict "$text"

# Every case has the form that it has: those without a visible character, or with a byte that no text has, are bytes.
# A case that is refused before its script, or whose script stops, has status 4.
for input in "$inputs"/*.in; do
    name=$(basename "$input" .in)
    status=0
    case $(tail -n 1 "$cases/$name.out") in
    '0 '* | *' 30 0' | *' 31 0') status=4 ;;
    esac
    tried "case $name" $status "$cases/$name.out" '*is in bytes*' "$command" "$input"
done

# assemble and disassemble

tried 'assemble' 0 "$bytes" '' bin/assemble "$text"
tried 'assemble, a faulty text' 3 /dev/null '*faulty.txt:13: expected plan, change, end, *' \
    bin/assemble "$work/faulty.txt"
bin/disassemble "$bytes" >"$work/told.txt" 2>"$work/errors"
[ ! -s "$work/errors" ]
ended $? 'bin/disassemble says something on standard error'
tried 'disassemble, and assemble what it prints' 0 "$bytes" '' bin/assemble - <"$work/told.txt"
tried 'disassemble, too many bytes' 3 /dev/null '*million: expected at most 16384 bytes' \
    bin/disassemble "$work/million"
bin/disassemble "$text" 2>&1 >"$work/told.txt" | grep -q 'txt looks like text, and is taken as bytes$'
ended $? 'bin/disassemble says nothing of a text'

finish
