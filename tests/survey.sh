#!/bin/sh
# For every case, and for inputs at and past each limit of document 01, `survey` prints what tests/surveys.py computes;
# and it refuses exactly the cases that `rehearse` refuses before their script, with the same answer.
set -u
script=survey.sh
. tests/counting
. tests/inputs
there assemble survey

assembled
ended $? 'the text of a case has a fault'
for input in "$inputs"/*.in; do
    name=tests/cases/$(basename "$input" .in)
    answer=$("$programs/survey" <"$input" | sed -n '1s/ .*//p')
    case $(cat "$name.out") in
    '0 '*) [ "0 $answer 0" = "$(cat "$name.out")" ] ;;
    *) [ "$answer" = 0 ] ;;
    esac
    ended $? "$name is refused otherwise by survey"
done
by_python 'tests/surveys.py computes other surveys' tests/surveys.py compare "$programs/survey" "$inputs"/*.in
finish
