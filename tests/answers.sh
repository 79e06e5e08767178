#!/bin/sh
# docs/ANSWERS.md has every answer with its number, its name and the words that the programs print for it, and marks the
# refusals that --strict counts. The check is then tried: it must find each fault that is put into a copy of the page,
# the constants, the words or the commands.
set -u
if ! command -v python3 >/dev/null; then
    echo "not run: tests/answers.sh needs Python 3"
    exit 0
fi
script=answers.sh
. tests/counting

python3 tests/answers.py
ended $? 'docs/ANSWERS.md differs from the constants of crates/answer or from the words in the code'

# fresh: a copy of what is compared.
fresh() {
    rm -rf "$work/tree"
    mkdir -p "$work/tree/docs" && cp docs/ANSWERS.md "$work/tree/docs" && cp -R bin "$work/tree" || exit 1
    for crate in answer story faults; do
        [ -d "crates/$crate/src" ] || continue
        mkdir -p "$work/tree/crates/$crate/src" && cp crates/$crate/src/*.rt "$work/tree/crates/$crate/src" || exit 1
    done
}

# finds EDIT FAULT PATH..: with this edit of one of these files, whichever it fits, exactly this fault is told.
finds() {
    edit=$1
    fault=$2
    shift 2
    fresh
    fits=1
    for path; do
        [ -e "$path" ] || continue
        sed "$edit" "$path" >"$work/tree/$path"
        cmp -s "$path" "$work/tree/$path" || fits=0
    done
    ended $fits "nothing fits the edit $edit"
    found=$(python3 tests/answers.py "$work/tree")
    [ "$found" = "$fault" ]
    ended $? "with $edit this is told: '$found', not: '$fault'"
}

page=docs/ANSWERS.md
finds 's/^| 16 |/| 13 |/' 'NOT_ABOVE_APPLIED is 16, not 13' $page
finds '/^| 27 |/d' 'SERIALS_EXHAUSTED has no row' $page
finds 's/^\(| 27 .*\)$/\1%\1/; y/%/\n/' 'SERIALS_EXHAUSTED has 2 rows' $page
finds 's/| 35 | TRIGGER_USED |/| 35 | TRIGGER_TAKEN |/' "TRIGGER_USED has no row
there is no constant TRIGGER_TAKEN
TRIGGER_TAKEN is never told as 'two plans have the same switch and cause'" $page
finds 's/`its tag does not match`/`its tag does match`/' \
    "WRONG_TAG is told as 'its tag does not match', which its row has not
WRONG_TAG is never told as 'its tag does match'" $page
finds 's/, `nothing is kept in that place`/, `nothing was kept in that place`/' \
    "NOTHING_TO_SEND is never told as 'nothing was kept in that place'" $page
finds 's/`it does not fit`//' "DOES_NOT_FIT is told as 'it does not fit', which its row has not
DOES_NOT_FIT has no words" $page
finds 's/`taken as changes .. to ..`/`taken as changes .. up to ..`/' \
    "DONE is never told as 'taken as changes .. up to ..'" $page
finds 's/WRONG_KIND: u8 = 11/WRONG_KIND: u8 = 9/' 'WRONG_KIND is 9, not 11' crates/answer/src/lib.rt
finds 's/^pub const BYTES_LEFT: .*/&pub const QUITE_NEW: u8 = 40;/; s/;pub/;%pub/; y/%/\n/' 'QUITE_NEW has no row' \
    crates/answer/src/lib.rt
finds 's/"the places are 0 to 63"/"the places are 0 to 99"/' \
    "UNKNOWN_PLACE is told as 'the places are 0 to 99', which its row has not
UNKNOWN_PLACE is never told as 'the places are 0 to 63'" crates/story/src/*.rt crates/faults/src/*.rt
finds 's/"two plans have/"some plans have/' \
    "TRIGGER_USED is told as 'some plans have the same switch and cause', which its row has not
TRIGGER_USED is never told as 'two plans have the same switch and cause'" crates/story/src/*.rt crates/faults/src/*.rt

# counts LIST FAULT: with a command whose strict refusals are these, exactly this fault is told.
counts() {
    fresh
    rm "$work/tree/bin/"*
    printf 'case $option in --strict) ;; esac\ncase $answer in\n%s) exit 4 ;;\nesac\n' "$1" >"$work/tree/bin/rehearse"
    found=$(python3 tests/answers.py "$work/tree")
    [ "$found" = "$2" ]
    ended $? "of the strict refusals $1 this is told: '$found', not: '$2'"
}

marked='[12, 13, 14, 15, 17, 18, 22, 29, 31]'
counts '12 | 13 | 14 | 15 | 17 | 18 | 22 | 29 | 31' ''
counts '12|13|14|15|17|18|22|29|31' ''
counts '12|13|14|15|17|18|22|29' "bin/ counts [12, 13, 14, 15, 17, 18, 22, 29], and not the strict refusals $marked"
counts '12|13|14|15|17|18|19|22|29|31' \
    "bin/ counts [12, 13, 14, 15, 17, 18, 19, 22, 29, 31], and not the strict refusals $marked"
counts 1 "bin/ does not count the strict refusals $marked"
finish
