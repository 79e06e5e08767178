# What the commands of this folder share. Each reads it in, with its own name in `command`.
# shellcheck shell=sh disable=SC2154

newline='
'

# say WORDS: a line on standard error.
say() {
    printf '%s\n' "$1" >&2
}

# fail STATUS WORDS: says why this command ends, and ends it.
fail() {
    say "bin/$command: $2"
    exit "$1"
}

# Where standard error is closed, no file may take its place.
true 3>&2 || exec 2>/dev/null
{ true 3>&1; } 2>/dev/null || fail 5 'standard output is closed'

root=$(CDPATH='' cd -- "$(dirname -- "$(readlink -f -- "$0")")/.." && pwd -P) || exit 2

# The run's own folder `work`, a file `beside` that it is writing elsewhere, and rt while it runs: none of these stays
# behind.
work=
beside=
proving=
swept() {
    # rt leads a group of its own, which its provers are in, where `prove` could make one.
    [ -z "$proving" ] || kill -s TERM -- "-$proving" 2>/dev/null || kill -s TERM "$proving" 2>/dev/null
    [ -z "$beside" ] || rm -f -- "$beside"
    [ -z "$work" ] || rm -rf "$work"
}
trap swept EXIT
trap 'exit 129' HUP
trap 'exit 130' INT
trap 'exit 5' PIPE
trap 'exit 143' TERM

# with_folder: makes the folder `work`, which nobody else can read.
with_folder() {
    place=${TMPDIR:-/tmp}
    work=$(mktemp -d "$place/wedgelily.XXXXXX" 2>/dev/null) && return
    (umask 077 && mkdir "$place/wedgelily.$$") 2>/dev/null || fail 5 "cannot make a folder in $place"
    work=$place/wedgelily.$$
}

# lost: ends a run whose output has no room.
lost() {
    fail 5 'not all of the output could be written'
}

# print FILE: a file of this run on standard output.
print() {
    { cat "$1"; } 2>/dev/null || lost
}

# writable FILE: refuses a file that cannot be written.
writable() {
    folder=$(dirname -- "$1")
    if [ -d "$1" ] || { [ -e "$1" ] && [ ! -w "$1" ]; } || [ ! -d "$folder" ] ||
        { [ ! -e "$1" ] && [ ! -w "$folder" ]; }; then
        fail 5 "cannot write $1"
    fi
}

# put FROM FILE: a file of this run in its place: whole or not at all where a file can be made beside it. A link stays a
# link.
put() {
    place=$(readlink -f -- "$2")
    if { [ ! -e "$place" ] || [ -f "$place" ]; } && [ -w "$(dirname -- "$place")" ]; then
        beside=$place.$$
        { (set -C && cat "$work/$1" >"$beside") && mv -f -- "$beside" "$place"; } 2>/dev/null
    else
        { cat "$work/$1" >"$2"; } 2>/dev/null
    fi || fail 5 "cannot write $2"
}

# Building

# crates_of PROGRAM..: the crates that these are made of, each behind those that it is built on.
crates_of() {
    awk -v programs="$*" '
        function add(name, count, part, i) {
            if (!(name in parts) || name in added) return
            added[name] = 1
            count = split(parts[name], part, " ")
            for (i = 1; i <= count; i++) add(part[i])
            print name
        }
        { sub(/#.*/, "") }
        split($0, half, ":") == 2 { split(half[1], word, " "); parts[word[1]] = half[2] }
        END {
            count = split(programs, asked, " ")
            for (i = 1; i <= count; i++) add(asked[i])
        }' "$root/crates.txt"
}

# older FILE CRATE..: whether FILE is not there, or older than a source, definition or proof of these crates.
older() {
    made=$1
    shift
    [ -e "$made" ] || return 0
    for crate; do
        shift
        for part in src specs proofs; do
            [ ! -d "$root/crates/$crate/$part" ] || set -- "$@" "$root/crates/$crate/$part"
        done
    done
    newer=$(find "$root/crates.txt" "$@" -newer "$made") && [ -z "$newer" ] || return 0
    return 1
}

# built PROGRAM: whether it is there, and as new as everything that it is made of. rt puts it beside its sources.
built() {
    # shellcheck disable=SC2046
    [ -x "$root/crates/$1/out/$1" ] && ! older "$root/crates/$1/out/$1" $(crates_of "$1")
}

# ready PROGRAM..: proves and builds those that are not built, by a run of rt for each, which proves the crates below it
# first. `wanted` has all programs that this run may come to.
ready() {
    missing=
    for program; do
        built "$program" || missing="$missing $program"
    done
    [ -n "$missing" ] || return 0
    # shellcheck disable=SC2086
    set -- $missing
    command -v rt >/dev/null ||
        fail 2 'no rt command: it is the Rattle kit, prover and compiler in one, and nothing can be built without it'
    for crate in $(crates_of "$@"); do
        folder=$root/crates/$crate/out
        if ! mkdir -p "$folder" 2>/dev/null || [ ! -w "$folder" ]; then
            fail 1 "crates/$1/out/$1 must be built, and $folder cannot be written"
        fi
    done
    [ -e "$work/due" ] || announce
    for program; do
        : >"$work/started"
        prove "$program" || unbuilt "$program"
        # rt does not build again what has not changed. A file that changed while rt ran stays newer than what was built.
        for crate in $(crates_of "$program"); do
            touch -c -r "$work/started" "$(made_of "$crate")"
        done
    done
}

# unbuilt PROGRAMS: shows what rt said, and ends.
unbuilt() {
    cat "$work/said" >&2
    fail 1 "could not be built: $1"
}

# made_of CRATE: the file that shows whether the crate was proved since it changed.
made_of() {
    if [ -e "$root/crates/$1/src/main.rt" ]; then
        echo "$root/crates/$1/out/$1"
    else
        echo "$root/crates/$1/out/rlib/stamp"
    fi
}

# announce: says before the first proof how much there is to prove; `due` has these crates, a line each.
announce() {
    # shellcheck disable=SC2046,SC2086
    for each in $(crates_of $wanted); do
        ! older "$(made_of "$each")" $(crates_of "$each") || echo "$each"
    done >"$work/due"
    : >"$work/proved"
    began=$(date +%s)
    ended_last=$began
    tell_pace
    meanwhile=
    [ "$command" != rehearse ] || [ -n "$only" ] || meanwhile='; examples/second-evening.explained.txt shows what will come'
    crates=crates
    [ "$of" -ne 1 ] || crates=crate
    say "bin/$command: proves and builds its programs first, once: $of $crates, $still$meanwhile"
}

# tell_pace: how many of the crates are proved (`count`, `of`), and how long the others will take (`still`). It scales
# the figures of measured.txt by the time that the crates so far took, as if a minute of proofs had gone before them at
# the usual pace.
tell_pace() {
    pace=$(awk -v elapsed=$(($(date +%s) - began)) '
        function seconds(name) { return name in measured ? measured[name] : sum / known }
        FILENAME ~ /measured.txt$/ { if (!/^#/) { measured[$1] = $2; sum += $2; known++ } next }
        FILENAME ~ /due$/ { due[$1] = 1; next }
        { proved[$1] = 1 }
        NF > 1 { due[$1] = 1; behind += seconds($1) }
        END {
            for (name in due) {
                of++
                if (name in proved) count++
                else ahead += seconds(name)
            }
            left = ahead * (elapsed + 60) / (behind + 60)
            if (left < 90) about = int(left / 10 + 1) * 10 " seconds"
            else about = int((left + 30) / 60) " minutes"
            print count + 0, of + 0, "about " about
        }' "$root/bin/measured.txt" "$work/due" "$work/proved")
    count=${pace%% *}
    pace=${pace#* }
    of=${pace%% *}
    still=${pace#* }
}

# tell_crate CRATE: tells that this crate is proved: on a terminal over the last such line. Those below it are, too: rt
# is silent about what was proved before.
tell_crate() {
    took=$(($(date +%s) - ended_last))
    ended_last=$((ended_last + took))
    crates_of "$1" | sed '$d' >>"$work/proved"
    echo "$1 $took" >>"$work/proved"
    tell_pace
    told="bin/$command: $1 proved ($took s), $count of $of"
    [ "$count" -eq "$of" ] || told="$told; $still still"
    if [ -t 2 ]; then printf '\r%-79s' "$told" >&2; else say "$told"; fi
}

# prove PROGRAM: runs rt, and tells of each crate within a second of what rt prints; `said` has all of it. When all is
# proved and built, rt runs the program, on no input; what that gives is of no interest.
prove() {
    : >"$work/said"
    (
        cd "$root/crates/$1" || exit 2
        ! command -v setsid >/dev/null || exec setsid rt run
        exec rt run
    ) >>"$work/said" 2>&1 </dev/null &
    proving=$!
    part=
    crate=
    running=yes
    exec 3<"$work/said"
    while [ -n "$running" ]; do
        kill -0 "$proving" 2>/dev/null || running=
        [ -z "$running" ] || sleep 1
        # A line that rt has not ended yet is kept in `part`.
        while IFS= read -r line <&3 || ! part=$part$line; do
            line=$part$line
            part=
            case $line in
            'crate '*': modules '*)
                crate=${line#crate }
                crate=${crate%%:*}
                ;;
            'logic=proved '*) tell_crate "$crate" ;;
            esac
        done
    done
    exec 3<&-
    [ ! -t 2 ] || echo >&2
    wait "$proving"
    proving=
    grep -q "^rt: running out/$1;" "$work/said" && [ -x "$root/crates/$1/out/$1" ]
}

# Running

# run PROGRAM INPUT: the program on a file of this run. PROGRAM.out has what it prints. `said` has what it says on
# standard error, which must not be lost where the run's folder is full.
run() {
    { said=$("$root/crates/$1/out/$1" <"$work/$2" 2>&1 >"$work/$1.out"); } 2>/dev/null
    ended=$?
    [ $ended -ne 0 ] || return 0
    [ $ended -gt 128 ] || fail "${crash:-6}" "crates/$1/out/$1 ended with status $ended"
    needs=
    if [ $ended -eq 139 ]; then
        needs=$(awk -v name="$1" '$1 == name && NF > 2 { print "; it needs " $3 " MB of stack (ulimit -s)" }' \
            "$root/bin/measured.txt")
    fi
    fail "${crash:-6}" "crates/$1/out/$1 was ended by signal $((ended - 128))$needs"
}

# silent PROGRAM: a program that said something could not write all that it had to.
silent() {
    [ -z "$said" ] || fail 5 "crates/$1/out/$1: $said"
}

# readable FILE: refuses what cannot be read; - is standard input.
readable() {
    if [ "$1" != - ] && { [ ! -r "$1" ] || [ -d "$1" ]; }; then
        fail 2 "cannot read $1"
    fi
}

# taken FILE: the file, or standard input, copied to the file `input` of this run; `called` is what to call it.
taken() {
    with_folder
    if [ "$1" = - ]; then
        called='standard input'
        { cat >"$work/input"; } 2>/dev/null
    else
        called=$1
        { cat <"$1" >"$work/input"; } 2>/dev/null
    fi || fail 2 "cannot read $called, or ${TMPDIR:-/tmp} is full"
}

# is_text: whether `input` is text. Every input that has a whole playbook has a byte 13 (hexadecimal), which no text
# has; what has no visible character is no text either.
is_text() {
    [ "$(LC_ALL=C tr -d '\11\12\15\40-\176\200-\377' <"$work/input" | wc -c)" -eq 0 ] &&
        [ "$(LC_ALL=C tr -cd '\41-\176' <"$work/input" | wc -c)" -gt 0 ]
}

# assembled: the bytes of the text `input` in `assemble.out`, and in `map` the lines that its records stand on: a number
# for `controllers`, for each record of the playbook and for each record of the script. A fault is told.
assembled() {
    ready assemble
    run assemble input
    case $said in
    *:*)
        say "$called:$said"
        exit 3
        ;;
    *[!0-9$newline]*) silent assemble ;;
    esac
    { printf '%s\n' "$said" >"$work/map"; } 2>/dev/null || lost
}

# disassembled INPUT: the notation of a file of this run in `disassemble.out`.
disassembled() {
    ready disassemble
    run disassemble "$1"
    case $said in
    'expected '*)
        say "$called: $said"
        exit 3
        ;;
    esac
    silent disassemble
}

# Rehearsals

# taken_in FILE: a rehearsal in either form, as `taken`; `text` is yes where it is in the notation.
taken_in() {
    taken "$1"
    text=
    if is_text; then text=yes; fi
}

# in_bytes: the rehearsal's bytes in the file `bytes` of this run.
in_bytes() {
    bytes=input
    [ -n "$text" ] || return 0
    assembled
    bytes=assemble.out
}

# line_of K: the number of the text's line that its record K stands on, the number of controllers being record 0.
line_of() {
    sed -n "$(($1 + 1))p" "$work/map"
}

# blame WHAT K WORDS: tells what is wrong with the input's record K, which in bytes is called WHAT.
blame() {
    where=": $1"
    [ -z "$text" ] || where=:$(line_of "$2")
    say "$called$where: $3"
}

# surveyed: has `survey` read what stands before the script. `answer` is 0, and `at` how many records the playbook has;
# or `answer` refuses the rehearsal, for the playbook's record `at`, 0 where it is no record's fault.
surveyed() {
    run survey "$bytes"
    silent survey
    read -r answer at <"$work/survey.out"
    case $answer,$at in
    *[!0-9,]* | ,* | *,) fail "${crash:-6}" 'crates/survey/out/survey printed no two numbers' ;;
    esac
}

# tell_refused: tells why `answer` refuses the rehearsal, and where.
tell_refused() {
    words=$(sed -n 2p "$work/survey.out")
    if [ "$at" -gt 0 ]; then
        blame "record $at of the playbook" "$at" "$words"
    elif [ "$answer" -eq 20 ]; then
        blame 'the number of controllers' 0 "$words"
    else
        say "$called: $words"
    fi
}

# stopped: whether the script stops at the last line of `rehearse`, which is of its record `ordinal`; `why` tells why.
stopped() {
    last=$(tail -n 1 "$work/rehearse.out")
    ordinal=${last%% *}
    case $last in
    *' 30 0') why='the input ends within this record' ;;
    *' 31 0') why='this is no record of a script' ;;
    *) return 1 ;;
    esac
}

# tell_stop: tells where the script stops. Its records follow those of the playbook, `at`.
tell_stop() {
    blame "record $ordinal" $((at + ordinal)) "the script stops here, since $why"
}

# The command line

# helped: prints the help of a command.
helped() {
    help 2>/dev/null || lost
    exit 0
}

# one_file WORD..: the command line of a command that takes a FILE alone, which is `file` then.
one_file() {
    case ${1-} in
    -h | --help) helped ;;
    --) shift ;;
    -?*) fail 2 "no option $1; usage: bin/$command FILE" ;;
    esac
    [ $# -eq 1 ] || fail 2 "usage: bin/$command FILE"
    file=$1
    readable "$file"
}
