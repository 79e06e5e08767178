#!/bin/sh
# The commands of bin/ end with the status that their help tells, say what is wrong, and leave nothing behind. Each
# shell that is here runs them in a tree of their own, with stand-ins for rt and for the programs. The real programs
# show that the stack that bin/measured.txt names is enough.
set -u
script=statuses.sh
. tests/counting
there assemble disassemble explain flowlist flowmods picture rehearse survey

# The stand-ins

tree="$work/a tree"
kit=$work/kit
mkdir -p "$tree/bin" "$kit" "$work/tools" "$work/temporary" || exit 1
cp bin/* "$tree/bin"
programs_here='assemble survey rehearse explain picture disassemble flowmods flowlist'
for program in $programs_here; do
    echo "$program 30 7"
done >"$tree/bin/measured.txt"
cat >"$tree/crates.txt" <<'CRATES'
# NAME: what it is built on
base:
depth:
words: base
parts: words depth
assemble: words base io libc
survey: parts words base
rehearse: parts words base
explain: parts words base
picture: parts words base
disassemble: words base
flowmods: parts words base
flowlist: parts words base
CRATES
for crate in base depth words parts $programs_here other; do
    for part in src specs proofs must-fail; do
        mkdir -p "$tree/crates/$crate/$part"
        echo text >"$tree/crates/$crate/$part/file"
    done
    echo text >"$tree/crates/$crate/stdin"
done
for program in $programs_here; do
    echo text >"$tree/crates/$program/src/main.rt"
done
for tool in awk cat cp date dd dirname find grep mkdir mktemp mv od readlink rm sed sh sleep tail touch tr wc; do
    ln -s "$(command -v $tool)" "$work/tools/$tool"
done
export TMPDIR="$work/temporary"

# A program does what its input asks of it. In this file's texts a `line A F` is a record of the script with this answer
# and figure. The programs of FLOW_MODs tell the switch, which is a byte before the text, and then the changes applied.
cat >"$kit/program" <<'PROGRAM'
#!/bin/sh
name=${0##*/}
case $name in
flowmods | flowlist) switch=$(dd bs=1 count=1 2>/dev/null | od -An -tu1 | tr -d ' ') ;;
esac
input=$(cat && echo .)
input=${input%.}
case $input in
*"$name crashes"*) kill -SEGV $$ ;;
*"$name is killed"*) kill -KILL $$ ;;
*"$name fails"*) exit 3 ;;
*"$name is full"*)
    echo 'not all of the output could be written' >&2
    exit
    ;;
esac
full() {
    echo 'not all of the output could be written' >&2
}
case $name,$input in
assemble,*faulty*) echo '3: expected plan, found plam; did you mean plan?' >&2 ;;
assemble,*)
    printf '%s' "$input" 2>/dev/null || full
    printf '%s' "$input" | awk 'NF { print NR }' >&2
    ;;
survey,*mute*) ;;
survey,*'refused by '*) printf '%s\n' "$input" | awk '/^refused by/ { print $3, $5; print "the words of survey" }' ;;
survey,*)
    printf '%s\n' "$input" | awk '/^(plan|end)/ { p++ } END { print 0, p; print "1 plan of 64\nno change of 512" }' ||
        full
    ;;
rehearse,*) printf '%s\n' "$input" | awk '/^line/ { print ++k, $2, $3 }' || full ;;
explain,*)
    printf '%s\n' "$input" | awk '/^line/ { print ++k, $2, $3 "  in words" } END { print "1 2 3 verdict" }' || full
    ;;
picture,*) echo '<svg/>' ;;
flowmods,*'unlike survey'*) echo 'fault 28' >&2 ;;
flowlist,*'unlike survey'*) echo 'fault 28' ;;
flowmods,*)
    { printf 'switch %s\000' "$switch" && printf '%s\n' "$input" | awk '/^line 1 / { printf "<%s>", $3 }'; } || full
    ;;
flowlist,*) printf '%s\n' "$input" | awk -v s="$switch" '/^line 1 / { print "change " $3 " of switch " s }' || full ;;
disassemble,*long*) echo 'expected at most 16384 bytes' >&2 ;;
disassemble,*) echo 'controllers 4' ;;
esac
PROGRAM
cat >"$kit/rt" <<'RT'
#!/bin/sh
# In a crate's folder: proves the crates below it that have no stamp, silent about the others, builds its program where it
# has no stamp or is not there, and runs it.
kit=${0%/*}
cat >/dev/null
program=${PWD##*/}
echo "$* in $program" >>"$kit/log"
proved() {
    echo "fn $1::main: proved"
    echo "library base: modules loaded=2 checked=0"
    echo "crate $1: modules loaded=0 checked=3"
    printf 'logic=pro'
    echo "ved functions=1 sum=0"
    mkdir -p "../$1/out/rlib"
}
case $(cat "$kit/mood" 2>/dev/null) in
fails)
    proved base
    echo 'a proof fails'
    exit 1
    ;;
idle) exit 0 ;;
edits)
    # A change in the tick of the clock in which rt began is one that rt has read. This one comes later.
    sleep 1
    touch ../base/src/file
    ;;
slow)
    sh -c 'echo $$ >"$1/prover"; exec sleep 60' sh "$kit" &
    wait
    ;;
esac
crates='base words depth parts'
case $program in
assemble | disassemble) crates='base words' ;;
esac
for crate in $crates; do
    [ -e "../$crate/out/rlib/stamp" ] || proved "$crate"
    : >"../$crate/out/rlib/stamp"
done
if [ -e "out/$program.stamp" ] && [ -e "out/$program" ]; then
    echo "rt: nothing has changed since the last proved build, by out/$program.stamp, so nothing is checked now"
else
    proved "$program"
    cp "$kit/program" "out/$program"
    : >"out/$program.stamp"
fi
echo "rt: running out/$program; to give it other input, run that file yourself"
"out/$program" </dev/null
RT
chmod +x "$kit/program" "$kit/rt"

# built_all: every program of the tree is built.
built_all() {
    for name in $programs_here; do
        mkdir -p "$tree/crates/$name/out"
        cp "$kit/program" "$tree/crates/$name/out/$name"
    done
}
# built_none: no program of the tree is built.
built_none() {
    rm -rf "$tree"/crates/*/out "$kit/log" "$kit/mood"
}
# asked WHAT PROGRAM..: rt was asked for these programs, in this order.
asked() {
    what=$1
    shift
    for name; do echo "run in $name"; done >"$work/asked"
    if [ -e "$kit/log" ]; then cmp "$work/asked" "$kit/log"; else [ $# -eq 0 ]; fi
    ended $? "$shell, $what: rt was asked for: $(cat "$kit/log" 2>/dev/null)"
}

# The commands, with rt, or without one in the way of which nothing stands.
by() {
    tool=$1
    shift
    PATH="$kit:$PATH" "$shell" "$tree/bin/$tool" "$@"
}
without_rt() {
    tool=$1
    shift
    PATH="$work/tools" "$shell" "$tree/bin/$tool" "$@"
}
to_full() {
    "$@" >/dev/full
}
to_closed() {
    "$@" >&-
}
from_closed() {
    "$@" <&-
}
# to_reader: a reader that ends at once; the status is the command's.
to_reader() {
    { { "$@" 3>&-; echo $? >&3; } | true; } 3>"$work/status"
    return "$(cat "$work/status")"
}

cd "$work" || exit 1
printf 'controllers 4\n\nplan\nend\n\nline 0 2\nline 16 1\nline 26 0\nline 1 1\n' >good.txt
printf '1 0 2\n2 16 1\n3 26 0\n4 1 1\n' >good.out
{
    printf 'line 6: 1 0 2  in words\nline 7: 2 16 1  in words\n'
    printf 'line 8: 3 26 0  in words\nline 9: 4 1 1  in words\n1 2 3 verdict\n'
} >explained.out
sed 's/^line [0-9]*: //' explained.out >explained-bytes.out
{ cat good.txt && printf '\001'; } >good.bin
printf 'controllers 4\n\nfaulty\n' >faulty.txt
fault='faulty.txt:3: expected plan, found plam; did you mean plan?'
printf 'long\001' >long.bin
printf 'controllers 4\n\nplan\nplan\nrefused by 15 at 2\nend\n' >refused.txt
{ cat refused.txt && printf '\001'; } >refused.bin
printf 'controllers 4\nrefused by 28 at 0\n' >limits.txt
printf 'controllers 17\nrefused by 20 at 0\n' >seventeen.txt
printf 'controllers 4\nend\nunlike survey\n' >strange.txt
printf 'controllers 4\nend\nline 0 2\n' >none.txt
printf 'controllers 4\nend\nline 0 2\n\nline 31 0\n' >stops.txt
printf 'controllers 4\nend\nline 0 2\nline 30 0\n' >cut.txt
{ cat stops.txt && printf '\001'; } >stops.bin
printf '1 0 2\n2 31 0\n' >stops.out
printf '1 0 2\n2 30 0\n' >cut.out
printf '1 plan of 64\nno change of 512\n' >check.out
echo '0 15 0' >refused.out
echo '0 28 0' >limits.out
echo 'controllers 4' >told.out
echo '<svg/>' >picture.out
echo '1 2 3 verdict' >verdict.out
# What the commands print of switch 5 where change 1 is applied to it, and where none is.
printf 'switch 5\000<1>' >mods.out
echo 'change 1 of switch 5' >list.out
printf 'switch 5\000' >no-mods.out
printf 'controllers 4\nend\nline 1 3\nline 0 3\nline 1 8\n\nline 31 0\n' >late.txt
{ cat late.txt && printf '\001'; } >late.bin
printf 'switch 5\000<3><8>' >late.out
printf 'change 3 of switch 5\nchange 8 of switch 5\n' >late-list.out
cp good.txt ./-good.txt
mkdir folder

done_well() {
    tried "$shell, rehearse" 0 good.out '*: good.txt is in the notation' by rehearse good.txt
    tried "$shell, rehearse bytes" 0 good.out '*: good.bin is in bytes' by rehearse good.bin
    tried "$shell, rehearse standard input" 0 good.out '*: standard input is in the notation' by rehearse - <good.txt
    tried "$shell, rehearse a file with a strange name" 0 good.out '*: -good.txt is in *' by rehearse -- -good.txt
    tried "$shell, options behind the file" 0 explained.out '*' by rehearse good.txt --explain --
    tried "$shell, --strict, and nothing that it minds" 0 good.out '*' by rehearse --strict -- good.txt
    tried "$shell, --explain" 0 explained.out '*' by rehearse --explain good.txt
    tried "$shell, --explain of bytes" 0 explained-bytes.out '*' by rehearse good.bin --explain
    tried "$shell, --check" 0 check.out '*' by rehearse --check good.txt
    tried "$shell, --check of bytes" 0 check.out '*' by rehearse --check good.bin
    tried "$shell, --expand" 0 told.out '*' by rehearse --expand good.txt
    tried "$shell, --expand of bytes" 0 told.out '*' by rehearse --expand good.bin
    tried "$shell, --picture" 0 good.out '*' by rehearse --picture "$work/new.svg" good.txt
    cmp picture.out new.svg
    ended $? "$shell, --picture wrote another picture"
    echo old >old.svg
    ln -sf old.svg link.svg
    tried "$shell, --picture through a link" 0 good.out '*' by rehearse --picture link.svg good.txt
    [ -L link.svg ] && cmp picture.out old.svg
    ended $? "$shell, --picture through a link wrote another picture, or no link is left"
    echo old >folder/old.svg
    chmod a-w folder
    tried "$shell, --picture where no file can be made beside it" 0 good.out '*' \
        by rehearse --picture folder/old.svg good.txt
    chmod u+w folder
    cmp picture.out folder/old.svg && [ "$(ls folder)" = old.svg ]
    ended $? "$shell, --picture where no file can be made beside it wrote another picture, or left a file"
    tried "$shell, assemble" 0 good.txt '' by assemble good.txt
    tried "$shell, assemble standard input" 0 good.txt '' by assemble -- - <good.txt
    tried "$shell, disassemble" 0 told.out '' by disassemble -- good.bin
    for command in rehearse assemble disassemble flowmods; do
        for option in -h --help; do
            by $command $option 2>errors | grep -q "^usage: bin/$command .*FILE\$" && [ ! -s errors ]
            ended $? "$shell, $command $option does not help"
        done
        ln -sf "$tree/bin/$command" "through a link"
        ln -sf 'through a link' again
        "$shell" ./again --help | grep -q "^usage: bin/$command "
        ended $? "$shell, $command does not work through a link"
    done
}

flow_mods() {
    tried "$shell, flowmods" 0 mods.out '' by flowmods 5 good.txt
    tried "$shell, flowmods of bytes" 0 mods.out '' by flowmods 5 good.bin
    tried "$shell, flowmods of standard input" 0 mods.out '' by flowmods 5 - <good.txt
    tried "$shell, flowmods of bytes from standard input" 0 mods.out '' by flowmods 5 - <good.bin
    tried "$shell, flowmods of a file with a strange name" 0 mods.out '' by flowmods -- 5 -good.txt
    tried "$shell, flowmods, and no change is applied" 0 no-mods.out '' by flowmods 5 none.txt
    tried "$shell, flowmods --list" 0 list.out '' by flowmods --list 5 good.txt
    tried "$shell, flowmods --list of bytes" 0 list.out '' by flowmods 5 --list good.bin
    tried "$shell, flowmods --list of standard input, the option last" 0 list.out '' \
        by flowmods 5 - --list -- <good.txt
    tried "$shell, flowmods --list, and no change is applied" 0 /dev/null '' by flowmods --list 5 none.txt
    # The byte of each switch reaches the program.
    for switch in 0 7 8 10 15; do
        echo "change 1 of switch $switch" >switch.out
        tried "$shell, flowmods, switch $switch" 0 switch.out '' by flowmods --list $switch good.txt
    done
    # What is no number of a switch is told before anything of FILE's is looked at.
    for switch in 16 256 99999999999999999999; do
        tried "$shell, flowmods, switch $switch" 3 /dev/null \
            "bin/flowmods: there is no switch $switch: switches are 0 to 15 (12)" by flowmods $switch refused.txt
    done
    tried "$shell, flowmods --list, switch 16" 3 /dev/null '*there is no switch 16: *' by flowmods --list 16 good.bin
    for switch in '' 5x -5 05 ' 5'; do
        tried "$shell, flowmods, switch '$switch'" 2 /dev/null '*SWITCH is a number*; usage: *' \
            by flowmods -- "$switch" good.txt
    done
    tried "$shell, flowmods, file and switch exchanged" 2 /dev/null '*SWITCH is a number*' by flowmods good.txt 5
    tried "$shell, flowmods, no words" 2 /dev/null '*usage: *' by flowmods
    tried "$shell, flowmods, a word too many" 2 /dev/null '*usage: *' by flowmods 5 good.txt -- more
    # Refused before the script.
    tried "$shell, flowmods of a faulty text from standard input" 3 /dev/null 'standard input:3: expected plan, *' \
        by flowmods 5 - <faulty.txt
    for list in '' --list; do
        tried "$shell, flowmods $list, a faulty text" 3 /dev/null "$fault" by flowmods $list 5 faulty.txt
        tried "$shell, flowmods $list, a refused playbook" 3 /dev/null 'refused.txt:4: the words of survey' \
            by flowmods $list 5 refused.txt
        tried "$shell, flowmods $list, a refused playbook in bytes" 3 /dev/null \
            'refused.bin: record 2 of the playbook: the words of survey' by flowmods $list 5 refused.bin
        tried "$shell, flowmods $list, refused, and no record's fault" 3 /dev/null 'limits.txt: the words of survey' \
            by flowmods $list 5 limits.txt
        tried "$shell, flowmods $list, too many controllers" 3 /dev/null 'seventeen.txt:1: the words of survey' \
            by flowmods $list 5 seventeen.txt
        tried "$shell, flowmods $list, a fault that survey does not find" 3 /dev/null 'strange.txt: refused (28)' \
            by flowmods $list 5 strange.txt
    done
    # Scripts that stop.
    stops='the script stops here, since this is no record of a script'
    tried "$shell, flowmods, a script that stops" 4 late.out "late.txt:7: $stops" by flowmods 5 late.txt
    tried "$shell, flowmods, a script in bytes that stops" 4 late.out "late.bin: record 4: $stops" \
        by flowmods 5 late.bin
    tried "$shell, flowmods --list, a script that stops" 4 late-list.out "late.txt:7: $stops" \
        by flowmods --list 5 late.txt
    tried "$shell, flowmods, a script that is cut" 4 no-mods.out \
        'cut.txt:4: the script stops here, since the input ends within this record' by flowmods 5 cut.txt
}

bad_usage() {
    tried "$shell, --picture to standard output" 2 /dev/null '*a picture goes to a file*' \
        by rehearse --picture - good.txt
    # shellcheck disable=SC2086
    for command in rehearse assemble disassemble 'flowmods 5'; do
        tried "$shell, $command without a file" 2 /dev/null '*usage: *' by $command
        tried "$shell, $command -- without a file" 2 /dev/null '*usage: *' by $command --
        tried "$shell, $command with a file and options behind --" 2 /dev/null '*usage: *' by $command -- good.txt -h
        tried "$shell, $command with two files" 2 /dev/null '*usage: *' by $command good.txt good.bin
        tried "$shell, $command, an unknown option" 2 /dev/null '*no option --explan;*' by $command --explan good.txt
        tried "$shell, $command, no such file" 2 /dev/null '*cannot read nowhere' by $command nowhere
        tried "$shell, $command, a folder" 2 /dev/null '*cannot read folder' by $command folder
        tried "$shell, $command, standard input closed" 2 /dev/null '*cannot read standard input*' \
            from_closed by $command -
    done
    tried "$shell, --picture without its file" 2 /dev/null '*usage: *' by rehearse good.txt --picture
    tried "$shell, --check with --explain" 2 /dev/null '*usage: *' by rehearse --check --explain good.txt
    tried "$shell, --check with --expand" 2 /dev/null '*usage: *' by rehearse --check --expand good.txt
    cp good.txt input.txt
    ln -f input.txt other-name.txt
    ln -sf input.txt link.txt
    for picture in input.txt other-name.txt link.txt "$work/input.txt"; do
        tried "$shell, --picture onto the input as $picture" 2 /dev/null '*is the rehearsal itself*' \
            by rehearse --picture "$picture" input.txt
    done
    tried "$shell, --picture onto standard input" 2 /dev/null '*is the rehearsal itself*' \
        by rehearse --picture input.txt - <input.txt
    cmp good.txt input.txt
    ended $? "$shell, a picture was written onto the input"
}

faulty() {
    for option in --explain --check --expand --strict; do
        tried "$shell, rehearse $option, a faulty text" 3 /dev/null "$fault" by rehearse $option faulty.txt
    done
    for command in rehearse assemble; do
        tried "$shell, $command, a faulty text" 3 /dev/null "$fault" by $command faulty.txt
    done
    tried "$shell, a faulty text from standard input" 3 /dev/null 'standard input:3: expected plan, *' \
        by rehearse - <faulty.txt
    tried "$shell, disassemble, too many bytes" 3 /dev/null 'long.bin: expected at most 16384 bytes' \
        by disassemble long.bin
}

refused() {
    tried "$shell, a refused playbook" 4 refused.out '*refused.txt:4: the words of survey' by rehearse refused.txt
    tried "$shell, a refused playbook in bytes" 4 refused.out \
        '*refused.bin: record 2 of the playbook: the words of survey' by rehearse refused.bin
    tried "$shell, --explain of a refused playbook" 4 verdict.out '*refused.txt:4: the words of survey' \
        by rehearse --explain refused.txt
    tried "$shell, refused, and no record's fault" 4 limits.out '*limits.txt: the words of survey' \
        by rehearse limits.txt
    tried "$shell, --check of a refused playbook" 4 /dev/null '*refused.txt:4: the words of survey' \
        by rehearse --check refused.txt
    rm -f none.svg
    tried "$shell, --picture of a refused playbook" 4 refused.out '*none.svg is not written*' \
        by rehearse --picture none.svg refused.txt
    [ ! -e none.svg ]
    ended $? "$shell, a refused playbook left a picture"
    tried "$shell, a script that stops" 4 stops.out \
        '*stops.txt:5: the script stops here, since this is no record of a script' by rehearse stops.txt
    tried "$shell, a script in bytes that stops" 4 stops.out '*stops.bin: record 2: the script stops here, *' \
        by rehearse stops.bin
    tried "$shell, a script that is cut" 4 cut.out \
        '*cut.txt:4: the script stops here, since the input ends within this record' by rehearse cut.txt
    for answer in 12 13 14 15 17 18 22 29 31; do
        printf 'controllers 4\nend\nline 0 1\n\nline %s 0\nline 0 1\n' $answer >strict.txt
        printf '1 0 1\n2 %s 0\n3 0 1\n' $answer >strict.out
        tried "$shell, --strict, a record refused by $answer" 4 strict.out \
            "*strict.txt:5: record 2 is refused by $answer" by rehearse --strict strict.txt
        tried "$shell, a record refused by $answer" 0 strict.out '*strict.txt is in the notation' by rehearse strict.txt
    done
    { cat strict.txt && printf '\001'; } >strict.bin
    tried "$shell, --strict of bytes" 4 strict.out '*strict.bin: record 2 is refused by 31' \
        by rehearse --strict strict.bin
    for answer in 0 1 2 11 16 19 23 24 26; do
        printf 'controllers 4\nend\nline %s 0\n' $answer >strict.txt
        echo "1 $answer 0" >strict.out
        tried "$shell, --strict, answer $answer" 0 strict.out '*' by rehearse --strict strict.txt
    done
}

unwritten() {
    for command in 'rehearse good.txt' 'rehearse good.bin' 'rehearse --explain good.txt' 'rehearse --explain good.bin' \
        'rehearse --check good.txt' 'rehearse --expand good.txt' 'rehearse refused.txt' 'rehearse --help' \
        'assemble good.txt' 'assemble -h' 'disassemble good.bin' 'disassemble --help' 'flowmods 5 good.txt' \
        'flowmods --list 5 good.txt' 'flowmods --help'; do
        # shellcheck disable=SC2086
        tried "$shell, $command, standard output full" 5 /dev/null '*not all of the output could be written' \
            to_full by $command
        # shellcheck disable=SC2086
        tried "$shell, $command, standard output closed" 5 /dev/null '*standard output is closed' to_closed by $command
    done
    awk 'BEGIN { print "controllers 4\nend"; for (i = 0; i < 8000; i++) print "line 1 1" }' >many.txt
    for command in rehearse 'flowmods --list 5'; do
        # shellcheck disable=SC2086
        tried "$shell, $command, a reader that is gone" 5 /dev/null '*not all of the output could be written' \
            to_reader by $command many.txt
    done
    for name in assemble survey rehearse explain picture; do
        printf 'controllers 4\n%s is full\nend\n' $name >full.txt
        rm -f none.svg
        by rehearse --explain --picture none.svg full.txt >printed 2>errors
        status=$?
        [ $status -eq 5 ] && [ ! -e none.svg ] &&
            grep -q "crates/$name/out/$name: not all of the output could be written\$" errors
        ended $? "$shell, $name could not write all: status $status, and it says: $(cat errors)"
    done
    for name in assemble survey rehearse flowmods flowlist; do
        printf 'controllers 4\n%s is full\nend\nline 1 1\n' $name >full.txt
        list=
        [ $name != flowlist ] || list=--list
        tried "$shell, flowmods, $name could not write all" 5 /dev/null \
            "bin/flowmods: crates/$name/out/$name: not all of the output could be written" by flowmods $list 5 full.txt
    done
    printf 'disassemble is full\001' >full.bin
    tried "$shell, disassemble could not write all" 5 /dev/null '*disassemble: not all of *' by disassemble full.bin
    tried "$shell, --picture into no folder" 5 /dev/null '*cannot write nowhere/a.svg' \
        by rehearse --picture nowhere/a.svg good.txt
    tried "$shell, --picture onto a folder" 5 /dev/null '*cannot write folder' by rehearse --picture folder good.txt
    tried "$shell, --picture where it is full" 5 good.out '*cannot write /dev/full' \
        by rehearse --picture /dev/full good.txt
    TMPDIR=$work/nowhere tried "$shell, no folder for the run" 5 /dev/null '*cannot make a folder in *' \
        by rehearse good.txt
}

# However little room the run's folder has, all is printed, or the status is 5.
full_folder() {
    for how in -rm -m none; do
        ! unshare "$how" mount -t tmpfs tmpfs folder 2>/dev/null || break
    done
    if [ "$how" = none ]; then
        echo "tests/$script: no folder of its own size can be made, so this was not run: a full folder"
        return
    fi
    statuses=
    for room in 4 8 12 16 20 24 28 32 36 64; do
        # shellcheck disable=SC2016
        PATH="$kit:$PATH" unshare "$how" sh -c 'mount -t tmpfs -o size="$1"k tmpfs "$TMPDIR" && shift && "$@"' \
            sh $room "$shell" "$tree/bin/rehearse" --explain good.txt >printed 2>errors
        status=$?
        [ $status -eq 5 ] || { [ $status -eq 0 ] && cmp explained.out printed; }
        ended $? "$shell, a folder of $room KB: status $status, and it says: $(cat errors)"
        statuses="$statuses $status"
    done
    case $statuses in
    ' 5 5 '*' 0') ;;
    *) false ;;
    esac
    ended $? "$shell, folders from 4 to 64 KB: statuses$statuses"
}

crashed() {
    for name in assemble survey rehearse explain picture; do
        printf 'controllers 4\n%s crashes\nend\n' $name >crash.txt
        echo old >old.svg
        by rehearse --explain --picture old.svg crash.txt >printed 2>errors
        status=$?
        [ $status -eq 6 ] && [ "$(cat old.svg)" = old ] && ! grep -q -i 'fault' errors &&
            grep -q "crates/$name/out/$name was ended by signal 11; it needs 7 MB of stack (ulimit -s)\$" errors
        ended $? "$shell, $name crashes: status $status, and it says: $(cat errors)"
    done
    for name in assemble survey rehearse flowmods flowlist; do
        printf 'controllers 4\n%s crashes\nend\nline 1 1\n' $name >crash.txt
        list=
        [ $name != flowlist ] || list=--list
        tried "$shell, flowmods, $name crashes" 6 /dev/null \
            "bin/flowmods: crates/$name/out/$name was ended by signal 11; it needs 7 MB of stack (ulimit -s)" \
            by flowmods $list 5 crash.txt
    done
    printf 'assemble crashes' >crash.txt
    tried "$shell, assemble crashes" 6 /dev/null '*assemble was ended by signal 11; it needs 7 MB of stack *' \
        by assemble crash.txt
    printf 'disassemble crashes\001' >crash.bin
    tried "$shell, disassemble crashes" 6 /dev/null '*disassemble was ended by signal 11; it needs *' \
        by disassemble crash.bin
    printf 'assemble is killed' >crash.txt
    tried "$shell, assemble is killed" 6 /dev/null '*assemble was ended by signal 9' by assemble crash.txt
    printf 'controllers 4\nmute\n' >crash.txt
    for command in rehearse 'flowmods 5'; do
        # shellcheck disable=SC2086
        tried "$shell, $command, survey prints nothing" 6 /dev/null '*survey printed no two numbers' \
            by $command crash.txt
    done
    printf 'assemble fails' >crash.txt
    tried "$shell, assemble fails" 6 /dev/null '*assemble ended with status 3' by assemble crash.txt
}

# The time that the lines of a build tell is left open.
untimed() {
    sed 's/about [0-9]* [a-z]*/about T/; s/proved ([0-9]* s)/proved (T)/' "$@"
}

building() {
    built_none
    # shellcheck disable=SC2086
    for command in rehearse assemble disassemble 'flowmods 5'; do
        tried "$shell, $command without rt" 2 /dev/null '*no rt command*' without_rt $command good.txt
    done
    tried "$shell, flowmods of no switch, without rt" 3 /dev/null '*no switch 16*' without_rt flowmods 16 good.txt
    built_none
    tried "$shell, a faulty text, nothing built" 3 /dev/null '*faulty.txt:3: *' by rehearse --explain faulty.txt
    asked 'a faulty text' assemble survey
    tried "$shell, a refused playbook, nothing else built" 4 refused.out '*refused.txt:4: the words of survey*' \
        by rehearse --explain --picture none.svg refused.txt
    asked 'a refused playbook' assemble survey
    tried "$shell, flowmods, nothing else built" 0 mods.out '*once: 2 crates, *' by flowmods 5 good.txt
    asked 'flowmods' assemble survey rehearse flowmods
    ! grep -v '^bin/flowmods: .* proved ([0-9]* s), [12] of 2\|^bin/flowmods: proves and builds ' errors
    ended $? "$shell, flowmods says more than how it is built: $(cat errors)"
    tried "$shell, flowmods --list, nothing else built" 0 list.out '*once: 1 crate, *' by flowmods --list 5 good.bin
    asked 'flowmods --list' assemble survey rehearse flowmods flowlist
    built_none
    tried "$shell, bytes, nothing built" 0 good.out '*' by rehearse good.bin
    asked 'bytes' survey rehearse
    built_none
    tried "$shell, all of it, nothing built" 0 explained.out '*' by rehearse --picture new.svg --explain good.txt
    asked 'all of it' assemble survey rehearse explain picture
    # Nine crates of 30 s, those that measured.txt does not name by the mean.
    grep -q 'once: 9 crates, about 5 minutes; ' errors
    ended $? "$shell, a build is said to take another time: $(cat errors)"
    untimed errors >lines
    {
        echo 'bin/rehearse: proves and builds its programs first, once: 9 crates, about T;' \
            'examples/second-evening.explained.txt shows what will come'
        echo 'bin/rehearse: base proved (T), 1 of 9; about T still'
        echo 'bin/rehearse: words proved (T), 2 of 9; about T still'
        echo 'bin/rehearse: assemble proved (T), 3 of 9; about T still'
        echo 'bin/rehearse: depth proved (T), 4 of 9; about T still'
        echo 'bin/rehearse: parts proved (T), 5 of 9; about T still'
        echo 'bin/rehearse: survey proved (T), 6 of 9; about T still'
        echo 'bin/rehearse: good.txt is in the notation'
        echo 'bin/rehearse: rehearse proved (T), 7 of 9; about T still'
        echo 'bin/rehearse: explain proved (T), 8 of 9; about T still'
        echo 'bin/rehearse: picture proved (T), 9 of 9'
    } | cmp - lines
    ended $? "$shell, a build is told otherwise: $(cat lines)"
}

# What a program is made of, and what not. Everything is built.
rebuilding() {
    tried "$shell, without rt, and nothing to build" 0 explained.out '*' without_rt rehearse --explain good.txt
    tried "$shell, a program more" 0 told.out '*once: 1 crate, about 40 seconds*disassemble proved ([0-9]* s), 1 of 1*' \
        by rehearse --expand good.txt
    rm -f "$kit/log"
    touch "$tree/crates/base/must-fail/file" "$tree/crates/base/stdin" "$tree/crates/other/src/file" \
        "$tree/crates/picture/src/file"
    tried "$shell, a change of nothing that counts" 0 explained.out '*' without_rt rehearse --explain good.txt
    touch "$tree/crates/depth/proofs/file"
    tried "$shell, a proof that changed, of assemble not" 0 good.txt '' without_rt assemble good.txt
    tried "$shell, a proof that changed" 2 /dev/null '*no rt command*' without_rt rehearse good.txt
    tried "$shell, a proof that changed, with rt" 0 good.out '*' by rehearse good.txt
    asked 'a proof that changed' survey rehearse
    rm -f "$kit/log" "$tree/crates/assemble/out/assemble"
    echo edits >"$kit/mood"
    tried "$shell, a file that changes while rt runs" 0 good.txt '*' by assemble good.txt
    rm -f "$kit/mood"
    tried "$shell, a file that changed while rt ran" 0 good.txt '*' by assemble good.txt
    asked 'a file that changed while rt ran' assemble assemble
}

unbuilt() {
    # shellcheck disable=SC2086
    for command in rehearse assemble disassemble 'flowmods 5'; do
        built_none
        echo fails >"$kit/mood"
        tried "$shell, $command, a proof that fails" 1 /dev/null '*a proof fails*could not be built: *' \
            by $command good.txt
        built_none
        echo idle >"$kit/mood"
        tried "$shell, $command, rt that builds nothing" 1 /dev/null '*could not be built: *' by $command good.txt
        built_none
        : >"$tree/crates/base/out"
        tried "$shell, $command, a file in the way of an out/" 1 /dev/null \
            '*must be built, and *base/out cannot be written' by $command good.txt
        [ "$(grep -c . errors)" -le 2 ]
        ended $? "$shell, $command says too much of a tree that cannot be written"
        rm "$tree/crates/base/out"
        chmod a-w "$tree/crates/base"
        if [ -w "$tree/crates/base" ]; then
            echo "tests/$script: this user can write any folder, so not run: $command, a tree not to be written"
        else
            tried "$shell, $command, a tree not to be written" 1 /dev/null '*must be built, and *cannot be written' \
                by $command good.txt
        fi
        chmod u+w "$tree/crates/base"
    done
}

# A terminal gets one line, which is written over; and no FLOW_MODs in bytes.
on_terminal() {
    if ! script -qec true /dev/null >/dev/null 2>&1; then
        echo "tests/$script: no command script, so this was not run: a build on a terminal"
        return
    fi
    built_none
    PATH="$kit:$PATH" script -qec "$shell '$tree/bin/assemble' good.txt 2>&1 >printed" /dev/null </dev/null >errors
    [ "$(tr '\r' '\n' <errors | grep -c ' proved ([0-9]* s), [123] of 3')" -eq 3 ] &&
        [ "$(grep -c ' proved (' errors)" -eq 1 ] && cmp good.txt printed
    ended $? "$shell, on a terminal a build is told otherwise: $(cat errors)"
    built_all
    script -qec "$shell '$tree/bin/flowmods' 5 good.txt" /dev/null </dev/null >printed
    status=$?
    [ $status -eq 2 ] && grep -q 'standard output is a terminal; use --list' printed && ! grep -q 'switch 5' printed
    ended $? "$shell, flowmods on a terminal: status $status, and it prints: $(cat printed)"
    script -qec "$shell '$tree/bin/flowmods' --list 5 good.txt" /dev/null </dev/null >printed
    status=$?
    [ $status -eq 0 ] && tr -d '\r' <printed | cmp - list.out
    ended $? "$shell, flowmods --list on a terminal: status $status, and it prints: $(cat printed)"
}

# A run that is ended while rt runs takes its folder and rt with it.
ended_by() {
    built_none
    echo slow >"$kit/mood"
    rm -f "$kit/prover"
    PATH="$kit:$PATH" "$shell" "$tree/bin/rehearse" good.txt >printed 2>errors &
    run=$!
    turns=0
    while [ ! -s "$kit/prover" ] && [ $turns -lt 10 ]; do
        sleep 1
        turns=$((turns + 1))
    done
    kill "-$1" $run
    wait $run
    status=$?
    [ $status -eq "$2" ]
    ended $? "$shell, a run ended by $1 has status $status"
    [ -z "$(ls "$TMPDIR")" ]
    ended $? "$shell, a run ended by $1 left its folder behind"
    # The system takes a while to bury a process.
    prover=$(cat "$kit/prover")
    turns=0
    while kill -0 "$prover" 2>/dev/null && [ $turns -lt 5 ]; do
        sleep 1
        turns=$((turns + 1))
    done
    left=0
    kill "$prover" 2>/dev/null && left=1
    if command -v setsid >/dev/null; then
        [ $left -eq 0 ]
        ended $? "$shell, a run ended by $1 left rt at work"
    fi
    rm -f "$kit/mood"
}

shells=$(command -v sh)
for shell in dash bash; do
    found=$(command -v $shell) || continue
    [ "$(readlink -f "$found")" = "$(readlink -f "$(command -v sh)")" ] || shells="$shells $found"
done
for shell in $shells; do
    built_all
    done_well
    flow_mods
    bad_usage
    faulty
    refused
    unwritten
    full_folder
    crashed
    building
    rebuilding
    unbuilt
    on_terminal
    ended_by TERM 143
    ended_by HUP 129
    [ -z "$(ls "$TMPDIR")" ]
    ended $? "$shell, a run left its folder behind: $(ls "$TMPDIR")"
    built_none
done

# The real programs, with little stack

# with_stack KB COMMAND..
with_stack() {
    (
        # shellcheck disable=SC3045
        ulimit -s "$1" && shift && "$@"
    )
}
cd "$top" || exit 1
rm -f "$work/none.svg"
tried 'the real programs with too little stack' 6 /dev/null \
    '*was ended by signal 11; it needs [0-9]* MB of stack (ulimit -s)' \
    with_stack 512 bin/rehearse --picture "$work/none.svg" examples/second-evening.txt
[ ! -e "$work/none.svg" ]
ended $? 'a crash of a real program left a picture'
{ printf '\005' && cat examples/second-evening.bin; } >"$work/asked"
for name in assemble disassemble explain flowlist flowmods picture rehearse survey; do
    stack=$(awk -v name=$name '$1 == name { print $3 }' bin/measured.txt)
    [ -n "$stack" ]
    ended $? "bin/measured.txt does not tell how much stack $name needs"
    input=examples/second-evening.bin
    case $name in
    assemble) input=examples/second-evening.txt ;;
    flowlist | flowmods) input=$work/asked ;;
    esac
    with_stack $((${stack:-1} * 1024)) "$programs/$name" <"$input" >"$work/printed" 2>/dev/null
    status=$?
    [ $status -eq 0 ] && [ -s "$work/printed" ]
    ended $? "$name with $stack MB of stack: status $status"
done
finish
