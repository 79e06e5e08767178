#!/bin/sh
# `links` turns texts of links into the bytes written out below, and tells each kind of fault in the words below, with its
# line and no byte. It does what tests/links.py computes on texts at each limit, and on random and damaged ones. Lost
# output is told.
set -u
script=links.sh
. tests/counting
there links

# run: runs the program on the text; its bytes go to a file in hexadecimal digits, what it says to another.
run() {
    "$programs/links" <"$work/text" >"$work/bytes" 2>"$work/errors" &&
        od -An -v -tx1 "$work/bytes" | tr -d ' \n' >"$work/printed"
}

# gives BYTES TEXT: the text, with escapes, gives these bytes and no word.
gives() {
    printf '%b' "$2" >"$work/text"
    run && [ "$(cat "$work/printed")" = "$(echo "$1" | tr -d ' ')" ] && [ ! -s "$work/errors" ]
    ended $? "$2: $(cat "$work/printed" "$work/errors"), not $1"
}

# says LINE: the text gets this line on standard error, and no byte.
says() {
    run && [ ! -s "$work/printed" ] && printf '%s\n' "$1" | cmp -s - "$work/errors"
    ended $? "it says: $(cat "$work/errors"); it should say: $1"
}

# refuses LINE TEXT: the text, with escapes, gets this line.
refuses() {
    printf '%b' "$2" >"$work/text"
    says "$1"
}

# refuses_form WHAT FORM LINE: a faulty line behind a good one gets this, with the form behind it.
refuses_form() {
    refuses "2: expected $1; the line's form is: $2" "link switch 1 port 1 to switch 4 of A\n$3"
}

# link WHAT LINE, client WHAT LINE: a fault of such a line.
link() {
    refuses_form "$1" 'link switch S port P to NEXT of OWNER, with NEXT as switch 4 or outside, and OWNER as A or all' "$2"
}
client() {
    refuses_form "$1" 'client NAME PREFIX at switch S, with PREFIX as 10.1.0.0/16' "$2"
}

# many COUNT FORMAT LINE: so many lines of a format of awk, which takes a number from 1 on, get this line.
many() {
    awk -v count="$1" -v format="$2" 'BEGIN { for (i = 1; i <= count; i++) printf format "\n", i }' >"$work/text"
    says "$3"
}

# lost WHERE: the last run said that its output, which went there, was lost, and no more.
lost() {
    [ "$(cat "$work/errors")" = 'not all of the output could be written' ]
    ended $? "it does not tell that its output to $1 is lost"
}

last='client A 10.1.0.0/16 at switch 1'

# Good texts: the four lines of the page, free layout, every number's ends, overlaps, names by first place and case.
gives '310100010401 310100020500 310500021002 32010a0100001001 33010141 33020142' "
    link switch 1 port 1 to switch 4 of A      # the link at port 1 of switch 1 leads to switch 4
    link switch 1 port 2 to switch 5 of all    # every client may use it
    link switch 5 port 2 to outside of B       # it leaves the domain
    $last           # A's packets to these addresses come in at switch 1\n"
gives '32010a0100001001 33010141' "$last"
gives '32010a0100001001 33010141' "\0357\0273\0277\r\n \t\n#\0377\n\tclient\rA\t 10.1.0.0/16 at switch 1#2"
gives '3100ffff0f00 310f00010000 3201000000000000 3202ffffffff200f 33010161 33020141' \
    'link switch 0 port 65535 to switch 15 of all\nlink switch 15 port 1 to switch 0 of all
client a 0.0.0.0/0 at switch 0\nclient A 255.255.255.255/32 at switch 15'
gives '32010a0000000801 32010a0100001001 32010a0100001002 32020a0100001001 33010141 33020142' \
    "client A 10.0.0.0/8 at switch 1\n$last\nclient A 10.1.0.0/16 at switch 2\nclient B 10.1.0.0/16 at switch 1"
gives '310200010201 32020a0100001001 3301205a5a5a5a5a5a5a5a5a5a5a5a5a5a5a5a5a5a5a5a5a5a5a5a5a5a5a5a5a5a5a2d 33020141' \
    "link switch 2 port 1 to switch 2 of ZZZZZZZZZZZZZZZZZZZZZZZZZZZZZZZ-\n$last"

# Words that stand for themselves.
refuses '1: expected link or client, found foo' 'foo'
refuses '2: expected link or client, found Link' '\nLink switch 1 port 1 to switch 4 of A'
refuses '1: expected link or client, found ??' '\0377\0001'
refuses '1: expected link or client, found abcdefghijklmnopqrst..' 'abcdefghijklmnopqrstu'
refuses '1: expected link or client, found abcdefghijklmnopqrst' 'abcdefghijklmnopqrst'
link 'switch, found the end of the line' 'link'
link 'switch, found swich' 'link swich 1'
link 'port, found to' 'link switch 1 to switch 4 of A'
link 'to, found the end of the line' 'link switch 1 port 2 #to'
link 'switch or outside, found 4' 'link switch 1 port 2 to 4 of A'
link 'of, found A' 'link switch 1 port 2 to outside A'
link 'the end of the line, found B' 'link switch 1 port 2 to outside of A B'
client 'at, found switch' 'client A 10.1.0.0/16 switch 1'
client 'switch, found 1' 'client A 10.1.0.0/16 at 1'
client 'the end of the line, found and' "$last and 2"

# Numbers.
link 'a switch, 0 to 15, found 16' 'link switch 16'
link 'a switch, 0 to 15, found 01' 'link switch 01'
link 'a switch, 0 to 15, found -1' 'link switch 1 port 2 to switch -1'
link 'a switch, 0 to 15, found of' 'link switch 1 port 2 to switch of A'
client 'a switch, 0 to 15, found the end of the line' 'client A 10.1.0.0/16 at switch'
link 'a port, 1 to 65535, found 0' 'link switch 1 port 0 to switch 4 of A'
link 'a port, 1 to 65535, found 65536' 'link switch 1 port 65536 to switch 4 of A'
link 'a port, 1 to 65535, found 99999999999999999999..' 'link switch 1 port 999999999999999999999'

# Names.
owner="all, or a client's name of 1 to 32 letters, digits, - or _"
name="a client's name of 1 to 32 letters, digits, - or _, and not all"
link "$owner, found A." 'link switch 1 port 2 to outside of A.'
link "$owner, found the end of the line" \
    'link switch 1 port 2 to outside of # all'
link "$owner, found nnnnnnnnnnnnnnnnnnnn.." \
    'link switch 1 port 2 to outside of nnnnnnnnnnnnnnnnnnnnnnnnnnnnnnnnn'
client "$name, found all" 'client all 10.1.0.0/16 at switch 1'
client "$name, found 10.1.0.0/16" 'client 10.1.0.0/16 at 1'
client "$name, found ??" 'client \0303\0244'

# Prefixes.
for prefix in 10.1.0.0 10.1.0/16 10.1.0.0.0/16 10.1.0.256/32 10.01.0.0/16 10.1.0.0/33 10.1.0.0/016 10.1..0/16 10.1.0.0/ \
    10.1.0.0/16/16 10.1.0.0/-1 .1.0.0/16; do
    client "an address and a length, 0 to 32, as 10.1.0.0/16, found $prefix" "client A $prefix at switch 1"
done
client 'an address and a length, 0 to 32, as 10.1.0.0/16, found at' 'client A at switch 1'
refuses '1: expected 10.1.0.0/16, with 0 in every bit past the length, found 10.1.0.1/16' 'client A 10.1.0.1/16 at switch 1'
refuses '1: expected 0.0.0.0/0, with 0 in every bit past the length, found 128.0.0.0/0' 'client A 128.0.0.0/0'
refuses '1: expected 1.2.3.4/31, with 0 in every bit past the length, found 1.2.3.5/31' 'client A 1.2.3.5/31 at 1 #'

# What an earlier line has, and too much of anything.
refuses '4: switch 1 has a link at port 2 already, in line 2' \
    '\nlink switch 1 port 2 to switch 4 of A\n\nlink switch 1 port 2 to outside of all'
refuses '3: client A has 10.1.0.0/16 at switch 1 already, in line 1' "$last\n\n$last"
many 257 'link switch 1 port %d to outside of all' '257: expected at most 256 links, found more'
many 65 'client A 10.0.%d.0/24 at switch 1' '65: expected at most 64 client lines, found more'
many 65 'client name%d 10.1.0.0/16 at switch 1' '65: expected at most 64 different names, found more'
many 7000 '# comment' '6554: expected at most 65536 bytes of text, found more'

# Nothing to check.
refuses '1: expected a client line, as client A 10.1.0.0/16 at switch 1, found the end of the text' ''
refuses '1: expected a client line, as client A 10.1.0.0/16 at switch 1, found the end of the text' '\n'
refuses '3: expected a client line, as client A 10.1.0.0/16 at switch 1, found the end of the text' \
    'link switch 1 port 1 to switch 4 of A\n\n#'

printf '%s' "$last" >"$work/text"
"$programs/links" <"$work/text" 2>"$work/errors" >&-
lost 'a closed descriptor'
if [ -c /dev/full ]; then
    "$programs/links" <"$work/text" 2>"$work/errors" >/dev/full
    lost /dev/full
fi
by_python 'tests/links.py computes something else' tests/links.py compare "$programs"
finish
