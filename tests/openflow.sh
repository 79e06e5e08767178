#!/bin/sh
# sh tests/openflow.sh [PROGRAM_DIR]: the programs flowmods and flowlist print what tests/flowmods has beside each text,
# and for the cases of tests/cases what tests/flowmods.py computes. Where they are installed, Open vSwitch's ovs-ofctl
# and tshark read an evening's FLOW_MODs; they must print what is kept beside it (versions 3.1.0 and 4.0.17 do), and
# notice altered bytes.
set -u
script=openflow.sh
. tests/counting
programs=${1:-$programs}
there assemble flowmods flowlist
kept=tests/flowmods
evening=$kept/every-length

# The programs

# printed WHAT BYTES ERRORS WORDS: for the file input flowmods writes BYTES and ERRORS, and flowlist WORDS.
printed() {
    "$programs/flowmods" <"$work/input" >"$work/bytes" 2>"$work/errors"
    cmp "$2" "$work/bytes" && cmp "$3" "$work/errors"
    ended $? "$1: flowmods writes other bytes, or says something else"
    "$programs/flowlist" <"$work/input" >"$work/words" 2>"$work/errors"
    cmp "$4" "$work/words" && [ ! -s "$work/errors" ]
    ended $? "$1: flowlist writes other words"
}

for text in "$kept"/*.txt; do
    name=${text%.txt}
    switch=$(sed -n '1s/^# Switch \([0-9]*\): .*/\1/p' "$text")
    if [ -z "$switch" ]; then
        ended 1 "$text does not begin with its switch"
        continue
    fi
    # shellcheck disable=SC2059
    { printf "\\$(printf %03o "$switch")" && "$programs/assemble" <"$text" 2>"$work/map"; } >"$work/input"
    errors=/dev/null
    if grep -q '^fault ' "$name.out"; then errors=$name.out; fi
    printed "$text" "$name.bin" "$errors" "$name.out"
    if [ "$name" = "$evening" ]; then cp "$work/bytes" "$work/evening"; fi
done
[ -s "$work/evening" ]
ended $? "there is no evening for other makers' readers"
: >"$work/input"
echo 'fault 30' >"$work/fault"
printed 'no input' /dev/null "$work/fault" "$work/fault"

by_python 'tests/flowmods.py computes other files than tests/flowmods has' tests/flowmods.py cases
by_python 'tests/flowmods.py computes other FLOW_MODs for a case of tests/cases' tests/flowmods.py compare "$programs"

# Other makers' readers

# altered OFFSET BYTE: the evening with another byte there.
altered() {
    cp "$work/evening" "$work/altered"
    # shellcheck disable=SC2059
    printf "\\$(printf %03o "$2")" | dd of="$work/altered" bs=1 seek="$1" conv=notrunc 2>/dev/null
    ! cmp -s "$work/evening" "$work/altered"
    ended $? "the evening has $2 at $1 already"
}

# reads READER EXPECTED: what a reader prints of the evening is this file. In the second message, which begins at 88, it
# notices another command, priority, mask and port, and a match length that counts its padding.
reads() {
    "$1" "$work/evening" >"$work/read"
    cmp "$2" "$work/read"
    ended $? "$1 reads something else than $evening.txt says"
    for byte in '113 4' '119 2' '139 24' '154 192' '175 3'; do
        # shellcheck disable=SC2086
        altered $byte
        "$1" "$work/altered" >"$work/read"
        ! cmp -s "$2" "$work/read"
        ended $? "$1 does not notice this byte of the evening: $byte"
    done
}

# It ends with status 0 whatever it reads.
open_vswitch() {
    ovs-ofctl -vconsole:off ofp-parse "$1" 2>&1
}

# shown BYTES OPTION..: what tshark shows of bytes as one packet.
shown() {
    od -Ax -tx1 -v "$1" | text2pcap -q -T 6653,6653 - "$work/packet" 2>/dev/null
    shift
    tshark -r "$work/packet" -d tcp.port==6653,openflow "$@" 2>/dev/null
}
wireshark() {
    shown "$1" -T fields -E occurrence=a -E aggregator=/s -e openflow_v4.xid -e openflow_v4.flowmod.command \
        -e openflow_v4.flowmod.priority -e openflow_v4.oxm.value_ipv4addr -e openflow_v4.oxm.ipv4_mask \
        -e openflow_v4.action.output.port | tr '\t' '\n'
}

if command -v ovs-ofctl >/dev/null; then
    reads open_vswitch $evening.ovs
else
    echo 'not run: Open vSwitch read nothing, since there is no ovs-ofctl (Debian: openvswitch-common)'
fi
if command -v tshark >/dev/null && command -v text2pcap >/dev/null; then
    reads wireshark $evening.tshark
    shown "$work/evening" -Y '_ws.malformed or _ws.expert.severity == error' >"$work/read"
    cmp /dev/null "$work/read"
    ended $? "tshark calls the evening malformed"
else
    echo 'not run: tshark read nothing, since it is not there with text2pcap (Debian: tshark)'
fi
finish
