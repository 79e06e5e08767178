#!/bin/sh
# The definitions of crates/*/specs, run as text by tests/definitions.py, give what document 01's models in Python give.
# Then the check itself is tried: it must find each fault that is put into a copy of the definitions.
set -u
if ! command -v python3 >/dev/null; then
    echo "not run: tests/definitions.sh needs Python 3"
    exit 0
fi
script=definitions.sh
. tests/counting

python3 tests/definitions.py
ended $? 'the definitions give something else than document 01'

# finds FILE OLD NEW: the first OLD of a line of a file of definitions becomes NEW.
finds() {
    for folder in crates/*/specs; do
        mkdir -p "$work/$folder" && cp "$folder"/*.antt "$work/$folder" || exit 1
    done
    sed "s/$2/$3/" "crates/$1" >"$work/crates/$1"
    cmp -s "crates/$1" "$work/crates/$1"
    ended $((! $?)) "$1 has no '$2'"
    python3 tests/definitions.py "$work" 2>&1 | grep -q ': the definitions give$'
    ended $? "'$3' for '$2' in $1 is not found"
}

finds tag/specs/Sha256.antt '(ROTR 13 x)' '(ROTR 12 x)'
finds lists/specs/Bytes.antt 'b \* 256 ^ length bs + num bs' 'b + 256 * num bs'
finds switch/specs/Slots.antt '(n - 1) \/ 3 + 1' 'n \/ 3 + 1'
finds controller/specs/Readiness.antt 'eqb v\.first u\.first && eqb' 'eqb'
# a length that counts the zeros behind it; those of whole messages have none
finds openflow/specs/FlowMods.antt '(2, length)' '(2, length + (8 - length % 8) % 8)'
finds domain/specs/Ideals.antt ' && skips_none i\.made (change_of k)' ''
finish
