#!/bin/sh
# Links between documents lead somewhere, docs/PROVED.md names laws and definitions that are there, and the figures that
# it and README repeat are those of the tree. The check is then tried: it must find each fault put into a copy.
set -u
if ! command -v python3 >/dev/null; then
    echo "not run: tests/documents.sh needs Python 3"
    exit 0
fi
script=documents.sh
. tests/counting

python3 tests/documents.py
ended $? 'the documents have the faults above'

# What a fault is put into: all that the check reads.
tree=$work/tree
mkdir "$tree" || exit 1
copied "$tree" *.md bin bench docs examples tests tools || exit 1

# finds PAGE EDIT FAULT: with this edit of a page exactly this fault is told, beside those of the tree.
finds() {
    sed "$2" "$1" >"$tree/$1"
    cmp -s "$1" "$tree/$1"
    ended $((! $?)) "$1 has nothing for the edit $2"
    { python3 tests/documents.py; echo "$3"; } | sort >"$work/expected"
    python3 tests/documents.py "$tree" | sort | cmp -s - "$work/expected"
    ended $? "in $1 the edit $2 does not have this told, or more is told: $3"
    cp "$1" "$tree/$1"
}

finds README.md 's/(docs\/GLOSSARY.md)/(docs\/GLOSSARIES.md)/' 'README.md: there is no docs/GLOSSARIES.md'
finds docs/GLOSSARY.md 's/(TRUSTED.md)/(TRUSTED.md#nowhere)/' 'docs/GLOSSARY.md: docs/TRUSTED.md has no heading nowhere'
finds docs/PROVED.md 's/`table_by_last` (/`table_by_first` (/' \
    'table_by_first is not in crates/domain/proofs/Theorem.antt'
finds README.md 's/^\(.*\) 1,[0-9]* lines of definitions/\1 1,000 lines of definitions/' \
    "README.md does not say: $(sed -n 's/^Lines: \([0-9]*\)\([0-9][0-9][0-9]\)\. Files.*/\1,\2/p' docs/TRUSTED.md |
        head -n 1) lines of definitions"
edits=$(find crates/*/must-fail -name '*.edit' | wc -l | tr -d ' ')
mutants=$(find tests/mutants -name '*.edit' | wc -l | tr -d ' ')
finds docs/PROVED.md 's/[0-9]* must-fail edits in the gate/1 must-fail edits in the gate/' \
    "docs/PROVED.md does not say: $edits must-fail edits in the gate; $mutants mutants"
finds docs/PROVED.md 's/| [0-9,]* calls |/| 1 calls |/' 'docs/CLAIMS.md does not count 1 calls'
if command -v rt >/dev/null; then
    finds README.md 's/`rattle-kit-[^`]*`/`another kit`/' "README.md does not say: \`$(rt version)\`"
else
    echo "tests/documents.sh: no rt, so the kit's name was not compared"
fi
finish
