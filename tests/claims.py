"""Checks what docs/CLAIMS.md cites, that it cites every must-fail edit, and that each row has an id of its own.

    python3 tests/claims.py [PAGE]     what is wrong with the page

A name before a file's path stands in that file. A must-fail edit is cited as `crate/label` and is in the gate or among
the mutants. No edit is left uncited, and no claim is left to mutants alone, which the gate does not try. The ids of a
table have one beginning, which no other table has, and rise. A row that the documents name as D1.2 is there.
"""
import glob
import os
import re
import sys

import edits

NAMES = re.compile(r"((?:`[^`]+`(?:, | and | of ))*`[^`]+`) \(([\w/.]+\.antt(?:, [\w/.]+\.antt)*)\)")
EDIT = re.compile(r"`([a-z0-9_]+/[a-z0-9_]+)`")
BARE = re.compile(r"`([a-z0-9_]+)`")
RUNS = "crates/domain/specs/"
ID = re.compile(r"([A-Z](?:\d\.)?)(\d+)")
LINE = re.compile(r"\|(?:---\|)+")
NAMED = re.compile(r"\bD[123]\.\d+\b")


def paths(listed, before):
    """The files of a citation, and the folder of the last one; a file without a folder is in the one before."""
    found = []
    for path in listed.split(", "):
        folder = os.path.dirname(path)
        if folder:
            before = "crates/" + folder + "/"
        found.append(before + os.path.basename(path))
    return found, before


def lines(text):
    """The rows of tables, and each paragraph as one line."""
    return re.sub(r"(?<=[^\n|])\n(?=[^\n|])", " ", text).split("\n")


def cited(text):
    """Each name with the files of which one must have it. A row's first file without a folder is of the claim's own."""
    for line in lines(text):
        before = RUNS
        for names, listed in NAMES.findall(line):
            files, before = paths(listed, before)
            for name in re.findall(r"`([^`]+)`", names):
                if "::" not in name:
                    yield name, files


def misplaced(text):
    """What is wrong with the names and their files, and how many there are."""
    wrong, count = [], 0
    for name, files in cited(text):
        count += 1
        word = re.compile(r"(?<![\w-])" + re.escape(name) + r"(?![\w-])")
        if not any(os.path.exists(f) and word.search(open(f, encoding="utf-8").read()) for f in files):
            wrong.append(f"{name} is not in {', '.join(files)}")
    return wrong, count


def untested(text, there):
    """What is wrong with the citations of must-fail edits, and how many there are."""
    wrong, count, named = [], 0, set()
    for line in text.split("\n"):
        cell = line.strip("|").split("|")[-1] if line.startswith("|") else ""
        names = EDIT.findall(cell)
        named.update(names)
        count += len(names)
        wrong += [f"there is no must-fail edit {name}" for name in names if name not in there]
        for part in re.findall(r"must-fail ([^;]*)", cell):
            wrong += [f"the must-fail edit {name} is cited without its crate" for name in BARE.findall(part)]
        tried = any(edits.in_gate(path) for name in names for path in there.get(name, []))
        if names and not tried and not re.search(r"\w", EDIT.sub("", cell).replace("must-fail", "")):
            wrong.append(f"mutants alone test this claim: {line[:100]}")
    wrong += [f"no claim cites the must-fail edit {name}" for name in there if name not in named]
    return wrong, count


def tables(text):
    """The tables of the page: of each row the first cell. The row of headings and the line below it are left out."""
    found, before = [], ""
    for line in text.split("\n"):
        if line.startswith("|"):
            if not before.startswith("|"):
                found.append([])
            elif not LINE.fullmatch(line):
                found[-1].append(line.strip("|").split("|")[0].strip())
        before = line
    return found


def unnumbered(text):
    """What is wrong with the ids of the rows, and the ids."""
    wrong, seen, begun = [], set(), set()
    for rows in tables(text):
        ids = [ID.fullmatch(cell) for cell in rows]
        wrong += [f"a row has no id: {cell[:60]}" for cell, id in zip(rows, ids) if not id]
        pairs = [(id.group(1), int(id.group(2))) for id in ids if id]
        if len({beginning for beginning, number in pairs}) > 1:
            wrong.append(f"the ids of one table begin in more than one way: {rows[0]} to {rows[-1]}")
        for (_, before), (beginning, number) in zip(pairs, pairs[1:]):
            if number <= before:
                wrong.append(f"the id {beginning}{number} does not rise")
        wrong += [f"the id {beginning}{number} is in two tables" for beginning, number in pairs if beginning in begun]
        begun |= {beginning for beginning, number in pairs}
        seen |= {f"{beginning}{number}" for beginning, number in pairs}
    return wrong, seen


def unknown(ids):
    """The rows that documents name and that are not there."""
    for path in sorted([*glob.glob("*.md"), *glob.glob("docs/**/*.md", recursive=True)]):
        for name in NAMED.findall(open(path, encoding="utf-8").read()):
            if name not in ids:
                yield f"{path} names the claim {name}, which is not there"


def main():
    text = open(sys.argv[1] if sys.argv[1:] else "docs/CLAIMS.md", encoding="utf-8").read()
    names, named = misplaced(text)
    tests, tested = untested(text, edits.found())
    rows, ids = unnumbered(text)
    wrong = names + tests + rows + list(unknown(ids))
    for line in wrong:
        print(line)
    return wrong or named == 0 or tested == 0 or not ids


if __name__ == "__main__":
    sys.exit(1 if main() else 0)
