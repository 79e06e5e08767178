"""Checks the documents: their links, the laws and definitions that docs/PROVED.md names, and the figures that README.md
and docs/PROVED.md repeat.

    python3 tests/documents.py [FOLDER]      prints what is wrong in the tree, or in another one

A link leads to a file of the tree, and to a heading of it where it names one. A name before a file's path stands in
that file. Figures are those of docs/TRUSTED.md, of docs/CLAIMS.md or of the tree; the kit is the one that `rt version`
names, where there is one.
"""
import glob
import os
import re
import subprocess
import sys

import claims

PAGES = ["*.md", "docs/*.md", "docs/changes/*.md", "tests/*.md", "tests/cases/*.md"]
LINK = re.compile(r"\]\(([^)\s]+)\)")
TOTAL = re.compile(r"(?m)^Lines: (\d+)\. Files: (\d+)\.$")


def read(path):
    with open(path, encoding="utf-8") as file:
        return file.read()


def anchors(page):
    """The names of a page's headings, as links give them."""
    heads = re.findall(r"(?m)^#+ (.*)$", re.sub(r"(?ms)^```.*?^```", "", page))
    return {re.sub(r"[^\w\- ]", "", head.lower()).replace(" ", "-") for head in heads}


def loose():
    """The links that lead nowhere, and how many links there are."""
    wrong, count = [], 0
    for path in sorted(path for pattern in PAGES for path in glob.glob(pattern)):
        for link in LINK.findall(re.sub(r"(?ms)^```.*?^```", "", read(path))):
            if re.match(r"https?:", link):
                continue
            count += 1
            file, _, anchor = link.partition("#")
            target = os.path.normpath(os.path.join(os.path.dirname(path), file)) if file else path
            if not os.path.exists(target):
                wrong.append(f"{path}: there is no {target}")
            elif anchor and anchor not in anchors(read(target)):
                wrong.append(f"{path}: {target} has no heading {anchor}")
    return wrong, count


def number(value):
    return f"{value:,}"


def figures():
    """Each figure as it must stand in a page: the page, and the text with the figure in it."""
    totals = [tuple(map(int, total)) for total in TOTAL.findall(read("docs/TRUSTED.md"))]
    *parts, _ = [lines for lines, _ in totals]
    gate = len(glob.glob("crates/*/must-fail/*.edit"))
    mutants = len(glob.glob("tests/mutants/*/*.edit"))
    proved = "docs/PROVED.md"
    yield proved, f"rests on {number(parts[0])} lines in {totals[0][1]} files"
    yield proved, f"All other claims add {number(sum(parts[1:]))} lines, the rehearsal's {parts[2]} among them"
    yield proved, f"{gate} must-fail edits in the gate; {mutants} mutants"
    yield proved, f"| {len(glob.glob('tests/differences/traps/*.edit'))} faults seeded in the Rust code"
    yield proved, f"| {len(glob.glob('tests/cases/*.out'))} cases |"
    yield proved, f"seeds {len(re.findall(r'(?m)^finds ', read('tests/definitions.sh')))} faults"
    yield "README.md", f"{number(parts[0])} lines of definitions"


def kit():
    """Each page that has to name the kit, with its name, where there is a kit."""
    try:
        name = subprocess.run(["rt", "version"], capture_output=True, text=True, check=True).stdout.strip()
    except (OSError, subprocess.CalledProcessError):
        return []
    return [(page, f"`{name}`") for page in ("README.md", "docs/PROVED.md")]


def counted():
    """The counts of the last gate that docs/PROVED.md repeats and no other page has."""
    proved, claimed = " ".join(read("docs/PROVED.md").split()), read("docs/CLAIMS.md")
    counts = re.findall(r"\| ([\d,]+ (?:calls|lines|runs|texts and inputs))\b", proved)
    wrong = [f"docs/CLAIMS.md does not count {count}" for count in counts if count not in claimed]
    gate = re.search(r"the gate that \[(\S+)\]\(\S+\) records\b.*?: ([\d,]+ tests)", proved)
    if not gate or gate[2] not in read("docs/" + gate[1]):
        wrong.append("docs/PROVED.md does not say whose gate it counts, or counts other tests than that page")
    return wrong if len(counts) == 4 else wrong + [f"docs/PROVED.md has {len(counts)} counts of the gate, and not 4"]


def main():
    wrong, links = loose()
    names, named = claims.misplaced(read("docs/PROVED.md"))
    wrong += names + counted()
    for page, text in [*figures(), *kit()]:
        if text not in " ".join(read(page).split()):
            wrong.append(f"{page} does not say: {text}")
    for line in wrong:
        print(line)
    return 1 if wrong or not links or not named else 0


if __name__ == "__main__":
    if len(sys.argv) > 1:
        os.chdir(sys.argv[1])
    sys.exit(main())
