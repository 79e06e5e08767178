"""Checks docs/DECISIONS.md: each decision stands once, in rising order within its group, in the table at the top, or
among the withdrawn ones; and each decision that the tree cites by its number is there.

    python3 tests/decisions.py [PAGE]     what is wrong with the page
    python3 tests/decisions.py table      the table at the top, as it should be
"""
import glob
import os
import re
import sys

PAGE = "docs/DECISIONS.md"
CITING = ["*.md", "docs/**/*.md", "crates/**/*.rt", "crates/**/*.antt", "tests/**/*", "bin/*", "bench/**/*.rs"]


def entries(text):
    """The decisions in the page's order: number and letter of the group."""
    found, letter = [], ""
    for line in text.split("\n"):
        group, entry = re.match(r"## ([A-Z])\. ", line), re.match(r"\*\*(\d+)\. ", line)
        letter = group.group(1) if group else letter
        if entry:
            found.append((int(entry.group(1)), letter))
    return found


def withdrawn(text):
    """The numbers that the page calls withdrawn."""
    listed = re.search(r"(?ms)^Withdrawn: (.*?)\n\n", text)
    return {int(n) for n in re.findall(r"(?:^|; )(\d+), ", listed.group(1).replace("\n", " "))} if listed else set()


def table(found):
    """The table by tens and ones: the letter of each decision, and a dash for what is missing up to the last."""
    letters, last = dict(found), max(n for n, letter in found)
    yield "| | " + " | ".join(".%d" % ones for ones in range(10)) + " |"
    yield "|---|" + "---|" * 10
    for tens in range(last // 10 + 1):
        numbers = range(10 * tens, 10 * tens + 10)
        cells = [letters.get(n, "–" if 0 < n <= last else "") for n in numbers]
        yield "| **%d.** | %s |" % (tens, " | ".join(cells))


def faults(text):
    """What is wrong with the page."""
    found = entries(text)
    for (before, group), (n, letter) in zip(found, found[1:]):
        if group == letter and n <= before:
            yield "decision %d stands behind decision %d" % (n, before)
    numbers = [n for n, letter in found]
    for n in sorted(set(numbers)):
        if numbers.count(n) > 1:
            yield "decision %d stands more than once" % n
    missing = set(range(1, max(numbers) + 1)) - set(numbers)
    for n in sorted(missing ^ withdrawn(text)):
        yield "decision %d is %s" % (n, "missing, and not withdrawn" if n in missing else "withdrawn, and still there")
    if "\n".join(table(found)) not in text:
        yield "the table at the top is another one; python3 tests/decisions.py table prints it"


def uncited(numbers):
    """The citations of decisions that are not there."""
    for path in sorted({path for place in CITING for path in glob.glob(place, recursive=True) if os.path.isfile(path)}):
        with open(path, encoding="utf-8", errors="replace") as file:
            for n in re.findall(r"\bdecisions? (\d+)\b", file.read()):
                if int(n) not in numbers:
                    yield "%s cites decision %s, which is not there" % (path, n)


def main():
    arguments = sys.argv[1:]
    with open(PAGE if arguments in ([], ["table"]) else arguments[0], encoding="utf-8") as file:
        text = file.read()
    found = entries(text)
    if arguments == ["table"]:
        print("\n".join(table(found)))
        return False
    wrong = [*faults(text), *uncited({n for n, letter in found})] if found else ["there are no decisions"]
    for line in wrong:
        print(line)
    return wrong


if __name__ == "__main__":
    sys.exit(1 if main() else 0)
