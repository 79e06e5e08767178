"""Checks the must-fail edits, those of the gate and those of tests/mutants: each still fits the crate that it edits.

The rule is rt's: a `file:` line holds for the pairs after it, and each `old:` text stands once in its file, as the
pairs before it have left that file. Beyond rt, an edit begins with its rule in words, alters something, and has one
place.
"""
import glob
import os
import sys

GATE = "crates/{}/must-fail"
MUTANTS = "tests/mutants/{}"


def found():
    """The edits: `crate/label` with the files that have it, those of the gate first."""
    edits = {}
    for place in (GATE, MUTANTS):
        for path in sorted(glob.glob(place.format("*") + "/*.edit")):
            crate = path.split("/")[1] if place == GATE else path.split("/")[2]
            label = os.path.basename(path)[: -len(".edit")]
            edits.setdefault(f"{crate}/{label}", []).append(path)
    return edits


def in_gate(path):
    """Whether the gate tries this edit."""
    return path.startswith("crates/")


def replaced(text, old, new):
    """The text with `new` in place of `old`, or what is wrong."""
    at = text.find(old)
    if old == "" or at < 0:
        return None, "an 'old:' text is not in"
    if old in text[at + len(old):]:
        return None, "an 'old:' text is more than once in"
    if old == new:
        return None, "a pair alters nothing in"
    return text[:at] + new + text[at + len(old):], None


def fault(crate, path):
    """What is wrong with an edit, or None."""
    texts, file, old, pairs = {}, "", "", 0
    lines = open(path, encoding="utf-8").read().split("\n")
    if not lines[0].startswith("# "):
        return "its first line is not the rule in words"
    for line in lines:
        if line.startswith("file: "):
            file = line[len("file: "):]
        elif line.startswith("old: "):
            old = line[len("old: "):]
        elif line.startswith("new:"):
            new = line[len("new:"):].removeprefix(" ")
            if file.split("/")[0] not in ("src", "specs", "proofs") or ".." in file.split("/"):
                return f"it names no file under src/, specs/ or proofs/: {file}"
            whole = f"crates/{crate}/{file}"
            if not os.path.isfile(whole):
                return f"there is no {whole}"
            text = texts[file] if file in texts else open(whole, encoding="utf-8").read()
            texts[file], wrong = replaced(text, old, new)
            if wrong:
                return f"{wrong} {whole}"
            old = ""
            pairs += 1
    return None if pairs else "it has no 'old:' and 'new:' pair"


def main():
    edits = found()
    wrong = []
    for name, places in edits.items():
        wrong += [f"{name} is in more than one place: {', '.join(places)}"] if len(places) > 1 else []
        for path in places:
            said = fault(name.split("/")[0], path)
            wrong += [f"{path}: {said}"] if said else []
    for line in wrong:
        print(line)
    return wrong or not edits


if __name__ == "__main__":
    sys.exit(1 if main() else 0)
