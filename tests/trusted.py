"""The map of the trusted base, docs/TRUSTED.md, worked out from the text of the definitions and of what cites them.

    python3 tests/trusted.py          prints the page
    python3 tests/trusted.py dead     prints the definitions that nobody uses, of which there must be none

A definition counts where it is used by name, from a claim, a contract or a law on. A name that a definition binds
itself is no use of another. Of code and of proofs the words alone are read.
"""
import glob
import os
import re
import sys

import antt
import claims

HEAD = """# The trusted base

These are the definitions that a reader has to believe, file by file. The kit checks the proofs, so nobody has to read
those. tests/trusted.py makes this page from the text of the definitions, and tests/trusted.sh compares it.

Each table starts at the claim and goes down: a file stands before the files that it uses. "12 of 40" means that the
table adds 12 of the file's 40 lines of definitions. No table counts the lines of one above it again. Comments and `use`
lines are not counted. Files of src/ stand for the structs and enums in them that definitions name.
"""
THEOREM = "crates/domain/proofs/Theorem.antt"
CALLS = ["answer", "lists", "tag", "flow", "message", "playbook", "switch", "controller"]
FED = ["openflow", "feed"]
FUNCTION = r'(?ms)^[ \t]*pub (?:extern "C" )?fn (.*?)\{\s*$'
TYPE = r"(?ms)^(?:pub(?:\(crate\))? )?(?:struct|enum) (\w+) \{.*?^\}"
LAW = r"(?ms)^( *)(?:pub )?%s :(.*?)(?=^\1\S|\Z)"


class Type:
    """A struct or an enum of the code."""
    kind = "type"

    def __init__(self, path, name, text):
        self.path, self.name, self.lines = path, name, text.count("\n") + 1
        self.words = set(re.findall(r"\w+", text))


class Text:
    """A file of code or of proofs: its first comment, what its `use` lines bring, and the rest of it."""

    def __init__(self, path):
        with open(path, encoding="utf-8") as file:
            text = file.read()
        self.path = path
        self.head = " ".join(line[2:].strip() for line in re.match(r"(?://.*\n)*", text).group().split("\n"))
        self.uses = antt.Uses(re.findall(r"(?m)^ *(?:ghost )?(use .*?);?$", text))
        self.crates = {name: crate for crate, name in re.findall(r"(?m)^use (\w+)(?:::\w+)*::(\w+);", text)}
        self.text = re.sub(r"(?m)^ *(?:ghost )?use .*$|(^|\s)(--|//)\s.*$", "", text)


def crate_of(path):
    return path.split("/")[1]


class Base:
    """All definitions, and the types of the code; which of them use which."""

    def __init__(self):
        self.files = antt.specs()
        self.code = {path: Text(path) for path in sorted(glob.glob("crates/*/src/*.rt"))}
        self.named, self.types = {}, {}
        for path, file in self.files.items():
            for d in file.definitions:
                for name in [d.name] + (d.parts if d.kind == "data" else []):
                    self.named[path, name] = d
        for path, code in self.code.items():
            for found in re.finditer(TYPE, code.text):
                self.types[crate_of(path), found.group(1)] = Type(path, found.group(1), found.group(0))

    def meant(self, uses, path, name):
        """The definition or type that a name means in a file, or none."""
        local = self.named.get((path, name)) or self.named.get((path, "◌%s◌" % name))
        of, _, last = name.rpartition(".")
        used = uses.files.get(of) if of else uses.names.get(name)
        if local or not used:
            return local
        if antt.declared(used):
            return self.types.get(antt.declared(used))
        return self.named.get((antt.spec_of(used), last))

    def type_meant(self, code, word):
        crate = code.crates.get(word, "crate")
        return self.types.get((crate_of(code.path) if crate == "crate" else crate, word))

    def is_case(self, file, name):
        d = self.meant(file.uses, file.path, name)
        return name in antt.TIGHT or d and (d.kind == "type" or d.kind == "data" and name.split(".")[-1] in d.parts)

    def used_by(self, d):
        """What a definition or a type uses, itself aside."""
        if d.kind == "type":
            return {self.type_meant(self.code[d.path], word) for word in d.words} - {None, d}
        file, names = self.files[d.path], set()
        bound = {name for passed, own, type in d.module.binders for name in own} if d.module else set()
        for passed, own, type in d.binders:
            names |= antt.free(type, bound)
            bound |= set(own)
        for type in d.types:
            names |= antt.free(type, bound | set(d.parts if d.kind == "record" else []))
        for patterns, body in d.clauses:
            left = set().union(*(antt.free(pattern, set()) for pattern in patterns))
            cases = {name for name in left if self.is_case(file, name)}
            names |= cases | antt.free(body, bound | left - cases)
        return ({self.meant(file.uses, d.path, name) for name in names} | {d.module}) - {None, d}

    def reached(self, roots):
        seen, left = set(), list(roots)
        while left:
            d = left.pop()
            if d and d not in seen:
                seen.add(d)
                left += self.used_by(d)
        return seen

    def said(self, text, words):
        """What words mean in a file of code or of proofs."""
        found = {self.meant(text.uses, None, word) for word in antt.TOKEN.findall(words)}
        if text.path in self.code:
            found |= {self.type_meant(text, word) for word in re.findall(r"\w+", words)}
        return found

    def contracts(self, crates):
        """What the public functions of some crates say: their types, and what they ensure."""
        texts = [code for path, code in self.code.items() if crate_of(path) in crates]
        return set().union(*(self.said(code, says) for code in texts for says in re.findall(FUNCTION, code.text)))

    def law(self, path, name):
        """What a law says, or the definition of that name."""
        if path in self.files or not os.path.exists(path):
            return {self.named.get((path, name))}
        text = Text(path)
        return set().union(*(self.said(text, says) for _, says in re.findall(LAW % re.escape(name), text.text)))

    def cited(self, edges):
        """What the laws say that docs/CLAIMS.md cites: those of the crate edges, or all others."""
        with open("docs/CLAIMS.md", encoding="utf-8") as page:
            laws = [(path, name) for name, paths in claims.cited(page.read()) for path in paths]
        return set().union(*(self.law(*law) for law in laws if (crate_of(law[0]) == "edges") == edges))

    def alive(self):
        """What code or proofs name, and what that uses."""
        proofs = [Text(path) for path in sorted(glob.glob("crates/*/proofs/**/*.antt", recursive=True))]
        return self.reached(set().union(*(self.said(text, text.text) for text in [*self.code.values(), *proofs])))

    def in_order(self, chosen, first=None):
        """The files of some definitions, each before those that it uses; of others the higher crate's first."""
        with open("crates.txt", encoding="utf-8") as file:
            crates = re.findall(r"(?m)^(\w+)[^#:\n]*:", file.read())
        below = {d.path: set() for d in chosen}
        for d in chosen:
            below[d.path] |= {used.path for used in self.used_by(d) & chosen}
        order, seen = [], set()

        def visit(path):
            if path not in seen:
                seen.add(path)
                lines = self.files[path].uses.order if path in self.files else []
                by_line = {antt.spec_of(line): i for i, line in enumerate(lines)}
                for used in sorted(below[path], key=lambda used: (by_line.get(used, -1), used)):
                    visit(used)
                order.append(path)

        for path in sorted(below, key=lambda path: (path == first, crates.index(crate_of(path)), path)):
            visit(path)
        return order[::-1]

    def table(self, chosen, last, tell, first=None):
        rows = ["| File | Lines | %s |" % last, "|---|---|---|"]
        for path in self.in_order(chosen, first):
            of = self.files[path].definitions if path in self.files else [
                type for type in self.types.values() if type.path == path]
            lines = [sum(d.lines for d in some) for some in ([d for d in of if d in chosen], of)]
            rows.append("| %s | %d of %d | %s |" % (path[len("crates/"):], *lines, tell(path, of)))
        return "\n".join(rows + ["", "Lines: %d. Files: %d." % (sum(d.lines for d in chosen), len(rows) - 2)])

    def page(self):
        claim = self.named["crates/domain/specs/Claim.antt", "Demand3"]
        others = {crate_of(path) for path in self.code} - {*CALLS, *FED, "rehearsal", "notation"}
        seen = set()
        yield HEAD
        for title, roots in (
                ("What the one claim, `Demand3`, rests on", self.law(THEOREM, "demand3")),
                ("What the contracts of the ends' calls add", self.contracts(CALLS)),
                ("What the contracts of the rehearsal add", self.contracts(["rehearsal"])),
                ("What the contracts of the FLOW_MODs add", self.contracts(FED)),
                ("What the edges add", self.cited(edges=True)),
                ("What the contracts of the notation add", self.contracts(["notation"])),
                ("What other laws that CLAIMS.md cites add", self.cited(edges=False)),
                ("What the contracts of the other crates add", self.contracts(others))):
            chosen = self.reached(roots) - seen
            seen |= chosen
            yield "## %s\n\n%s\n" % (title, self.table(
                chosen, "Holds", lambda path, of: re.split(
                    r"\.(?:\s|$)", (self.files.get(path) or self.code[path]).head)[0], claim.path))
        rest = {d for file in self.files.values() for d in file.definitions} - seen
        yield "## Not trusted\n\nOnly contracts of inner functions and laws use these.\n\n" + self.table(
            rest, "Definitions", lambda path, of: ", ".join("`%s`" % d.name for d in of if d in rest))


def main():
    base = Base()
    if sys.argv[1:] == ["dead"]:
        alive = base.alive()
        dead = [d for file in base.files.values() for d in file.definitions if d not in alive and d.kind != "module"]
        sys.exit("\n".join("nobody uses %s of %s" % (d.name, d.path) for d in dead) or 0)
    if sys.argv[1:]:
        sys.exit(__doc__)
    print("\n".join(base.page()))


if __name__ == "__main__":
    main()
