#!/usr/bin/env python3
"""Brings the repository's own definitions and lemmas to one spelling, once, after the scripts of the language's move.

usage: python3 tools/respell.py            at the top of the repository; files are rewritten in place
       python3 tools/respell.py --list     prints OLD<tab>NEW for each name, and changes nothing

A definition, a lemma, a field and a variable of specs/, proofs/ and the clauses of src/ is in snake case; a fact or a type
keeps its capital. A dash stays where it joins two names of definitions, and a plain word is added with an underscore.
Functions of src/, exported names, strings, inputs and outputs keep their names. A lemma that
would have a definition's name ends in _lem.
"""
import glob
import re
import sys

STOP = r"\s(){}\[\];.:,\"`"
TOKEN = re.compile(r"(?<![^" + STOP + r"])[^" + STOP + r"]+")
CAMEL = re.compile(r"([a-z0-9])([A-Z])")
DEFINED = re.compile(r"\s*(?:abbrev |unfoldable |pub )*([^" + STOP + r"]+) :(?: |$)")
# names of the library that lemmas are named after
LIBRARY = set("""append cons take drop length map set get get_or replicate reverse filter sum take_while concat nth zip
suc zero add sub mul div mod pow le lt eq not and or""".split())


# lemmas whose snake case stands already, and is now the name of a definition
LEMMAS = {n: n + "_lem" for n in ("in_use", "keys_on", "made_by", "numbers_of", "is_made", "near_first")}


def snake(part):
    """A part of a name in snake case; one that begins with a capital is a fact or a type, and stays."""
    if not part or not part[0].islower():
        return part
    return CAMEL.sub(lambda m: m.group(1) + "_" + m.group(2).lower(), part)


def antt_files():
    for folder in ("specs", "proofs"):
        yield from sorted(glob.glob(f"crates/*/{folder}/**/*.antt", recursive=True))


def lemma_files():
    """Files whose names other files can cite: all but the proofs of functions, whose names the language makes."""
    yield from sorted(glob.glob("crates/*/specs/*.antt"))
    yield from sorted(glob.glob("crates/*/proofs/*.antt"))


def read(path):
    with open(path, encoding="utf-8") as f:
        return f.read()


def code_of(line, mark):
    at = line.find(mark)
    return (line, "") if at < 0 else (line[:at], line[at:])


def imported():
    """Names that files take from the library: a name of the repository that is spelled as one of them stays."""
    own = {p.split("/")[1] for p in glob.glob("crates/*/src")}
    names = set()
    for path in antt_files():
        for module, items in re.findall(r"(?m)^use ([^\s{]+)\.\{([^}]*)\}", read(path)):
            if not (module.startswith("Rattle.") and module.split(".")[1] in own):
                names |= {i.split(" as ")[0].strip() for i in items.split(",")}
    return names


def gather():
    defined, made, words, tokens = set(), set(), set(), set()
    for path in lemma_files():
        for line in read(path).splitlines():
            m = DEFINED.match(code_of(line, "--")[0])
            if m:
                defined.add(m.group(1))
                if "/specs/" in path:
                    words.add(snake(m.group(1)))
    for path in antt_files():
        text = "\n".join(code_of(l, "--")[0] for l in read(path).splitlines())
        # a path names functions of src/, whose names a definition may have too
        text = re.sub(r"Rattle\.[^\s{}();]+", " ", re.sub(r"\.[^" + STOP + r"]+", " ", text) + " ".join(re.findall(r"(?<!Rattle)\.([^" + STOP + r"]*[a-z0-9][A-Z][^" + STOP + r"]*)", text)))
        tokens |= set(TOKEN.findall(text))
    for path in sorted(glob.glob("crates/*/proofs/*/**/Proof.antt", recursive=True)):
        for m in re.finditer(r"(?:tie|c|w|at|before|goal)\.([^" + STOP + r"]+)", read(path)):
            made.add(m.group(1))
    return defined, made, words, tokens


def renamings():
    defined, made, words, tokens = gather()
    taken = imported()
    names = words | LIBRARY
    new = {}
    new.update(LEMMAS)
    for t in tokens:
        if "◌" in t or not re.match(r"[a-zA-Z]", t):
            continue
        if t[0].islower() and "-" not in t and CAMEL.search(t):
            new[t] = snake(t)
    for t in defined:
        if "-" not in t.strip("-") or "◌" in t or t in made or t in taken:
            continue
        parts = [snake(p) for p in t.split("-")]
        # the longest beginning that is a name joins the longest end that is one
        out = parts[0]
        for k in range(1, len(parts)):
            left, right = "_".join(parts[:k]), "_".join(parts[k:])
            joined = (out in names or left in names or parts[0][:1].isupper()) and (parts[k] in names or right in names)
            out += ("-" if joined else "_") + parts[k]
        if out != t:
            new[t] = out
    # a lemma that would have a definition's name gets _lem
    have = {t for t in tokens | defined if t not in new}
    for old in sorted(new, key=lambda o: ("-" in o, o)):
        if new[old] in have:
            new[old] += "_lem"
            if "-" not in old or new[old] in have:
                sys.exit(f"{old} and another name fall together as {new[old]}")
        have.add(new[old])
    return new


def turned(text, new, dashes, mark):
    out = []
    for line in text.split("\n"):
        code, comment = code_of(line, mark)

        def one(m):
            t = m.group(0)
            n = new.get(t)
            if n is None:
                return t
            if ("-" in t or t in LEMMAS) and (not dashes or (m.start() > 0 and m.string[m.start() - 1] == "." and not re.search(r"(?:specs|proofs)\.\w+\.$|[A-Z]\w*\.$", m.string[:m.start()]))):
                return t
            return n

        code = TOKEN.sub(one, code)
        comment = TOKEN.sub(lambda m: new.get(m.group(0), m.group(0)) if "-" not in m.group(0) else m.group(0), comment)
        out.append(code + comment)
    return "\n".join(out)


def main(argv):
    new = renamings()
    if argv == ["--list"]:
        for o in sorted(new):
            print(o + "\t" + new[o])
        return 0
    lemmas = set(lemma_files())
    camel = {o: n for o, n in new.items() if "-" not in o and o not in LEMMAS}
    others = {o: n for o, n in new.items() if o not in LEMMAS}
    for path in antt_files():
        text = read(path)
        with open(path, "w", encoding="utf-8") as f:
            f.write(turned(text, new if path in lemmas else others, True, "--"))
    for path in sorted(glob.glob("crates/*/src/**/*.rt", recursive=True)):
        text = read(path)
        with open(path, "w", encoding="utf-8") as f:
            f.write(turned(text, camel, False, "//"))
    print(f"respelled: {len(new)} names")
    return 0


if __name__ == "__main__":
    sys.exit(main(sys.argv[1:]))
