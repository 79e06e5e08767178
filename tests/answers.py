"""Checks docs/ANSWERS.md against the constants of crates/answer, the words of crates/story and crates/faults, and bin/.

    python3 tests/answers.py [FOLDER]      prints what differs in the tree, or in another one

Each constant is a row with its number, and each row a constant. A sentence that the code prints for an answer stands in
that answer's row. A sentence of a row is one that the code prints for that answer: in an arm of a match or a test of
the answer, or in a function that is called there. In a row `..` stands for what is printed between two texts, as a
placeholder does in the code. Where a command knows --strict, a list of numbers in bin/ has exactly the rows that are
marked so.
"""
import glob
import os
import re
import sys

CONSTANT = re.compile(r"(?m)^pub const (\w+): u8 = (\d+);$")
ROW = re.compile(r"(?m)^\| (\d+) \| (\w+) \|(.*)\|$")
TEXT = r'(?<!b)"((?:[^"\\]|\\.)*)"'
PLACEHOLDER = re.compile(r"(?:\{[^{}]*\})+")
NAMED = re.compile(r"(?m)^(?:pub )?const (\w+): &str = " + TEXT + ";$")
SAID = re.compile(r"answer::([A-Z_]+) =>\s*(?:\{\s*)?(?:f\.write_str\(\s*|write!\(\s*f,\s*)?" + TEXT)
CASE = re.compile(r"answer::([A-Z_]+)(?:(?: if [^\n]*)? =>|[^={};]*\{)(.*?)(?=\n\s*(?:\}|_ =>|answer::)|\Z)", re.S)
FUNCTION = re.compile(r"(?ms)^( *)(?:pub(?:\(crate\))? )?fn (\w+)[(<].*?^\1\}")
CALL = re.compile(r"\b([a-z_]+)\(")
STRICT = re.compile(r"(?m)^\| (\d+) \|.*\| [^|]*\bstrict\b[^|]* \|$")
LIST = re.compile(r"\d+(?:(?: ?\| ?|,?\s+(?:or\s+|and\s+)?)\d+){4,}")


def read(path):
    with open(path, encoding="utf-8") as file:
        return file.read()


def joined(tree, pattern):
    """All files of a tree that a pattern fits, one after the other."""
    return "".join(read(path) for path in sorted(glob.glob(os.path.join(tree, pattern))) if os.path.isfile(path))


def rows(page):
    """Each row's name with its number and its sentences."""
    found = {}
    for number, name, rest in ROW.findall(page):
        cells = rest.split("|")
        words = cells[2] if len(cells) == 4 else ""
        found.setdefault(name, []).append((int(number), re.findall(r"`([^`]+)`", words)))
    return found


def spoken(text):
    """A text of the code as a row has it."""
    return PLACEHOLDER.sub("..", text).strip()


def fits(sentence, text):
    """Whether a row's sentence is a text of the code."""
    return re.fullmatch(".+".join(re.escape(part) for part in sentence.split("..")), text)


def texts(code, functions, seen):
    """All texts of a piece of code, and of the functions that it calls."""
    found = {spoken(text) for text in re.findall(TEXT, code)}
    for name in CALL.findall(code):
        if name in functions and name not in seen:
            seen.add(name)
            found |= texts(functions[name], functions, seen)
    return found


def printed(code):
    """The sentences that stand in an answer's own arm, by name; and all texts that may be printed for it."""
    for name, text in NAMED.findall(code):
        code = re.sub(r"=> (\w+::)*%s\b|\b(f\.write_str\()(\w+::)*%s\b" % (name, name),
                      lambda place: (place.group(2) or "=> ") + '"%s"' % text, code)
    functions = {match.group(2): match.group(0) for match in FUNCTION.finditer(code)}
    own, reached = {}, {}
    for name, text in SAID.findall(code):
        if re.search("[a-z]", spoken(text)):
            own.setdefault(name, set()).add(spoken(text))
    for name, piece in CASE.findall(code):
        reached.setdefault(name, set()).update(texts(piece, functions, set()))
    return own, reached


def in_words(name, sentences, own, reached):
    """What is wrong with the sentences of a row."""
    wrong = [f"{name} is told as '{text}', which its row has not" for text in own.get(name, set())
             if not any(fits(sentence, text) for sentence in sentences)]
    if not sentences:
        wrong.append(f"{name} has no words")
    for sentence in sentences:
        if not any(fits(sentence, text) for text in reached.get(name, set())):
            wrong.append(f"{name} is never told as '{sentence}'")
    return wrong


def faults(page, constants, code):
    own, reached = printed(code)
    table = rows(page)
    wrong = [f"{name} has {len(found)} rows" for name, found in table.items() if len(found) > 1]
    numbers = {name: int(number) for name, number in CONSTANT.findall(constants)}
    wrong += [f"{name} has no row" for name in numbers if name not in table]
    for name, found in table.items():
        number, sentences = found[0]
        if name not in numbers:
            wrong.append(f"there is no constant {name}")
        elif number != numbers[name]:
            wrong.append(f"{name} is {numbers[name]}, not {number}")
        wrong += in_words(name, sentences, own, reached)
    return wrong if numbers else wrong + ["there are no constants"]


def strict(page, commands):
    """What is wrong with the lists of numbers that the commands count under --strict."""
    marked = {int(number) for number in STRICT.findall(page)}
    if "--strict" not in commands:
        return []
    lists = [{int(number) for number in re.findall(r"\d+", found)} for found in LIST.findall(commands)]
    wrong = [f"bin/ counts {sorted(found)}, and not the strict refusals {sorted(marked)}"
             for found in lists if len(found & marked) > 4 and found != marked]
    return wrong if wrong or marked in lists else [f"bin/ does not count the strict refusals {sorted(marked)}"]


def main(tree):
    code = joined(tree, "crates/story/src/*.rt") + joined(tree, "crates/faults/src/*.rt")
    page = read(os.path.join(tree, "docs/ANSWERS.md"))
    wrong = faults(page, read(os.path.join(tree, "crates/answer/src/lib.rt")), code)
    wrong += strict(page, joined(tree, "bin/*"))
    for line in wrong:
        print(line)
    return 1 if wrong else 0


if __name__ == "__main__":
    sys.exit(main(sys.argv[1] if len(sys.argv) > 1 else "."))
