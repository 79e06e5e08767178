"""The crates by layers, with the definitions that a reader must believe shaded."""
import re

from page import BESIDE, GREY, LINE, TRUSTED, Page

# From top to bottom: what a layer is, and its crates with what each holds. A crate stands on crates of its own layer or
# of lower ones.
LAYERS = (
    ("programs for people", (
        ("rehearse", "prints lines"), ("explain", "in words"), ("picture", "as a timeline"),
        ("flowmods", "as FLOW_MODs"), ("flowlist", "these in words"),
    )),
    ("these read first", (
        ("survey", "limits used"), ("assemble", "text to bytes"), ("disassemble", "bytes to text"),
        ("links", "links to bytes"), ("isolated", "checks links"),
    )),
    ("words for people", (
        ("story", "records in words"), ("faults", "refused plans"), ("notation", "names of records"),
        ("tied", "tables agree"), ("prose", "text to print"),
    )),
    ("for other makers", (("feed", "the rules that a switch applied, and their FLOW_MODs"),)),
    ("a rehearsal", (("rehearsal", "a script carried out on both ends, and its lines"),)),
    ("its links", (
        ("checker", "the check as a function"), ("isolation", "links, packets' ways, the check and its theorem"),
    )),
    ("the claim", (
        ("domain", "runs, ideal controller, claim"), ("witness", "premises are satisfiable"),
        ("edges", "document 01's marked edges"),
    )),
    ("the argument", (("protocol", "the same protocol without bytes: invariant, safety, rounds"),)),
    ("the two ends", (
        ("controller", "decides, and writes shares"), ("switch", "counts controllers, and changes routes"),
    )),
    ("what they share", (
        ("message", "messages read and written"), ("playbook", "plans read and found"),
        ("openflow", "rules as FLOW_MODs"),
    )),
    ("what these use", (("tag", "SHA-256, HMAC, tags"), ("flow", "rules and flow tables"))),
    ("the ground", (("lists", "arrays with a count, bytes, frames"), ("answer", "numbers of answers, limits"))),
)
TESTS = (
    ("vectors", "tags"), ("trials", "messages, plans"), ("drive", "calls at both ends"),
    ("cases", "what these share"), ("timed", "for benchmarks"),
)
# Crates that hold definitions and proofs, and no code that runs.
NO_CODE = ("tied", "isolation", "domain", "witness", "edges", "protocol")
KIT = (
    ("logic and prover", "check every proof"), ("compiler", "makes programs of the code"),
    ("read and write of C", "for programs only"),
)
LEFT, RIGHT, GAP = 160, 880, 8


def crates(root):
    """Each crate with the crates that it is built on."""
    with open(root + "/crates.txt", encoding="utf-8") as file:
        rows = [line.split(":") for line in file if ":" in line and not line.startswith("#")]
    return {name.split()[0]: set(below.split()) for name, below in rows}


def trusted(root):
    """The crates whose definitions the whole-run claim rests on, and those that other claims rest on besides."""
    with open(root + "/docs/TRUSTED.md", encoding="utf-8") as file:
        parts = file.read().split("\n## ")[1:]
    named = [(part.splitlines()[0], set(re.findall(r"^\| (\w+)/", part, re.M))) for part in parts]
    claim = set().union(*(found for title, found in named if "`Demand3`" in title))
    others = set().union(*(found for title, found in named if not title.startswith("Not trusted")))
    return claim, others - claim


def faults(root):
    """What the picture shows otherwise than crates.txt."""
    built = crates(root)
    depth = {name: at for at, (_, row) in enumerate(LAYERS) for name, _ in row}
    shown = set(depth) | {name for name, _ in TESTS}
    wrong = ["docs/pictures/layers.py has no place for the crate %s" % name for name in sorted(set(built) - shown)]
    wrong += ["docs/pictures/layers.py shows %s, which is no crate" % name for name in sorted(shown - set(built))]
    for name in sorted(set(built) & set(depth)):
        above = [other for other in sorted(built[name]) if depth.get(other, len(LAYERS)) < depth[name]]
        wrong += ["docs/pictures/layers.py has %s above %s, which is built on it" % (other, name) for other in above]
    return wrong


def crate(page, x, y, w, name, words, strip):
    page.rect(x, y, w, 46, dashed=name in NO_CODE)
    if strip:
        page.drawn.append("<path d='M%g %gh7v44h-7z' fill='%s'/>" % (x + 1, y + 1, strip))
    page.words(x + 12, y + 18, name, size=13, bold=True, room=w - 14)
    page.words(x + 12, y + 36, words, size=11.5, room=w - 14)


def row(page, y, caption, boxes, strips):
    page.words(20, y + 28, caption, size=12, colour=GREY, room=LEFT - 28)
    w = (RIGHT - LEFT - GAP * (len(boxes) - 1)) / len(boxes)
    for at, (name, words) in enumerate(boxes):
        crate(page, LEFT + at * (w + GAP), y, w, name, words, strips.get(name))


def legend(page, y):
    page.rect(20, y, 22, 16, fill=TRUSTED, round_=0)
    page.words(50, y + 13, "trusted: definitions that the whole-run claim rests on, and the kit")
    page.rect(20, y + 24, 22, 16, fill=BESIDE, round_=0)
    page.words(50, y + 37, "trusted for other claims only: a rehearsal's lines, the notation, edges, laws")
    page.rect(20, y + 48, 22, 16)
    page.words(50, y + 61, "nothing to trust: proved safe and ending, and tests compare what is printed")
    page.rect(640, y, 22, 16, dashed=True)
    page.words(670, y + 13, "definitions and proofs, no code")


def drawn(root):
    page = Page(
        910, "The layers, and what you must trust",
        "Each crate stands on crates below it. Shaded are the definitions that a reader must believe, and the kit.",
    )
    claim, others = trusted(root)
    strips = {**dict.fromkeys(claim, TRUSTED), **dict.fromkeys(others, BESIDE)}
    y = 50
    for caption, boxes in LAYERS:
        row(page, y, caption, boxes, strips)
        y += 54
    page.words(20, y + 28, "the kit", size=12, colour=GREY)
    w = (RIGHT - LEFT - GAP * 2) / 3
    for at, (name, words) in enumerate(KIT):
        page.rect(LEFT + at * (w + GAP), y, w, 46, fill=TRUSTED)
        page.words(LEFT + at * (w + GAP) + 14, y + 18, name, size=13, bold=True, room=w - 20)
        page.words(LEFT + at * (w + GAP) + 14, y + 36, words, size=11.5, room=w - 20)
    y += 62
    page.drawn.append("<path d='M20 %gH880' stroke='%s'/>" % (y - 4, LINE))
    row(page, y + 6, "tests", TESTS, strips)
    legend(page, y + 68)
    return page.svg()
