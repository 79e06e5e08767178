"""Pictures of rehearsals, read as XML and compared with the explanation of the same input. Every record has its column
in order, forty in a band, with its line and words, and the marks that these call for, on the rows of the ends that they
name. A share's arrow carries its change's number; a letter tells different rules under one number at a switch apart. A
decision carries its numbers. Each band begins with the changes that the switches are at. At the end stand the refusals
with their meanings, the changes that were made and the rules that have letters, and the page has room for all of it.

    python3 tests/pictures.py PICTURE EXPLAIN FILE..    the two programs, and inputs

It ends with a line for each input that is drawn otherwise. tests/stories.py compares the explanations themselves.
"""
import re
import subprocess
import sys
import xml.etree.ElementTree as xml

SVG = "{http://www.w3.org/2000/svg}"
# What the words of a record name, and how it is drawn: an arrow of a class, or a shape on the controller's row.
ASKED = (
    ("decide", r"controller (?P<c>\d+) decides on event \d+ of switch (?P<s>\d+), "),
    ("send", r"controller (?P<c>\d+) sends its share to switch (?P<s>\d+)"),
    ("report", r"switch (?P<s>\d+) reports to controller (?P<c>\d+)"),
    ("raw", r"a made-up share in the name of controller (?P<c>\d+) reaches switch (?P<s>\d+)"),
    ("raw", r"a made-up message reaches switch (?P<s>\d+)"),
    ("keep", r"controller (?P<c>\d+) makes its share for switch (?P<s>\d+), kept in place (?P<p>\d+)"),
    ("late", r"the share of controller (?P<c>\d+) kept in place \d+ reaches switch (?P<s>\d+)"),
    ("none", r"the share kept in place \d+ is due|here the script stops"),
)
OUTCOME = {0: "held", 1: "applied", 2: "repeat"}
RULE = r"\d+\.\d+\.\d+\.\d+/\d+ (?:removed|to port \d+)"
# What the share of a record asks for stands in its words, whatever became of it.
WISH = r"; (?:change|the share asks for change|switch \d+ is at change) (\d+), (%s)" % RULE
# An empty place is listed below the other refusals of its number, and so many lines has a list.
EMPTY = "nothing is kept in that place"
LISTED = 24
# A band's columns, the middle of the first one, and how wide each is; the page is never wider than a screen.
BAND, FIRST, WIDTH, WIDEST = 40, 118, 36, 1600
# Texts in a column stand so far apart, and so many characters fit into it unless they are drawn narrower.
APART, FITTING = 9, 5


def run(program, name):
    with open(name, "rb") as file:
        return subprocess.run([program], stdin=file, stdout=subprocess.PIPE, check=True).stdout.decode()


def named(words):
    """The kind of a record, and the rows of its controller and its switch."""
    for kind, pattern in ASKED:
        found = re.match(pattern, words)
        if found:
            part = found.groupdict()
            return kind, "controller %s" % part.get("c"), "switch %s" % part.get("s"), part.get("p")
    raise ValueError(words)


def wish(told):
    """What the share of a record asks for: the switch, the number and the rule; none where there is no share."""
    found = re.search(WISH, told)
    return found and (named(told.split("  ", 1)[1])[2],) + found.groups()


def letters(told):
    """The letters of rules, where different ones are asked for under one number at a switch, by order of records."""
    rules = {}
    for line in told:
        asked = wish(line)
        if asked and asked[2] not in rules.setdefault(asked[:2], []):
            rules[asked[:2]].append(asked[2])
    lettered = {}
    for line in told:
        asked = wish(line)
        if asked and len(rules[asked[:2]]) > 1:
            rank = rules[asked[:2]].index(asked[2])
            lettered[asked] = "abcdefghijklmnopqrstuvwxyz"[rank] if rank < 26 else "+"
    return lettered


def label(told, lettered):
    """What stands on the arrow of a record or above its place, with its class."""
    asked = wish(told)
    if not asked:
        return []
    letter = lettered.get(asked, "")
    return [("asks" + {"": "", "a": " one"}.get(letter, " other"), asked[1] + letter)]


def marks(kind, controller, switch, answer, begun):
    """The arrow of a record, as its class and two rows, and its shapes with their rows; none is the line of no row."""
    cross = [("cross", None)] if answer > 2 else []
    if not begun:
        row = {"none": None, "late": None, "report": switch, "raw": switch}.get(kind, controller)
        return None, [("cross", row)]
    if kind in ("decide", "keep"):
        shape = "square" if kind == "decide" else "diamond"
        return None, [(shape, controller)] + [("cross", controller)] * len(cross)
    if kind == "send" and answer == 26:
        return None, [("cross", controller)]
    ends = (switch, controller) if kind == "report" else (controller, switch)
    shapes = [(OUTCOME.get(answer, "cross"), ends[1])] if kind != "report" or answer else []
    return (kind,) + ends, shapes


def given(words):
    """The numbers of a decision: in two lines where one is too long."""
    if "taken, and no change" in words:
        return ["none"]
    first, last = re.search(r"taken as changes? (\d+)(?: to (\d+))?", words).groups()
    if not last:
        return [first]
    return [first + "-" + last] if len(last) < 3 else [first + "-", last]


def texts(kind, switch, place, answer, figure, words):
    """What is written at the marks of a record: its refusal's number, a change's, the controllers that agree, a kept
    share's place, the switch that no arrow leads to, and a decision's numbers."""
    begun = ";" in words
    aim = [switch.replace("switch", "to")] if begun and (kind == "keep" or (kind == "send" and answer == "26")) else []
    if int(answer) > 2:
        return [answer] + aim
    if kind == "decide":
        return given(words)
    if kind == "keep":
        return [place] + aim
    if answer == "0" and kind in ("send", "late", "raw"):
        return ["%s/%s" % re.search(r", has (\d+) of (\d+) controllers", words).groups()]
    return [figure] if answer == "1" else []


def drawn(step, rows):
    """The same of a column, by the names of the rows at these depths."""
    arrow, shapes = None, []
    for group in step.findall(SVG + "g"):
        path = group.find(SVG + "path")
        if path is not None:
            start, end = re.fullmatch(r"M0 (\d+)V(\d+)", path.get("d")).groups()
            arrow = group.get("class"), rows.get(start), rows.get(end)
    for use in step.iter(SVG + "use"):
        shape = use.get("href")[1:]
        if shape in ("square", "diamond", "cross", "held", "applied", "repeat"):
            shapes.append((shape, rows.get(use.get("y"))))
    return arrow, shapes


def crowded(step):
    """Whether texts of a column cover each other or are wider than it."""
    found = step.findall(SVG + "text")
    depths = sorted(float(text.get("y")) + float(text.get("dy")) for text in found)
    near = any(below - above < APART for above, below in zip(depths, depths[1:]))
    return near or any(len(text.text) > FITTING and int(text.get("textLength", 99)) > WIDTH for text in found)


def differs(told, step, rows, lettered, right):
    """Whether a column shows something else than is told of its record, in a band that ends at right."""
    line, words = told.split("  ", 1)
    ordinal, answer, figure = line.split()
    found = step.findall(SVG + "text")
    kind, controller, switch, place = named(words)
    asks = label(told, lettered)
    written = [text for _, text in asks] + texts(kind, switch, place, answer, figure, words)
    controller = controller if controller in rows.values() else None
    switch = switch if switch in rows.values() else None
    arrow, shapes = marks(kind, controller, switch, int(answer), ";" in words)
    stays = [(rows[path.get("d").split()[1].split("h")[0]], int(path.get("d").split("h")[1]))
             for path in step.findall(SVG + "path") if path.get("class") == "stay"]
    return (
        step.find(SVG + "title").text != told
        or [text.text for text in found] != [ordinal] + written + [answer, figure]
        or [(text.get("class"), text.text) for text in found if "asks" in text.get("class")] != asks
        or drawn(step, rows) != (arrow, shapes)
        or stays != ([(switch, right - place_of(step))] if answer == "1" else [])
        or crowded(step)
    )


def place_of(step):
    return int(re.fullmatch(r"translate\((\d+)\)", step.get("transform")).group(1))


def top_of(group):
    return int(re.fullmatch(r"translate\(0 (\d+)\)", group.get("transform")).group(1))


def starts(band, right):
    """The changes that a band shows its switches at, by the depths of their rows; none where a line has no number."""
    lines = [re.fullmatch(r"M96 (\d+)H(\d+)", path.get("d")).groups()
             for path in band.findall(SVG + "path") if path.get("class") == "stay"]
    numbers = {text.get("y"): text.text for text in band.findall(SVG + "text") if text.get("class") == "at"}
    fits = sorted(numbers) == sorted(y for y, _ in lines) and all(int(end) == right for _, end in lines)
    return numbers if fits else None


def ends(explained, told):
    """The names of the rows from above: all controllers, and the switches that a message reached or left."""
    count = int(re.match(r"(\d+) controllers?; ", explained).group(1))
    reached = set()
    for line in told:
        words = line.split("  ", 1)[1]
        kind, _, switch, _ = named(words)
        if kind in ("report", "raw", "late") and ";" in words or kind == "send" and wish(line):
            reached.add(int(switch.split()[1]))
    return ["controller %d" % c for c in range(count)] + ["switch %d" % s for s in sorted(reached)]


def banded(page, told, lettered, names):
    """What is wrong with the bands of a picture that has rows with these names, or none."""
    bands = [group for group in page.findall(SVG + "g") if group.get("class") == "band"]
    if len(bands) != max(1, (len(told) + BAND - 1) // BAND):
        return "%d bands" % len(bands)
    bottom = int(re.search(r"V(\d+)", page.find(SVG + "defs/" + SVG + "path[@id='column']").get("d")).group(1))
    tops = [top_of(band) for band in bands]
    if any(below - above <= bottom for above, below in zip(tops, tops[1:])):
        return "bands that cover each other"
    at = {}
    for k, band in enumerate(bands):
        part = told[k * BAND:(k + 1) * BAND]
        rows = {text.get("y"): text.text for text in band.findall(SVG + "text") if text.get("class") == "name"}
        steps = [group for group in band.iter(SVG + "g") if group.get("class") == "step"]
        right = FIRST - WIDTH // 2 + WIDTH * len(part)
        if [rows[y] for y in sorted(rows, key=int)] != names:
            return "other rows in band %d" % k
        if [place_of(step) for step in steps] != [FIRST + WIDTH * i for i in range(len(part))]:
            return "columns out of place in band %d" % k
        shown = starts(band, right)
        if shown is None or {rows[y]: text for y, text in shown.items()} != at:
            return "band %d begins otherwise" % k
        for line, step in zip(part, steps):
            if differs(line, step, rows, lettered, right):
                return "another column for: " + line
            if line.split()[1] == "1":
                at[named(line.split("  ", 1)[1])[2]] = "at " + line.split()[2]
    return None


def capped(lines):
    more = ["and %d more" % (len(lines) - LISTED)] if len(lines) > LISTED else []
    return lines[:LISTED] + more


def lists(told, lettered):
    """The lists at the end, each with its heading, that the lines of an explanation call for."""
    refused, made, rules, seen = set(), [], [], set()
    for line in told:
        ordinal, answer = line.split()[:2]
        if int(answer) > 2:
            meaning = re.search(r": refused, ([^:;]*)", line).group(1)
            refused.add((answer, "there is no such controller or switch" if answer == "12" else meaning))
        if answer == "1":
            made.append("record %s: %s %s" % ((ordinal,) + re.search(r"; (switch \d+) is (at .*)", line).groups()))
        asked = wish(line)
        if asked in lettered and asked not in seen:
            seen.add(asked)
            by = named(line.split("  ", 1)[1])[1]
            rules.append("%s%s at %s: %s, first in record %s, in the name of %s" % (
                asked[1], lettered[asked], asked[0], asked[2], ordinal, by))
    refused = [" ".join(part) for part in sorted(refused, key=lambda part: (int(part[0]), part[1] == EMPTY))]
    found = (("refused", refused), ("changes made", capped(made)),
             ("different rules under one number at a switch", capped(rules)))
    return [[heading] + lines for heading, lines in found if lines]


def listed(page):
    """The lists of a picture, and whether all their lines stand below each other within the page."""
    found, fits = [], page.get("viewBox").split()[2:] == [page.get(side)[:-2] for side in ("width", "height")]
    for group in page.findall(SVG + "g"):
        for text in group.findall(SVG + "text[@class='list']"):
            lines = list(text)
            steps = [int(line.get("dy")) for line in lines[1:]]
            fits = fits and all(step > 14 for step in steps)
            fits = fits and all(line.get("x") == text.get("x") for line in lines[1:])
            found.append(["".join(line.itertext()) for line in lines])
    return found, fits


def depths(element, y):
    """How deep every text of an element lies."""
    moved = re.match(r"translate\(0 (\d+)\)", element.get("transform", ""))
    y += int(moved.group(1)) if moved else 0
    if element.tag == SVG + "text":
        own = y + float(element.get("y")) + float(element.get("dy", 0))
        steps = [float(line.get("dy", 0)) for line in element]
        return [own + sum(steps[:k + 1]) for k in range(len(steps))] or [own]
    return [depth for child in element for depth in depths(child, y)]


def overlaps(page):
    """Whether parts of a page cover each other, or leave it: parts side by side begin at the same depth."""
    groups = {}
    for group in page.findall(SVG + "g"):
        if depths(group, 0):
            groups.setdefault(top_of(group), []).extend(depths(group, 0))
    spans = [(min(found), max(found)) for _, found in sorted(groups.items())]
    heading = max(depth for text in page.findall(SVG + "text") for depth in depths(text, 0))
    spans = [(0, heading)] + spans
    below = all(after[0] - before[1] >= 12 for before, after in zip(spans, spans[1:]))
    return not below or spans[-1][1] + 4 > int(page.get("height")[:-2]) or int(page.get("width")[:-2]) > WIDEST


def compare(picture, explain, name):
    """What is wrong with the picture of an input, or none."""
    page = xml.fromstring(run(picture, name))
    explained = run(explain, name)
    told = [line for line in explained.split("\n") if re.match(r"\d+ \d+ \d+  ", line)]
    if told and told[0].startswith("0 "):
        heading, words = [text.text for text in page.iter(SVG + "text")]
        return None if told[0].startswith("%s  %s" % (heading, words)) else "another fault"
    lettered = letters(told)
    if overlaps(page):
        return "parts that cover each other or leave the page"
    if listed(page) != (lists(told, lettered), True):
        return "other lists"
    return banded(page, told, lettered, ends(explained, told))


def main():
    if len(sys.argv) < 4:
        sys.exit(__doc__)
    wrong = ((name, compare(sys.argv[1], sys.argv[2], name)) for name in sys.argv[3:])
    sys.exit("\n".join("%s is drawn otherwise: %s" % (name, what) for name, what in wrong if what) or 0)


if __name__ == "__main__":
    main()
