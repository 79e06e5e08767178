"""The text of links of docs/ISOLATION.md, turned into its bytes from that page with Python's own library.

    python3 tests/links.py assemble             text to bytes, from standard input to standard output
    python3 tests/links.py compare PROGRAM_DIR [--seed S] [--count K]

For a faulty text `assemble` prints the number of the faulty line to standard error, and ends with status 3. `compare`
runs the program links of PROGRAM_DIR on K random texts, each also damaged, and on texts at each limit. It tells where
the bytes, or the line of the fault, differ. Nothing here is taken from the crates.
"""
import argparse
import collections
import pathlib
import random
import re
import subprocess
import sys

LONGEST_TEXT, MOST_LINKS, MOST_CLIENT_LINES, MOST_NAMES, OUTSIDE = 65536, 256, 64, 64, 16
EXAMPLE = pathlib.Path(__file__).resolve().parent / "../crates/links/stdin"
# What words may be.
NUMBER, PREFIX, NAME = "0|[1-9][0-9]{0,4}", r"[0-9]+(\.[0-9]+){3}/[0-9]+", "[A-Za-z0-9_-]{1,32}"
# Every kind of fault.
KINDS = {
    "record", "switch", "switch number", "port", "port number", "to", "next", "of", "owner", "client", "prefix", "bits",
    "at", "end", "port twice", "links", "client line twice", "client lines", "names", "text", "no client line"}


class Fault(Exception):
    """A line's fault: its number, and what kind it is."""

    def __init__(self, line, kind):
        super().__init__(line, kind)
        self.line, self.kind = line, kind


class Line:
    """A line's words, taken from the left."""

    def __init__(self, number, text):
        self.number, self.words = number, re.findall(r"[^ \t\r]+", text.partition("#")[0])

    def fault(self, kind):
        return Fault(self.number, kind)

    def take(self, kind, pattern):
        """The next word, which must be such a one."""
        word = self.words.pop(0) if self.words else ""
        if not re.fullmatch(pattern, word):
            raise self.fault(kind)
        return word

    def number_from(self, kind, low, high):
        word = self.take(kind, NUMBER)
        if not low <= int(word) <= high:
            raise self.fault(kind)
        return int(word)

    def switch(self):
        self.take("switch", "switch")
        return self.number_from("switch number", 0, 15)

    def prefix(self):
        """Four numbers and a length: the address in bytes, and the length."""
        parts = re.split("[./]", self.take("prefix", PREFIX))
        if not all(re.fullmatch("0|[1-9][0-9]{0,2}", part) for part in parts):
            raise self.fault("prefix")
        *address, length = map(int, parts)
        if max(address) > 255 or length > 32:
            raise self.fault("prefix")
        if int.from_bytes(bytes(address), "big") % 2 ** (32 - length):
            raise self.fault("bits")
        return bytes(address), length

    def end(self):
        if self.words:
            raise self.fault("end")


class Network:
    """What the lines so far have said: the bytes of their records, and what no further line may repeat."""

    def __init__(self):
        self.records, self.ports, self.entries, self.names = [], set(), set(), []

    def client(self, line, name):
        if name not in self.names:
            if len(self.names) == MOST_NAMES:
                raise line.fault("names")
            self.names.append(name)
        return 1 + self.names.index(name)

    def link(self, line):
        switch = line.switch()
        line.take("port", "port")
        port = line.number_from("port number", 1, 65535)
        line.take("to", "to")
        if line.words[:1] == ["outside"]:
            line.words.pop(0)
            behind = OUTSIDE
        elif line.words[:1] == ["switch"]:
            behind = line.switch()
        else:
            raise line.fault("next")
        line.take("of", "of")
        name = line.take("owner", NAME)
        line.end()
        if (switch, port) in self.ports:
            raise line.fault("port twice")
        if len(self.ports) == MOST_LINKS:
            raise line.fault("links")
        self.ports.add((switch, port))
        owner = 0 if name == "all" else self.client(line, name)
        self.records.append(bytes([0x31, switch, *port.to_bytes(2, "big"), behind, owner]))

    def entry(self, line):
        name = line.take("client", "(?!all$)" + NAME)
        address, length = line.prefix()
        line.take("at", "at")
        switch = line.switch()
        line.end()
        entry = name, address, length, switch
        if entry in self.entries:
            raise line.fault("client line twice")
        if len(self.entries) == MOST_CLIENT_LINES:
            raise line.fault("client lines")
        self.entries.add(entry)
        self.records.append(bytes([0x32, self.client(line, name), *address, length, switch]))

    def take(self, line):
        if line.take("record", "link|client") == "link":
            self.link(line)
        else:
            self.entry(line)

    def bytes(self):
        names = (bytes([0x33, client, len(name)]) + name.encode() for client, name in enumerate(self.names, 1))
        return b"".join([*self.records, *names])


def assemble(text):
    """The bytes of a text; raises its fault."""
    if len(text) > LONGEST_TEXT:
        raise Fault(1 + text.count(b"\n", 0, LONGEST_TEXT), "text")
    network = Network()
    # A byte-order mark counts for nothing, as in docs/NOTATION.md. A line feed ends a line, so none begins behind the
    # last; the empty text has one line all the same.
    lines = text.removeprefix(b"\xef\xbb\xbf").decode("latin-1").split("\n")
    if lines[-1] == "" and len(lines) > 1:
        lines.pop()
    for number, words in enumerate(lines, 1):
        line = Line(number, words)
        if line.words:
            network.take(line)
    if not network.entries:
        raise Fault(len(lines), "no client line")
    return network.bytes()


# Random texts, as latin-1. What damages a word, and what damages a text anywhere.
VOCABULARY = """link client switch port to outside of at all A a B-2 c_3 D.4 0 1 15 16 01 65535 65536 -1 10.1.0.0/16
    10.1.0.1/16 10.0.0.0 0.0.0.0/0 256.0.0.0/8 10.1.0.0/33 1.2.3.4/32 1.2.3/8 1.2.3.4.5/6 # Link all, x switch1
    """.split() + [33 * "n", 60 * "9", "\xe4", ""]
ODD = " ", "\t", "\r", "\n", "#", "\v", "\0", "0", "all", "\x80", "\xff"


def some_link(r, names, wild):
    port = r.choice((1, 255, 256, 65535, *[r.randrange(1, 65536) for _ in range(9)]))
    to = r.choice(("outside", "switch %d" % r.randrange(16), "switch %d" % r.randrange(16 + wild)))
    owner = r.choice(("all", r.choice(names)))
    return "link switch %d port %d to %s of %s" % (r.randrange(16 + wild), port, to, owner)


def some_client(r, names, wild):
    length = r.choice((0, 1, 8, 16, 17, 24, 31, 32, r.randrange(33)))
    address = r.getrandbits(32)
    if not wild or r.randrange(4):
        address = address >> (32 - length) << (32 - length)
    spelled = ".".join(map(str, address.to_bytes(4, "big")))
    return "client %s %s/%d at switch %d" % (r.choice(names), spelled, length, r.randrange(16 + wild))


def some_layout(r, line):
    """The same line in another layout."""
    blank, around = r.choice((" ", " ", "  ", "\t", "\r", " \t\r ")), r.choice(("", "", " ", "\t"))
    comment = r.choice(("", "", "", "# of all", "#", " #\xff\0 #"))
    return around + line.replace(" ", blank) + r.choice((around, "\r")) + comment


def some_text(r):
    wild, lines = r.randrange(8) == 0, []
    ends = "", "1", "ll", 31 * "x", r.randrange(32) * "-"
    names = [r.choice("AaBb_-0") + r.choice(ends) for _ in range(r.choice((1, 2, 3, 8)))]
    for _ in range(r.choice((1, 2, 5, 9, 9, 20))):
        lines.append(some_layout(r, r.choice((some_link, some_link, some_client))(r, names, wild)))
        if r.randrange(4) == 0:
            lines.append(r.choice(("", "#", " \t\r", "# client")))
        if r.randrange(40) == 0:
            lines.append(r.choice(lines))
    return r.choice(("", "", "", "\xef\xbb\xbf", "\n")) + "\n".join(lines) + r.choice(("", "\n", "\n\n", "\r\n"))


def damaged(r, text):
    """This text with one or two alterations, not all of which are damage."""
    for _ in range(r.randrange(1, 3)):
        lines = text.split("\n")
        i, k, odd = r.randrange(len(lines)), r.randrange(len(text) + 1), r.choice(ODD)
        before, line, after = lines[:i], lines[i], lines[i + 1:]
        words = line.split(" ")
        j = r.randrange(len(words))
        word = words[j]
        words[j] = r.choice((r.choice(VOCABULARY), r.choice(VOCABULARY), word + odd, odd + word, word[1:], "0" + word,
                             word + " " + word, word.swapcase(), 9 * word, word + r.choice("019.-/")))
        text = r.choice((text[:k] + odd + text[k:], text[:k] + text[k + 1:], text[:k],
                         *5 * ["\n".join(before + [" ".join(words)] + after)],
                         "\n".join(before + [line, line] + after), "\n".join(before + after)))
    return text


def links(count, name="A"):
    return "".join("link switch %d port %d to outside of %s\n" % (i % 16, 1 + i // 16, name) for i in range(count))


def clients(count, name="A"):
    return "".join("client %s 10.0.%d.0/24 at switch 1\n" % (name, i) for i in range(count))


def named(count):
    """Links of so many names, each with 32 letters, at ports that `links` has not."""
    return "".join("link switch 1 port %d to outside of %032d\n" % (100 + i, i) for i in range(count))


MARK, LAST = "\xef\xbb\xbf", "client A 10.1.0.0/16 at switch 1"
# Texts without a record, around the longest text, with long words, at each limit, and with lines that are nearly alike.
LIMITS = [
    "", "\n", "\n\n", "#", MARK, MARK + "\n", MARK + LAST, MARK[:2] + LAST, 2 * MARK + LAST, LAST, LAST + "\n",
    65535 * "\n", 65536 * "\n", 65537 * "\n", 65536 * "x", 65537 * "x", 65536 * "#" + "\n", 65536 * " ",
    LAST.rjust(65536), LAST.rjust(65537), LAST.ljust(65536), LAST.ljust(65537), LAST.ljust(65536, "\n"),
    LAST.ljust(65537, "\n"), MARK + LAST.ljust(65533), MARK + LAST.ljust(65534),
    "client " + 60000 * "A", LAST.replace("A", "A" + 60000 * " "), "link switch " + 60000 * "1",
    LAST.replace("10.", 60000 * "1" + "."), LAST.replace("/16", "/" + 60000 * "0"), LAST + " " + 60000 * "\xff",
    LAST + "#" + 60000 * "\xff", 6000 * "# comment\n" + LAST, 60000 * "\0" + "\n" + LAST,
    links(256) + LAST, links(257) + LAST, links(256) + LAST + "\n" + links(1), links(256, "all") + clients(64),
    clients(64), clients(65), clients(64) + clients(1), clients(64) + links(1), clients(64, "B") + clients(1, "C"),
    named(63) + LAST, named(64) + LAST, named(64), named(65) + LAST, named(64) + links(1, "all") + LAST,
    named(64) + links(192, "all") + clients(64, "%032d" % 63), named(64) + links(192) + LAST,
    "\n".join(LAST.replace("A", name) for name in ("A", "a", "AA", "A-", "-A", "All", "32" * 16)),
    "\n".join((LAST, LAST.replace("/16", "/17"), LAST.replace(".1.", ".2."), LAST.replace("h 1", "h 2"), LAST)),
]


def texts(seed, count):
    """Where a text is from, and the text."""
    yield "the crate's example", EXAMPLE.read_bytes().decode("latin-1")
    for i, text in enumerate(LIMITS):
        yield "limit %d" % i, text
    for i in range(count):
        r = random.Random("%d %d" % (seed, i))
        text = some_text(r)
        yield "random %d" % i, text
        for _ in range(2):
            yield "random %d, damaged" % i, damaged(r, text)
    for i in range(count // 10):
        r = random.Random("%d bytes %d" % (seed, i))
        yield "bytes %d" % i, "".join(chr(r.randrange(256)) for _ in range(r.choice((1, 9, 99, 999))))


def difference(program, text, found):
    """What is wrong with the program's answer to a text, or none; `found` counts the kinds of answers."""
    try:
        wanted, line = assemble(text), None
        found["bytes"] += 1
    except Fault as fault:
        wanted, line = b"", fault.line
        found[fault.kind] += 1
    done = subprocess.run([program], input=text, capture_output=True, timeout=10)
    told = re.fullmatch(rb"(\d+): [ -~]+\n", done.stderr)
    if done.returncode or done.stdout != wanted:
        return "%r, status %d, not %r" % (done.stdout, done.returncode, wanted)
    if done.stderr if line is None else not told or int(told[1]) != line:
        return "%r, not line %s" % (done.stderr, line)
    return None


def compare(folder, seed, count):
    ended, found = [0, 0], collections.Counter()
    for where, text in texts(seed, count):
        text = text.encode("latin-1", "replace")
        wrong = difference(folder.absolute() / "links", text, found)
        ended[wrong is not None] += 1
        if wrong:
            print("tests/links.py: %s: %.900a gives %.900s" % (where, text, wrong))
    missed = (KINDS | {"bytes"}) - set(found)
    if missed:
        ended[1] += 1
        print("tests/links.py: never met: %s" % ", ".join(sorted(missed)))
    print("%d passed, %d failed" % tuple(ended))
    return ended[1] > 0


def main():
    parser = argparse.ArgumentParser(usage=__doc__)
    parser.add_argument("command", choices=("assemble", "compare"))
    parser.add_argument("folder", nargs="?", type=pathlib.Path)
    parser.add_argument("--seed", type=int, default=1)
    parser.add_argument("--count", type=int, default=200)
    asked = parser.parse_args()
    if (asked.command == "compare") != (asked.folder is not None):
        sys.exit(__doc__)
    if asked.command == "compare":
        sys.exit(compare(asked.folder, asked.seed, asked.count))
    try:
        sys.stdout.buffer.write(assemble(sys.stdin.buffer.read()))
    except Fault as fault:
        print(fault.line, file=sys.stderr)
        sys.exit(3)


if __name__ == "__main__":
    main()
