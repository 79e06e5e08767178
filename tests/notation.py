"""The notation of docs/NOTATION.md, computed from that page with Python's own library.

    python3 tests/notation.py assemble          text to bytes, from standard input to standard output
    python3 tests/notation.py disassemble       bytes to text
    python3 tests/notation.py compare PROGRAM_DIR [--seed S] [--count K]

The last runs the programs assemble and disassemble of PROGRAM_DIR on the texts and bytes written out below, on the
page's examples of faults, on the cases' texts, and on K random inputs with damaged texts and texts in shorthand; it
tells where they give something else.
Nothing here is taken from the crates. Names are those of docs/NOTATION.md. A fault is a str, all else is bytes.
"""
import argparse
import functools
import hmac
import pathlib
import random
import re
import subprocess
import sys

# Bytes in a tag, and in a raw record's message.
TAG_LENGTH, MESSAGE = 16, 30
CASES = pathlib.Path(__file__).resolve().parent / "cases"
PAGE = CASES / "../../docs/NOTATION.md"
LONGEST_INPUT, LONGEST_TEXT, LONGEST_LINE = 16384, 1048576, 64
# A record's name, its kind and length, and what is behind the name: names of fields, and in capitals their values. MANY
# is a BYTE for which `all` may stand.
RECORDS = {
    "plan": (0x11, 3, "switch BYTE cause BYTE"),
    "change": (0x12, 10, "flow BYTE switch BYTE RULE"),
    "end": (0x13, 1, ""),
    "decide": (0x21, 8, "controller MANY switch BYTE serial WORD cause BYTE"),
    "send": (0x22, 3, "controller MANY switch MANY"),
    "report": (0x23, 3, "switch MANY controller MANY"),
    "raw": (0x24, 2 + MESSAGE, "switch BYTE MESSAGE"),
    "keep": (0x25, 4, "controller BYTE switch BYTE place BYTE"),
    "deliver": (0x26, 2, "place BYTE"),
}
KINDS = {kind: (name, length, fields) for name, (kind, length, fields) in RECORDS.items()}
SHARE, PAIR = "controller BYTE switch BYTE number WORD RULE", "controller END switch END"
WIDTHS = {"END": 1, "BYTE": 1, "MANY": 1, "WORD": 4, "RULE": 7, "MESSAGE": MESSAGE}
LAST = {"END": 15, "BYTE": 255, "MANY": 255, "WORD": 4294967295}
NAMES = "plan, change, end, decide, send, report, raw, keep, deliver, round or bytes"
AS_RULE = ", with RULE as 10.0.0.0/8 port 3 or 10.0.0.0/8 remove"
FORMS = {
    "controllers": "controllers N", "plan": "plan switch S cause K", "change": "change flow F switch S RULE" + AS_RULE,
    "end": "end", "decide": "decide controller C switch S serial N cause K", "send": "send controller C switch S",
    "report": "report switch S controller C", "deliver": "deliver place P", "bytes": "bytes B B .., at most 64",
    "keep": "keep controller C switch S place P", "round": "round",
    "raw": "raw switch S share controller C switch T number N RULE key controller D switch U" + AS_RULE,
}
ROUND = ("report switch all controller all", "send controller all switch all")
NUMBER, SMALL = "0|[1-9][0-9]{0,9}", "(25[0-5]|2[0-4][0-9]|1[0-9][0-9]|[1-9]?[0-9])"


def tag(controller, switch, body):
    return hmac.digest(bytes([controller, switch]) + bytes(30), body, "sha256")[:TAG_LENGTH]


def giver(share):
    """The pair whose key gives this share its tag, or none."""
    pairs = ((controller, switch) for controller in range(16) for switch in range(16))
    return next((pair for pair in pairs if tag(*pair, share[:-TAG_LENGTH]) == share[-TAG_LENGTH:]), None)


def whole(s):
    """The name, length and fields of the whole record that s begins with, or none."""
    found = KINDS.get(s[0]) if s else None
    return found if found and found[1] <= len(s) else None


def edits(word, name):
    """How many edits the word is from the name, where that is at most one: else more."""
    word = word.lower()
    if abs(len(word) - len(name)) > 1:
        return 2
    if len(word) != len(name):
        longer, shorter = sorted((word, name), key=len, reverse=True)
        return 1 if shorter in (longer[:i] + longer[i + 1:] for i in range(len(longer))) else 2
    apart = [i for i in range(len(name)) if word[i] != name[i]]
    swapped = len(apart) == 2 and apart[1] == apart[0] + 1 and sorted(word) == sorted(name)
    return 1 if swapped else len(apart)


class Fault(Exception):
    """A fault by its number on the page: what was expected and the word found; `names` are those that `what` has."""

    met = set()

    def __init__(self, number, what, word="more", names=()):
        super().__init__(number, what, word, names)
        self.number, self.what, self.word, self.names = number, what, word, names

    def hint(self, name):
        """What stands behind the word, in a line that begins with this name."""
        meant = min(self.names, key=lambda known: edits(self.word, known), default="")
        if meant and edits(self.word, meant) < 2:
            return "; did you mean %s?" % meant
        if self.number == 5 and self.word == "all":
            return "; only decide, send and report take all, and decide only for its controller"
        if self.number == 12:
            return "; all and round stand only in the script, behind end"
        return "; the line's form is: " + FORMS[name] if self.number in (4, 5, 6, 7, 8, 9, 10, 11, 14, 15) else ""

    def told(self, line, name=""):
        self.met.add(self.number)
        shown = "".join(c if "!" <= c <= "~" else "?" for c in self.word[:20]) + ".." * (len(self.word) > 20)
        return "%d: expected %s, found %s%s" % (line, self.what, shown or "the end of the line", self.hint(name))


class Line:
    """A line's words, taken from the left. `late` is a fault to tell if all else is right, `run` how many `bytes`.

    `spread` has the names of the fields for which `all` stands, `ended` says whether an `end` stands before.
    """

    def __init__(self, text, ended=False):
        self.words, self.late, self.run = re.findall(r"[^ \t\r]+", text.partition("#")[0]), None, 0
        self.said, self.ended, self.spread = list(self.words), ended, set()

    def take(self, number, what, pattern, names=()):
        word = self.words.pop(0) if self.words else ""
        if not re.fullmatch(pattern, word):
            raise Fault(number, what, word, names)
        return word

    def named(self, number, what, names):
        return self.take(number, what, "|".join(names), names)

    def number(self, first, last, more="", names=()):
        what = "a number from %d to %d%s" % (first, last, more)
        word = self.take(5, what, NUMBER, names)
        if first <= int(word) <= last:
            return int(word)
        raise Fault(5, what, word, names)

    def many(self, field):
        """A number, or `all` with a 0 in its place."""
        if self.words[:1] != ["all"]:
            return self.number(0, 255, " or all", ("all",))
        if not self.ended:
            raise Fault(12, "end on an earlier line", "all")
        self.words.pop(0)
        self.spread.add(field)
        return 0

    def bytes(self, least, most):
        s = b""
        while len(s) < least or self.words and len(s) < most:
            s += bytes.fromhex(self.take(10, "a byte as two hexadecimal digits", "[0-9A-F]{2}"))
        return s

    def rule(self):
        word = self.take(6, "an address and a length, as 10.0.0.0/8", r"{0}\.{0}\.{0}\.{0}/{0}".format(SMALL))
        port = self.number(1, 65535) if self.named(7, "port or remove", ("port", "remove")) == "port" else 0
        return bytes(int(part) for part in re.split("[./]", word)) + port.to_bytes(2, "big")

    def message(self):
        if self.named(8, "share or bytes", ("share", "bytes")) == "bytes":
            s = self.bytes(MESSAGE, MESSAGE)
            self.late = Fault(14, "share, since these bytes are one", "bytes") if s[0] == 2 else None
            return s
        body = b"\2" + self.fields(SHARE)
        if self.named(9, "key or tag", ("key", "tag")) == "key":
            return body + tag(*self.fields(PAIR), body)
        s = body + self.bytes(TAG_LENGTH, TAG_LENGTH)
        if giver(s):
            self.late = Fault(15, "key controller %d switch %d, which gives this tag" % giver(s), "tag")
        return s

    def fields(self, fields):
        s, name = b"", ""
        for field in fields.split():
            if field in LAST:
                number = self.many(name) if field == "MANY" else self.number(0, LAST[field])
                s += number.to_bytes(WIDTHS[field], "big")
            elif field in WIDTHS:
                s += self.rule() if field == "RULE" else self.message()
            else:
                name = self.named(4, field, (field,))
        return s

    def record(self, is_first, run):
        """The record's bytes, none for `round`; `run` is that of the line before."""
        if run and (run < LONGEST_LINE or self.words[0] != "bytes"):
            raise Fault(2, "no record after bytes", self.words[0])
        names = ("controllers",) if is_first else (*RECORDS, "round", "bytes")
        name = self.named(1 if is_first else 3, "controllers" if is_first else NAMES, names)
        if name == "round" and not self.ended:
            raise Fault(12, "end on an earlier line", "round")
        s = b""
        if name == "bytes":
            s = self.bytes(1, LONGEST_LINE)
            self.run = len(s)
            if whole(s) and not run:
                self.late = Fault(13, "the name of the record that these bytes are", "bytes")
        elif name != "round":
            s = self.fields("BYTE") if is_first else bytes([RECORDS[name][0]]) + self.fields(RECORDS[name][2])
        if self.words:
            raise Fault(11, "the end of the line", self.words[0])
        if self.late:
            raise self.late
        return s


class Reader:
    """The bytes and the map so far, and what the lines before have said."""

    def __init__(self):
        self.s, self.map, self.run, self.ended, self.switches = b"", [], 0, False, set()

    def plain(self, words):
        """The lines without shorthand that a good line stands for."""
        if words == ["round"]:
            return [line for half in ROUND for line in self.plain(half.split())]
        pairs = list(zip(words, words[1:]))
        switches = sorted(self.switches) if ("switch", "all") in pairs else [None]
        controllers = range(self.s[0]) if ("controller", "all") in pairs else [None]
        lines = []
        for switch in switches:
            for controller in controllers:
                put = {"switch": switch, "controller": controller}
                lines.append(" ".join(words[:1] + [str(put[name]) if word == "all" else word for name, word in pairs]))
        return lines

    def take(self, number, line):
        s = line.record(not self.s, self.run)
        self.run, name = line.run, line.said[0]
        records = [s]
        if line.spread or name == "round":
            records = [Line(plain).record(False, 0) for plain in self.plain(line.said)]
        if len(self.s) + sum(map(len, records)) > LONGEST_INPUT:
            raise Fault(16, "at most 16384 bytes in all")
        if name in ("plan", "change") and not self.ended:
            self.switches |= {s[1 if name == "plan" else 2]} & set(range(16))
        self.ended |= name == "end"
        self.s += b"".join(records)
        self.map += len(records) * [number]


@functools.lru_cache(maxsize=4)
def assembled(text):
    """The bytes and the map of a text, or its fault."""
    if len(text) > LONGEST_TEXT:
        return Fault(17, "at most 1048576 bytes of text").told(1 + text.count(b"\n", 0, LONGEST_TEXT))
    reader = Reader()
    if text.startswith(b"\xef\xbb\xbf"):
        text = text[3:]
    for number, line in enumerate(text.decode("latin-1").split("\n"), 1):
        line = Line(line, reader.ended)
        if line.words:
            try:
                reader.take(number, line)
            except Fault as fault:
                return fault.told(number, line.said[0])
    return reader.s, "".join("%d\n" % number for number in reader.map).encode()


def assemble(text):
    """The bytes of a text, or its fault."""
    found = assembled(text)
    return found if isinstance(found, str) else found[0]


def spelled(s):
    return s.hex(" ").upper()


def told(fields, s):
    """The words for these fields, whose bytes s begins with."""
    words = []
    for field in fields.split():
        width = WIDTHS.get(field, 0)
        part, s = s[:width], s[width:]
        if field in LAST:
            words.append("%d" % int.from_bytes(part, "big"))
        elif field == "RULE":
            port = int.from_bytes(part[5:], "big")
            words.append("%d.%d.%d.%d/%d " % tuple(part[:5]) + ("port %d" % port if port else "remove"))
        elif field == "MESSAGE" and part[0] == 2:
            pair = giver(part)
            words += ["share", told(SHARE, part[1:])]
            words.append("key " + told(PAIR, bytes(pair)) if pair else "tag " + spelled(part[-TAG_LENGTH:]))
        else:
            words.append("bytes " + spelled(part) if field == "MESSAGE" else field)
    return " ".join(words)


@functools.lru_cache(maxsize=4)
def disassemble(s):
    if len(s) > LONGEST_INPUT:
        return "expected at most 16384 bytes"
    text, i = "controllers %d\n" % s[0] if s else "", 1
    while whole(s[i:i + LONGEST_LINE]):
        name, length, fields = whole(s[i:i + LONGEST_LINE])
        line = " ".join([name] + [told(fields, s[i + 1:i + length])] * (length > 1))
        # A plan has its blank line and an end its own: there are two between an end and a plan.
        text += {"plan": "\n%s\n", "change": "  %s\n", "end": "%s\n\n"}.get(name, "%s\n") % line
        i += length
    for i in range(i, len(s), LONGEST_LINE):
        text += "bytes %s\n" % spelled(s[i:i + LONGEST_LINE])
    return text.encode()


# Faulty lines behind FOUR, by what is expected there; texts, by their bytes or fault; and bytes, with text or fault.
FOUR, CHANGE, ENDS, JUNK = "controllers 4\n", "change flow 0 switch 2 ", 16382 * "end\n", "bytes FF" + 63 * " 13"
RAW = "raw switch 2 share controller 0 switch 2 number 1 10.0.0.0/8 port 3 "
TWO = "raw switch 2 bytes" + (MESSAGE - 1) * " 02"
TAG = "05 19 D7 89 C2 AC AE 99 C1 89 49 81 75 C8 F5 22"     # That share's, with the key of controller 0 and switch 2.
FAULTY = {
    NAMES: (
        "controllers 4", "foo", "!~\x7f", "Plan switch 5 cause 1", "END", "endend", "\vend", "end\f", "\xa0", "13",
        "end\0"),
    "controller": ("decide", "send switch 2 controller 0", "keep Controller 1", RAW + "key", "report switch 2 switch"),
    "switch": ("plan", "plan 5 1", "change flow 0", "raw share", "keep controller 0 place", RAW + "key controller 15"),
    "cause": ("plan switch 5#cause 1", "decide controller 0 switch 5 serial 4294967295 foo"), "flow": ("change",),
    "number": (RAW[:41] + "serial",), "serial": ("decide controller 0 switch 5 1",), "place": ("deliver", "deliver 1"),
    "a number from 0 to 255": ["deliver place " + s for s in ("", "256", "05", "00", "-1", "1.", "# 1", 20 * "9")] + [
        "keep controller all", "keep controller 0 switch all", "plan switch all cause 1", "plan switch 1 cause all",
        "change flow all", "change flow 0 switch all", "raw switch all", "deliver place all", "deliver place All",
        "decide controller 0 switch all", RAW[:30] + "all", RAW[:39] + "all"],
    "a number from 0 to 255 or all": [line + s for s in ("", "256", "al", "ALL", "all1", "00") for line in (
        "send controller ", "send controller 1 switch ", "report switch ", "report switch 1 controller ",
        "decide controller ")],
    "end on an earlier line": (
        "round", "round 4", "\tround#", "send controller all switch 2", "send controller 0 switch all",
        "report switch all controller", "report switch 0 controller all", "decide controller all"),
    "a number from 0 to 15": [RAW + "key controller " + s for s in ("", "16", "00", "15 switch 16", "0 switch", "all")],
    "a number from 1 to 65535": [CHANGE + "1.2.3.4/5 port " + s for s in ("", "0", "65536", "03", "remove", "all")],
    "a number from 0 to 4294967295": ("decide controller 0 switch 5 serial 4294967296 cause 1", RAW[:48] + "01",
                                      "decide controller 0 switch 5 serial all", RAW[:48] + "all"),
    "an address and a length, as 10.0.0.0/8": [CHANGE + s for s in (
        "", "port 3", "10.0.0.0", "10.0.0.0/", "10.0.0/8", "10.0.0.0.0/8", "256.0.0.0/8", "1.2.3.256/8", "1.2.3.4/256",
        "10.00.0.0/8", "10.0.0.0/08", "10..0.0/8", "10.0.0.0/8/8", "10.0.0.0.8", "10.0.0.0 /8", "a.0.0.0/8 port 0")],
    "port or remove": (CHANGE + "1.2.3.4/255", CHANGE + "1.2.3.4/5 3"), "share or bytes": ("raw switch 2", TWO[:15]),
    "key or tag": (RAW, RAW + TAG, RAW + "bytes"), "share, since these bytes are one": (TWO + " 02", TWO + "\tFF#"),
    "a byte as two hexadecimal digits": (RAW + "tag", RAW + "tag " + TAG[:-3], TWO, TWO + " 0g", "bytes", *(
        "bytes " + s for s in ("# 13", "1", "113", "ff", "0x", "13 foo", "FF -1", "FF F F", "FF,FF"))),
    "the end of the line": ("end end", "plan switch 5 cause 1 1", CHANGE + "1.2.3.4/5 remove 0", TWO + " 02 02",
                            JUNK + " foo", RAW + "tag " + TAG + " 22", RAW + "key controller 0 switch 2 end"),
    "the name of the record that these bytes are": ["bytes " + s for s in ("13", "13 FF", "11 05 01", "25 00 00 00",
        "12" + 9 * " 00", "21" + 7 * " 00", "22 00 00", "23 00 00 00", "24" + (MESSAGE + 1) * " 02", "26 FF",
        "26" + 31 * " FF")],
    "key controller 0 switch 2, which gives this tag": (RAW + "tag " + TAG, "\t" + RAW + "\r\t tag  " + TAG + "#"),
}
# Texts in shorthand, by their bytes and then the lines of their records, or by their fault. EDGE leaves room for six
# more bytes of an input.
BOOK = "controllers 2\nplan switch 3 cause 1\nchange flow 0 switch 1 10.0.0.0/8 port 3\nend\n"
BOOKED = "02 110301 1200010A000000080003 13"
REPORTS, SENDS = "230100 230101 230300 230301", "220001 220101 220003 220103"
EDGE = "controllers 1\nplan switch 0 cause 0\nend\ndeliver place 0\n" + 5457 * "send controller 0 switch 0\n"
SHORT = {
    BOOK + "\nround # one": (BOOKED + REPORTS + SENDS, "1 2 3 4" + 8 * " 6"),
    BOOK + "send controller all switch all\nend": (BOOKED + SENDS + "13", "1 2 3 4 5 5 5 5 6"),
    BOOK + "report switch all controller all": (BOOKED + REPORTS, "1 2 3 4 5 5 5 5"),
    BOOK + "send\tcontroller 9 switch all": (BOOKED + "220901 220903", "1 2 3 4 5 5"),
    BOOK + "report switch all controller 0\n#\nend": (BOOKED + "230100 230300 13", "1 2 3 4 5 5 7"),
    BOOK + "\n\nreport switch 200 controller all": (BOOKED + "23C800 23C801", "1 2 3 4 7 7"),
    BOOK + "send controller all switch 2": (BOOKED + "220002 220102", "1 2 3 4 5 5"),
    "controllers 3\nend\ndecide controller all switch 9 serial 7 cause 1": (
        "03 13 2100090000000701 2101090000000701 2102090000000701", "1 2 3 3 3"),
    "controllers 1\nplan switch 4 cause 0\nend\nplan switch 2 cause 0\nround": (
        "01 110400 13 110200 230400 220004", "1 2 3 4 5 5"),
    "controllers 1\nplan switch 200 cause 0\nplan switch 16 cause 0\nplan switch 15 cause 0\nend\nround": (
        "01 11C800 111000 110F00 13 230F00 22000F", "1 2 3 4 5 6 6"),
    FOUR + "end\nround\nsend controller 0 switch all\nreport switch all controller all\nend": ("04 13 13", "1 2 6"),
    "controllers 0\nplan switch 1 cause 1\nend\nround\ndecide controller all switch 1 serial 1 cause 1\nend": (
        "00 110101 13 13", "1 2 3 6"),
    "controllers 255\nend\nsend controller all switch 1": (
        "FF 13" + "".join("22%02X01" % i for i in range(255)), "1 2" + 255 * " 3"),
    FOUR + "bytes FF": ("04 FF", "1 2"), FOUR + JUNK + "\n\nbytes 13": ("04 FF" + 63 * "13" + "13", "1 2 4"),
    "\n#\n" + FOUR + "end": ("04 13", "3 4"), "": ("", ""), 999999 * "\n" + FOUR + "end": ("04 13", "1000000 1000001"),
    EDGE + "round": ("01 110000 13 2600" + 5457 * "220000" + "230000 220000",
                     " ".join(map(str, range(1, 5462))) + " 5462 5462"),
    EDGE + "end\nround": ("5463: expected at most 16384 bytes in all, found more", ""),
    "controllers 255\n" + "".join("plan switch %d cause 0\n" % i for i in range(16)) + "end\nround": (
        "19: expected at most 16384 bytes in all, found more", ""),
    FOUR + "bytes FF\nround": ("3: expected no record after bytes, found round", ""),
    FOUR + "end\nround all": ("3: expected the end of the line, found all; the line's form is: round", ""),
    "round": ("1: expected controllers, found round", ""),
    "controllers all": ("1: expected a number from 0 to 255, found all; only decide, send and report take all, and "
                        "decide only for its controller", ""),
}
# What stands before a word that is meant for a name.
MEANT = {"controllers": "", "all": FOUR + "end\nsend controller ", **{name: FOUR for name in (*RECORDS, "round")},
         "switch": FOUR + "plan ", "controller": FOUR + "send ", "flow": FOUR + "change ",
         "cause": FOUR + "plan switch 1 ",
         "serial": FOUR + "decide controller 0 switch 1 ", "place": FOUR + "deliver ", "number": FOUR + RAW[:41],
         "port": FOUR + CHANGE + "1.2.3.4/5 ", "remove": FOUR + CHANGE + "1.2.3.4/5 ", "share": FOUR + "raw switch 1 ",
         "bytes": FOUR + "raw switch 1 ", "key": FOUR + RAW, "tag": FOUR + RAW}
MARK = "\xef\xbb\xbf"
VOCABULARY = sorted({word for lines in FAULTY.values() for line in lines for word in line.split()} | set(MEANT))
TEXTS = {
    "": ("", "\n \t\r\n# nothing", (1023 * " " + "\n") * 1024), "04 24 00 00": (FOUR + "bytes 24 00 00",),
    "04": ("controllers 4", FOUR.ljust(1048576), (FOUR + "#").ljust(1048576, "\xff"), "controllers 4\r\n"),
    "00 13 13": ("controllers 0\nend#\r\n \r\tend # end", MARK + "controllers 0\nend\nend"),
    "FF": ("\r\n\tcontrollers\t255#5\r\n#\xff\0\n",),
    "04 FF" + 63 * "13": (FOUR + JUNK,), "04 FF" + 64 * "13" + "FF": (FOUR + JUNK + "\n\n bytes 13 FF#",),
    "04 24 02 02 00 02 00000001 0A000000 08 0003" + TAG: (FOUR + RAW + "key controller 0 switch 2",),
    "04 24 02 02 00 02 00000001 0A000000 08 0003" + TAG_LENGTH * "00": (FOUR + RAW + "tag" + TAG_LENGTH * " 00",),
    "04 21 0102FFFFFFFF03": (FOUR + "decide controller 1 switch 2 serial 4294967295 cause 3",),
    "1: expected controllers": ("end", "Controllers 4", "4", MARK[:2] + "controllers 4", 2 * MARK + FOUR),
    "3: expected controllers": ("\n#\nbytes 04",),
    "1: expected the end of the line": ("controllers 4\rend", "controllers 4 4\nend end"),
    "1: expected a number from 0 to 255": ("controllers\n4", "controllers 256"),
    "3: expected no record after bytes": (FOUR + "bytes FF\nbytes 13 foo", FOUR + JUNK + "\nend 1"),
    "4: expected no record after bytes": (FOUR + "bytes FF\n\nend", FOUR + JUNK + "\nbytes 13\nbytes 13"),
    "04" + 16383 * "13": (FOUR + ENDS + "end",), "04" + 16382 * "13" + "FF": (FOUR + ENDS + "bytes FF",),
    "16384: expected at most 16384 bytes in all": (FOUR + ENDS + "bytes 1F 1F", FOUR + ENDS + "deliver place 1"),
    "16385: expected the name of the record that these bytes are": (FOUR + ENDS + "end\nbytes 13",),
    "257: expected at most 16384 bytes in all": (FOUR + 256 * (JUNK + "\n"),),
    "1: expected at most 1048576 bytes of text": ("foo".ljust(1048576) + "\n", "#" * 1048577),
    "2: expected at most 1048576 bytes of text": (FOUR.ljust(1048577), FOUR.ljust(1048576) + "\nfoo\n"),
    "1048577: expected at most 1048576 bytes of text": ("\n" * 1048577 + "foo",),
}
LAID_OUT = {
    "": "", "00": "controllers 0\n", "04 11": FOUR + "bytes 11\n", "04" + 16384 * "13": "expected at most 16384 bytes",
    "04 110501 12000201020304050000 13": FOUR + "\nplan switch 5 cause 1\n  " + CHANGE + "1.2.3.4/5 remove\nend\n\n",
    16384 * "04": FOUR + 255 * ("bytes" + 64 * " 04" + "\n") + "bytes" + 63 * " 04" + "\n",
}


def some_bytes(r, count):
    return bytes(r.choice((0, 1, 2, 15, 16, 255, r.randrange(256), r.randrange(256))) for _ in range(count))


def some_record(r):
    kind = r.choice((0x24, 0x24, *KINDS))
    s = bytes([kind]) + some_bytes(r, KINDS[kind][1] - 1)
    if kind == 0x24 and r.randrange(5):
        body = b"\2" + some_bytes(r, 11) + r.choice((b"\0\0", s[14:16]))
        given = tag(r.randrange(17), r.randrange(17), body)
        s = s[:2] + body + r.choice((given, given, s[-TAG_LENGTH:], given[:-1] + s[-1:]))
    return s


def some_input(r):
    s = some_bytes(r, 1) + b"".join(some_record(r) for _ in range(r.randrange(10)))
    i, junk = r.randrange(len(s) + 1), some_bytes(r, r.choice((1, 2, 31, 63, 64, 65, 127, 128, 129, r.randrange(199))))
    return r.choice((s, s, s, s + b"\xff" + junk, s + b"\xff" + s, s + junk, s[:i], s[i:], s[:i] + junk[:3] + s[i:],
                     s[:i] + junk[:1] + s[i + 1:], junk, bytes(r.randrange(256) for _ in junk)))


def in_bytes(r, line):
    """The record of this line, if it has a right one, with bytes in the place of names."""
    s = assemble((FOUR + line).encode("latin-1"))
    if isinstance(s, str):
        return line
    raw = ["raw switch 1 bytes " + spelled(s[3:]), line.partition("key")[0] + "tag " + spelled(s[-TAG_LENGTH:])]
    return r.choice(["bytes " + spelled(s[1:])] + raw * (s[1:2] == b"\x24"))


def mistyped(word):
    """The word with an edit at its end: a letter missing, one too many, another one, two swapped; and in capitals."""
    start, last = word[:-1], word[-1:]
    return [start, word + last, start + "z", start[:-1] + last + start[-1:], word.upper(), word.title()]


def damaged(r, text):
    """This text with one to three alterations, not all of which are damage."""
    lines = text.split("\n")
    for _ in range(r.randrange(1, 4)):
        i = r.randrange(len(lines))
        line, after, words = lines[i], lines[i + 1:i + 2], lines[i].split(" ")
        j, gap = r.randrange(len(words)), r.choice((" ", "\t", "\r", "\n", "#", "\v", "\0", chr(r.randrange(256))))
        apart, word = [" ".join(words[:j]), " ".join(["bytes"] + words[j:])], words[j]
        k, letter = r.randrange(len(word) + 1), r.choice("adeilnorst")
        words[j] = r.choice(("", word + " " + word, r.choice(VOCABULARY), word.swapcase(), "0" + word, word + gap,
                             word[:k] + gap + word[k:], word[:k] + gap + word[k + 1:], gap + word, word + " # " + gap,
                             word[:k] + letter + word[k:], word[:k] + letter + word[k + 1:], word[:k] + word[k + 1:],
                             word[:k] + word[k + 1:k + 2] + word[k:k + 1] + word[k + 2:], r.choice(mistyped(word)),
                             "all", word + 9 * letter + word + word))
        others = (after, [line, line] + after, after + [line], apart + after, [" ".join([line] + after)],
                  [in_bytes(r, line)] + after, [in_bytes(r, line)] + after, [line.replace(" ", gap)] + after,
                  ["round", line] + after)
        lines[i:i + 2] = r.choice(([" ".join(words)] + after,) * 8 + others) or [""]
    return "\n".join(lines)


def some_number(r):
    return r.choice(("all", "all", "all", "0", "1", "15", "16", "255", "%d" % r.randrange(256)))


def some_line(r):
    """A line of a script, most often in shorthand."""
    one, other, number = some_number(r), some_number(r), r.randrange(256)
    return r.choice((
        "round", "  round  # 1", "send controller %s switch %s" % (one, other), "end", "deliver place 1", "", "# all",
        "report switch %s controller %s" % (one, other), "plan switch 7 cause 1",
        "bytes FF" if number < 64 else "round", "decide controller %s switch %d serial 1 cause 0" % (one, number)))


def some_short_text(r):
    """A text with shorthand: a playbook whose switches repeat and do not rise, and a script."""
    switches = [r.choice((0, 3, 15, 16, 255, r.randrange(16), r.randrange(16))) for _ in range(r.randrange(7))]
    lines = ("plan switch %d cause 1", "change flow 0 switch %d 10.0.0.0/8 port 1", "plan switch %d cause 1\n#")
    book = [r.choice(lines) % switch for switch in switches]
    first = "controllers %d" % r.choice((0, 1, 2, 3, 4, 15, 16, 17, 255, r.randrange(256)))
    end = r.choice((["end"], ["end"], ["end"], ["", "end # the first", ""], []))
    return "\n".join([first] + book + end + [some_line(r) for _ in range(r.randrange(9))])


def examples():
    """The page's examples of faults: the text, and what it gets."""
    rows = re.findall(r"^\| \d+ \| (.*?) \| `(.*)` \| `(.*)` \|$", PAGE.read_text(), re.M)
    assert len(rows) > 12, "the page has no examples"
    return [("\n".join(re.findall("`(.*?)`", before) + [line]), wanted) for before, line, wanted in rows]


def written_out():
    """The texts written out above and on the page: where, the text, and what it must give, or a part of its fault."""
    for wanted, texts in TEXTS.items():
        for text in texts:
            yield "a text", text, wanted + ", found " if "expected" in wanted else (bytes.fromhex(wanted), None)
    for what, lines in FAULTY.items():
        for line in lines:
            yield "a faulty line", FOUR + line, "2: expected %s, found " % what
    for text, (wanted, lines) in SHORT.items():
        lines = "".join(line + "\n" for line in lines.split())
        yield "shorthand", text, wanted if "expected" in wanted else (bytes.fromhex(wanted), lines.encode())
    for name, before in MEANT.items():
        for word in mistyped(name):
            if word != name:
                yield "a mistyped word", before + word, "; did you mean %s?" % name
    for text, wanted in examples():
        yield "the page", text, wanted


def tests(seed, count):
    """Where it is, the program, what it is given, and what that must give: none where it is only computed."""
    for where, text, wanted in written_out():
        yield where, assembled, text.encode("latin-1"), wanted
    for s, wanted in LAID_OUT.items():
        yield "bytes", disassemble, bytes.fromhex(s), wanted if "expected" in wanted else wanted.encode()
    inputs = []
    for case in sorted((*CASES.glob("*.txt"), *CASES.glob("../../examples/*-evening.txt"))):
        text, s = case.read_bytes(), assemble(case.read_bytes())
        assert isinstance(s, bytes), "%s: %s" % (case, s)
        inputs.append((case.stem, s))
        yield case.stem, assembled, text, (s, None)
    assert inputs, "no cases"
    inputs += [("random %d" % i, some_input(random.Random("%d %d" % (seed, i)))) for i in range(count)]
    for where, s in inputs:
        r, text = random.Random("%d %s" % (seed, where)), disassemble(s)
        yield where, disassemble, s, text
        if not isinstance(text, str):
            yield where, assembled, text, (s, None)
            for _ in range(2):
                yield where, assembled, damaged(r, text.decode()).encode("latin-1"), None
    for i in range(count):
        r = random.Random("%d shorthand %d" % (seed, i))
        text = some_short_text(r)
        yield "shorthand %d" % i, assembled, text.encode(), None
        yield "shorthand %d" % i, assembled, damaged(r, text).encode("latin-1"), None


def streams(result):
    """What a program writes to standard output and to standard error for this result."""
    if isinstance(result, str):
        return b"", result.encode("latin-1") + b"\n"
    return result if isinstance(result, tuple) else (result, b"")


def is_wanted(result, wanted):
    if wanted is None:
        return True
    if isinstance(wanted, str):
        return isinstance(result, str) and wanted in result
    if isinstance(wanted, tuple):
        return not isinstance(result, str) and result[0] == wanted[0] and wanted[1] in (None, result[1])
    return result == wanted


def run(path, given):
    """What a program writes, or else what became of it."""
    try:
        done = subprocess.run([path], input=given, capture_output=True, timeout=10)
    except (OSError, subprocess.TimeoutExpired) as error:
        return error
    return (done.stdout, done.stderr) if done.returncode == 0 else done


def main():
    parser = argparse.ArgumentParser(usage=__doc__)
    parser.add_argument("command", choices=("assemble", "disassemble", "compare"))
    parser.add_argument("folder", nargs="?", type=pathlib.Path)
    parser.add_argument("--seed", type=int, default=1)
    parser.add_argument("--count", type=int, default=300)
    asked = parser.parse_args()
    if (asked.command == "compare") != (asked.folder is not None):
        sys.exit(__doc__)
    if asked.command != "compare":
        result = {"assemble": assembled, "disassemble": disassemble}[asked.command](sys.stdin.buffer.read())
        out, errors = streams(result)
        sys.stdout.buffer.write(out)
        sys.stderr.buffer.write(errors)
        sys.exit(isinstance(result, str))
    names = {assembled: "assemble", disassemble: "disassemble"}
    ended = [0, 0]
    for where, model, given, wanted in tests(asked.seed, asked.count):
        result, got = model(given), run(asked.folder.absolute() / names[model], given)
        right = got == streams(result) and is_wanted(result, wanted)
        ended[not right] += 1
        if not right:
            print("tests/notation.py: %s: %s of %.900a gives %.900a; computed %.900a; wanted %.900a" % (
                where, names[model], given, got, result, wanted))
    assert Fault.met == set(range(1, 18)), "faults not met: %s" % (set(range(1, 18)) - Fault.met)
    print("%d passed, %d failed" % tuple(ended))
    sys.exit(ended[1] > 0)


if __name__ == "__main__":
    main()
