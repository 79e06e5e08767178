"""Reads the definitions of crates/*/specs/*.antt as text: files, what they use, and each definition as a tree.

A tree is a tuple: ("name", x), ("number", k), ("apply", f, arguments), ("part", of, field), ("record", fields),
("pair", parts), ("function", names, body), ("let", name, value, body), ("binder", names, type), ("infix", op, a, b).
Nothing here knows what a name means.
"""
import glob
import itertools
import os
import re

TOKEN = re.compile(r"[(){};,]|\.[^\s(){};,.]+|\.(?=\s)|[^\s(){};,.]+(?:\.[^\s(){};,.]+)*")
# How tight an operator binds, and whether to the left.
TIGHT = {"→": (1, False), "×": (2, False), "⊎": (2, False), "≡": (3, False), "<": (3, False), "≤": (3, False),
         "||": (4, False), "&&": (5, False), "∷": (6, False), "++": (6, False), "⊞": (7, True), "+": (7, True),
         "-": (7, True), "*": (8, True), "/": (8, True), "%": (8, True), "^": (9, False)}
BEGINS = r"(abbrev|unfoldable|pub|infix[lr]?)\b"
PASSED = r"(unfoldable )?(pub )?(use|mod) |$"
ENDS = {")", "}", ";", ",", "=", ":", "in", ".", None}


class Tree:
    """The trees of a run of tokens. `files` are the short names of whole files: a name of such a file is one name, and
    any other name with points is a record with its fields."""

    def __init__(self, text, files=()):
        self.tokens, self.at, self.files = TOKEN.findall(text), 0, files

    def next(self):
        return self.tokens[self.at] if self.at < len(self.tokens) else None

    def take(self, wanted=None):
        token = self.next()
        if token is None or wanted not in (None, token):
            raise SyntaxError("%s where %s was expected, in: %s" % (token, wanted or "more", " ".join(self.tokens)))
        self.at += 1
        return token

    def names(self):
        found = []
        while self.next() not in ENDS | {"(", "{", "λ"}:
            found.append(self.take())
        return tuple(found)

    def whole(self):
        tree = self.tree()
        if self.next() is not None:
            raise SyntaxError("more than a tree: " + " ".join(self.tokens))
        return tree

    def tree(self, least=0):
        if self.next() == "λ":
            return self.function()
        if self.next() == "let":
            self.take()
            name = self.take()
            if self.next() == ":":
                self.take()
                self.tree()
            self.take("=")
            value = self.tree()
            self.take("in")
            return ("let", name, value, self.tree())
        left = self.applied()
        while self.next() in TIGHT and TIGHT[self.next()][0] >= least:
            op = self.take()
            tight, to_left = TIGHT[op]
            left = ("infix", op, left, self.tree(tight + 1 if to_left else tight))
        return left

    def function(self):
        self.take("λ")
        names = []
        while self.next() != ".":
            if self.next() == "(":
                self.take()
                names += self.names()
                self.take(":")
                self.tree()
                self.take(")")
            else:
                names.append(self.take())
        self.take(".")
        return ("function", tuple(names), self.tree())

    def applied(self):
        head, arguments = self.atom(), ()
        while self.next() not in ENDS and self.next() not in TIGHT:
            argument = self.atom()
            if argument[0] == "binder" and head[0] == "binder":
                head = ("binder", head[1] + argument[1], ("pair", (head[2], argument[2])))
            elif argument != ("implicit",):
                arguments += (argument,)
        return ("apply", head, arguments) if arguments else head

    def atom(self):
        tree = self.bare()
        while self.next() not in ENDS and self.next().startswith("."):
            tree = ("part", tree, self.take()[1:])
        return tree

    def named(self, token):
        """A name, and the fields that are taken of it."""
        name, *fields = token.split(".")
        tree = ("name", ".".join([name, fields.pop(0)]) if fields and name in self.files else name)
        for field in fields:
            tree = ("part", tree, field)
        return tree

    def bare(self):
        token = self.take()
        if token == "record":
            self.take("{")
            fields = []
            while self.next() != "}":
                name = self.take()
                self.take("=")
                fields.append((name, self.tree()))
                if self.next() == ";":
                    self.take()
            self.take("}")
            return ("record", tuple(fields))
        if token in "({":
            return self.inside(")" if token == "(" else "}")
        if token == "λ":
            self.at -= 1
            return self.function()
        if token[0].isdigit():
            return ("number", int(token.replace("_", ""), 0))
        return self.named(token)

    def inside(self, end):
        start, names = self.at, self.names()
        if names and self.next() == ":":
            self.take()
            tree = ("binder", names, self.tree())
        elif end == "}":
            while self.next() != "}":
                self.take()
            tree = ("implicit",)
        else:
            self.at = start
            tree = self.tree()
            if self.next() == ",":
                parts = [tree]
                while self.next() == ",":
                    self.take()
                    parts.append(self.tree())
                tree = ("pair", tuple(parts))
        self.take(end)
        return tree


def blocks(lines):
    """Lines joined with those below them that stand further in, or that close a bracket."""
    joined = []
    for line in lines:
        bare = line.lstrip()
        if joined and (len(line) - len(bare) > deep or bare[0] in ")}"):
            joined[-1] += "\n" + line
        else:
            deep = len(line) - len(bare)
            joined.append(line)
    return joined


class Definition:
    """A definition of a value with its clauses (patterns, body), a record, a data type, or the line of a module.
    `types` are the types in it, `parts` a record's fields or a data type's cases, `binders` its parameters."""

    def __init__(self, path, lines, module, files=()):
        self.path, self.module, self.lines, self.files = path, module, len(lines), files
        self.types, self.parts, self.clauses, self.binders = [], [], [], ()
        head, *rest = [block for block in blocks(lines) if not block.lstrip().startswith("infix")]
        typed = re.match(r"\s*(?:(module) _|pub (record|data) (\S+))(.*?)\bwhere\b(.*)", head, re.DOTALL)
        if typed:
            self.kind, self.name = typed.group(1) or typed.group(2), typed.group(3) or "module"
            self.heading(typed.group(4))
            for field in blocks([line for line in typed.group(5).split("\n") if line.strip()]):
                name, _, type = field.partition(":")
                self.parts.append(name.split()[-1])
                self.types.append(Tree(type, files).whole())
        else:
            self.kind, signature = "value", re.match(r"\s*(?:abbrev |unfoldable )?(?:pub )?(\S+) :", head)
            self.name = signature.group(1)
            self.types.append(Tree(head[signature.end():], files).whole())
            for clause in rest:
                tree = Tree(clause, files)
                left = tree.tree()
                tree.take("=")
                patterns = {"infix": left[2:], "apply": left[-1]}.get(left[0], ())
                self.clauses.append((patterns, tree.whole()))

    def heading(self, text):
        """The parameters of a module, a record or a data type, and the type after them."""
        tree, binders = Tree(text, self.files), []
        while tree.next() in ("(", "{"):
            end = {"(": ")", "{": "}"}[tree.take()]
            names = tree.names()
            tree.take(":")
            binders.append((end == ")", names, tree.tree()))
            tree.take(end)
        self.binders = tuple(binders)
        if tree.next() == ":":
            tree.take()
            self.types.append(tree.whole())

    def parameters(self):
        """The names of what is passed in parentheses."""
        return tuple(name for passed, names, type in self.binders if passed for name in names)


class Uses:
    """What `use` lines bring: names, and short names of whole files, each with the path that its line has."""

    def __init__(self, lines):
        self.names, self.files, self.order = {}, {}, []
        for line in lines:
            named = re.match(r"use (\S+)\.\{(.*)\}", line)
            short = re.match(r"use (\S+) as (\S+)$", line)
            if named:
                self.names.update((name.strip(), named.group(1)) for name in named.group(2).split(","))
            elif short:
                self.files[short.group(2)] = short.group(1)
            if named or short:
                self.order.append((named or short).group(1))


class File:
    """A file of definitions: its first comment, what it uses, and its definitions."""

    def __init__(self, path):
        with open(path, encoding="utf-8") as file:
            lines = file.read().split("\n")
        self.path, self.definitions = path, []
        self.head = " ".join(line[2:].strip() for line in itertools.takewhile(lambda l: l.startswith("--"), lines))
        self.uses = Uses(line for line in lines if line.startswith("use "))
        modules, found = [], []
        for line in lines:
            bare = re.sub(r"(^|\s)--(\s.*)?$", "", line).rstrip()
            deep = len(bare) - len(bare.lstrip())
            if re.match(PASSED, bare):
                continue
            begins = deep <= 2 * len(modules) and re.match(" " * deep + BEGINS, bare)
            if bare.lstrip().startswith("module ") or begins:
                modules = modules[:deep // 2]
            if bare.lstrip().startswith("module "):
                modules.append(self.nested(modules, bare))
            elif begins:
                if found and found[-1][1][-1].lstrip().startswith("infix"):
                    found[-1][1].append(bare)
                else:
                    found.append((modules[-1] if modules else None, [bare]))
            else:
                found[-1][1].append(bare)
        self.definitions += [Definition(path, block, module, self.uses.files) for module, block in found]

    def nested(self, modules, line):
        """A module's line; its parameters are those of the modules around it and its own."""
        module = Definition(self.path, [line], None, self.uses.files)
        module.binders = (modules[-1].binders if modules else ()) + module.binders
        self.definitions.append(module)
        return module


def inside(tree):
    """The trees right below a tree, each with the names that it binds there."""
    kind = tree[0]
    if kind in ("function", "binder"):
        return [(tree[2], tree[1])]
    if kind == "let":
        return [(tree[2], ()), (tree[3], (tree[1],))]
    if kind == "infix":
        return [(tree[2], ()), (tree[3], tree[2][1] if tree[2][0] == "binder" else ())]
    below = {"apply": lambda: (tree[1],) + tree[2], "part": lambda: (tree[1],), "pair": lambda: tree[1],
             "record": lambda: [value for name, value in tree[1]]}.get(kind, tuple)()
    return [(part, ()) for part in below]


def free(tree, bound):
    """The names in a tree that are not bound there, operators among them."""
    own = {tree[1]} - bound if tree[0] in ("name", "infix") else set()
    return own.union(*(free(part, bound | set(names)) for part, names in inside(tree)))


def spec_of(path):
    """The file that a path of a `use` line means, or none where it is of a library or of the code's types."""
    found = re.match(r"Rattle\.(?!std\.)(\w+)\.specs\.(?!declared)(\w+)$", path)
    return "crates/%s/specs/%s.antt" % found.groups() if found else None


def declared(path):
    """The crate and the type where a path means a type that the code declares."""
    found = re.match(r"Rattle\.(\w+)\.specs\.declared\.(?:\w+\.)*?(\w+)(?:\.TheVariants)?$", path)
    return found.groups() if found else None


def specs(root="."):
    """All files of definitions, by path."""
    there = os.getcwd()
    os.chdir(root)
    try:
        return {path: File(path) for path in sorted(glob.glob("crates/*/specs/*.antt"))}
    finally:
        os.chdir(there)
