"""Runs definitions of crates/*/specs/*.antt as they stand there, without the prover and without the code.

A definition becomes a Python function, made when it is first asked for. Arguments are worked out when they are needed,
and once. A number is an int, a list a tuple, a record a dict, a pair a record with the fields 0 and 1, and a case of an
enum or a data type is Built. What definitions use of the libraries stands in LIBRARY.
"""
import sys
import threading

import antt


class Later:
    """A value that is worked out when it is needed."""
    __slots__ = ("make", "value")

    def __init__(self, make):
        self.make = make


def now(x):
    if type(x) is Later:
        if x.make:
            x.value, x.make = now(x.make()), None
        return x.value
    return x


class Function:
    """A function that takes so many arguments, some of which are there."""
    __slots__ = ("arity", "body", "given")

    def __init__(self, arity, body, given=()):
        self.arity, self.body, self.given = arity, body, given


class Built:
    """A case of an enum or of a data type, with its parts."""
    __slots__ = ("case", "parts")

    def __init__(self, case, parts=()):
        self.case, self.parts = case, parts

    def __eq__(self, other):
        return type(other) is Built and (self.case, self.parts) == (other.case, other.parts)

    def __repr__(self):
        return "(%s)" % " ".join([self.case] + [repr(part) for part in self.parts])


def apply(f, *arguments):
    f = now(f)
    if type(f) is Built:
        return Built(f.case, f.parts + tuple(now(argument) for argument in arguments))
    given = f.given + arguments
    if len(given) < f.arity:
        return Function(f.arity, f.body, given)
    result = f.body(*given[:f.arity])
    return apply(result, *given[f.arity:]) if given[f.arity:] else now(result)


def stored(l, i, x):
    return l[:i] + (x,) + l[i + 1:] if i < len(l) else l


LIBRARY = {
    "true": True, "false": False, "[]": (), "zero": 0, "suc": lambda n: n + 1, "not": lambda b: not b,
    "eqb": lambda a, b: a == b, "ltb": lambda a, b: a < b, "leb": lambda a, b: a <= b, "nat_le": lambda a, b: a <= b,
    "length": len, "take": lambda n, l: l[:n], "drop": lambda n, l: l[n:], "set": stored,
    "get_or": lambda l, i, z: l[i] if i < len(l) else z, "slice_index": lambda l, i: l[i] if i < len(l) else 0,
    "slice_index_or": lambda l, i, z: l[i] if i < len(l) else z, "replicate": lambda n, x: (x,) * n,
    "map": lambda f, l: tuple(apply(f, x) for x in l),
    "bit_and": lambda a, b: a & b, "bit_or": lambda a, b: a | b, "bit_xor": lambda a, b: a ^ b,
    "ones": lambda a: bin(a).count("1"),
}
# The cases of the libraries' types.
CASES = {"Some", "None", "Ok", "Err"}
INFIX = {"+": "({} + {})", "-": "max({} - {}, 0)", "*": "({} * {})", "/": "({} // {})", "%": "({} % {})",
         "^": "({} ** {})", "&&": "({} and {})", "||": "({} or {})", "∷": "(({},) + {})", "++": "({} + {})"}


class Definitions:
    """All definitions below a folder; `of` gives one of them as a Python function of values."""

    def __init__(self, root="."):
        self.files, self.made, self.space = antt.specs(root), {}, {
            "now": now, "apply": apply, "Later": Later, "Function": Function, "Built": Built, "LIBRARY": LIBRARY}
        self.named = {}
        for path, file in self.files.items():
            for d in file.definitions:
                self.named[path, d.name] = d
                self.named.update(((path, case), "case") for case in d.parts if d.kind == "data")

    def of(self, crate, file, name):
        d = self.named["crates/%s/specs/%s.antt" % (crate, file), name]
        arity, made = self.compiled(d)
        value = Function(arity, self.space[made]) if arity else now(self.space[made])
        return (lambda *arguments: apply(value, *arguments)) if type(value) is Function else value

    def replace(self, crate, file, name, body):
        """Takes a Python function of values in place of a definition, for speed."""
        arity, made = self.compiled(self.named["crates/%s/specs/%s.antt" % (crate, file), name])
        self.space[made] = lambda *arguments: body(*[now(argument) for argument in arguments])

    def meant(self, path, name):
        """A definition, "case", or the library's value for a name in a file."""
        uses, (of, _, last) = self.files[path].uses, name.rpartition(".")
        if (path, name) in self.named or (path, "◌%s◌" % name) in self.named:
            return self.named.get((path, name)) or self.named[path, "◌%s◌" % name]
        used = uses.files.get(of) if of else uses.names.get(name)
        if used and (antt.declared(used) or last in CASES):
            return "case"
        if used and antt.spec_of(used):
            return self.named[antt.spec_of(used), last]
        return "library" if last in LIBRARY else "case" if last in CASES else None

    def compiled(self, d):
        """How many arguments a definition takes, and its name in Python."""
        if d not in self.made:
            parameters = d.module.parameters() if d.module else ()
            arity = len(parameters) + len(d.clauses[0][0])
            self.made[d] = arity, "d%d" % len(self.made)
            name = self.made[d][1]
            arguments = ["a%d" % i for i in range(arity)]
            lines = ["def %s(%s):" % (name, ", ".join(arguments))]
            for patterns, body in d.clauses:
                lines += Clause(self, d, parameters, arguments).lines(patterns, body)
            lines.append("    raise ValueError('no clause of %s fits')" % d.name)
            exec("\n".join(lines), self.space)
            if arity == 0:
                self.space[name] = Later(self.space[name])
        return self.made[d]


class Clause:
    """One clause of a definition, in Python."""

    def __init__(self, definitions, d, parameters, arguments):
        self.all, self.d, self.parameters = definitions, d, parameters
        self.names = dict(zip(parameters, arguments))
        self.arguments, self.fresh, self.shared = arguments[len(parameters):], 0, {}

    def new(self):
        self.fresh += 1
        return "v%d" % self.fresh

    def is_case(self, name):
        """Whether a name of a pattern is a case and no variable."""
        meant = self.all.meant(self.d.path, name)
        return meant == "case" or meant == "library" and not callable(LIBRARY[name])

    def lines(self, patterns, body):
        """The clause as an `if`: what its patterns ask, what they bind, what is said twice, and its value."""
        asked, lines = [], []
        for pattern, argument in zip(patterns, self.arguments):
            if pattern[0] == "name" and not self.is_case(pattern[1]):
                self.names[pattern[1]] = argument
            else:
                self.shared[pattern] = argument
                asked += self.asks(pattern, "now(%s)" % argument, lines)
        for tree in repeated(body):
            name = self.new()
            lines.append("%s = Later(lambda: %s)" % (name, self.value(tree)))
            self.shared[tree] = name
        lines.append("return " + self.value(body))
        return ["    if %s:" % (" and ".join(asked) or "True")] + ["        " + line for line in lines]

    def asks(self, pattern, value, lines):
        """What a pattern asks of a value; what it binds goes to the lines."""
        kind = pattern[0]
        if kind == "name":
            if self.is_case(pattern[1]):
                return ["%s == %s" % (value, self.called(pattern[1], ()))]
            self.names[pattern[1]] = self.new()
            lines.append("%s = %s" % (self.names[pattern[1]], value))
            return []
        if kind == "number":
            return ["%s == %d" % (value, pattern[1])]
        if kind == "pair":
            return [ask for i, part in enumerate(pattern[1]) for ask in self.asks(part, "%s['%d']" % (value, i), lines)]
        if kind == "infix" and pattern[1] == "∷":
            inner = self.asks(pattern[2], value + "[0]", lines)
            return ["len(%s) > 0" % value] + inner + self.asks(pattern[3], value + "[1:]", lines)
        if pattern[1] == ("name", "suc"):
            return ["%s > 0" % value] + self.asks(pattern[2][0], "(%s - 1)" % value, lines)
        asked = ["%s.case == %r" % (value, pattern[1][1].split(".")[-1])]
        for i, part in enumerate(pattern[2]):
            asked += self.asks(part, "%s.parts[%d]" % (value, i), lines)
        return asked

    def later(self, tree):
        """Python for a tree as an argument."""
        if tree in self.shared:
            return self.shared[tree]
        if tree[0] == "name" and tree[1] in self.names:
            return self.names[tree[1]]
        value = self.value(tree)
        return value if tree[0] in ("number", "name", "function") else "Later(lambda: %s)" % value

    def value(self, tree):
        """Python for the value of a tree."""
        kind = tree[0]
        if tree in self.shared:
            return "now(%s)" % self.shared[tree]
        if kind == "number":
            return str(tree[1])
        if kind == "name":
            return self.called(tree[1], ())
        if kind == "apply":
            return self.called(tree[1][1], tree[2]) if tree[1][0] == "name" else self.applied(
                self.value(tree[1]), tree[2])
        if kind == "part":
            return "%s[%r]" % (self.value(tree[1]), tree[2])
        if kind == "record":
            return "{%s}" % ", ".join("%r: %s" % (name, self.value(value)) for name, value in tree[1])
        if kind == "pair":
            return "{%s}" % ", ".join("'%d': %s" % (i, self.value(part)) for i, part in enumerate(tree[1]))
        if kind == "function":
            return "Function(%d, lambda %s: %s)" % (len(tree[1]), *self.inside(tree[1], tree[2]))
        if kind == "let":
            return "(lambda %s: %s)(%s)" % (*self.inside((tree[1],), tree[3]), self.later(tree[2]))
        if tree[1] in INFIX:
            return INFIX[tree[1]].format(self.value(tree[2]), self.value(tree[3]))
        return self.called(tree[1], tree[2:])

    def inside(self, names, body):
        """Fresh names for what a tree binds, and Python for the tree."""
        outer = self.names, self.shared
        self.names = dict(self.names, **{name: self.new() for name in names})
        self.shared = {t: n for t, n in self.shared.items() if not antt.free(t, set()) & set(names)}
        made = ", ".join(self.names[name] for name in names), self.value(body)
        self.names, self.shared = outer
        return made

    def applied(self, function, arguments):
        return "apply(%s)" % ", ".join([function] + [self.later(a) for a in arguments]) if arguments else function

    def called(self, name, arguments):
        if name in self.names:
            return self.applied("now(%s)" % self.names[name], arguments)
        meant, last = self.all.meant(self.d.path, name), name.split(".")[-1]
        if meant is None:
            raise NameError("%s of %s is not known" % (name, self.d.path))
        if meant == "case":
            return "Built(%r, (%s))" % (last, "".join(self.value(a) + ", " for a in arguments))
        if meant == "library":
            value = LIBRARY[last]
            if not callable(value):
                return repr(value)
            arity = value.__code__.co_argcount if hasattr(value, "__code__") else 1
            if len(arguments) == arity:
                return "LIBRARY[%r](%s)" % (last, ", ".join(self.value(a) for a in arguments))
            strict = "Function(%d, lambda *given: LIBRARY[%r](*[now(x) for x in given]))" % (arity, last)
            return self.applied(strict, arguments)
        arity, made = self.all.compiled(meant)
        own = [self.names[p] for p in self.parameters] if meant.module and meant.module is self.d.module else []
        given = own + [self.later(a) for a in arguments]
        if arity == 0:
            return "apply(%s)" % ", ".join(["now(%s)" % made] + given) if given else "now(%s)" % made
        if len(given) < arity:
            return "Function(%d, %s, (%s))" % (arity, made, "".join(x + ", " for x in given))
        call = "%s(%s)" % (made, ", ".join(given[:arity]))
        return "apply(%s)" % ", ".join([call] + given[arity:]) if given[arity:] else call


def repeated(body):
    """The calls that a tree has more than once and that need nothing bound inside it, the smallest first."""
    seen = {}

    def walk(tree, bound):
        if tree[0] in ("apply", "part") and not antt.free(tree, set()) & bound:
            seen[tree] = seen.get(tree, 0) + 1
        for part, names in antt.inside(tree):
            walk(part, bound | set(names))

    walk(body, set())
    return sorted((tree for tree, times in seen.items() if times > 1), key=lambda tree: len(repr(tree)))


def deeply(work):
    """Runs some work with a stack that long lists fit; gives what it ends with, 0 where it ends well."""
    ended = []

    def run():
        try:
            ended.append(work())
        except SystemExit as end:
            ended.append(end.code)

    sys.setrecursionlimit(10 ** 6)
    threading.stack_size(2 ** 29)
    thread = threading.Thread(target=run)
    thread.start()
    thread.join()
    return ended[0] if ended else 1
