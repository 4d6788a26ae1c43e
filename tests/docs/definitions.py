"""Reads and computes definitions of specs/, knowing of their language only what docs/FORMAT.md says of its signs.

So it shows that these definitions can be used without the toolchain that they are proved by.
"""

import re
import sys
import threading

# How tight each operator binds, and whether it groups to the right.
BINDS = {
    "^": (75, True),
    "*": (70, False),
    "/": (70, False),
    "%": (70, False),
    ">>>": (69, False),
    "<<<": (69, False),
    "⊕": (68, True),
    "∷": (67, True),
    "+": (65, False),
    "-": (65, False),
    "++": (65, False),
    "||": (30, False),
}
# A part of a record is written tight, as `s.rounds`: a sign of its own, with its point.
TOKEN = re.compile(r"\[\]|(?<=[\w)])\.\w+|[(){};.]|(?:[^\s(){};.\[\]])+")
CLOSING = {")", "}", ";", ".", "in", "=", ":"}


def signs(text):
    return TOKEN.findall(text)


def bare(name):
    """An operator's sign without the places of its operands."""
    return name.strip("◌") or name


class File:
    """The definitions of a file: the text and the clauses of each; and the names that the file takes from elsewhere."""

    def __init__(self, text):
        text = re.sub(r"--.*", "", text)
        self.taken = set(", ".join(re.findall(r"^use \S+\.\{(.*)\}$", text, re.M)).split(", "))
        # the argument of a module: the first of every name that is set in below it, not written inside
        argument = re.findall(r"^module _ \((\w+) : .*\) where$", text, re.M)
        self.bodies, self.clauses, inner = {}, {}, set()
        for chunk in re.split(r"\n\s*\n", text):
            found = re.search(r"^( *)(?:unfoldable |abbrev )?pub (\S+) : (.*)", chunk, re.M | re.S)
            if found and not re.search(r"^pub record ", chunk, re.M):
                margin, name, body = found.groups()
                self.bodies[name] = body
                # a line that is set in further goes on with the one before it
                lines = re.split(r"\n%s(?=\S)" % margin, body)[1:]
                self.clauses[name] = [clause(name, line) for line in lines]
                inner |= {name} if margin else set()
        for name in inner:
            plain = self.clauses[name]
            self.clauses[name] = [(argument + left, given(argument, inner, right)) for left, right in plain]


def clause(name, line):
    """The patterns of a clause, and the signs of its right side."""
    left, right = re.split(r"\s=\s", line, maxsplit=1)
    if name.startswith("◌"):
        return left.split(" %s " % bare(name)), signs(right)
    return re.findall(r"\([^)]*\)|\S+", left)[1:], signs(right)


def given(argument, inner, right):
    """The right side with the module's argument written out."""
    return [sign for token in right for sign in (["(", token] + argument + [")"] if token in inner else [token])]


# ---- expressions: each is parsed to a function from the values of its names


class Parser:
    def __init__(self, tokens):
        self.tokens, self.at = tokens, 0

    def peek(self):
        return self.tokens[self.at] if self.at < len(self.tokens) else None

    def take(self, wanted=None):
        token = self.peek()
        if wanted and token != wanted:
            raise ValueError("%s where %s should be" % (token, wanted))
        self.at += 1
        return token

    def skip_to(self, *wanted):
        while self.peek() not in wanted:
            self.at += 1

    def expression(self, least=0):
        if self.peek() == "λ":
            return self.function()
        if self.peek() == "let":
            return self.local()
        left = self.application()
        while self.peek() in BINDS and BINDS[self.peek()][0] >= least:
            sign = self.take()
            tight, to_right = BINDS[sign]
            left = applied(named(sign), left, self.expression(tight if to_right else tight + 1))
        return left

    def function(self):
        self.take("λ")
        if self.peek() == "(":
            self.take("(")
            name = self.take()
            self.skip_to(")")
            self.take(")")
        else:
            name = self.take()
        self.take(".")
        body = self.expression()
        return lambda names: lambda value: body({**names, name: value})

    def local(self):
        self.take("let")
        name = self.take()
        self.skip_to("=")
        self.take("=")
        value = self.expression()
        self.take("in")
        body = self.expression()
        return lambda names: body({**names, name: Later(value, names)})

    def application(self):
        whole = self.atom()
        while self.peek() not in CLOSING and self.peek() not in BINDS and self.peek() is not None:
            whole = applied(whole, self.atom())
        return whole

    def atom(self):
        whole = self.simple()
        while (self.peek() or "").startswith(".") and self.peek() != ".":
            whole = part(whole, self.take()[1:])
        return whole

    def simple(self):
        token = self.take()
        if token == "(":
            inside = self.expression()
            self.take(")")
            return inside
        if token == "record":
            return self.record()
        if token == "[]":
            return lambda names: ()
        if re.fullmatch(r"[0-9]+|0x[0-9a-f]+", token):
            number = int(token, 0)
            return lambda names: number
        return named(token)

    def record(self):
        self.take("{")
        parts = {}
        while self.peek() != "}":
            name = self.take()
            self.take("=")
            parts[name] = self.expression()
            if self.peek() == ";":
                self.take(";")
        self.take("}")
        return lambda names: {name: Later(value, names) for name, value in parts.items()}


class Later:
    """A value that is computed when it is first asked for."""

    def __init__(self, value, names):
        self.value, self.names = value, names

    def get(self):
        if self.names is not None:
            self.value, self.names = self.value(self.names), None
        return self.value


def now(value):
    while isinstance(value, Later):
        value = value.get()
    return value


def named(name):
    return lambda names: now(names[name])


def applied(function, *arguments):
    def value(names):
        result = function(names)
        for argument in arguments:
            result = now(result(Later(argument, names)))
        return result

    return value


def part(record, name):
    return lambda names: now(record(names)[name])


# ---- what the page says of names that no file defines


def total(n, step):
    """A function of n arguments, one by one, each computed."""

    def gather(taken):
        return lambda value: step(*taken, now(value)) if len(taken) == n - 1 else gather(taken + (now(value),))

    return gather(())


GIVEN = {
    "suc": total(1, lambda n: n + 1),
    "zero": 0,
    "+": total(2, lambda n, m: n + m),
    "-": total(2, lambda n, m: max(n - m, 0)),
    "*": total(2, lambda n, m: n * m),
    "/": total(2, lambda n, m: n // m),
    "%": total(2, lambda n, m: n % m),
    "^": total(2, lambda n, m: n**m),
    "bit_xor": total(2, lambda n, m: n ^ m),
    "∷": total(2, lambda x, xs: (x,) + xs),
    "++": total(2, lambda xs, ys: xs + ys),
    "length": total(1, len),
    "take": total(2, lambda n, xs: xs[:n]),
    "drop": total(2, lambda n, xs: xs[n:]),
    "get_or": total(3, lambda xs, n, x: xs[n] if n < len(xs) else x),
    "replicate": total(2, lambda n, x: (x,) * n),
    "map": total(2, lambda g, xs: tuple(now(g(x)) for x in xs)),
    "cond": lambda test: lambda x: lambda y: now(x) if now(test) else now(y),
    "eqb": total(2, lambda n, m: n == m),
    "ltb": total(2, lambda n, m: n < m),
    "leb": total(2, lambda n, m: n <= m),
    "||": total(2, lambda p, q: p or q),
    "not": total(1, lambda p: not p),
}


def fits(pattern, value, bound):
    """Whether a value fits a pattern; what its names stand for is put into `bound`."""
    pattern = pattern.strip("()")
    if pattern == "[]":
        return now(value) == ()
    if pattern == "zero":
        return now(value) == 0
    if " ∷ " in pattern:
        first, rest = pattern.split(" ∷ ")
        if now(value) == ():
            return False
        bound[first], bound[rest] = now(value)[0], now(value)[1:]
        return True
    if pattern.startswith("suc "):
        if now(value) == 0:
            return False
        bound[pattern[4:]] = now(value) - 1
        return True
    bound[pattern] = value
    return True


def defined(clauses, names):
    """The value of a name that clauses define: the first whose left side fits."""
    parsed = [(patterns, Parser(right).expression()) for patterns, right in clauses]

    def gather(taken):
        if len(taken) < len(parsed[0][0]):
            return lambda value: gather(taken + (value,))
        for patterns, right in parsed:
            bound = {}
            if all(fits(pattern, value, bound) for pattern, value in zip(patterns, taken)):
                return right({**names, **bound})
        raise ValueError("no clause fits")

    return gather(())


def names_of(files):
    """Every name that the files define, with its value."""
    names = dict(GIVEN)
    for file in files:
        for name, clauses in file.clauses.items():
            names[bare(name)] = Later(lambda known, clauses=clauses: defined(clauses, known), names)
    return names


def deep(work):
    """What a piece of work gives that calls itself some thousand times deep."""
    given, failed = [], []

    def body():
        try:
            given.append(work())
        except Exception as error:
            failed.append(error)

    limit = sys.getrecursionlimit()
    sys.setrecursionlimit(20000)
    threading.stack_size(64 * 1024 * 1024)
    thread = threading.Thread(target=body)
    thread.start()
    thread.join()
    threading.stack_size(0)
    sys.setrecursionlimit(limit)
    if failed:
        raise failed[0]
    return given[0]


def value(names, name, *arguments):
    """What a definition gives for arguments."""
    result = now(names[name])
    for argument in arguments:
        result = now(result(argument))
    return result
