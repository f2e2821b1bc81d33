"""Random scripts of all forms of statements. A statement is a list of tokens, so that blanks can stand between them as one likes."""
import random
from dataclasses import dataclass, field

NAMES = ("A", "B", "C", "load", "rows")
LABELS = ("c", "from", "'x y'", "'it\\'s'", "ab", "'a%'")
PATTERNS = ("%", "a%", "%b", "_%", "%a%")
OPERATORS = ("=", "!=", "<", "<=", ">", ">=", "like")
ATOMS = ("0", "1", "2", "-1", "9", "10", '"9"', '"a"', '"10"', '"a b"', '"01"', '"-1"', '""', '"a%"', '"%1"', '"_"', '"é"', '"\\"\\n"',
         "true", "false", '"true"', "9223372036854775807", "-9223372036854775808", '"9223372036854775808"')
MODES = ("auto", "top", "bottom", "guide")
NO_FORMS = ("history", "blocks x", "watch V", "watch V := A", "show", "unwatch", "at select A")
VIEWS = ("V", "W", "A", "from_here")
MOMENTS = (0, 0, 1, 2, 3, 5)
SEPARATORS = (" ", "  ", "\n", "\t", "\r\n", " -- ; ' \"\n", "--\n", " --;--\n\t")
ALONE = frozenset("{},()")


@dataclass
class Statement:
    """The tokens of a statement; the kind is its first word, and `where` the place of this word, if it has one."""

    kind: str
    tokens: list
    where: int = -1

    def text(self):
        return " ".join(self.tokens)


def spread(rng, tokens):
    """The tokens with blanks and comments between them, and nothing where none need be."""
    parts = [rng.choice(SEPARATORS) if rng.random() < 0.3 else ""]
    for place, token in enumerate(tokens):
        parts.append(token)
        after = tokens[place + 1] if place + 1 < len(tokens) else "}"
        if rng.random() < 0.5 and (token in ALONE or after in ALONE):
            continue
        parts.append(rng.choice(SEPARATORS))
    return "".join(parts)


@dataclass
class Scope:
    """What paths of a statement may begin with, and how many variables there are."""

    variables: list = field(default_factory=list)
    words: list = field(default_factory=list)
    made: int = 0

    def variable(self):
        self.made += 1
        return f"V{self.made}"


def listed(parts):
    """The tokens of parts with commas between them."""
    return [token for place, part in enumerate(parts) for token in ([","] if place else []) + part]


class Maker:
    """Makes statements. `large` says that there are many objects, so that ranges are few."""

    def __init__(self, rng):
        self.rng, self.large, self.known = rng, False, []

    def chance(self, share):
        return self.rng.random() < share

    def name(self):
        """A name that is bound, mostly."""
        return self.rng.choice(self.known) if self.known and self.chance(0.95) else self.rng.choice((*NAMES, "Z", "People"))

    def bound(self):
        """A name that is to be bound."""
        return self.rng.choice(NAMES[:3] if self.chance(0.9) else NAMES)

    def label(self):
        if self.large and self.chance(0.6):
            return self.rng.choice(("person", "id", "age", "boss", "club", "member", "leader", "ring", "next", "name"))
        return self.rng.choice("aaaabbbc") if self.chance(0.9) else self.rng.choice(LABELS)

    def atom(self):
        return self.rng.choice(ATOMS)

    def literal(self, depth, marks, braces=False):
        """The tokens of a literal. `marks` has the locals that mark an object so far."""
        if not braces and marks and self.chance(0.15):
            return [self.rng.choice(marks)]
        if not braces and self.chance(0.02):
            return [f"&{self.rng.randint(1, 9)}"]
        mark = []
        if self.chance(0.35):
            mark = [f"&{len(marks) + 1 if self.chance(0.97) else self.rng.randint(1, 9)}"]
            marks.append(mark[0])
        if not braces and (depth == 0 or self.chance(0.35)):
            return mark + [self.atom()]
        tokens = mark + ["{"]
        for place in range(self.rng.choice((2, 3, 4) if braces else (0, 1, 2, 3, 3, 4))):
            tokens += ([","] if place else []) + [self.label()] + self.literal(depth - 1, marks)
        return tokens + ["}"]

    def part(self, depth):
        """The tokens of a part of a path."""
        kind = self.rng.random()
        if kind < 0.78:
            tokens = [".", self.label()]
        elif kind < 0.84:
            tokens = [".", self.rng.choice(PATTERNS)]
        elif kind < 0.9:
            tokens = [".", "#"]
        elif depth == 0:
            tokens = [".", "a"]
        else:
            tokens = ["("]
            for place in range(self.rng.choice((1, 2, 2, 3))):
                tokens += ["|"] if place else []
                for _ in range(self.rng.choice((1, 1, 2))):
                    tokens += self.part(depth - 1)
            tokens.append(")")
        sign = self.rng.random()
        return tokens + ["?"] * (sign < 0.08) + ["*"] * (0.08 <= sign < 0.14) + ["+"] * (0.14 <= sign < 0.2)

    def start(self, scope):
        if scope.variables and self.chance(0.6):
            return self.rng.choice(scope.variables)
        return self.name() if self.chance(0.99) else f"V{self.rng.randint(1, 9)}"

    def path(self, scope, parts=(0, 1, 1, 2, 2, 3)):
        tokens = [self.start(scope)]
        for _ in range(self.rng.choice(parts)):
            tokens += self.part(2)
        return tokens

    def label_path(self):
        tokens = [self.name()]
        for _ in range(self.rng.choice((0, 1, 1, 2))):
            tokens += [".", self.label()]
        return tokens

    def ranges(self, scope):
        """The tokens of a `from`, maybe none."""
        count = self.rng.choice((0, 0, 1, 1, 2) if self.large else (0, 0, 1, 1, 2, 3))
        tokens = []
        for place in range(count):
            tokens += [","] if place else ["from"]
            tokens += self.path(scope)
            kind = self.rng.random()
            if kind < 0.25:
                word, variable = f"P{scope.variable()}", scope.variable()
                tokens += ["@", word, variable]
                scope.words.append(word)
                scope.variables.append(variable)
            elif kind < 0.9:
                variable = scope.variable() if self.chance(0.98) else self.rng.choice([*scope.variables, "W"])
                tokens.append(variable)
                scope.variables.append(variable)
        return tokens

    def operand(self, scope):
        return [self.atom()] if self.chance(0.4) else self.path(scope)

    def condition(self, scope, depth):
        """The tokens of a condition that can stand anywhere: of several members only in parentheses."""
        kind = self.rng.random()
        if depth == 0 or kind < 0.45:
            if self.chance(0.12):
                return [*self.path(scope), "==", *self.path(scope)]
            left = self.path(scope) if self.chance(0.8) else self.operand(scope)
            return [*left, self.rng.choice(OPERATORS), *self.operand(scope)]
        if kind < 0.55:
            return ["not", *self.condition(scope, depth - 1)]
        if kind < 0.78:
            variable = scope.variable()
            words = ["exists"] if self.chance(0.6) else ["for", "all"]
            path = self.path(scope)
            inner = Scope([*scope.variables, variable], scope.words, scope.made)
            body = self.condition(inner, depth - 1)
            scope.made = inner.made
            return [*words, variable, "in", *path, ":", *body]
        return ["(", *self.conditions(scope, depth - 1), ")"]

    def conditions(self, scope, depth):
        """The tokens of a condition, maybe with several members."""
        tokens = self.condition(scope, depth)
        for _ in range(self.rng.choice((0, 0, 1, 1, 2))):
            tokens += [self.rng.choice(("and", "or")), *self.condition(scope, depth)]
        return tokens

    def tail(self, scope, ranges):
        return ranges + (["where", *self.conditions(scope, 2)] if self.chance(0.55) else [])

    def select(self, words=True):
        """The tokens of a select, maybe with words among its items."""
        scope = Scope()
        ranges = self.ranges(scope)
        tokens = ["select"]
        for place in range(self.rng.choice((1, 1, 1, 2, 2, 3))):
            tokens += [","] if place else []
            if words and scope.words and self.chance(0.4):
                tokens += ["path-of", "(", self.rng.choice(scope.words), ")"]
            else:
                tokens += self.path(scope, (0, 0, 1, 1, 2))
        return tokens + self.tail(scope, ranges)

    def update(self):
        """The tokens of an update of one of its four forms."""
        scope = Scope()
        ranges = self.ranges(scope)
        target, kind = self.path(scope, (0, 1, 1, 2)), self.rng.random()
        if kind < 0.25:
            what = [":=", self.atom()]
        elif kind < 0.35:
            what = [":=", "{", "}"]
        elif kind < 0.6:
            what = [".", self.label(), "+=", *self.literal(2, [])]
        else:
            what = [".", self.label(), "+=" if kind < 0.82 else "-=", *self.path(scope, (0, 1, 1, 2))]
        return ["update", *target, *what, *self.tail(scope, ranges)]

    def generated(self):
        if self.chance(0.1):
            return ["generate", *self.rng.choice((("0", "19"), ("-1", "20"), ("2147483648", "20"), ("7", "10001")))]
        self.large = True
        self.known += ["People"] * 3
        return ["generate", str(self.rng.randint(0, 99)), str(self.rng.randint(20, 24))]

    def restored(self):
        """The tokens of a small dump text, whole or with a part left out."""
        self.known.append("A")
        version, value = self.rng.choice((2, 2, 2, 1)), self.rng.choice(("5", "5", "true"))
        tokens = (f"restore oem {version} next {self.rng.randint(6, 99)} nodes {self.rng.choice((4096, 9, 2))} plan auto "
                  f"label a label b name A &1 object &1 {{}} object &2 {value} object &3 {{}} object &4 \"x\" "
                  "edge &1 a &2 edge &1 a &3 edge &3 b &1 edge &3 b &4 end").replace("{}", "{ }").split()
        if self.chance(0.3):
            del tokens[self.rng.randrange(len(tokens))]
        return tokens

    def at_limit(self):
        """The tokens of a statement that stands at a limit of the language, or one past it."""
        past, name = int(self.chance(0.5)), self.name()
        few, many, step = 8 + past, 64 + past, self.rng.choice(((".", "a", "?"), (".", "#"), (".", "a")))
        chain = [["exists", f"V{i}", "in", f"V{i - 1}" if i else name, ".", "a", ":"] for i in range(many)]
        return self.rng.choice((
            ["select", "V0", "from", *listed([name, ".", self.label(), f"V{i}"] for i in range(few))],
            ["select", *listed([name] for _ in range(few))],
            ["select", name, *step * many],
            ["select", name, "where", *["("] * many, name, "=", "1", *[")"] * many],
            ["select", name, "where", *["not"] * many, name, ".", "a", "=", "1"],
            ["select", name, "where", *(token for part in chain for token in part), "1", "=", "1"],
            ["select", name, *["("] * many, ".", "a", *[")"] * many],
            ["load", self.bound(), ":=", *["{", "a"] * many, "1", *["}"] * many],
            ["load", self.bound(), ":=", '"' + "x" * (4_096 + past) + '"'],
            ["load", self.bound(), ":=", "{", "l" * (255 + past), "1", "}"],
            ["update", name, ".", "'" + "q" * (255 + past) + "'", "+=", "1"],
            ["select", name, ".", "%" * (255 + past)],
        ))

    def broken(self):
        """The tokens of a statement with one taken out, doubled or put in."""
        tokens = list(self.any_tokens())
        place = self.rng.randrange(len(tokens))
        kind = self.rng.random()
        if kind < 0.4:
            del tokens[place]
        elif kind < 0.7:
            tokens.insert(place, tokens[place])
        else:
            tokens.insert(place, self.rng.choice((".", "(", ")", "{", "}", "select", "where", "&1", "3.5", "!", "99999999999999999999",
                                                  "'", "path-of", "%", ":", "@", "in")))
        return [token for token in tokens if token != "'"] or ["menu"]

    def any_tokens(self):
        rng = self.rng
        kinds = (
            (12, lambda: ["load", self.bound(), ":=", *self.literal(3, [], self.chance(0.9))]),
            (4, lambda: ["name", self.bound(), ":=", *self.path(Scope(), (0, 1, 1, 2))]),
            (2, lambda: ["unname", self.name()]),
            (24, self.update),
            (26, self.select),
            (3, lambda: ["explain", *self.select()]),
            (2, lambda: ["guide"]),
            (3, lambda: ["browse", *self.label_path()]),
            (3, lambda: ["sample", *self.label_path(), str(rng.choice((1, 2, 5, 100_000, 0, 100_001)))]),
            (2, lambda: ["set", "nodes", str(rng.choice((1, 3, 5, 8, 12, 20, 4_096, 16_384, 16_385, 0)))]),
            (2, lambda: ["set", "plan", rng.choice(MODES)]),
            (2, lambda: ["dump"]),
            (0.6, self.generated),
            (0.4, self.restored),
            (3, lambda: ["history", rng.choice(("on", "on", "off"))]),
            (5, lambda: ["at", str(rng.choice(MOMENTS)), *self.select()]),
            (3, lambda: ["changes", str(rng.choice(MOMENTS)), str(rng.choice(MOMENTS))]),
            (1.5, lambda: ["blocks"]),
            (4, lambda: ["blocks", *self.select()]),
            (4, lambda: ["watch", rng.choice(VIEWS), ":=", *self.select(self.chance(0.05))]),
            (1, lambda: ["unwatch", rng.choice(VIEWS)]),
            (5, lambda: ["show", rng.choice(VIEWS)]),
            (0.6, lambda: rng.choice(NO_FORMS).split()),
            (0.8, self.at_limit),
        )
        return rng.choices([make for _, make in kinds], [weight for weight, _ in kinds])[0]()

    def statement(self):
        tokens = self.broken() if self.chance(0.04) else self.any_tokens()
        where = tokens.index("where") if tokens.count("where") == 1 else -1
        return Statement(tokens[0], tokens, where)

    def script(self):
        """The statements of a script: loads first, so that there is something to ask."""
        first = [Statement("restore", self.restored())] if self.chance(0.12) else []
        names = [self.bound() for _ in range(self.rng.randint(1, 3))]
        self.known += names * 2
        loads = [Statement("load", ["load", name, ":=", *self.literal(3, [], True)]) for name in names]
        return first + loads + [self.statement() for _ in range(self.rng.choice((2, 4, 6, 8, 12, 20)))]


def script(seed):
    """The statements of a script that this number stands for."""
    return Maker(random.Random(seed)).script()
