"""What the identifiers and locals of a statement are there for: where paths start, what is ranged, what marks an object.

It is asked only for tokens that are a statement.
"""
from dataclasses import dataclass, field

from lore_lib.limits import RESERVED

BINDING = (b":=", b"+=", b"-=")
SELECTING = {b"select": 1, b"explain": 2, b"at": 3, b"blocks": 2, b"watch": 4}  # where the items of a select begin


@dataclass
class Roles:
    """`starts` has each path's first token and whether a variable of that name is in scope there, `ranged` the tokens that
    give a variable its name, `words` what path-of is asked of, `paths` the path variables, `items` the first tokens of
    items, `leaves` the labels, patterns and `#` of paths, `target` the tokens of an update's target, `literal` those of a
    literal."""
    starts: list = field(default_factory=list)
    ranged: list = field(default_factory=list)
    words: list = field(default_factory=list)
    paths: set = field(default_factory=set)
    items: list = field(default_factory=list)
    leaves: list = field(default_factory=list)
    target: list = field(default_factory=list)
    literal: list = field(default_factory=list)


def literal_end(tokens, place):
    """The place behind a literal."""
    if tokens[place].kind == "local":
        place += 1
        if place == len(tokens) or tokens[place].kind not in ("number", "text") and tokens[place].text != b"{":
            return place
    depth = 0
    for end in range(place, len(tokens)):
        depth += {b"{": 1, b"}": -1}.get(tokens[end].text, 0)
        if depth == 0:
            return end + 1
    return len(tokens)


class Walk:
    """A walk over the tokens of a select or update. A scope is None where a bracket was opened, else a quantifier's variable."""

    def __init__(self, tokens):
        self.tokens = tokens
        self.roles = Roles()
        self.part = "items"
        self.before = set()
        self.scopes = []
        self.quantified = None
        self.late = []

    def start(self, token):
        """The first token of a path. In `from` the variables before it count, elsewhere all."""
        if self.part == "from":
            self.roles.starts.append((token, token.text in self.before))
        else:
            self.late.append((token, set(self.scopes)))
        if self.part == "items":
            self.roles.items.append(token)

    def identifier(self, place):
        """An identifier that is neither a label nor a reserved word."""
        token, last = self.tokens[place], self.tokens[place - 1]
        if last.text == b"(" and self.tokens[place - 2].text == b"path-of":
            self.roles.words.append(token)
            self.roles.items.append(token)
        elif last.text == b"@":
            self.roles.ranged.append(token)
            self.roles.paths.add(token.text)
        elif self.part == "from" and (last.text not in (b",", b"from") or self.tokens[place - 2].text == b"."):
            self.roles.ranged.append(token)
            self.before.add(token.text)
        elif self.part == "where" and last.text in (b"exists", b"all") and self.tokens[place - 2].text != b".":
            self.roles.ranged.append(token)
            self.quantified = token.text
        else:
            self.start(token)

    def symbol(self, token):
        """Brackets and the colon of a quantifier."""
        if token.text == b"(":
            self.scopes.append(None)
        elif token.text == b":":
            self.scopes.append(self.quantified)
        elif token.text == b")":
            while self.scopes and self.scopes.pop() is not None:
                pass

    def word(self, token):
        """A reserved word."""
        if token.text in (b"from", b"where"):
            self.part = token.text.decode()
        elif token.text in (b"and", b"or"):
            while self.scopes and self.scopes[-1] is not None:
                self.scopes.pop()

    def walk(self, place):
        """Goes on from a place to the end."""
        for place in range(place, len(self.tokens)):
            token = self.tokens[place]
            if self.tokens[place - 1].text == b"." and self.tokens[place - 1].kind == "symbol":
                self.roles.leaves.append(token)
            elif token.kind == "symbol":
                self.symbol(token)
            elif token.kind == "identifier":
                self.word(token) if token.text.decode() in RESERVED else self.identifier(place)
        return self

    def done(self):
        """The roles, when all variables are known."""
        for token, scopes in self.late:
            self.roles.starts.append((token, token.text in self.before or token.text in scopes))
        self.roles.starts.sort(key=lambda start: start[0].start)
        return self.roles


def update_roles(tokens):
    """The roles of an update."""
    walk = Walk(tokens)
    sign = next(place for place, token in enumerate(tokens) if token.text in BINDING and token.kind == "symbol")
    walk.part = "target"
    behind = sign + 1
    right = tokens[behind]
    if right.kind in ("number", "text", "local") or right.text == b"{":
        behind = literal_end(tokens, behind)
        walk.roles.literal = tokens[sign + 1:behind] if tokens[sign].text != b":=" else []
    label = 0 if tokens[sign].text == b":=" else 2
    walk.roles.target = tokens[1:sign - label]
    whole, walk.tokens = tokens, tokens[:sign - label]
    walk.walk(1)
    walk.tokens = whole
    return walk.walk(behind).done()


def roles_of(tokens):
    """The roles of a statement's identifiers and locals."""
    first = tokens[0].text
    if first in SELECTING:
        return Walk(tokens).walk(SELECTING[first]).done()
    if first == b"update":
        return update_roles(tokens)
    roles = Roles()
    if first == b"load":
        roles.literal = tokens[3:]
    elif first in (b"name", b"browse", b"sample", b"unname"):
        roles.starts.append((tokens[3 if first == b"name" else 1], False))
    return roles


def marks(literal):
    """The locals of a literal: those that mark an object, and those that are used alone."""
    made, used = [], []
    for place, token in enumerate(literal):
        if token.kind == "local":
            behind = literal[place + 1] if place + 1 < len(literal) else None
            marking = behind and (behind.kind in ("number", "text") or behind.text == b"{")
            (made if marking else used).append(token)
    return made, used
