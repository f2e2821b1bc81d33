"""Tells whether tokens are a statement, and if not, the first token with which no statement can go on.

It is Earley's recogniser (1970). Equal sets of items are one set, and a set remembers what each word leads to: so members
that look alike are worked out once, and a long literal takes a look-up for a token. An item has the depth at which its
rule began, and none that would nest deeper than the limit is made: this is the one rule that the grammar's text doesn't say.
Rules that call themselves do so only behind a word that begins a level, so no chain of them is longer than the limit.
"""
from lore_lib.grammar import KINDS, NAME, START, TEXT, read_rules
from lore_lib.limits import LEVELS, RESERVED

END = "the end"
MOST_SETS = 30000


class ItemSet:
    """What may stand at a place: the items that wait for a rule, the items behind each word, whether a statement ends."""
    __slots__ = ("waiting", "words", "ends", "known")

    def __init__(self):
        self.waiting, self.words, self.ends, self.known = {}, {}, False, {}


class Recogniser:
    """The recogniser of the rules of a text."""

    def __init__(self, text=TEXT, levels=LEVELS):
        self.levels = levels
        rules = read_rules(text)
        self.moves, self.ended, self.inside, self.starts = [], [], [], {}
        for name, rule in rules.items():
            base = self.starts[name] = len(self.moves)
            for state in range(len(rule.symbols)):
                self.moves.append([(rule.symbols[other], base + other) for other in rule.follow[state]])
                self.ended.append(name if state in rule.final else None)
            self.inside += rule.inside(name)
        self.empty = {name for name, rule in rules.items() if 0 in rule.final}
        symbols = [symbol for rule in rules.values() for symbol in rule.symbols[1:]]
        self.order = list(dict.fromkeys(symbol for symbol in symbols if symbol not in rules))
        unknown = [symbol for symbol in self.order if symbol[0] != '"' and symbol not in KINDS]
        assert not unknown, f"the grammar has no rule for {unknown}"
        self.spelled = frozenset(symbol[1:-1].encode() for symbol in self.order if symbol[0] == '"')
        self.sets, self.first = {}, None
        self.first = self.closed([(self.starts[START], None, 0)])

    def closed(self, kernel):
        """The set of these items and of all that follows from them. An item is a state, the set where its rule began, None
        for this one, and the depth at which it began."""
        key = frozenset(kernel)
        if key in self.sets:
            return self.sets[key]
        if len(self.sets) > MOST_SETS:
            self.forget()
        here = self.sets[key] = ItemSet()
        items, seen = list(key), set(key)
        for item in items:
            for other in self.following(item, here):
                if other not in seen:
                    seen.add(other)
                    items.append(other)
        return here

    def forget(self):
        """Lets go of sets, so that a statement with ever new nesting doesn't fill the memory; those in use go on."""
        for held in self.sets.values():
            held.known.clear()
        self.sets.clear()

    def following(self, item, here):
        """The items of a set that follow from one of them; what it waits for is noted in the set."""
        state, origin, start = item
        found = []
        rule = self.ended[state]
        if rule == START and (origin or here) is (self.first or here):
            here.ends = True
        if rule and origin not in (None, here):
            found += origin.waiting.get((rule, start), ())
        origin = origin or here
        depth = start + self.inside[state]
        for symbol, target in self.moves[state]:
            behind = (target, origin, start)
            if symbol in self.starts:
                here.waiting.setdefault((symbol, depth), []).append(behind)
                found.append((self.starts[symbol], here, depth))
                if symbol in self.empty:
                    found.append(behind)
            elif start + self.inside[target] <= self.levels:
                here.words.setdefault(symbol, []).append(behind)
        return found

    def names_of(self, token):
        """The words of the grammar that a token is."""
        if token.kind != "identifier":
            return [f'"{token.text.decode()}"' if token.kind == "symbol" else token.kind]
        word = token.text.decode()
        return [f'"{word}"', "identifier"] + ([] if word in RESERVED else [NAME])

    def step(self, here, token):
        """The set behind a token, None where it can't stand there."""
        sort = token.text if token.kind == "symbol" or token.text in self.spelled else token.kind
        if token.kind == "identifier" and token.text.decode() in RESERVED:
            sort = token.text
        if (token.kind, sort) not in here.known:
            kernel = [item for word in self.names_of(token) for item in here.words.get(word, ())]
            here.known[token.kind, sort] = self.closed(kernel) if kernel else None
        return here.known[token.kind, sort]

    def could(self, here):
        """What could stand at a place, in the order of the grammar, and the end last."""
        return [word for word in self.order if word in here.words] + ([END] if here.ends else [])

    def verdict(self, tokens):
        """None where the tokens are a statement; else the index of the first token with which none can go on, their number
        where they end too early, and what could stand there."""
        here = self.first
        for index, token in enumerate(tokens):
            behind = self.step(here, token)
            if behind is None:
                return index, self.could(here)
            here = behind
        return None if here.ends else (len(tokens), self.could(here))
