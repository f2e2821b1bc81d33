"""The grammar of the language as one text in the notation of docs/LANGUAGE.md, and that text read into data.

In the rules a word in double quotes stands for itself, `{ .. }` for no, one or more times, `[ .. ]` for none or one time,
`|` parts alternatives, and `( .. )` holds them together. A rule becomes an automaton: state 0 is its beginning, and each
place of the rule where a word or another rule stands is a state that is behind it.
"""
import re
from dataclasses import dataclass, field

START = "statement"
TEXT = '''
name  = identifier that isn't reserved
label = identifier | quoted label

path  = name { part }
part  = base [ "?" | "*" | "+" ]
base  = "." label | "." pattern | "." "#" | "(" alt ")"
alt   = seq { "|" seq }
seq   = part { part }
lpath = name { "." label }

literal = local | [ local ] atom | [ local ] "{" [ member { "," member } ] "}"
member  = label literal
atom    = number | text | "true" | "false"

statement = "load" name ":=" literal
          | "name" name ":=" path
          | "unname" name
          | "update" path ":=" ( atom | "{" "}" ) tail
          | "update" path "." label "+=" ( literal | path ) tail
          | "update" path "." label "-=" path tail
          | select
          | "explain" select
          | "guide"
          | "browse" lpath
          | "sample" lpath number
          | "set" "nodes" number
          | "set" "plan" mode
          | "dump"
          | "restore" dumptext
          | "generate" number number
          | "history" ( "on" | "off" )
          | "at" number select
          | "changes" number number
          | "blocks"
          | "blocks" select
          | "watch" name ":=" "select" path { "," path } tail
          | "unwatch" name
          | "show" name
mode      = "auto" | "top" | "bottom" | "guide"

select = "select" item { "," item } tail
item   = path | "path-of" "(" name ")"
tail   = [ "from" range { "," range } ] [ "where" cond ]
range  = path | path name | path "@" name name

cond    = conj { "or" conj }
conj    = unary { "and" unary }
unary   = "not" unary
        | "(" cond ")"
        | "exists" name "in" path ":" unary
        | "for" "all" name "in" path ":" unary
        | operand op operand
        | path "==" path
operand = atom | path
op      = "=" | "!=" | "<" | "<=" | ">" | ">=" | "like"

dumptext = "oem" number "next" number "nodes" number "plan" mode
           { "label" label } { "name" name local }
           { "object" local ( atom | "{" "}" ) }
           { "edge" local label local } "end"
'''
NAME = "identifier that isn't reserved"
KINDS = (NAME, "quoted label", "identifier", "pattern", "number", "local", "text")
# The words behind which a level of nesting begins, that lasts to the end of the rule.
COUNTED = {("literal", '"{"'), ("base", '"("'), ("unary", '"("'), ("unary", '"not"'), ("unary", '"exists"'), ("unary", '"for"')}
PIECE = re.compile(r'"[^"]+"|[{}()\[\]|]|' + "|".join(KINDS) + r"|[a-z]+")
RULE = re.compile(r"^([a-z]+) *= ", re.M)


@dataclass
class Part:
    """A part of a rule: whether it may be empty, the states it may begin with and end with."""
    empty: bool = True
    first: list = field(default_factory=list)
    last: list = field(default_factory=list)


class Rule:
    """One rule as an automaton. `symbols` tells what stands before each state, `follow` which states come behind it."""

    def __init__(self, text):
        self.pieces = PIECE.findall(text)
        self.symbols, self.follow = [None], [[]]
        whole = self.alternatives()
        assert not self.pieces, "a bracket of a rule is closed and was not opened"
        self.follow[0] = whole.first
        self.final = set(whole.last) | ({0} if whole.empty else set())

    def alternatives(self):
        """Sequences with bars between them."""
        whole = self.sequence()
        while self.pieces[:1] == ["|"]:
            self.pieces.pop(0)
            other = self.sequence()
            whole = Part(whole.empty or other.empty, whole.first + other.first, whole.last + other.last)
        return whole

    def sequence(self):
        """Parts one after another."""
        whole = Part()
        while self.pieces and self.pieces[0] not in "|)]}":
            other = self.part(self.pieces.pop(0))
            self.link(whole.last, other.first)
            whole = Part(whole.empty and other.empty, whole.first + (other.first if whole.empty else []),
                         other.last + (whole.last if other.empty else []))
        return whole

    def part(self, piece):
        """A word, a rule's name, or something in brackets."""
        if piece in ("{", "[", "("):
            inner = self.alternatives()
            assert self.pieces.pop(0) == {"{": "}", "[": "]", "(": ")"}[piece], "a rule has a bracket of the wrong kind"
            if piece == "{":
                self.link(inner.last, inner.first)
            return Part(inner.empty or piece != "(", inner.first, inner.last)
        self.symbols.append(piece)
        self.follow.append([])
        return Part(False, [len(self.symbols) - 1], [len(self.symbols) - 1])

    def link(self, before, behind):
        for state in before:
            self.follow[state] += [other for other in behind if other not in self.follow[state]]

    def inside(self, name):
        """For each state, whether it is behind a word that begins a level of nesting."""
        deep = {state for state, symbol in enumerate(self.symbols) if (name, symbol) in COUNTED}
        ahead = list(deep)
        for state in ahead:
            ahead += [other for other in self.follow[state] if other not in ahead]
        return [int(state in ahead) for state in range(len(self.symbols))]


def read_rules(text):
    """The rules of a text by their names, in order."""
    begins = list(RULE.finditer(text))
    ends = [match.start() for match in begins[1:]] + [len(text)]
    return {match.group(1): Rule(text[match.end():end]) for match, end in zip(begins, ends)}
