"""References among records: a record is an object with a member of a given key, and a member that holds the same value
under another given key becomes an edge to it."""
from lore_lib.values import Reference, objects_in


class References:
    """Which records may be referred to, which are, and how many references lead nowhere."""

    def __init__(self, key=None, refs=(), values=()):
        self.refs = frozenset(refs)
        self.records = {}       # to each id the record that has it, by its place in memory
        self.locals = {}        # to each record its local
        self.used = set()       # the records that are referred to
        self.twice = set()
        self.unresolved = 0
        if key is not None:
            self.find(key, values)

    def find(self, key, values):
        """Finds the records in the values, and those that are referred to."""
        for record in objects_in(values):
            for at, held in record:
                if at == key and is_id(held):
                    self.add(held, id(record))
        for twice in self.twice:
            del self.records[twice]
        for record in objects_in(values):
            for at, held in record:
                if at in self.refs:
                    self.count(held)

    def add(self, held, record):
        """A record with an id. One that stands at two records is the id of none."""
        self.locals.setdefault(record, len(self.locals) + 1)
        if self.records.setdefault(key_of(held), record) != record:
            self.twice.add(key_of(held))

    def count(self, held):
        """Counts the references of a member."""
        for element in held if isinstance(held, list) else [held]:
            if is_id(element):
                found = self.records.get(key_of(element))
                self.unresolved += found is None
                self.used.update([found] if found else [])

    def local(self, record):
        """The local that marks a record, None where nothing refers to it."""
        return self.locals[id(record)] if id(record) in self.used else None

    def resolved(self, key, held):
        """What a member holds, with references in place of the ids."""
        if key not in self.refs:
            return held
        if isinstance(held, list):
            return [self.target(element) for element in held]
        return self.target(held)

    def target(self, value):
        found = self.records.get(key_of(value)) if is_id(value) else None
        return Reference(self.locals[found]) if found else value

    def notes(self):
        """What is told of them."""
        if self.twice:
            yield f"ids that stand at several records, and refer to none: {len(self.twice)}"
        if self.unresolved:
            yield f"references that lead to no record, and stay values: {self.unresolved}"


def is_id(value):
    """Whether a value may be an id: a text or a whole number."""
    return isinstance(value, (str, int)) and not isinstance(value, bool)


def key_of(value):
    """An id as it is compared: 5 and "5" are two."""
    return isinstance(value, int), value
