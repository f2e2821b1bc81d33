"""The questions of plain Python, as a process of its own: dictionaries.py FILE QUESTION ID TIMES

Reads the JSON and keeps the persons in dictionaries by their id and by that of their boss, and the links in one by their
place, as well as the products by their id where the document has any, answers the question so many times, and prints one line for each row.
"""
import json
import sys
from collections import defaultdict, deque


class People:
    def __init__(self, path):
        with open(path, encoding="utf-8") as source:
            self.document = json.load(source)
        self.persons = {person["id"]: person for person in self.document["persons"]}
        self.links = {link["place"]: link for link in self.document["links"]}
        self.products = {product["id"]: product for product in self.document.get("products", ())}
        self.under = defaultdict(list)
        for person in self.document["persons"]:
            self.under[person.get("boss")].append(person["id"])


def closure(start, following):
    """All that is met from the start, itself included, in order."""
    met, waiting = {start}, deque([start])
    while waiting:
        for further in following(waiting.popleft()):
            if further not in met:
                met.add(further)
                waiting.append(further)
    return met


def load(people, one, turn):
    return []


def names(people, one, turn):
    return [person["name"] for person in people.persons.values()]


def ring(people, one, turn):
    return closure(people.document["ring"], lambda place: [people.links[place]["next"]])


def ages(people, one, turn):
    found, waiting = [], [people.document]
    while waiting:
        part = waiting.pop()
        if isinstance(part, dict):
            if "age" in part:
                found.append(part["age"])
            waiting.extend(part.values())
        elif isinstance(part, list):
            waiting.extend(part)
    return found


def aged(people, one, turn):
    return [person["name"] for person in people.persons.values() if int(person["age"]) == 30]


def parts(people, one, turn):
    persons = people.persons
    found = (person for person in persons.values() if int(person["age"]) == 30 and "boss" in person)
    return [f"{person['name']}\t{persons[person['boss']]['name']}" for person in found]


def none(people, one, turn):
    return [sum(int(person["age"]) == 99 for person in people.persons.values())]


def one(people, one, turn):
    return [people.persons[one]["name"]]


def bosses(people, one, turn):
    persons = people.persons
    return [f"{person['name']}\t{persons[person['boss']]['name']}" for person in persons.values() if "boss" in person]


def hops(people, one, turn):
    persons = people.persons
    found = ((person, persons[person["boss"]]) for person in persons.values() if "boss" in person)
    return [f"{person['name']}\t{persons[above['boss']]['name']}" for person, above in found if "boss" in above]


def buyers(people, one, turn):
    return [f"{people.persons[order['buyer']]['name']}\t{order['id']}" for order in people.document["orders"]]


def bought(people, one, turn):
    persons, products = people.persons, people.products
    return [
        f"{order['id']}\t{persons[order['buyer']]['name']}\t{products[order['product']]['title']}"
        for order in people.document["orders"]
    ]


def optional(people, one, turn):
    return [f"{order['id']}\t{order.get('note', '')}" for order in people.document["orders"]]


def chain(people, one, turn):
    found, person = [], people.persons[one]
    while "boss" in person:
        person = people.persons[person["boss"]]
        found.append(person["name"])
    return found


def below(people, one, turn):
    return [people.persons[i]["name"] for i in closure(4, lambda i: people.under.get(i, ())) if i != 4]


def value(people, one, turn):
    people.persons[one]["age"] = 31 + turn % 2
    return [people.persons[one]["age"]]


def mentor(people, one):
    person = people.persons[one]
    return [people.persons[person["mentor"]]["name"]] if "mentor" in person else []


def edge(people, one, turn):
    person = people.persons[one]
    person["mentor"] = people.persons[person["boss"]]["boss"]
    found = mentor(people, one)
    del person["mentor"]
    return found + mentor(people, one)


def dump(people, one, turn):
    return [json.dumps(people.document)]


shop, restore = load, names
QUESTIONS = (
    load, names, ring, ages, aged, parts, none, one, bosses, hops, chain, below, buyers, bought, optional, value, edge, dump,
)


def main():
    path, question, person, times = sys.argv[1:]
    people, answer = People(path), globals()[question]
    for turn in range(int(times)):
        sys.stdout.writelines(f"{row}\n" for row in answer(people, int(person), turn))


main()
