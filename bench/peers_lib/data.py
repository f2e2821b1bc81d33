"""Makes the data of a number of persons, the same for each tool and in each run, as a text of the tool's own.

Persons have an id, a name, an age and, but for the first, a boss; every seventh age is a text, as where nobody cleaned the records.
Ten clubs have a leader and members. A hundred links have a place and lead to the next one, the last to the first; `ring` is the
first. JSON and CSV say by ids whom they mean, and lore by locals.
The shop is loaded beside them for the questions that need it. Its orders say by ids, in lore too, which person buys which of a hundred
products: as many orders as persons, or as many as lore has room for. Of two persons one buys twice, and every tenth order has a note.
"""
import csv
import json

SEED = 7
CLUBS = 10
LINKS = 100
PRODUCTS = 100
LEAST, MOST = 2 * CLUBS, 60_000
OBJECTS = 262_144  # that a database of lore may have: each record and each value is one
SCATTER = 7_919


def persons(count):
    state, found = SEED, []
    for i in range(1, count + 1):
        state = (1_103_515_245 * state + 12_345) % 2_147_483_648
        age = 18 + state // 65_536 % 60
        person = {"id": i, "name": f"p{i}", "age": age if i % 7 else str(age)}
        if i > 1:
            person["boss"] = i // 2
        found.append(person)
    return found


def orders(count):
    taken = 2 + 4 * count + CLUBS + 2 * LINKS + 3 * PRODUCTS
    found = []
    for i in range(1, 1 + min(count, (OBJECTS - taken) * 10 // 41)):
        order = {"id": i, "buyer": 1 + i // 2 * SCATTER % count, "product": 1 + i % PRODUCTS}
        if i % 10 == 0:
            order["note"] = f"n{i}"
        found.append(order)
    return found


def document(count):
    clubs = [
        {"leader": CLUBS + club, "members": [i for i in range(1, count + 1) if i % CLUBS == club]} for club in range(CLUBS)
    ]
    links = [{"place": place, "next": (place + 1) % LINKS} for place in range(LINKS)]
    return {"persons": persons(count), "clubs": clubs, "links": links, "ring": 0}


def shop(count):
    return {"products": [{"id": i, "title": f"t{i}"} for i in range(1, 1 + PRODUCTS)], "orders": orders(count)}


def literal(people):
    """The members of the load, in order. Person i is the local &i, and the link of place j is &(persons + 1 + j)."""
    first = len(people["persons"]) + 1
    for person in people["persons"]:
        age = json.dumps(person["age"])
        boss = f", boss &{person['boss']}" if "boss" in person else ""
        yield f'person &{person["id"]} {{ id {person["id"]}, name "{person["name"]}", age {age}{boss} }}'
    for club in people["clubs"]:
        members = "".join(f", member &{i}" for i in club["members"])
        yield f"club {{ leader &{club['leader']}{members} }}"
    for link in people["links"]:
        yield f"link &{first + link['place']} {{ place {link['place']}, next &{first + link['next']} }}"
    yield f"ring &{first + people['ring']}"


def shop_literal(shop):
    """The members of the load of the shop, in order."""
    for product in shop["products"]:
        yield f'product {{ id {product["id"]}, title "{product["title"]}" }}'
    for order in shop["orders"]:
        note = f', note "{order["note"]}"' if "note" in order else ""
        yield f'order {{ id {order["id"]}, buyer {order["buyer"]}, product {order["product"]}{note} }}'


def tables(people, shop):
    """The rows of each table by its name."""
    return {
        "person": [[p["id"], p["name"], p["age"], p.get("boss")] for p in people["persons"]],
        "club": [[i, club["leader"]] for i, club in enumerate(people["clubs"])],
        "member": [[i, person] for i, club in enumerate(people["clubs"]) for person in club["members"]],
        "link": [[link["place"], link["next"]] for link in people["links"]],
        "product": [[product["id"], product["title"]] for product in shop["products"]],
        "orders": [[order["id"], order["buyer"], order["product"], order.get("note")] for order in shop["orders"]],
    }


def load(name, members):
    """Writes a load of these members under the name."""
    with open(f"{name.lower()}.lore", "w", encoding="utf-8") as sink:
        sink.write(f"load {name} := {{\n" + ",\n".join(members) + "\n};\n")


def make(count):
    """Writes people.lore, shop.lore, people.json, shop.json, which has the people too since jq and Python read one document, and a
    file of CSV for each table into the folder where this process works."""
    people, orders_of = document(count), shop(count)
    load("People", literal(people))
    load("Shop", shop_literal(orders_of))
    for path, content in (("people.json", people), ("shop.json", {**people, **orders_of})):
        with open(path, "w", encoding="utf-8") as sink:
            json.dump(content, sink)
    for name, rows in tables(people, orders_of).items():
        with open(f"{name}.csv", "w", encoding="utf-8", newline="") as sink:
            csv.writer(sink, lineterminator="\n").writerows(rows)
