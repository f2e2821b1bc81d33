"""What is asked of each tool, in the form that its users would write.

In a question ONE is the id of a person, and NEW an age, another one at every second turn. None stands where a tool has no such
thing, and dictionaries.py has the questions of plain Python. The answers are compared as sorted lists of lines where `compared` is
true, the cells of a line with a tab between them, and where `counted` is true as the number of rows. Where `shop` is true there are
the orders too. jq's own way to an index, `INDEX`, takes time by the square of the members in jq 1.6 and in gojq; objects of one key
each that are added up are read as easily, and take time by the members.
"""
from typing import NamedTuple, Optional


class Work(NamedTuple):
    name: str
    title: str
    lore: Optional[str]
    jq: Optional[str]
    sqlite3: Optional[str]
    python: bool = True
    compared: bool = True
    counted: bool = False
    shop: bool = False


# The tables and indexes that somebody would make who knows the questions. `.import` leaves an empty text where no boss or note is.
TABLES = """
create table person (id integer primary key, name text, age integer, boss integer references person);
create table club (id integer primary key, leader integer references person);
create table member (club integer, person integer, primary key (club, person)) without rowid;
create table link (place integer primary key, next integer);
create table ring (place integer);
create table mentor (person integer primary key, mentor integer);
begin;
.import --csv person.csv person
.import --csv club.csv club
.import --csv member.csv member
.import --csv link.csv link
insert into ring values (0);
update person set boss = null where boss = '';
create index person_age on person (age);
create index person_boss on person (boss);
commit;
"""

SHOP_TABLES = """
create table product (id integer primary key, title text);
create table orders (id integer primary key, buyer integer references person, product integer references product, note text);
begin;
.import --csv product.csv product
.import --csv orders.csv orders
update orders set note = null where note = '';
create index orders_buyer on orders (buyer);
commit;
"""

LOAD = Work("load", "load", "", "empty", TABLES, compared=False)

SHOP = Work("shop", "load, with orders", "", "empty", TABLES + SHOP_TABLES, compared=False, shop=True)

NAMES = Work(
    "names",
    "names of all persons",
    "select People.person.name;",
    ".persons[].name",
    "select name from person;",
)

RING = Work(
    "ring",
    "all that is met round the ring",
    "select People.ring.next*.place;",
    """
    (.links | map({(.place | tostring): .}) | add) as $links
    | {at: .ring, met: {}}
    | until(.met[.at | tostring]; .met[.at | tostring] = true | .at = $links[.at | tostring].next)
    | .met | keys[]
    """,
    """
    with recursive around (place) as (
      select place from ring union select link.next from around join link using (place)
    ) select place from around;
    """,
)

AGES = Work(
    "ages",
    "ages, wherever they are",
    "select People.#.age;",
    ".. | .age? // empty",
    "select age from person;",
)

AGED = Work(
    "aged",
    "names of those of one age",
    "select X.name from People.person X where X.age = 30;",
    ".persons[] | select((.age | tonumber) == 30) | .name",
    "select name from person where age = 30;",
)

PARTS = Work(
    "parts",
    "names of those of one age and of their bosses",
    "select X.name, X.boss.name from People.person X where X.age = 30;",
    """
    (.persons | map({(.id | tostring): .}) | add) as $persons
    | .persons[] | select((.age | tonumber) == 30 and .boss) | [.name, $persons[.boss | tostring].name] | @tsv
    """,
    "select person.name, above.name from person join person above on above.id = person.boss where person.age = 30;",
)

NONE = Work(
    "none",
    "how many are of an age that nobody has",
    "select X from People.person X where X.age = 99;",
    "[.persons[] | select((.age | tonumber) == 99)] | length",
    "select count(*) from person where age = 99;",
    counted=True,
)

ONE = Work(
    "one",
    "one person by id",
    "select X.name from People.person X where X.id = ONE;",
    ".persons[] | select(.id == ONE) | .name",
    "select name from person where id = ONE;",
)

BOSSES = Work(
    "bosses",
    "each person with the boss's name",
    "select X.name, Y.name from People.person X, X.boss Y;",
    """
    (.persons | map({(.id | tostring): .}) | add) as $persons
    | .persons[] | select(.boss) | [.name, $persons[.boss | tostring].name] | @tsv
    """,
    "select person.name, above.name from person join person above on above.id = person.boss;",
)

HOPS = Work(
    "hops",
    "each person with the name of the boss's boss",
    "select X.name, Y.name from People.person X, X.boss.boss Y;",
    """
    (.persons | map({(.id | tostring): .}) | add) as $persons
    | .persons[] | select(.boss) | ($persons[.boss | tostring].boss // empty) as $top
    | [.name, $persons[$top | tostring].name] | @tsv
    """,
    """
    select person.name, top.name
      from person join person above on above.id = person.boss join person top on top.id = above.boss;
    """,
)

CHAIN = Work(
    "chain",
    "all bosses above one person",
    "select Y.name from People.person X, X.boss+ Y where X.id = ONE;",
    """
    (.persons | map({(.id | tostring): .}) | add) as $persons
    | def above: .boss // empty | $persons[tostring];
      $persons["ONE"] | above | recurse(above) | .name
    """,
    """
    with recursive above (id) as (
      select boss from person where id = ONE
      union select person.boss from above join person using (id) where person.boss is not null
    ) select name from above join person using (id);
    """,
)

BELOW = Work(
    "below",
    "all persons below one boss",
    "select X.name from People.person X where X.boss+.id = 4;",
    """
    (.persons | map(select(.boss)) | group_by(.boss) | map({(.[0].boss | tostring): .}) | add) as $under
    | def below: $under[.id | tostring] // empty | .[];
      {id: 4} | below | recurse(below) | .name
    """,
    """
    with recursive below (id) as (
      select id from person where boss = 4 union select person.id from below join person on person.boss = below.id
    ) select name from below join person using (id);
    """,
)

BUYERS = Work(
    "buyers",
    "each order with its buyer's name, by ids",
    "select X.name, Y.id from People.person X, Shop.order Y where X.id = Y.buyer;",
    """
    (.persons | map({(.id | tostring): .}) | add) as $persons
    | .orders[] | [$persons[.buyer | tostring].name, .id] | @tsv
    """,
    "select person.name, orders.id from person join orders on orders.buyer = person.id;",
    shop=True,
)

BOUGHT = Work(
    "bought",
    "each order with its buyer and its product, by ids",
    """
    select X.id, Y.name, Z.title from Shop.order X, People.person Y, Shop.product Z
      where X.buyer = Y.id and X.product = Z.id;
    """,
    """
    (.persons | map({(.id | tostring): .}) | add) as $persons
    | (.products | map({(.id | tostring): .}) | add) as $products
    | .orders[] | [.id, $persons[.buyer | tostring].name, $products[.product | tostring].title] | @tsv
    """,
    """
    select orders.id, name, title
      from orders join person on person.id = orders.buyer join product on product.id = orders.product;
    """,
    shop=True,
)

OPTIONAL = Work(
    "optional",
    "each order with its note, where it has one",
    "select X.id, X.note from Shop.order X; select X.id from Shop.order X where not exists Y in X.note : Y == Y;",
    ".orders[] | [.id, .note] | @tsv",
    "select id, note from orders;",
    shop=True,
)

VALUE = Work(
    "value",
    "a value changed, and read",
    "update People.person.age := NEW where People.person.id = ONE; select X.age from People.person X where X.id = ONE;",
    "(.persons[] | select(.id == ONE) | .age) = NEW | .persons[] | select(.id == ONE) | .age",
    "update person set age = NEW where id = ONE; select age from person where id = ONE;",
)

# The mentor of a person is the boss of the boss, and at the end nobody has one.
EDGE = Work(
    "edge",
    "an edge added, read and taken away",
    """
    update X.mentor += Y from People.person X, X.boss.boss Y where X.id = ONE;
    select X.mentor.name from People.person X where X.id = ONE;
    update X.mentor -= Y from People.person X, X.mentor Y where X.id = ONE;
    select X.mentor.name from People.person X where X.id = ONE;
    """,
    """
    (.persons | map({(.id | tostring): .}) | add) as $persons
    | (.persons[] | select(.id == ONE)) |= (.mentor = $persons[.boss | tostring].boss)
    | (.persons[] | select(.id == ONE) | $persons[.mentor | tostring].name),
      (del(.persons[] | select(.id == ONE) | .mentor) | .persons[] | select(.id == ONE) | .mentor // empty)
    """,
    """
    begin;
    insert into mentor select person.id, above.boss from person join person above on above.id = person.boss
      where person.id = ONE;
    select name from mentor join person on person.id = mentor.mentor where mentor.person = ONE;
    delete from mentor where person = ONE;
    select mentor from mentor where person = ONE;
    commit;
    """,
)

GUIDE = Work(
    "guide",
    "what is there",
    "guide; browse People; browse People.person; sample People.person.name 5;",
    None,
    ".schema\n",
    python=False,
    compared=False,
)

DUMP = Work("dump", "dump", "dump;", ".", ".dump\n", compared=False)

RESTORE = Work("restore", "restore, and names of all persons", NAMES.lore, NAMES.jq, NAMES.sqlite3)

WORKS = (
    LOAD, NAMES, RING, AGES, AGED, PARTS, NONE, ONE, BOSSES, HOPS, CHAIN, BELOW, SHOP, BUYERS, BOUGHT, OPTIONAL, VALUE, EDGE, GUIDE,
    DUMP, RESTORE,
)

# Those that cost a whole process, and what is asked no times where a process only has its data.
BEGUN = (LOAD, SHOP, RESTORE)
IDLE = {False: NAMES, True: BUYERS}
