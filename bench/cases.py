"""What bench/run measures. A case has a name (family/name), what it measures, a command and how its input is made, or a talk with a
server, and a target where there is one."""

import functools
import re
from dataclasses import dataclass
from typing import Callable

import talks
from serving import HERE, timestamp, uuid


@dataclass(frozen=True)
class Target:
    """At most LIMIT (or at least, with `is_least`): of the median or the memory, alone or as a multiple of the case or the input BESIDE."""

    limit: float
    of: str = "median"
    beside: str = ""
    is_least: bool = False


@dataclass(frozen=True)
class Case:
    """In COMMAND `{stix_hunt}` is a program, `{feed}` the file that FEED makes. INPUT and FEED are words of bench/logs, whose
    numbers `--scale` multiplies (not those that are texts); without INPUT the standard input is empty. TALK is a function of talks.py."""

    name: str
    measures: str
    command: tuple = ()
    input: tuple = ()
    feed: tuple = ()
    status: int = 0
    talk: Callable | None = None
    unit: str = "s"
    target: Target | None = None


CASES = []


def case(*words, **others):
    CASES.append(Case(*words, **others))


LOG, OBJECTS, BUNDLE, FOUR = ("logins", 100_000), ("objects", 100_000), ("bundle", 100_000), ("kinds", 100_000)
MAX_PATTERN = 65_536


def login(user):
    return f"[user-account:account_login = '{user}']"


def match(name, measures, pattern, source=LOG, **others):
    case(name, measures, ("{stix_command}", "match", pattern), source, **others)


# Other programs over the same inputs, for comparison.

PYTHON_LINES = "import json, sys\nfor line in sys.stdin.buffer: json.loads(line)"
PYTHON_WHOLE = "import json, sys\njson.load(sys.stdin.buffer)"
case("yardstick/python-lines", "Python's json over each line of the log", ("python3", "-c", PYTHON_LINES), LOG)
case("yardstick/jq-lines", "`jq -c .` over the log", ("jq", "-c", "."), LOG)
case("yardstick/jq-never", "`jq -c select(..)` of a login that never occurs", ("jq", "-c", 'select(.objects[1].account_login == "none")'), LOG)
case("yardstick/python-bundle", "Python's json.load of the bundle", ("python3", "-c", PYTHON_WHOLE), BUNDLE)
case("yardstick/jq-bundle", "`jq .` of the bundle", ("jq", "."), BUNDLE)

# match, over a log of 100,000 lines

TEN = " OR ".join(f"user-account:account_login = 'n{number}'" for number in range(10))
A, B, C = login("u1"), login("u2"), login("u3")
match("match/never", "a comparison that never holds", login("none"), target=Target(1 / 0.85, beside="yardstick/python-lines"))
match("match/quarter", "one that holds for a quarter of the lines", A)
match("match/ten", "ten comparisons by OR", f"[{TEN}]")
match("match/like", "LIKE", "[user-account:account_login LIKE '%x%']")
match("match/references", "a path over two references", "[user-account:a_ref.b_ref.c = 1]")
match("match/block", "ISSUBSET of an address block", "[ipv4-addr:value ISSUBSET '198.51.100.0/24']")
match("match/repeats", "REPEATS 2 TIMES WITHIN 30 SECONDS", f"{A} REPEATS 2 TIMES WITHIN 30 SECONDS")
match("match/and", "AND within 10 seconds", f"({A} AND {B}) WITHIN 10 SECONDS")
match("match/and-wide", "AND within 100,000 seconds, one side never holds", f"({A} AND {login('none')}) WITHIN 100000 SECONDS")
match("match/followedby", "FOLLOWEDBY within 10 seconds", f"({A} FOLLOWEDBY {B}) WITHIN 10 SECONDS")
match("match/followedby-2", "two FOLLOWEDBY within 5 seconds", f"({A} FOLLOWEDBY {B} FOLLOWEDBY {C}) WITHIN 5 SECONDS")
match("match/long", "`match/quarter` over ten times the log", A, ("logins", 1_000_000))

# One bracket of 101 comparisons, over 100,000 lines of five objects

for name, comparison in {
    "equal": "user-account:account_login = 'a'", "like": "user-account:account_login LIKE '%x%'",
    "references": "x-a:b_ref.c_ref.v = 2", "block": "ipv4-addr:value ISSUBSET '203.0.113.0/24'",
}.items():
    match(f"comparison/{name}", f"101 times `{comparison}`", "[" + " OR ".join([comparison] * 101) + "]", OBJECTS)
match("comparison/one", "one such comparison", "[user-account:account_login = 'a']", OBJECTS)

case("check/bundle", "`check` of a bundle of 100,000 objects, 56 MB", ("{stix_command}", "check"), BUNDLE, target=Target(3, "memory", "input"))
case("check/versions-of-wide", "`check` of 20,000 versions of an object, one of 400,000 properties", ("{stix_command}", "check"), ("versions-of-wide", 20_000, 400_000), target=Target(2))

# stix_hunt

HUNT = ("{stix_hunt}", "--indicators", "{feed}", "2021-06-10T00:00:00Z")


def hunt(name, measures, feed, log, cap=(), **others):
    case(f"hunt/{name}", measures, (*HUNT, *cap), log, feed, **others)


hunt("1", "1 indicator, 100,000 lines", ("feed", "1"), FOUR)
hunt("10000", "10,000 indicators, 100,000 lines", ("feed", 10_000), FOUR)
hunt("1000000", "1,000,000 indicators, 100,000 lines", ("feed", 1_000_000), FOUR)
hunt("feed", "1,000,000 indicators, an empty log", ("feed", 1_000_000), ())
hunt("sequences", "10,000 indicators, 1,000 of them FOLLOWEDBY", ("feed", 10_000, 1000), FOUR)
hunt("same", "100,000 indicators of one constant, matched 10 times", ("indicators", "same", 100_000), ("addresses", 0, "10", "1"))
hunt("like", "10,000 brackets with LIKE, 100 observations", ("indicators", "like", 10_000), ("third-octets", "100"))
hunt("like-wide", "1,000 brackets with LIKE, an observation of 10,000 objects", ("indicators", "like-x", 1000), ("meeting", 10_000))
hunt("long", "1,000 constants of 60 KB, 100 values of 60 KB", ("indicators", "long", 1000), ("long-values", 100))
hunt("versions", "100,000 versions of one indicator", ("versions", 100_000), ())
hunt("rising", "8,000 versions of one indicator, 10 KB each, ever later", ("rising-versions", 8000, 10_000), ())
hunt("too-long", "1,000 patterns of 100,000 bytes, each refused", ("long-patterns", 1000, 100_000), ())
hunt("wide", "1,000 patterns of 1,024 brackets, 10,000 observations", ("indicators", "wide", 1000), ("addresses", "100", 10_000))
hunt("chain", "20,000 sequences that begin alike, 200 observations", ("indicators", "chain", 20_000), ("addresses", "0", "200", "1"))
hunt("limit", "1,000 patterns that pass a cap of 1,000", ("indicators", "over-limit", 1000), ("over-limit", "300"), ("1000",), status=7)
for name, count in (("equal", 10_000), ("in", 10_000), ("or", 10_000), ("and", 2000)):
    hunt(name, f"an observation of {count:,} objects, a bracket for each", ("indicators", name, count), ("meeting", count))
hunt("list", "3,000 observations of one list of 500,000, 10 brackets", ("indicators", "list", "10"), ("shared", 3000, 500_000))
hunt("parent", "40,000 objects that refer to a list of 50,000", ("indicators", "parent-list", "1"), ("children", 40_000, 50_000))
hunt("parents", "15,000 of them, each in an observation", ("indicators", "parent-list", "1"), ("children", 15_000, 50_000, "apart"))

ALERTS = ("{stix_alerts}", login("u1"))
case("alerts/10", "`stix_alerts`, 10 matches within an hour", (*ALERTS, "10", "3600"), LOG)
case("alerts/10000", "10,000 matches within ten days", (*ALERTS, "10000", "864000"), LOG)

# Lines of 2 to 8 MB that cost `match` much

AB = "a" * 30_000 + "b" + "a" * 30_000
NUMBERS, THING = [("list-in-one", count, 2_000_000) for count in (60_000, 10_000)], "x-thing"
REFERENCES = f"[{THING}:a_ref.b_refs[*].n = -1]"
HEX = ",".join(f"h'{number:04x}'" for number in range(8000))


def line(name, measures, pattern, source):
    match(f"line/{name}", measures, pattern, source, target=Target(2))


line("list", "one object named 60,000 times, a list of 2,000,000", f"[{THING}:list[*] = -1]", NUMBERS[0])
line("lists", "10,000 observations of such an object", f"[{THING}:list[*] = -1]", (*NUMBERS[1], "apart"))
line("not-equal", "the same with `!=`", f"[{THING}:list[*] != 1]", (*NUMBERS[1], "apart"))
line("references", "10,000 objects that refer to one, which refers to 70,000", REFERENCES, ("references", 10_000, 70_000))
line("references-apart", "the same, each in an observation", REFERENCES, ("references", 10_000, 50_000, "apart"))
line("references-to-wide", "20,000 references to an object of 400,000 properties", f"[{THING}:n = 1]", ("references-to-wide", 20_000, 400_000))
line("ring", "350 objects, each of which refers to all", f"[{THING}:{'a_refs[*].' * 7}n = 1]", ("ring", "350"))
line("properties", "1,000 comparisons, an object of 500,000 properties", f"[{' OR '.join(f'{THING}:p{it * 500} = -1' for it in range(1, 1001))}]", ("properties", 500_000))
line("offsets", "1,000 comparisons, a list of 3,000,000", f"[{' OR '.join(f'{THING}:list[{it}] = -1' for it in range(1, 1001))}]", ("list-in-one", "1", 3_000_000))
line("text", "6,000 objects that refer to a text of 1 MB, LIKE", f"[{THING}:a_ref.text LIKE '%b']", ("text-in-one", "text", 1_000_000, 6000))
line("text-apart", "the same, each in an observation", f"[{THING}:a_ref.text LIKE '%b']", ("text-in-one", "text", 1_000_000, 6000, "apart"))
line("hex", "6.8 MB in hex, IN with 8,000 constants", f"[{THING}:a_ref.text_hex IN ({HEX})]", ("text-in-one", "text_hex", 6_800_000, 6000))
line("like-long", "a text of 8 MB, LIKE with 60,000 characters between %", f"[{THING}:a_ref.text LIKE '%{AB}%']", ("text-in-one", "text", 8_387_000, "1"))
line("like-parts", "the same, 30,000 times %a, and b", f"[{THING}:a_ref.text LIKE '{'%a' * 30_000}%b']", ("text-in-one", "text", 8_387_000, "1"))
line("like-underscore", "the same, 60 characters with _ between %", f"[{THING}:a_ref.text LIKE '%{'a' * 30}_{'a' * 29}b%']", ("text-in-one", "text", 8_387_000, "1"))
line("like-wildcards", "the same, 30,000 characters with _ between %", f"[{THING}:a_ref.text LIKE '%{'a' * 29_998}_b%']", ("text-in-one", "text", 8_387_000, "1"))
line("like-many", "2,000,000 texts of one character, LIKE with 60,000", f"[{THING}:list[*] LIKE '%{'b' * 60_000}%']", ("texts", 2_000_000))
line("objects", "60,000 objects, one in an observation", f"[{THING}:n = 1]", ("things", 60_000))
line("observations", "14,000 observations, each of its own object", f"[{THING}:n = 1]", ("things", 14_000, "observed"))

# Sequences nested to the right, whose brackets often hold

ANY = "[user-account:account_login LIKE '%']"


def right(brackets):
    """A FOLLOWEDBY (B FOLLOWEDBY (C FOLLOWEDBY D))."""
    return " FOLLOWEDBY (".join(brackets[:-1]) + f" FOLLOWEDBY {brackets[-1]}" + ")" * (len(brackets) - 2)


def nested(name, measures, pattern, log, status=0):
    match(f"nested/{name}", measures, pattern, ("nested", *(str(word) for word in log)), status=status)


NEST = right([login("x")] + [ANY] * 62)
nested("short", "63 brackets, 60 logins, the first alone of x", NEST, (60, 0, 0, "1=x"))
nested("spans", "the same, 10 seconds each", NEST, (60, 0, 10, "1=x"))
nested("few", "4 brackets, 10,000 logins, one near the end of x", right([login("x")] + [ANY] * 3), (10_000, 0, 0, "9980=x"))
nested("none", "63 brackets, 1,000 logins, none of x", NEST, (1000, 0, 0))
nested("ten", "10 brackets, 100 logins, the first of x: passes the limit", right([login("x")] + [ANY] * 9), (100, 0, 0, "1=x"), 7)
nested("thirty", "30 brackets, the same", right([login("x")] + [ANY] * 29), (100, 0, 0, "1=x"), 7)
FEW = right([login("x")] * 3 + [login("u")] * 59 + [login("z")])
nested("at-once", "3 of x, 59 of u, one of z; 2 of x and 1,000 of u at once", FEW, (1003, 1002, 0, "1=x,2=x,1003=z"))
PAIR = f"({login('u')} AND {login('u')})"
nested("pairs", "12 pairs of u, 22 logins at once", right([PAIR] * 12 + [login("z")]), (23, 22, 0, "23=z"))
BOTH = (
    "(u FOLLOWEDBY ((u FOLLOWEDBY (u FOLLOWEDBY ((u FOLLOWEDBY u) REPEATS 2 TIMES))) FOLLOWEDBY ((u FOLLOWEDBY u) FOLLOWEDBY "
    "(((u AND u) FOLLOWEDBY (u AND u)) FOLLOWEDBY (((u FOLLOWEDBY u) FOLLOWEDBY u) FOLLOWEDBY u)))))"
)
nested("both", "17 brackets nested on both sides, 20 logins", re.sub(r"\bu\b", login("u"), BOTH), (20, 0, 0))
X, Y, Z = login("x"), login("y"), login("z")
match("nested/late", "100,000 of x retained, 10,000 of z that began before them", f"{X} FOLLOWEDBY {Z}", ("runs", "x=100000,z=10000@0"))
match("nested/scan", "one of x, 20,000 of y, 20,000 of x, 3 of z", right([X, Y, Z]), ("runs", "x=1,y=20000,x=20000,z=3"))
PACKED = f"(({ANY} FOLLOWEDBY {ANY}) AND (({ANY} REPEATS 2 TIMES) REPEATS 2 TIMES)) REPEATS 3 TIMES"
nested("packed", "AND of REPEATS, thrice, 9 logins at once", PACKED, (9, 9, 0))

# Patterns of 65,536 bytes


def filled(part, between="", first="", last="", most=MAX_PATTERN):
    """As many parts as fit; # in a part is its number."""
    pieces, size = [], len(first) + len(last)
    for number in range(most):
        piece = (between if number else "") + part.replace("#", str(number))
        size += len(piece)
        if size > MAX_PATTERN:
            break
        pieces.append(piece)
    return first + "".join(pieces) + last


def show(name, measures, pattern, status=0):
    case(f"show/{name}", measures, ("{stix_command}", "show", pattern), status=status)


def wide(part, count, last):
    lists = filled(part, " OR ", "(", ") AND ", count) + filled(part, " OR ", "(", ")", count)
    return "[" + "(" * 62 + lists + f") AND {last}" * 62 + "]"


for operator in ("AND", "OR", "FOLLOWEDBY"):
    show(f"brackets-{operator.lower()}", f"brackets by {operator}, past the limit of their number", filled("[a:b=#]", operator), 3)
show("brackets-1024", "1,024 brackets by OR", filled("[a:b=#]", "OR", most=1024))
for operator in ("AND", "OR"):
    show(f"comparisons-{operator.lower()}", f"comparisons by {operator}", filled("a:b=#", f" {operator} ", "[", "]"))
show("in-numbers", "IN of numbers", filled("1", ",", "[a:b IN(", ")]"))
show("in-texts", "IN of texts", filled("''", ",", "[a:b IN(", ")]"))
show("in-times", "IN of timestamps", filled("t'2021-06-10T00:00:00Z'", ",", "[a:b IN(", ")]"))
show("blocks", "address blocks", filled("a:b ISSUBSET '::/128'", " OR ", "[", "]"))
show("wide", "lists under 62 ANDs, of many types", wide("a#:b=1", 2500, "a0:b=1"))
show("text", "one text of backslashes", "[a:b='" + "\\\\" * 32_764 + "']")
show("hex", "one constant in hex", "[a:b=h'" + "fF" * 32_763 + "']")
show("base64", "one constant in base64", "[a:b=b'" + "AAAA" * 16_381 + "']")
show("parentheses", "parentheses alone", "(" * MAX_PATTERN, 3)

# serve, with 1,000,000 rows in a file, 900,000 of them versions of 15 objects


def serve(name, measures, talk, unit="s", **others):
    case(f"serve/{name}", measures, talk=talk, unit=unit, **others)


FIRST, LAST = (f"{HERE}objects/indicator--{uuid(number)}/" for number in (14, 999_999))
serve("load", "1,000,000 rows loaded from a file", talks.load, target=Target(8))
serve("row-memory", "memory a row, beside its body", talks.row_memory, "bytes", target=Target(200))
serve("page", "GETs of a page of 100", talks.page, "1/s")
serve("walk", "all versions by pages of 100", talks.walk, "objects/s")
QUERY = Target(0.2)
serve("versions", "a query of one object with 60,000 versions", talks.query("match[version]=all&limit=100", FIRST), target=QUERY)
serve("versions-named", "a query that names many of its versions", talks.many("match[version]", lambda it: timestamp(100 + it)), target=QUERY)
serve("types-named", "a query that names many types without rows", talks.many("match[type]", lambda it: f"x-{it:x}"), target=QUERY)
serve("ids-named", "a query that names many objects without rows", talks.many("match[id]", lambda it: f"indicator--{uuid(0xF000_0000_0000 + it)}"), target=QUERY)
serve("first-last", "a page of first and last versions", talks.query("match[version]=first,last"), target=QUERY)
serve("fields", "a head of 3,900 fields", talks.fields, target=QUERY)
serve("post", "POSTs of one object, with a sync each", talks.post, "1/s", target=Target(0.7, beside="yardstick/sqlite", is_least=True))
case("yardstick/sqlite", "transactions of SQLite's own library, of such a row", talk=talks.sqlite, unit="1/s")
serve("post-memory", "POSTs of one object, without a file", talks.post_in_memory, "1/s")
serve("post-objects", "a POST of 8 MB of new objects", talks.body(talks.new_objects), target=Target(1))
serve("post-fields", "a POST of one object of 8 MB, fields in any order", talks.body(talks.any_order), target=Target(1))
serve("delete", "DELETE of an object with 60,000 versions", talks.deletion, target=Target(1))

# Clients, over loopback

case("pull/objects", "`stix_pull` of 50,000 objects by pages of 100", talk=talks.pull, unit="objects/s")
case("pull/text", "a reply of 67 MB that is one text", talk=talks.peer(talks.one_text, 0))
case("pull/numbers", "as many entries as 67 MB hold: numbers", talk=talks.peer(functools.partial(talks.reply_of, b'{"objects":[', b"1", b"]}"), 0))
case("pull/nulls", "the same of nulls, which are skipped", talk=talks.peer(functools.partial(talks.reply_of, b'{"objects":[', b"null", b"]}"), 0))
case("pull/names", "one object of 4,000,000 names in descending order", talk=talks.peer(talks.names_descending, 0))
case("mirror/copy", "`stix_mirror` of 50,000 objects into a new file", talk=talks.mirror, unit="objects/s")
case("mirror/again", "the same again, nothing new", talk=functools.partial(talks.mirror, is_again=True), unit="objects/s")
SINCE = ("--since", "2100-01-01T00:00:00Z")
case("mirror/since", "with `--since`, nothing new", talk=functools.partial(talks.mirror, is_again=True, since=SINCE), unit="objects/s")
