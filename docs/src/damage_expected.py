#!/usr/bin/env python3
"""What the program `damage` must print, from document 01 alone.

    python3 docs/src/damage_expected.py > crates/damage/stdout

A case is a board of the given sizes with every word and keep-word 0 and every process idle with no sequence open, except
one process that is put in its place and one word that is written; so many words are lent. A line tells the family and
the number of the case, then the refusal (0: none) of a set-up, of a load, a validate and a store begun, of a step and of
the open count, and the open count where it is told. Nothing here was taken from the program: the refusals and good form
are written from document 01's lists.
"""
TOP = 2**64 - 1


class Process:
    def __init__(self, place="idle", variable=None, header=None, segment=None, value=None, opened=0):
        self.place, self.variable, self.header, self.segment, self.value = place, variable, header, segment, value
        self.opened = opened
        self.keep, self.values, self.gathered = [0] * 16, [0] * 4, [0] * 4


class Case:
    def __init__(self, kind, n=2, t=3, b=8, w=None):
        self.kind, self.n, self.t, self.b = kind, n, t, b
        self.w = (1 if kind == "one" else 2) if w is None else w
        self.at, self.process = 0, Process(opened=1)
        self.address, self.word, self.lent = 159, 0, 160
        self.me, self.variable, self.values = 0, 0, [1, 0, 0, 0]


# The places of a call, with what each holds: document 01, "One word" and "Many segments".
PLACES = [
    "idle",
    "load one", "validate one", "store one",
    "load header", "validate header", "store header",
    "store announces", "store swaps header",
    "copy reads segment", "copy reads announced", "copy swaps segment", "copy reads segment again", "copy reads header",
]
ONE = PLACES[1:4]
MANY = PLACES[4:]
HAS_HEADER = PLACES[7:]
HAS_SEGMENT = ["store announces"] + PLACES[9:]
HAS_VALUE = ["copy swaps segment", "copy reads header"]
# a load past its first step is in Copy; here Copy always gathers
NEEDS_SEQUENCE = [p for p in PLACES if p not in ("idle", "load one", "load header")]


def used(c):
    return c.t if c.kind == "one" else c.t * (1 + c.w) + c.n * c.w


def bad_settings(c):
    return not (1 <= c.n <= 16 and 1 <= c.t <= 16 and 4 <= c.b <= 48 and 1 <= c.w <= 4 and (c.kind == "many" or c.w == 1))


def good_process(c, p):
    limit, tags = 2 ** (64 - c.b), 2**c.b
    if p.place in ONE and c.kind != "one" or p.place in MANY and c.kind != "many":
        return False
    if p.place != "idle" and p.variable >= c.t:
        return False
    if p.place in HAS_SEGMENT and p.segment >= c.w:
        return False
    if p.place in HAS_HEADER and p.header % limit >= c.n:
        return False
    if p.place in HAS_VALUE and p.value >= limit:
        return False
    if p.place in NEEDS_SEQUENCE and not p.opened >> p.variable & 1:
        return False
    if c.kind == "many" and any(k >= tags for k in p.keep[: c.t]):
        return False
    if any(v >= limit for v in p.values + p.gathered):
        return False
    return all(not p.opened >> x & 1 for x in range(c.t, 16))


def good_words(c, words):
    limit = 2 ** (64 - c.b)
    if c.kind == "one":
        return True
    headers = [words[x * (1 + c.w)] for x in range(c.t)]
    announced = words[c.t * (1 + c.w) : used(c)]
    return all(h % limit < c.n for h in headers) and all(v < limit for v in announced)


def before_the_call(c, processes, words):
    """Refusals 1 to 4, or 0."""
    if bad_settings(c):
        return 1
    if c.lent < used(c):
        return 2
    if not (all(good_process(c, p) for p in processes[: c.n]) and good_words(c, words)):
        return 3
    return 4 if c.me >= c.n else 0


def begin(c, processes, words, act, values):
    first = before_the_call(c, processes, words)
    if first:
        return first
    p, limit = processes[c.me], 2 ** (64 - c.b)
    if c.variable >= c.t:
        return 5
    if p.place != "idle":
        return 6
    if act != "load" and not p.opened >> c.variable & 1:
        return 7
    if any(v >= limit for v in values) or any(values[c.w :]) or act != "store" and any(values):
        return 8
    return 0


def line(family, number, c):
    processes = [Process() for _ in range(16)]
    processes[c.at] = c.process
    words = [0] * c.lent
    if c.address < c.lent:
        words[c.address] = c.word
    set_up = 1 if bad_settings(c) else 2 if c.lent < used(c) else 0
    loads = begin(c, processes, words, "load", [0] * 4)
    validates = begin(c, processes, words, "validate", [0] * 4)
    stores = begin(c, processes, words, "store", c.values)
    count = before_the_call(c, processes, words)
    step = count or (9 if processes[c.me].place == "idle" else 0)
    fields = [family, number, set_up, loads, validates, stores, step, count]
    if not count:
        fields.append(sum(processes[c.me].opened >> x & 1 for x in range(c.t)))
    return " ".join(map(str, fields))


def digits(number, *bases):
    """The digits of a case's number, the fastest first."""
    out = []
    for base in bases:
        out.append(number % base)
        number //= base
    return out


KINDS = ["one", "many"]
LIMIT = 2**56


def places(kind):
    def case(number):
        place, variable, opened = digits(number, 14, 4, 2)
        c = Case(kind)
        c.process = Process(PLACES[place], [0, 2, 3, 17][variable], 1, 0, 0, opened=[0, 7][opened])
        return c

    return 14 * 4 * 2, case


def held(number):
    place, header, segment, value = digits(number, 7, 3, 4, 2)
    c = Case("many")
    header, segment, value = [1, 2, LIMIT - 1][header], [0, 1, 2, TOP][segment], [LIMIT - 1, LIMIT][value]
    c.process = Process(PLACES[7 + place], 1, header, segment, value, opened=7)
    return c


def opened(number):
    kind, mask, at = digits(number, 2, 6, 3)
    c = Case(KINDS[kind])
    c.at, c.process = at, Process(opened=[1, 4, 8, 32768, 65535, 7][mask])
    return c


def kept(number):
    kind, variable, value, at = digits(number, 2, 16, 3, 3)
    c = Case(KINDS[kind])
    c.at = at
    c.process.keep[variable] = [255, 256, TOP][value]
    return c


def carried(number):
    kind, which, place, value, at = digits(number, 2, 2, 4, 2, 3)
    c = Case(KINDS[kind])
    c.at = at
    [c.process.values, c.process.gathered][which][place] = [LIMIT - 1, LIMIT][value]
    return c


def one_word(number):
    kind, address, word = digits(number, 2, 15, 4)
    c = Case(KINDS[kind])
    c.address, c.word = address, [1, 2, LIMIT - 1, LIMIT][word]
    return c


def sizes(number):
    kind, setting = KINDS[number % 2], number // 2
    counts, bits, segments = [0, 1, 16, 17, TOP], [0, 3, 4, 48, 49, TOP], [0, 1, 2, 4, 5, TOP]
    tried = {"n": counts, "t": counts, "b": bits, "w": segments}
    changes = [(name, value) for name, values in tried.items() for value in values]
    c = Case(kind, w=1)
    setattr(c, *changes[setting])
    return c


def lent(number):
    kind, big, length = digits(number, 2, 2, 5)
    kind = KINDS[kind]
    c = Case(kind, 16, 16, 8, 1 if kind == "one" else 4) if big else Case(kind)
    c.lent = [0, used(c) - 1, used(c), used(c) + 1, 160][length]
    return c


def numbers(number):
    kind, damaged, me = digits(number, 2, 2, 6)
    c = Case(KINDS[kind])
    c.process = Process(opened=[1, 65535][damaged])
    c.me = [0, 1, 2, 15, 16, TOP][me]
    return c


def calls(number):
    kind, mask, busy, variable, values = digits(number, 2, 2, 2, 4, 5)
    c = Case(KINDS[kind])
    place = ["load one", "load header"][kind] if busy else "idle"
    c.process = Process(place, 0, 0, 0, 0, opened=[0, 7][mask])
    c.variable = [0, 2, 3, TOP][variable]
    c.values = [[0, 0, 0, 0], [LIMIT - 1, 0, 0, 0], [LIMIT, 0, 0, 0], [0, 1, 0, 0], [0, 0, 1, 0]][values]
    return c


# How many cases each family has, and what makes a case from its number.
FAMILIES = [
    places("one"),
    places("many"),
    (168, held),
    (36, opened),
    (288, kept),
    (96, carried),
    (120, one_word),
    (44, sizes),
    (20, lent),
    (24, numbers),
    (160, calls),
]

if __name__ == "__main__":
    for family, (count, case) in enumerate(FAMILIES):
        for number in range(count):
            print(line(family, number, case(number)))
