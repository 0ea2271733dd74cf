"""An independent oracle for the cases of crates/cases.

It reads a venue file and a show file straight from the rules of the format and says whether the
pair is accepted, or which refusal comes first. It shares no code with the Rattle reader.

The named cases below have their expected lines worked out by hand; the oracle is held to them.
To these it adds pairs made by a random generator of a fixed seed, most of them damaged, whose
expected lines are the oracle's own.

    python3 tests/reference.py

writes crates/cases/stdin, a line `LABEL VENUE SHOW` for each case (the files in hexadecimal, `-`
for an empty one), and crates/cases/stdout, which has for each of them one of

    LABEL accepted RESOURCES ROUTES POSITIONS written VENUELENGTH SHOWLENGTH
    LABEL refused FILE NUMBER LAYER PLACE BYTE PARTLENGTH
    LABEL bad

the last for a line that does not have that form.
"""

from pathlib import Path
from random import Random
from typing import NamedTuple

HEADER, RESOURCE, ROUTE, POSITION, END = TAGS = 0x01, 0x10, 0x20, 0x21, 0x7F
VENUE_KIND, SHOW_KIND, VERSION = 0x56, 0x53, 0x01
MOST_RESOURCES, MOST_ROUTES, MOST_POSITIONS, MOST_NEXTS = 16, 16, 128, 4
LAYERS = {21: 1, 22: 1, 23: 2, 24: 2, 25: 2, 26: 2, 27: 2, 28: 1, 31: 3, 32: 4, 33: 4}


# The oracle.


class Refused(Exception):
    def __init__(self, number, place):
        self.number, self.place = number, place


class Field(NamedTuple):
    place: int
    tag: int
    body: bytes

    def require(self, number, truth):
        if not truth:
            raise Refused(number, self.place)


def word(data):
    return int.from_bytes(data, "big")


def fields(data):
    """The fields in turn. The caller refuses an end that comes out of turn or has a body."""
    place = 0
    while place == 0 or tag != END:
        if len(data) < place + 3:
            raise Refused(21, place)
        tag, stop = data[place], place + 3 + word(data[place + 1 : place + 3])
        if len(data) < stop:
            raise Refused(22, place)
        if tag not in TAGS:
            raise Refused(23, place)
        yield Field(place, tag, data[place + 3 : stop])
        place = stop
    if place < len(data):
        raise Refused(28, place)


def read_header(field, kind):
    field.require(25, len(field.body) == 2)
    field.require(26, field.body == bytes([kind, VERSION]))


def read_venue(data):
    """The capacities of the resources."""
    capacities, turn = [], {HEADER}
    for field in fields(data):
        field.require(24, field.tag in turn)
        if field.tag == HEADER:
            read_header(field, VENUE_KIND)
            turn = {RESOURCE}
        elif field.tag == RESOURCE:
            field.require(25, len(field.body) == 11)
            field.require(26, word(field.body[:2]) >= 1)
            field.require(27, len(capacities) < MOST_RESOURCES)
            capacities.append(word(field.body[:2]))
            turn = {RESOURCE, END}
        else:
            field.require(25, not field.body)
    return capacities


def read_position(field):
    """The next positions, and the needs as pairs of a resource and an amount."""
    field.require(25, field.body)
    k = field.body[0]
    nexts, rest = field.body[1 : 1 + k], field.body[1 + k :]
    field.require(25, len(field.body) >= 1 + k and len(rest) % 3 == 0)
    needs = [(rest[i], word(rest[i + 1 : i + 3])) for i in range(0, len(rest), 3)]
    rise = all(a < b for (a, _), (b, _) in zip(needs, needs[1:]))
    field.require(26, k <= MOST_NEXTS and rise and all(amount >= 1 for _, amount in needs))
    return nexts, needs


def read_show(data, capacities):
    """The numbers of routes and of positions."""
    routes = positions = stop = 0  # the route's positions end before `stop`
    turn = {HEADER}
    for field in fields(data):
        field.require(24, field.tag in turn)
        if field.tag == HEADER:
            read_header(field, SHOW_KIND)
            turn = {ROUTE}
            continue
        if field.tag == ROUTE:
            field.require(25, len(field.body) == 2)
            field.require(26, 1 <= word(field.body) <= MOST_POSITIONS)
            stop = positions + word(field.body)
            field.require(27, routes < MOST_ROUTES and stop <= MOST_POSITIONS)
            routes += 1
        elif field.tag == POSITION:
            nexts, needs = read_position(field)
            once = len(set(nexts)) == len(nexts)
            field.require(31, once and all(positions < x < stop for x in nexts))
            field.require(32, all(r < len(capacities) for r, _ in needs))
            field.require(33, all(amount <= capacities[r] for r, amount in needs))
            positions += 1
        else:
            field.require(25, not field.body)
        turn = {POSITION} if positions < stop else {ROUTE, END}
    return routes, positions


def part_length(data, place):
    """How long the field at a place is, as far as the file goes."""
    left = data[place:]
    return min(len(left), 3 + word(left[1:3])) if len(left) >= 3 else len(left)


def answer(venue, show):
    number, data = 1, venue
    try:
        capacities = read_venue(venue)
        number, data = 2, show
        routes, positions = read_show(show, capacities)
    except Refused as fault:
        place = fault.place
        byte = data[place] if place < len(data) else 0
        layer, part = LAYERS[fault.number], part_length(data, place)
        return f"refused {number} {fault.number} {layer} {place} {byte} {part}"
    return f"accepted {len(capacities)} {routes} {positions}"


# What files are made of.


def field(tag, body=b""):
    return bytes([tag]) + len(body).to_bytes(2, "big") + bytes(body)


def header(kind, version=VERSION):
    return field(HEADER, [kind, version])


def resource(capacity, order=0, name=b"resource"):
    return field(RESOURCE, capacity.to_bytes(2, "big") + bytes([order]) + name)


def route(n):
    return field(ROUTE, n.to_bytes(2, "big"))


def position(nexts=(), needs=(), k=None):
    k = len(nexts) if k is None else k
    return field(POSITION, bytes([k, *nexts]) + b"".join(bytes([r]) + a.to_bytes(2, "big") for r, a in needs))


def venue(*parts):
    return header(VENUE_KIND) + b"".join(parts) + field(END)


def show(*parts):
    return header(SHOW_KIND) + b"".join(parts) + field(END)


# The cases. Fields begin at these places: in every file the header at 0 and the next field at 5;
# in a venue a resource takes 14 bytes; in a show a route takes 5, and a position with k next
# positions and m needs takes 4 + k + 3 * m.

V = venue(resource(1, 1, b"lane    "), resource(2, 2, b"lift    "))  # fields at 0, 5, 19, 33; 36 bytes
S = show(  # fields at 0, 5, 10, 18, 25, 30, 38, 45; 48 bytes
    route(2), position([1], [(0, 1)]), position([], [(1, 1)]),
    route(2), position([3], [(1, 1)]), position([], [(0, 1)]),
)  # fmt: skip
V1 = venue(resource(1))  # fields at 0, 5, 19; 22 bytes
S1 = show(route(1), position())  # fields at 0, 5, 10, 14; 17 bytes
V_ZERO = venue(resource(0))

ALL_NEEDS = [(r, 65535) for r in range(16)]
V_FULL = venue(*[resource(65535, r, b"all full") for r in range(16)])


def full_route(first, n, last_nexts=()):
    """A route that names the four positions after each, as far as it goes, and needs all of everything."""
    stop = first + n
    nexts = [range(p + 1, min(p + 5, stop)) for p in range(first, stop - 1)] + [last_nexts]
    return route(n) + b"".join(position(list(x), ALL_NEEDS) for x in nexts)


# A route of eight takes 5 + 4 * 56 + 55 + 54 + 53 + 52 = 443 bytes; the last position begins at
# 5 + 16 * 443 - 52 = 7041.
S_FULL = show(*[full_route(8 * r, 8) for r in range(16)])
S_FULL_SELF = show(*[full_route(8 * r, 8) for r in range(15)], full_route(120, 8, [127]))


def one(*args, **kwargs):
    """A show of one route of one position, which begins at 10."""
    return show(route(1), position(*args, **kwargs))


def raw(body):
    """A show of one route of one position with this body."""
    return show(route(1), field(POSITION, body))


ACCEPTED = [
    ("pair", V, S, "accepted 2 2 4"),
    ("smallest", V1, S1, "accepted 1 1 1"),
    ("capacity-one", venue(resource(1)), one([], [(0, 1)]), "accepted 1 1 1"),
    ("capacity-most", venue(resource(65535)), one([], [(0, 65535)]), "accepted 1 1 1"),
    ("need-is-capacity", venue(resource(300)), one([], [(0, 300)]), "accepted 1 1 1"),
    ("need-255-of-256", venue(resource(256)), one([], [(0, 255)]), "accepted 1 1 1"),
    ("order-any", venue(resource(1, 255), resource(1, 0)), S1, "accepted 2 1 1"),
    ("name-any", venue(resource(1, 0, bytes(range(248, 256))), resource(1, 0, bytes(8))), S1, "accepted 2 1 1"),
    ("nexts-fall", V1, show(route(3), position([2, 1]), position(), position()), "accepted 1 1 3"),
    ("nexts-four", V1, show(route(5), position([3, 1, 4, 2]), *[position()] * 4), "accepted 1 1 5"),
    ("next-in-second-route", V1, show(route(1), position(), route(2), position([2]), position()), "accepted 1 2 3"),
    ("needs-skip", venue(*[resource(1)] * 3), one([], [(0, 1), (2, 1)]), "accepted 3 1 1"),
    ("resources-16", venue(*[resource(1)] * 16), S1, "accepted 16 1 1"),
    ("routes-16", V1, show(*[route(1), position()] * 16), "accepted 1 16 16"),
    ("positions-128", V1, show(route(128), *[position()] * 128), "accepted 1 1 128"),
    ("positions-64-64", V1, show(*[route(64), *[position()] * 64] * 2), "accepted 1 2 128"),
    ("full", V_FULL, S_FULL, "accepted 16 16 128"),
    ("full-one-route", V_FULL, show(full_route(0, 128)), "accepted 16 1 128"),
]

CUT = [
    ("venue-empty", b"", S, "refused 1 21 1 0 0 0"),
    ("show-empty", V, b"", "refused 2 21 1 0 0 0"),
    ("both-empty", b"", b"", "refused 1 21 1 0 0 0"),
    ("head-1", b"\x01", S, "refused 1 21 1 0 1 1"),
    ("head-2", b"\x01\x00", S, "refused 1 21 1 0 1 2"),
    ("head-1-unfamiliar", b"\x02", S, "refused 1 21 1 0 2 1"),
    ("head-1-out-of-turn", b"\x7f", S, "refused 1 21 1 0 127 1"),
    ("venue-no-end", V[:-3], S, "refused 1 21 1 33 0 0"),
    ("venue-end-1", V[:-2], S, "refused 1 21 1 33 127 1"),
    ("venue-end-2", V[:-1], S, "refused 1 21 1 33 127 2"),
    ("venue-header-alone", V[:5], S, "refused 1 21 1 5 0 0"),
    ("show-no-end", V, S[:-3], "refused 2 21 1 45 0 0"),
    ("show-end-2", V, S[:-1], "refused 2 21 1 45 127 2"),
    ("show-header-alone", V, S[:5], "refused 2 21 1 5 0 0"),
    ("show-in-route", V, S[:18], "refused 2 21 1 18 0 0"),
    ("body-none", V[:8], S, "refused 1 22 1 5 16 3"),
    ("body-less-one", V[:18], S, "refused 1 22 1 5 16 13"),
    ("body-of-header", b"\x01\x00\x02\x56", S, "refused 1 22 1 0 1 4"),
    ("body-of-position", V, S[:24], "refused 2 22 1 18 33 6"),
    ("body-unfamiliar", header(VENUE_KIND) + b"\x02\x00\x03ab", S, "refused 1 22 1 5 2 5"),
    ("body-unfamiliar-65535", header(VENUE_KIND) + b"\x02\xff\xffab", S, "refused 1 22 1 5 2 5"),
    ("body-out-of-turn", b"\x7f\x00\x01", S, "refused 1 22 1 0 127 3"),
    ("body-wrong-length", header(VENUE_KIND) + b"\x10\x00\x0c" + bytes(11), S, "refused 1 22 1 5 16 14"),
    ("after-end", V + b"\x00", S, "refused 1 28 1 36 0 1"),
    ("after-end-two", V + b"\x7f\x00", S, "refused 1 28 1 36 127 2"),
    ("after-end-again", V + field(END), S, "refused 1 28 1 36 127 3"),
    ("after-end-venue", V + V, S, "refused 1 28 1 36 1 5"),
    ("after-end-cut", V + b"\x10\xff\xff\x00", S, "refused 1 28 1 36 16 4"),
    ("after-end-show", V, S + b"\x01", "refused 2 28 1 48 1 1"),
    ("after-end-show-route", V, S + route(1) + b"\x21", "refused 2 28 1 48 32 5"),
]

UNFAMILIAR = [
    ("tag-00-first", field(0x00) + V, S, "refused 1 23 2 0 0 3"),
    ("tag-02-then-good", venue(field(0x02, b"ab"), resource(1)), S, "refused 1 23 2 5 2 5"),
    ("tag-02-for-header", field(0x02, b"\x56\x01") + V1[5:], S, "refused 1 23 2 0 2 5"),
    ("tag-0f", venue(resource(1), field(0x0F, bytes(11))), S, "refused 1 23 2 19 15 14"),
    ("tag-11-for-resource", V1[:5] + b"\x11" + V1[6:], S, "refused 1 23 2 5 17 14"),
    ("tag-ff-before-end", venue(resource(1), field(0xFF)), S, "refused 1 23 2 19 255 3"),
    ("tag-7e-for-end", V1[:19] + field(0x7E), S, "refused 1 23 2 19 126 3"),
    ("tag-80-for-end", V1[:19] + field(0x80), S, "refused 1 23 2 19 128 3"),
    ("tag-22-then-good", V1, show(route(1), field(0x22, b"\0"), position()), "refused 2 23 2 10 34 4"),
    ("tag-1f-for-route", V1, show(field(0x1F, b"\0\1"), position()), "refused 2 23 2 5 31 5"),
    ("tag-30-65535", venue(field(0x30, bytes(65535)), resource(1)), S1, "refused 1 23 2 5 48 65538"),
]

TURN = [
    ("no-header", resource(1) + field(END), S, "refused 1 24 2 0 16 14"),
    ("no-show-header", V1, route(1) + position() + field(END), "refused 2 24 2 0 32 5"),
    ("end-alone", field(END), S, "refused 1 24 2 0 127 3"),
    ("header-twice", venue(header(VENUE_KIND), resource(1)), S, "refused 1 24 2 5 1 5"),
    ("header-late", venue(resource(1), header(VENUE_KIND)), S, "refused 1 24 2 19 1 5"),
    ("header-in-show", V1, show(header(SHOW_KIND), route(1), position()), "refused 2 24 2 5 1 5"),
    ("no-resource", venue(), S, "refused 1 24 2 5 127 3"),
    ("no-route", V1, show(), "refused 2 24 2 5 127 3"),
    ("route-in-venue", venue(route(1)), S, "refused 1 24 2 5 32 5"),
    ("route-after-resource", venue(resource(1), route(1)), S, "refused 1 24 2 19 32 5"),
    ("position-in-venue", venue(resource(1), position()), S, "refused 1 24 2 19 33 4"),
    ("resource-in-show", V1, show(resource(1)), "refused 2 24 2 5 16 14"),
    ("resource-in-route", V1, show(route(1), resource(1), position()), "refused 2 24 2 10 16 14"),
    ("position-before-route", V1, show(position()), "refused 2 24 2 5 33 4"),
    ("position-beyond-route", V1, show(route(1), position(), position()), "refused 2 24 2 14 33 4"),
    ("end-after-route", V1, show(route(1)), "refused 2 24 2 10 127 3"),
    ("end-in-route", V1, show(route(2), position([1])), "refused 2 24 2 15 127 3"),
    ("route-after-route", V1, show(route(1), route(1), position()), "refused 2 24 2 10 32 5"),
    ("route-in-route", V1, show(route(2), position(), route(1), position()), "refused 2 24 2 14 32 5"),
    ("turn-before-length-header", venue(field(HEADER), resource(1)), S, "refused 1 24 2 5 1 3"),
    ("turn-before-length-end", venue(field(END, b"x")), S, "refused 1 24 2 5 127 4"),
    ("turn-before-length-route", venue(field(ROUTE, b"x")), S, "refused 1 24 2 5 32 4"),
    ("turn-before-length-position", V1, show(field(POSITION)), "refused 2 24 2 5 33 3"),
    ("turn-before-length-resource", V1, show(route(1), field(RESOURCE)), "refused 2 24 2 10 16 3"),
    ("turn-before-range", V1, show(route(2), position(), route(0)), "refused 2 24 2 14 32 5"),
    ("turn-before-many", V1, show(route(128), route(128)), "refused 2 24 2 10 32 5"),
]

LENGTH = [
    ("header-0", field(HEADER), S, "refused 1 25 2 0 1 3"),
    ("header-1", field(HEADER, b"\x56") + V1[5:], S, "refused 1 25 2 0 1 4"),
    ("header-3", field(HEADER, b"\x56\x01\x00") + V1[5:], S, "refused 1 25 2 0 1 6"),
    ("header-3-wrong-kind", field(HEADER, b"\x53\x02\x00") + V1[5:], S, "refused 1 25 2 0 1 6"),
    ("show-header-1", V1, field(HEADER, b"\x53") + S1[5:], "refused 2 25 2 0 1 4"),
    ("show-header-258", V1, field(HEADER, b"\x53\x01" + bytes(256)) + S1[5:], "refused 2 25 2 0 1 261"),
    ("resource-0", venue(field(RESOURCE)), S, "refused 1 25 2 5 16 3"),
    ("resource-10", venue(field(RESOURCE, b"\0\1" + bytes(8))), S, "refused 1 25 2 5 16 13"),
    ("resource-12", venue(field(RESOURCE, b"\0\1" + bytes(10))), S, "refused 1 25 2 5 16 15"),
    ("resource-10-capacity-0", venue(field(RESOURCE, bytes(10))), S, "refused 1 25 2 5 16 13"),
    ("route-0", V1, show(field(ROUTE)), "refused 2 25 2 5 32 3"),
    ("route-1", V1, show(field(ROUTE, b"\1"), position()), "refused 2 25 2 5 32 4"),
    ("route-3", V1, show(field(ROUTE, b"\0\1\0"), position()), "refused 2 25 2 5 32 6"),
    ("route-3-zero", V1, show(field(ROUTE, b"\0\0\0"), position()), "refused 2 25 2 5 32 6"),
    ("venue-end-body", V1[:-3] + field(END, b"\0"), S, "refused 1 25 2 19 127 4"),
    ("show-end-body", V1, S1[:-3] + field(END, b"\0"), "refused 2 25 2 14 127 4"),
    ("show-end-body-then-end", V1, S1[:-3] + field(END, field(END)) + field(END), "refused 2 25 2 14 127 6"),
    ("position-0", V1, raw(b""), "refused 2 25 2 10 33 3"),
    ("position-short-of-k", V1, raw(b"\x01"), "refused 2 25 2 10 33 4"),
    ("position-short-of-4", V1, raw(b"\x04\1\2\3"), "refused 2 25 2 10 33 7"),
    ("position-rest-1", V1, raw(b"\x00\0"), "refused 2 25 2 10 33 5"),
    ("position-rest-2", V1, raw(b"\x00\0\0"), "refused 2 25 2 10 33 6"),
    ("position-rest-4-amount-0", V1, raw(b"\x00\0\0\0\0"), "refused 2 25 2 10 33 8"),
    ("position-rest-after-next", V1, raw(b"\x01\0\0\0"), "refused 2 25 2 10 33 7"),
    ("position-k-5-short", V1, raw(b"\x05"), "refused 2 25 2 10 33 4"),
    ("position-k-5-rest-1", V1, raw(b"\x05\1\2\3\4\5\0"), "refused 2 25 2 10 33 10"),
    ("position-k-255-short", V1, raw(b"\xff" + bytes(254)), "refused 2 25 2 10 33 258"),
    ("position-65535-k-0", V1, raw(b"\x00" + b"\0\0\1" * 21844 + bytes(2)), "refused 2 25 2 10 33 65538"),
]

RANGE = [
    ("kind-of-show", S, V, "refused 1 26 2 0 1 5"),
    ("kind-of-venue", V, V, "refused 2 26 2 0 1 5"),
    ("kind-none", header(0x00) + V1[5:], S, "refused 1 26 2 0 1 5"),
    ("kind-lower-case", V1, header(0x73) + S1[5:], "refused 2 26 2 0 1 5"),
    ("version-0", header(VENUE_KIND, 0) + V1[5:], S, "refused 1 26 2 0 1 5"),
    ("version-2", header(VENUE_KIND, 2) + V1[5:], S, "refused 1 26 2 0 1 5"),
    ("show-version-2", V1, header(SHOW_KIND, 2) + S1[5:], "refused 2 26 2 0 1 5"),
    ("capacity-0", V_ZERO, S, "refused 1 26 2 5 16 14"),
    ("capacity-0-second", venue(resource(1), resource(0)), S, "refused 1 26 2 19 16 14"),
    ("n-0", V1, show(route(0)), "refused 2 26 2 5 32 5"),
    ("n-129", V1, show(route(129), *[position()] * 129), "refused 2 26 2 5 32 5"),
    ("n-256", V1, show(route(256)), "refused 2 26 2 5 32 5"),
    ("n-257", V1, show(route(257), position()), "refused 2 26 2 5 32 5"),
    ("n-65535", V1, show(route(65535)), "refused 2 26 2 5 32 5"),
    ("k-5", V1, raw(b"\x05\1\2\3\4\5"), "refused 2 26 2 10 33 9"),
    ("k-5-room", V1, show(route(6), position([1, 2, 3, 4, 5]), *[position()] * 5), "refused 2 26 2 10 33 9"),
    ("k-5-need", V1, raw(b"\x05\1\2\3\4\5\0\0\1"), "refused 2 26 2 10 33 12"),
    ("k-255", V1, raw(b"\xff" + bytes(255)), "refused 2 26 2 10 33 259"),
    ("amount-0", V1, one([], [(0, 0)]), "refused 2 26 2 10 33 7"),
    ("amount-0-second", V, one([], [(0, 1), (1, 0)]), "refused 2 26 2 10 33 10"),
    ("needs-equal", V1, one([], [(0, 1), (0, 1)]), "refused 2 26 2 10 33 10"),
    ("needs-fall", V, one([], [(1, 1), (0, 1)]), "refused 2 26 2 10 33 10"),
    ("needs-fall-last", venue(*[resource(1)] * 3), one([], [(0, 1), (2, 1), (1, 1)]), "refused 2 26 2 10 33 13"),
    ("range-before-next", V1, one([0], [(0, 0)]), "refused 2 26 2 10 33 8"),
    ("range-before-venue", V1, one([], [(9, 0)]), "refused 2 26 2 10 33 7"),
    ("range-before-capacity", V, one([], [(0, 9), (1, 0)]), "refused 2 26 2 10 33 10"),
    ("position-65535-k-2", V1, raw(b"\x02\1\2" + b"\0\0\1" * 21844), "refused 2 26 2 10 33 65538"),
]

MANY = [
    ("resources-17", venue(*[resource(1)] * 17), S, "refused 1 27 2 229 16 14"),
    ("resources-18", venue(*[resource(1)] * 18), S, "refused 1 27 2 229 16 14"),
    ("resource-17-capacity-0", venue(*[resource(1)] * 16, resource(0)), S, "refused 1 26 2 229 16 14"),
    ("resource-17-length", venue(*[resource(1)] * 16, field(RESOURCE)), S, "refused 1 25 2 229 16 3"),
    ("routes-17", V1, show(*[route(1), position()] * 17), "refused 2 27 2 149 32 5"),
    ("route-17-n-0", V1, show(*[route(1), position()] * 16, route(0)), "refused 2 26 2 149 32 5"),
    ("positions-128-1", V1, show(route(128), *[position()] * 128, route(1), position()), "refused 2 27 2 522 32 5"),
    ("positions-64-65", V1, show(*[r for n in (64, 65) for r in [route(n), *[position()] * n]]), "refused 2 27 2 266 32 5"),
    ("positions-1-128", V1, show(route(1), position(), route(128)), "refused 2 27 2 14 32 5"),
    ("positions-1-127", V1, show(route(1), position(), route(127), *[position()] * 127), "accepted 1 2 128"),
]

TABLES = [
    ("next-itself", V1, show(route(2), position([0]), position()), "refused 2 31 3 10 33 5"),
    ("next-earlier", V1, show(route(2), position(), position([0])), "refused 2 31 3 14 33 5"),
    ("next-itself-second-route", V1, show(route(1), position(), route(2), position([1]), position()), "refused 2 31 3 19 33 5"),
    ("next-in-later-route", V1, show(route(1), position([1]), route(1), position()), "refused 2 31 3 10 33 5"),
    ("next-in-earlier-route", V1, show(route(1), position(), route(2), position([0]), position()), "refused 2 31 3 19 33 5"),
    ("next-beyond-all", V1, one([1]), "refused 2 31 3 10 33 5"),
    ("next-255", V1, show(route(2), position([255]), position()), "refused 2 31 3 10 33 5"),
    ("next-128-of-128", V1, show(route(128), *[position()] * 127, position([128])), "refused 2 31 3 518 33 5"),
    ("next-twice", V1, show(route(2), position([1, 1]), position()), "refused 2 31 3 10 33 6"),
    ("next-twice-apart", V1, show(route(4), position([1, 2, 3, 1]), *[position()] * 3), "refused 2 31 3 10 33 8"),
    ("next-second-wrong", V1, show(route(2), position([1, 2]), position()), "refused 2 31 3 10 33 6"),
    ("next-before-venue", V1, one([0], [(1, 1)]), "refused 2 31 3 10 33 8"),
    ("next-before-capacity", V1, one([0], [(0, 2)]), "refused 2 31 3 10 33 8"),
    ("next-at-the-limits", V_FULL, S_FULL_SELF, "refused 2 31 3 7041 33 53"),
]

FIT = [
    ("resource-missing", V1, one([], [(1, 1)]), "refused 2 32 4 10 33 7"),
    ("resource-missing-255", V1, one([], [(255, 1)]), "refused 2 32 4 10 33 7"),
    ("resource-missing-16", venue(*[resource(1)] * 16), one([], [(16, 1)]), "refused 2 32 4 10 33 7"),
    ("needs-17", V_FULL, one([], ALL_NEEDS + [(16, 1)]), "refused 2 32 4 10 33 55"),
    ("resource-missing-later", V1, show(route(2), position(), position([], [(1, 1)])), "refused 2 32 4 14 33 7"),
    ("venue-before-capacity", V1, one([], [(0, 2), (1, 1)]), "refused 2 32 4 10 33 10"),
    ("need-above", venue(resource(300)), one([], [(0, 301)]), "refused 2 33 4 10 33 7"),
    ("need-256-of-255", venue(resource(255)), one([], [(0, 256)]), "refused 2 33 4 10 33 7"),
    ("need-above-one", V1, one([], [(0, 2)]), "refused 2 33 4 10 33 7"),
    ("need-above-most", venue(resource(65534)), one([], [(0, 65535)]), "refused 2 33 4 10 33 7"),
    ("need-above-second", V, one([], [(0, 1), (1, 3)]), "refused 2 33 4 10 33 10"),
    ("need-above-its-own", venue(resource(9), resource(1)), one([], [(1, 9)]), "refused 2 33 4 10 33 7"),
]

# A refused position comes before whatever is wrong in a later field, which begins at 14 after an
# empty position.
BAD_POSITIONS = [
    ("next", position([0]), "refused 2 31 3 10 33 5"),
    ("venue", position([], [(1, 1)]), "refused 2 32 4 10 33 7"),
    ("capacity", position([], [(0, 2)]), "refused 2 33 4 10 33 7"),
]
BAD_TAILS = [
    ("21", b"", "refused 2 21 1 14 0 0"),
    ("22", b"\x7f\0\1", "refused 2 22 1 14 127 3"),
    ("23", field(0x30), "refused 2 23 2 14 48 3"),
    ("24", position(), "refused 2 24 2 14 33 4"),
    ("25", field(END, b"\0"), "refused 2 25 2 14 127 4"),
    ("26", route(0), "refused 2 26 2 14 32 5"),
    ("27", route(128), "refused 2 27 2 14 32 5"),
    ("28", field(END) + b"\0", "refused 2 28 1 17 0 1"),
]
START = header(SHOW_KIND) + route(1)

ORDER = (
    [(f"tail-{tail}", V1, START + position() + rest, line) for tail, rest, line in BAD_TAILS]
    + [
        (f"{bad}-before-{tail}", V1, START + place + rest, line)
        for bad, place, line in BAD_POSITIONS
        for tail, rest, _ in BAD_TAILS
    ]
    + [
        ("capacity-before-next", V1, show(route(2), position([], [(0, 2)]), position([1])), "refused 2 33 4 10 33 7"),
        ("next-before-next", V1, show(route(2), position([0]), position([1])), "refused 2 31 3 10 33 5"),
        ("range-before-tag", venue(resource(0), field(0x02)), S, "refused 1 26 2 5 16 14"),
        ("many-before-turn", venue(*[resource(1)] * 17, route(1)), S, "refused 1 27 2 229 16 14"),
        ("venue-before-empty-show", V_ZERO, b"", "refused 1 26 2 5 16 14"),
        ("venue-before-refused-show", V_ZERO, show(), "refused 1 26 2 5 16 14"),
        ("venue-end-before-show", V1 + b"\0", b"\x01", "refused 1 28 1 22 0 1"),
        ("venue-cut-before-show", V[:-3], one([0]), "refused 1 21 1 33 0 0"),
    ]
)

NAMED = ACCEPTED + CUT + UNFAMILIAR + TURN + LENGTH + RANGE + MANY + TABLES + FIT + ORDER

# Lines that do not have the form of a case.
BAD_LINES = [
    "bad-alone",
    "bad-one-file 01",
    "bad-no-file  01",
    "bad-three-files 01 01 01",
    "bad-odd 010 -",
    "bad-digit 0g -",
    "bad-upper 0A -",
    "bad-sign - +1",
    "bad-space-at-end - - ",
]


# Random pairs.


def some_venue(rng, most):
    count = rng.randint(1, most)
    return [rng.choice([1, 2, 300, 65535, rng.randint(1, 65535)]) for _ in range(count)]


def some_position(rng, own, stop, capacities):
    after = range(own + 1, stop)
    nexts = rng.sample(after, rng.randint(0, min(4, len(after))))
    used = sorted(rng.sample(range(len(capacities)), rng.randint(0, min(3, len(capacities)))))
    return position(nexts, [(r, rng.choice([1, capacities[r], rng.randint(1, capacities[r])])) for r in used])


def some_pair(rng, most_resources, most_routes, most_positions):
    """A valid pair, each file as a list of its fields."""
    capacities = some_venue(rng, most_resources)
    parts, first = [header(SHOW_KIND)], 0
    for _ in range(rng.randint(1, most_routes)):
        stop = first + rng.randint(1, most_positions)
        parts.append(route(stop - first))
        parts += [some_position(rng, own, stop, capacities) for own in range(first, stop)]
        first = stop
    resources = [resource(c, rng.randrange(256), rng.randbytes(8)) for c in capacities]
    return [header(VENUE_KIND), *resources, field(END)], parts + [field(END)]


def split(data):
    """The fields of a good file, as bytes."""
    return [field(f.tag, f.body) for f in fields(data)]


def changed_length(rng, part):
    length = word(part[1:3])
    length = rng.choice([0, length - 3, length - 1, length + 1, length + 3, rng.randrange(65536)])
    return part[:1] + (length % 65536).to_bytes(2, "big") + part[3:]


def unfamiliar(rng):
    tag = rng.choice([t for t in range(256) if t not in TAGS])
    return field(tag, rng.randbytes(rng.choice([0, 1, 2, 11])))


def with_fields_damaged(rng, parts):
    """Doubles, removes or swaps fields, changes a length, or puts in a field of an unfamiliar tag."""
    parts, i, j = list(parts), rng.randrange(len(parts)), rng.randrange(len(parts))
    way = rng.randrange(5)
    if way == 0:
        parts.insert(j, parts[i])
    elif way == 1:
        del parts[i]
    elif way == 2:
        parts[i], parts[j] = parts[j], parts[i]
    elif way == 3:
        parts[i] = changed_length(rng, parts[i])
    else:
        parts.insert(i, unfamiliar(rng))
    return b"".join(parts)


def with_bytes_damaged(rng, data):
    """Changes a byte, cuts the file, or adds bytes at its end."""
    i, way = rng.randrange(len(data)), rng.randrange(8)
    if way == 0:
        return data[:i]
    if way == 1:
        return data + rng.randbytes(rng.randint(1, 4))
    byte = data[i] ^ (1 << rng.randrange(8)) if way < 5 else rng.choice([0, 1, 2, 3, 4, 5, 16, 127, 128, 255])
    return data[:i] + bytes([byte]) + data[i + 1 :]


def damaged(rng, parts):
    if rng.randrange(2):
        return with_fields_damaged(rng, parts)
    data = b"".join(parts)
    for _ in range(rng.randint(1, 3)):
        data = with_bytes_damaged(rng, data or b"\0")
    return data


def damaged_pair(rng, pair):
    venue_parts, show_parts = pair
    which = rng.randrange(8)  # mostly the show alone, since a refused venue hides it
    return (
        damaged(rng, venue_parts) if which <= 1 else b"".join(venue_parts),
        damaged(rng, show_parts) if which != 0 else b"".join(show_parts),
    )


def random_cases():
    rng = Random(20)
    small, large = (split(V), split(S)), (split(V_FULL), split(S_FULL))
    for i in range(30):
        good = some_pair(rng, 16, 5, 6)
        yield f"good-{i}", b"".join(good[0]), b"".join(good[1])
    for i in range(120):
        yield f"small-{i}", *damaged_pair(rng, small)
    for i in range(300):
        yield f"random-{i}", *damaged_pair(rng, some_pair(rng, 6, 4, 5))
    for i in range(10):
        yield f"large-{i}", *damaged_pair(rng, large)


# The files of the program that runs the cases.


def line(label, venue_file, show_file):
    return f"{label} {venue_file.hex() or '-'} {show_file.hex() or '-'}"


def verdict(label, said, venue, show):
    # What is accepted is written back to the byte, so the lengths are those of the files.
    back = f" written {len(venue)} {len(show)}" if said.startswith("accepted") else ""
    return f"{label} {said}{back}"


def main():
    given, expected = [], []
    for label, venue_file, show_file, stated in NAMED:
        found = answer(venue_file, show_file)
        assert found == stated, f"{label}: stated {stated}, found {found}"
        given.append(line(label, venue_file, show_file))
        expected.append(verdict(label, stated, venue_file, show_file))
    for label, venue_file, show_file in random_cases():
        given.append(line(label, venue_file, show_file))
        expected.append(verdict(label, answer(venue_file, show_file), venue_file, show_file))
    for text in BAD_LINES:
        given.append(text)
        expected.append(f"{text.split()[0]} bad")
    assert len({text.split()[0] for text in given}) == len(given), "a label stands twice"
    cases = Path(__file__).resolve().parents[1] / "crates" / "cases"
    (cases / "stdin").write_text("\n".join(given) + "\n")
    (cases / "stdout").write_text("\n".join(expected) + "\n")


if __name__ == "__main__":
    main()
