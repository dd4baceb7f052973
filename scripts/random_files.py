"""Makes random layers and topologies as texts, in odd forms of many kinds, about half of them with faults; see compare.py."""
import random
import re

rng = random.Random()
one_of = rng.choice
loose = wrong = 0.0
known = []


def may(p):
    """Whether something lawful but odd comes here."""
    return rng.random() < p * loose


def errs(p):
    """Whether a fault comes here."""
    return rng.random() < p * wrong


def several(least=1):
    return range(one_of([least, least, least + 1, least + 2]) if not may(0.03) else 0)


# ---- JSON


def space():
    return one_of([" ", "\n", "\t", "\r", "  \n"]) if may(0.1) else ""


def name(text):
    if may(0.02):
        i = rng.randrange(len(text))
        return '"%s\\u%04x%s"' % (text[:i], ord(text[i]), text[i + 1 :])
    return '"%s"' % (text + (one_of(["x", "\\n", "\\", "\u00e9", '\\"']) if errs(0.01) else ""))


def listed(items, opened="[", closed="]"):
    out = opened
    for i, item in enumerate(items):
        comma = one_of(["", ",,", ";"]) if errs(0.001) else "," if i else ""
        out += comma + space() + item + space()
    return out + ("," if errs(0.001) else "") + (one_of(["", "}", "]", "]]"]) if errs(0.001) else closed)


def members_of(members):
    if may(0.1):
        members.append((name(one_of(["bbox", "crs", "title", "typ", "types"])), anything()))
    if may(0.02):
        n = one_of([100, 121, 122, 123] + ([125, 127, 128, 249, 255, 256] if wrong else []))
        members.append(('"deep"', "[" * n + "]" * n))
    if errs(0.02):
        members.append(one_of(members))
    if errs(0.02):
        members.pop()
    if may(0.3):
        rng.shuffle(members)
    return listed([n + space() + ":" + space() + v for n, v in members], "{", "}")


def anything(deep=0):
    kind = rng.randrange(8)
    if kind < 2 and deep < 3:
        return listed([anything(deep + 1) for _ in range(rng.randrange(3))])
    if kind < 4 and deep < 3:
        return listed(['"k%d":%s' % (one_of([0, i]), anything(deep + 1)) for i in range(rng.randrange(3))], "{", "}")
    return one_of(["null", "true", "false", "1", "-2.50", '"text"', '"\\u00e9\\n"', '"\\ud83d\\ude00"', '"é"', '""', "1e5"])


FAULTY_NUMBERS = ["01", "-", ".5", "1.", "+1", "--1", "null", '"1"', "1e", "NaN", "[1]", "{}", "1E+", "true"]
FAULTY_NUMBERS += ["1234567890123456789012345", "100000000.1", "1e400", "-3e9", "300000000.5", "99999999.99999995"]


def number():
    if errs(0.01):
        return one_of(FAULTY_NUMBERS)
    text = one_of(["", "-"]) + str(one_of([0, 1, 7, 12, 179, 99999999, 5]))
    kind = rng.random() if loose else 0.0
    if kind < 0.4:
        text += "." + "".join(one_of("0123456789") for _ in range(one_of([1, 3, 7, 9, 9])))
    elif kind < 0.6:
        text += "." + "".join(one_of("012345678") for _ in range(one_of([10, 11, 13, 15, 17, 18, 25])))
    elif kind < 0.65:
        text += "." + one_of(["0000000005", "0000000004999999999", "499999999500000000000000001", "0" * 30 + "1"])
    elif kind < 0.7:
        text += one_of(["e0", "e-3", ".5e-9", "E-20", "e-400"])
    return text if not may(0.03) else one_of(["-0", "-0.0", "0e5", "0E999", "100000000", "-1e8", "1e+7", "5e-10"])


def position(x, y):
    """A position of these two, perhaps with more after them, or with fewer."""
    more = [one_of([number(), number(), "null", "[]", "{}", '"z"', "[[1]]"]) for _ in range(one_of([1, 1, 2]))] if may(0.1) else []
    return listed([x, y, *more] if not errs(0.01) else [x, y][: rng.randrange(2)])


# ---- shapes, of which `single` makes a position, `line(closed)` a line or a ring


def shape(part, single, line, deep=0):
    """The members of a geometry object whose lines stand in the member of the name `part`."""
    kind = one_of(["Point", "MultiPoint", "LineString", "MultiLineString"] + ["Polygon", "MultiPolygon"] * 2)
    if loose and deep < 3 and rng.random() < 0.1:
        inside = [members_of(shape(part, single, line, deep + 1)) for _ in several()]
        return [(name("type"), '"GeometryCollection"'), (name("geometries"), listed(inside))]
    if kind.endswith("Point"):
        part = "coordinates"
    values = {
        "Point": single,
        "MultiPoint": lambda: listed([single() for _ in several()]),
        "LineString": lambda: line(False),
        "MultiLineString": lambda: listed([line(False) for _ in several()]),
        "Polygon": lambda: listed([line(True) for _ in several()]),
        "MultiPolygon": lambda: listed([listed([line(True) for _ in several()]) for _ in several()]),
    }
    value = values[kind]() if not may(0.03) else "[]"
    if errs(0.02):
        value = one_of(["[[]]", "[[[]]]", "[[[[]]]]", "null", "{}", "3", "[1]", "[[1]]", "[-1]", "[[0]]"])
    if errs(0.02):
        kind = one_of(["Curve", "point", "Feature", "Topology", "Point", "LineString"])
    return [(name("type"), '"%s"' % kind if not errs(0.01) else one_of(["null", "1", "[]"])), (name(part), value)]


def with_feature(members):
    """The members of an identifier and of properties, after these."""
    if rng.random() < 0.3:
        members.append((name("id"), one_of(["1", '"a"', "null", "1.50", "-0", '"\\u0041"'] if not errs(0.05) else ["[]", "true", "{}"])))
    if rng.random() < 0.6:
        properties = listed(['"p%d":%s' % (i, anything()) for i in range(rng.randrange(3))], "{", "}")
        members.append((name("properties"), one_of([properties, properties, "null", "{}"]) if not errs(0.03) else one_of(["[]", "7"])))
    return members


# ---- layers


def point():
    if len(known) < 5 or rng.random() < 0.4:
        known.append((number(), number()))
    return position(*one_of(known))


def line(closed):
    if may(0.02):
        return "[]"
    least = 4 if closed else 2
    points = [point() for _ in range(one_of([least, least + 1, least + 3]) if not errs(0.05) else rng.randrange(5))]
    if closed and points and not errs(0.03):
        points[-1] = points[0]
    return listed(points)


def feature():
    geometry = members_of(shape("coordinates", point, line)) if not may(0.05) else "null"
    if errs(0.02):
        geometry = one_of(["{}", "[]", "7", '{"type":"Point"}', '{"coordinates":[1,2]}'])
    kind = '"Feature"' if not errs(0.02) else one_of(['"feature"', "null", '"Point"', "1"])
    return members_of(with_feature([(name("type"), kind), (name("geometry"), geometry)]))


def layer():
    known.clear()
    if loose and rng.random() < 0.1:
        return one_of([feature, lambda: members_of(shape("coordinates", point, line))])()
    features = [feature() if not errs(0.01) else one_of(["null", "{}", "[]", "1"]) for _ in several()]
    kind = '"FeatureCollection"' if not errs(0.02) else one_of(['"Feature"', '"FeatureCollections"', "null"])
    return members_of([(name("type"), kind), (name("features"), listed(features) if not errs(0.01) else one_of(["null", "{}"]))])


# ---- topologies


def whole(k):
    """A number text of this whole number."""
    return one_of([f"{k}.0", f"{k}e0", f"{k * 10}e-1", f"{k}E+00", f"-{k}" if k == 0 else f"{k}.000"]) if may(0.1) else str(k)


def cell():
    return rng.randrange(-9, 9999) if not errs(0.005) else one_of([2**31, -(2**31), 2**31 + 1, 2**32, 2**32 + 1, 10**30])


def arc(places):
    """An arc along these places: whole numbers of a grid, or texts."""
    if isinstance(places[0][0], int):
        steps = zip([(0, 0)] + places, places)
        return listed([position(whole(x - a), whole(y - b)) if not errs(0.003) else position("0.5", "1") for (a, b), (x, y) in steps])
    return listed([position(x, y) for x, y in places])


def along(ends, closed):
    """Indexes of arcs that meet, each a pair of numbers of its ends, and back to the first if it is a ring."""
    if may(0.02) or not ends:
        return "[]"
    path = [one_of(list(ends))]
    while rng.random() < 0.5:
        path.append(one_of([i for i in ends if ends[i][0] == ends[path[-1]][1]]))
    if closed and ends[path[0]][0] != ends[path[-1]][1] and not errs(0.1):
        path += [~i for i in reversed(path)]
    bad = ["0.5", "99", "-99", "9223372036854775807", "-9223372036854775809", "1e30", "1e-400", "null", '"0"', "0", "-1", "1"]
    return listed([whole(i) if not errs(0.05) else one_of(bad) for i in path])


def topology():
    is_gridded = rng.random() < 0.5

    def placed():
        return (cell(), cell()) if is_gridded else (number(), number())

    nodes = [placed() for _ in range(one_of([1, 2, 3]))]
    arcs, ends = [], {}
    for i in several(2):
        start, end = rng.randrange(len(nodes)), rng.randrange(len(nodes))
        arcs.append(arc([nodes[start], *(placed() for _ in range(rng.randrange(5))), nodes[end]]))
        ends[i], ends[~i] = (start, end), (end, start)
    if errs(0.03):
        arcs.append(one_of(["[]", "[[0,0]]", "null", "[[0],[1]]"]))

    def single():
        return position(*map(whole if is_gridded else str, placed()))

    def geometry():
        if may(0.1):
            return members_of(with_feature([(name("type"), "null")]))
        return members_of(with_feature(shape("arcs", single, lambda closed: along(ends, closed))))

    def collection():
        return members_of([(name("type"), '"GeometryCollection"'), (name("geometries"), listed([geometry() for _ in several()]))])

    objects = [name(one_of("abc") if errs(0.1) else "abc"[i]) + ":" + one_of([geometry, collection])() for i in several()]
    members = [(name("type"), '"Topology"' if not errs(0.02) else one_of(['"topology"', "null", "7"]))]
    if is_gridded:
        steps = ["0.1", "1", "0.000000001", "0.036003600360036005", "1e-3", "0", "-1"] if not errs(0.05) else ["3e9", '"1"', "null"]
        offsets = ["0", "-180", "-89.99892578124998", "0.5e-10", "1E2"] if not errs(0.05) else ["300000000", "1e400", "[]"]
        pairs = [(name("scale"), position(one_of(steps), one_of(steps))), (name("translate"), position(one_of(offsets), one_of(offsets)))]
        members.append((name("transform"), members_of(pairs)))
    elif may(0.05):
        members.append((name("transform"), "null"))
    members += [(name("objects"), listed(objects, "{", "}")), (name("arcs"), listed(arcs))]
    return members_of(members)


def mangled(text):
    """A text with a place or two in which a token is changed, left out or repeated."""
    for _ in range(one_of([0, 1, 1, 2])):
        tokens = [(it.start(), it.end()) for it in re.finditer(r'-?[0-9.]+|"[^"]*"|[^\s]', text)]
        if not tokens:
            break
        start, end = one_of(tokens)
        to = one_of(tokens)[1] if rng.random() < 0.1 else end
        token = text[start:end]
        put = number() if token[0] in "-0123456789" else one_of(['"type"', '"arcs"', '"Polygon"', '"Point"', '"x"', "null"])
        text = text[:start] + one_of([put, put, "", token * 2, token + "," + token, put + "," + token]) + text[to:]
    return text


# ---- bytes


def spoiled(text):
    """The bytes of a text, perhaps with a mark of the byte order, cut, continued or with another byte."""
    data = (space() + text + space()).encode()
    if may(0.05):
        data = b"\xef\xbb\xbf" + data * (1 if not errs(0.1) else 2)
    if errs(0.03):
        data = data[: rng.randrange(len(data) + 1)]
    if errs(0.03):
        data += one_of([b"x", b" {}", b",", b"\x00", b"]", b"\xff"])
    if errs(0.03) and data:
        i = rng.randrange(len(data))
        data = data[:i] + bytes([one_of([0, 34, 44, 58, 91, 92, 93, 123, 125, 48, 0x80, 0xFF, 0xC3])]) + data[i + 1 :]
    return data


def vary(tame=False):
    """Chooses how odd the next file shall be, and how full of faults; a tame one is neither."""
    global loose, wrong
    loose, wrong = (0.0, 0.0) if tame else (one_of([0.0, 0.3, 1.0, 2.0]), one_of([0.0, 0.0, 0.3, 1.0]))


def random_layer(tame=False):
    vary(tame)
    return spoiled(layer())


def random_topology():
    vary()
    return spoiled(topology())


def random_mangled(text):
    vary()
    return spoiled(mangled(text))
