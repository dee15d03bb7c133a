#!/usr/bin/env python3
"""What two programs answer to documents that are spelled in rare ways or are wrong: `mutated.py OLD NEW [COUNT [FIRST]]`.

Documents and lines of examples/ are changed at a few places, which follow from a number: literals, nulls, lists and objects around a
value, names spelled with escapes, members that come twice, texts as long as a name or text may be, nesting as deep as it may be and
deeper, and single bytes, which may be no UTF-8. `check` and `convert` of both programs are compared, their status and all that they
write, and what is converted has to convert to itself. Of each difference the number is told; the document of a number is written by
`mutated.py NUMBER`. It ends with 0 where there is none."""
import copy
import glob
import json
import os
import random
import re
import subprocess
import sys
from concurrent.futures import ThreadPoolExecutor

TOP = os.path.join(os.path.dirname(os.path.abspath(__file__)), "..")
COUNT = 22_000

# Values that a rule may trip over, as they are spelled.
NUMBERS = "0 -0 1.0 1e400 -1E-400 01 1. .5 5. +1 1e2 123456789012345678 1234567890123456789 48.85 2.35219999999".split() + ["1" * 64, "1" * 65]
KINDS = 'null true false "true" "1" "0" "TRUE" "" {} [] [[]] [{}] [null] [null,null] [""] {"value":null} {"value":""} {"value":"x"} {"value":1.50}'.split()
KINDS += '{"value":{"value":"x"}} [{"value":"x"},{"value":1}] ["x",1] [true] {"value":true} [["x"]] {"Value":"x"} {"value":["x"]} [{"value":"x","value":null}]'.split()
MOMENTS = ["2024-05-01T10:00:00" + rest for rest in ("", "Z", ".1239999+14:00", ".Z", "+14:01", "." + "1" * 42, "." + "1" * 43, "." + "1" * 44)]
MOMENTS += "2024-02-30T00:00:00Z 1969-12-31T23:59:59-01:00 1970-01-01T00:00:00+00:01 9999-12-31T23:59:59-00:01 2024-05-01T24:00:00Z".split()
MOMENTS += "2024-05-01T10:00:60Z 2024-05-01t10:00:00z 2000-02-29T23:59:59.999-14:00 1900-02-28T00:00:00Z".split()
SPANS = "PT1H -PT1S PT0S -PT0.0009S P1Y P0Y0M0DT0H1M30.000S P1M PT P P1D P1000000D P1000000DT0.001S P999999DT24H PT86400000000S".split()
SPANS += "PT999999999999999S PT1000000000000000S +PT1S P1DT PT1M1H PT.5S PT5.S P-1D".split()
DECIMALS = "180 180.00000009 180.0000001 -180 -180.0000001 -0.00000009 +1.5 . - 1.50 1,5 1e2".split()
ESCAPES = r"\ud83d\ude00 \ud83d \ude00 \ud83d\u0041 \u0000 \u0022\\\/\b\f\n\r\t \x \u12 \u12G4 \u0056".split() + ["\x7f", "\u2028", "a\\u00e9\xe9", " "]
SPELLED = NUMBERS + KINDS + ['"%s"' % text for text in MOMENTS + SPANS + DECIMALS + ESCAPES]
NAMES_SPELLED = r'"Siri" "siri" "value" "Value" "S\u0069ri" "ServiceDeliver\u0079" "" "MonitoredStopVisi\u0074" 1.5 "1.5" null'.split()
BYTES = [b"\xef\xbb\xbf", b"\xed\xa0\x80", b"\xc0\x80", b"\xf4\x90\x80\x80", b"\xff", b"//x\n", b"NaN", b"null", b" \t\r\n", b"\x0b", b"\xc2\xa0", b"1e5", b"-", b"\\u0000"]
SINGLE = b' \t\n\r,:[]{}"\\0-+.eE\x00\x1f\x7f\xc0\xff\xed\xa0\x80'


class Spelled(str):
    """A value or a name as it is spelled."""


class Members(list):
    """An object, as its members in order."""


def read(text):
    return json.loads(text, object_pairs_hook=Members, parse_float=Spelled, parse_int=Spelled)


def documents():
    """The documents of examples/, and those in its scripts and reports."""
    found = []
    for path in sorted(glob.glob(TOP + "/examples/*.json") + glob.glob(TOP + "/examples/messages/*")):
        with open(path, encoding="utf-8") as file:
            found.append(read(file.read()))
    for path in sorted(glob.glob(TOP + "/examples/*.script") + glob.glob(TOP + "/examples/*.report")):
        with open(path, encoding="utf-8") as file:
            texts = [line[line.index('{"Siri"') :] for line in file.read().split("\n")[:400] if '{"Siri"' in line]
        found += [read(text) for text in texts]
    return found


def names():
    """The names of rows."""
    found = set()
    for crate in ("siri_deliveries", "siri_items"):
        with open("%s/crates/%s/src/names.rt" % (TOP, crate), encoding="utf-8") as file:
            found.update(re.findall(r'"([A-Z][A-Za-z]+)"', file.read()))
    return sorted(found)


def text_of(value):
    if isinstance(value, Spelled):
        return str(value)
    if isinstance(value, Members):
        return "{%s}" % ",".join("%s:%s" % (text_of(name), text_of(one)) for name, one in value)
    if isinstance(value, list):
        return "[%s]" % ",".join(map(text_of, value))
    return json.dumps(value, ensure_ascii=False)


def places(value):
    """Each place below a value: the list or object, and which of it."""
    for place in range(len(value)) if isinstance(value, list) else ():
        yield value, place
        yield from places(at(value, place))


def at(within, place):
    return within[place][1] if isinstance(within, Members) else within[place]


def put(within, place, value):
    within[place] = (within[place][0], value) if isinstance(within, Members) else value


def objects(value):
    if isinstance(value, Members):
        yield value
    for within, place in places(value):
        if isinstance(at(within, place), Members):
            yield at(within, place)


def long_text(draw):
    size, unit = draw.choice([254, 255, 256, 16383, 16384, 16385]), draw.choice(["x", "é", "€", "\U0001f600", "\\u0061", "\\n"])
    width = 1 if unit.startswith("\\") else len(unit.encode())
    return Spelled('"%s%s"' % (unit * (size // width), "y" * (size % width)))


def deep(draw):
    depth = draw.choice([100, *range(118, 130), 200])
    begin, end = draw.choice([("[", "]"), ('{"a":', "}"), ('[{"a":', "}]")])
    depth //= begin.count("[") + begin.count("{")
    return Spelled(begin * depth + ("[]" if begin[0] == "[" else "1") + end * depth)


class Mutations:
    """Documents that are changed at some places."""

    def __init__(self):
        self.documents, self.names = documents(), names()

    def document(self, number):
        """The document of a number."""
        draw = random.Random(number * 7919 + 13)
        holder = [copy.deepcopy(draw.choice(self.documents))]
        if draw.random() < 0.15:
            holder[0][0][1].append(copy.deepcopy(draw.choice(self.documents)[0][1][0]))
        for _ in range(draw.choice([0, 1, 1, 1, 2, 2, 3, 5])):
            self.change(holder, draw)
        document = text_of(holder[0]).encode("utf-8", "surrogatepass")
        chance = draw.random()
        if chance < 0.17:
            return of_other_bytes(document, draw)
        return spaced(document, draw) if chance < 0.25 else document

    def change(self, holder, draw):
        """One change at one place."""
        found = list(places(holder))
        within, place = draw.choice(found) if draw.random() < 0.8 else draw.choice(found[:12])
        value = at(within, place)
        kind = draw.randrange(20)
        if kind < 6:
            put(within, place, Spelled(draw.choice(SPELLED)))
        elif kind < 13:
            around = [[value], [None, value], [value, copy.deepcopy(value)], Members([("value", value)]), [value, None], long_text(draw), deep(draw)]
            put(within, place, around[kind - 6])
        elif kind < 15:
            self.add_member(holder, found, draw)
        elif kind == 15:
            repeat_member(holder, draw)
        elif kind == 16 and isinstance(within, Members):
            within[place] = (Spelled(draw.choice(NAMES_SPELLED)) if draw.random() < 0.5 else draw.choice(self.names), value)
        elif kind == 17 and within is not holder:
            del within[place]
        elif kind == 18:
            draw.shuffle(within)
        elif kind == 19 and isinstance(within, Members):
            within[place] = (escaped(within[place][0], draw), value)

    def add_member(self, holder, found, draw):
        chosen = list(objects(holder[0]))
        if chosen:
            one = draw.choice(chosen)
            name = draw.choice(self.names) if draw.random() < 0.7 or not one else draw.choice(one)[0]
            value = copy.deepcopy(at(*draw.choice(found))) if draw.random() < 0.5 else Spelled(draw.choice(SPELLED))
            one.insert(draw.randrange(len(one) + 1), (name, value))


def repeat_member(holder, draw):
    """A member that comes twice, with another value first or last."""
    chosen = [one for one in objects(holder[0]) if one]
    if chosen:
        one = draw.choice(chosen)
        name, value = draw.choice(one)
        other = draw.choice([Spelled(draw.choice(SPELLED)), copy.deepcopy(value), None, [], Members()])
        one.insert(draw.choice([0, len(one)]), (name, other))


def escaped(name, draw):
    """A name with one letter spelled as an escape."""
    if isinstance(name, Spelled) or not name:
        return name
    place = draw.randrange(len(name))
    return Spelled('"%s\\u%04x%s"' % (name[:place], ord(name[place]), name[place + 1 :]))


def of_other_bytes(document, draw):
    """A document of which some bytes are changed, added or left out."""
    document = bytearray(document)
    for _ in range(draw.choice([1, 1, 1, 2, 4])):
        place, kind = draw.randrange(len(document) or 1), draw.randrange(8)
        some = document[place : place + draw.randrange(1, 40)]
        if kind == 0:
            document[place : place + 1] = bytes([draw.randrange(256)])
        elif kind == 1:
            document[place:place] = bytes([draw.choice(SINGLE)])
        elif kind == 2:
            document[place : place + 1] = b""
        elif kind == 3:
            document[place:place] = draw.choice(BYTES)
        elif kind == 4:
            del document[place:]
        elif kind == 5:
            document[place:place] = some
        elif kind == 6:
            document[place : place + len(some)] = b""
        else:
            document += draw.choice([b" ", b"\n", b"x", b"{}", b",", b"\x00", b"null", b'"'])
    return bytes(document)


def spaced(document, draw):
    """A document with spaces, or a mark at its front."""
    if draw.random() < 0.3:
        return BYTES[0] + document
    return draw.choice([b" ", b"\n\t", b"\r\n"]) + document.replace(b",", b" ,\n").replace(b":", b" :\t") + b" \n"


def told(siri, word, document):
    done = subprocess.run([siri, word], input=document, capture_output=True, check=False)
    return done.returncode, done.stdout, done.stderr


def differs(old, new, document):
    """Whether it was accepted, and what differs."""
    checked, converted = told(new, "check", document), told(new, "convert", document)
    if (told(old, "check", document), told(old, "convert", document)) != (checked, converted):
        return False, "the two programs differ"
    if converted[0] == 0 and told(new, "convert", converted[1]) != converted:
        return True, "what is converted doesn't convert to itself"
    return converted[0] == 0, None


def main(old, new, count=str(COUNT), first="0"):
    mutations = Mutations()
    numbers = range(int(first), int(first) + int(count))
    with ThreadPoolExecutor(os.cpu_count()) as pool:
        found = list(pool.map(lambda number: differs(old, new, mutations.document(number)), numbers))
    wrong = [(number, what) for number, (_, what) in zip(numbers, found) if what]
    for number, what in wrong[:20]:
        print("mutated: %d: %s" % (number, what))
    print("mutated: %s documents, %d accepted, %d wrong" % (count, sum(accepted for accepted, _ in found), len(wrong)))
    return not wrong


if __name__ == "__main__":
    if len(sys.argv) == 2:
        sys.stdout.buffer.write(Mutations().document(int(sys.argv[1])))
    else:
        sys.exit(not main(*sys.argv[1:]))
