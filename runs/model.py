#!/usr/bin/env python3
"""Writes what the stored runs are fed and what they should print, from the scope's text alone.

Products go by tables of logarithms and exponents, so that no step is the library's.
Run as: python3 runs/model.py  (from anywhere; it writes runs/maplist, runs/stores, runs/captions, the stdout of crates/maps, and stdin and stdout of
crates/stores and crates/captions)
"""
import os
import random

ORDER = 65535
EXP, LOG = [0] * ORDER, {}
value = 1
for power in range(ORDER):
    EXP[power], LOG[value] = value, power
    value <<= 1
    if value >> 16:
        value ^= 0x1100B


def times_alpha(symbol, power):
    return EXP[(LOG[symbol] + power) % ORDER] if symbol else 0


def component(data, j):
    data = data + b"\0" * (len(data) % 2)
    total = 0
    for i in range(0, len(data), 2):
        total ^= times_alpha(data[i] | data[i + 1] << 8, i // 2 * j)
    return total


def field(tag, content):
    return bytes([tag]) + len(content).to_bytes(2, "little") + content


def header(n, page, size):
    return field(1, bytes([n])) + field(2, page.to_bytes(4, "little")) + field(3, size.to_bytes(4, "little"))


def entry(components):
    return field(4, b"".join(c.to_bytes(2, "little") for c in components))


def make(n, page, bucket):
    pages = [bucket[at : at + page] for at in range(0, len(bucket), page)]
    return header(n, page, len(bucket)) + b"".join(entry([component(p, j) for j in range(1, n + 1)]) for p in pages)


def listing(n, page, bucket):
    pages = [bucket[at : at + page] for at in range(0, len(bucket), page)]
    lines = [f"n {n} page {page} bucket {len(bucket)} pages {len(pages)}"]
    for k, p in enumerate(pages):
        lines.append(" ".join([str(k)] + [f"{component(p, j):04x}" for j in range(1, n + 1)]))
    return "\n".join(lines) + "\n"


def refused(place):
    return f"map refused at {place}\n"


def maplist_runs():
    bucket = bytes.fromhex("010002000300")
    good = make(2, 4, bucket)
    assert good.hex() == "010100020204000400000003040006000000040400050009000404000300" + "0300"
    page_3 = good[:7] + b"\x03" + good[8:]
    n_3 = b"\x01\x01\x00\x03" + good[4:]
    yield "case-12", good, listing(2, 4, bucket)
    yield "cut-to-31", good[:31], refused(25)
    yield "one-byte-more", good + b"\0", refused(32)
    yield "page-3", page_3, refused(4)
    yield "no-bytes", b"", refused(0)
    yield "empty-bucket", make(3, 128, b""), listing(3, 128, b"")
    yield "n-changed", n_3, refused(18)
    yield "pages-4097", header(1, 2, 8193), refused(11)
    longest = bytes((37 * i + i // 251) % 256 for i in range(4 * 4096))
    yield "longest", make(4, 4, longest), listing(4, 4, longest)
    yield "longest-and-more", make(4, 4, longest) + b"\0" * 9, refused(45074)


def maps_stdout():
    text = []

    def line(what, answer, output):
        text.append(f"{what}: {answer}")
        text.append((output + b"\xEE" * 40)[:40].hex())

    def made(what, n, page, bucket):
        line(what, f"bytes {len(make(n, page, bucket))}", make(n, page, bucket))

    made("case 12", 2, 4, bytes.fromhex("010002000300"))
    line("n 0, page 3", "refused 1 0", b"")
    line("n 5, page 2", "refused 1 0", b"")
    line("page 0", "refused 2 0", b"")
    line("page 3", "refused 2 0", b"")
    line("page 65538", "refused 2 0", b"")
    line("8193 bytes in pages of 2", "refused 3 0", b"")
    line("8192 bytes in pages of 2, short by one", "refused 7 45074", b"")
    made("8192 bytes in pages of 2", 4, 2, b"\x5A" * 8192)
    made("65536 bytes in a page of 65536", 3, 65536, b"\x5A" * 65536)
    made("65537 bytes in pages of 65536", 3, 65536, b"\x5A" * 65537)
    made("no bytes", 4, 65536, b"")
    return "\n".join(text) + "\n"


class Refused(Exception):
    pass


def read(file):
    """n, page bytes, bucket bytes and page count of a map, or its first break."""

    def kept(rule, place):
        if not rule:
            raise Refused(5, place)

    def value(place, tag, size):
        kept(file[place : place + 3] == bytes([tag, size, 0]) and len(file) >= place + 3 + size, place)
        return int.from_bytes(file[place + 3 : place + 3 + size], "little")

    n = value(0, 1, 1)
    kept(1 <= n <= 4, 0)
    page = value(4, 2, 4)
    kept(page % 2 == 0 and 2 <= page <= 65536, 4)
    bucket = value(11, 3, 4)
    pages = -(-bucket // page)
    kept(bucket <= 16777216 and pages <= 4096, 11)
    for k in range(pages):
        value(18 + k * (3 + 2 * n), 4, 2 * n)
    end = 18 + pages * (3 + 2 * n)
    kept(len(file) == end, end)
    return n, page, bucket, pages


class Backup:
    """An image and a map, in place."""

    def __init__(self, image, map):
        self.image, self.map = image, map

    def open(self, *lengths):
        self.n, self.page, bucket, self.pages = read(bytes(self.map))
        if any(length != bucket for length in lengths):
            raise Refused(6, 0)

    def part(self, bucket, k):
        return bucket[k * self.page : (k + 1) * self.page]

    def signed(self, bucket, k):
        """Where the entry of page k stands, and what it would be for the page in this bucket."""
        own = entry([component(bytes(self.part(bucket, k)), j) for j in range(1, self.n + 1)])
        return slice(18 + k * len(own), 18 + (k + 1) * len(own)), own

    def whole(self, bucket, k):
        place, own = self.signed(bucket, k)
        return self.map[place] == own

    def pass_page(self, table, k):
        if self.whole(table, k):
            return False
        place, own = self.signed(table, k)
        self.image[k * self.page : (k + 1) * self.page] = self.part(table, k)
        self.map[place] = own
        return True

    def store(self, table, room):
        self.open(len(table), len(self.image))
        if room < self.pages:
            raise Refused(7, self.pages)
        return [k for k in range(self.pages) if self.pass_page(table, k)]

    def step(self, table, k):
        self.open(len(table), len(self.image))
        if k > self.pages:
            raise Refused(9, 0)
        if k == self.pages:
            return "finished", k
        return ("written " if self.pass_page(table, k) else "kept ") + str(k), k + 1

    def load_page(self, k):
        self.open(len(self.image))
        if k >= self.pages:
            raise Refused(9, 0)
        if not self.whole(self.image, k):
            raise Refused(10, k)
        return self.part(self.image, k)

    def load_bucket(self, table):
        self.open(len(table), len(self.image))
        for k in range(self.pages):
            if not self.whole(self.image, k):
                raise Refused(10, k)
        return self.image


def make_map(n, page, image, room):
    if not 1 <= n <= 4:
        raise Refused(1, 0)
    if page % 2 or not 2 <= page <= 65536:
        raise Refused(2, 0)
    made = make(n, page, image)
    if room < len(made):
        raise Refused(7, len(made))
    return made


class Script:
    """What the program `stores` prints for a script, and the script."""

    def __init__(self):
        self.table, self.image, self.map, self.list = bytearray(12), bytearray(12), bytearray(96), [99] * 8
        self.lent_image = self.lent_map = 0
        self.given, self.text = b"", []

    def say(self, *lines):
        self.text.extend(lines)

    def prints(self):
        return "".join(line + "\n" for line in self.text)

    def do(self, letter, a=0, b=0):
        self.given += bytes([ord(letter), a, b])
        buffers = {"T": self.table, "I": self.image, "M": self.map}
        if letter in buffers:
            if a < len(buffers[letter]):
                buffers[letter][a] = b
        elif letter == "i":
            self.lent_image = min(a, 12)
        elif letter == "m":
            self.lent_map = min(a, 96)
        else:
            getattr(self, "do_" + letter)(a, b, Backup(self.image[: self.lent_image], self.map[: self.lent_map]))

    def put_back(self, backup):
        self.image[: self.lent_image], self.map[: self.lent_map] = backup.image, backup.map

    def do_n(self, n, page, backup):
        try:
            made = make_map(n, page, bytes(backup.image), self.lent_map)
            self.map[: len(made)] = made
            self.say(f"bytes {len(made)}")
        except Refused as r:
            self.say("refused %d %d" % r.args)
        self.say(self.map.hex())

    def do_s(self, t, room, backup):
        try:
            found = backup.store(self.table[:t], min(room, 8))
            self.list[: len(found)] = found
            self.put_back(backup)
            self.say(f"pages {len(found)}")
        except Refused as r:
            self.say("refused %d %d" % r.args)
        self.say(self.image.hex(), self.map.hex(), *map(str, self.list))

    def do_t(self, k, t, backup):
        try:
            answer, after = backup.step(self.table[:t], k)
            self.put_back(backup)
        except Refused as r:
            answer, after = "refused %d %d" % r.args, k
        self.say(answer, f"next {after}", self.image.hex(), self.map.hex())

    def do_p(self, k, _, backup):
        try:
            self.say("loaded", backup.load_page(k).hex())
        except Refused as r:
            self.say("refused %d %d" % r.args, "")

    def do_b(self, t, _, backup):
        try:
            moved = backup.load_bucket(self.table[:t])
            self.table[:t] = moved
            self.say(f"bytes {len(moved)}")
        except Refused as r:
            self.say("refused %d %d" % r.args)
        self.say(self.table.hex())


def begun(size, n, page):
    """A table and an image that are the same, and the map made from it."""
    s = Script()
    for k in range(size):
        s.do("T", k, 5 * k + 1)
        s.do("I", k, 5 * k + 1)
    s.do("i", size)
    s.do("m", 96)
    s.do("n", n, page)
    s.do("m", len(make(n, page, bytes(s.image[:size]))))
    return s


def stores():
    s = begun(11, 2, 4)
    s.do("s", 11, 8)
    s.do("T", 0, s.table[0] - 1)  # two flags of one page, opposite ways
    s.do("T", 2, s.table[2] + 1)
    s.do("T", 10, 7)
    s.do("s", 11, 3)
    s.do("s", 11, 3)
    s.do("I", 4, 200)  # an image page damaged behind its entry is kept
    s.do("s", 11, 3)
    s.do("M", 28, 9)  # an entry that is not its page's is written
    s.do("s", 11, 3)
    return s


def steps():
    s = begun(11, 2, 4)
    s.do("T", 3, 250)
    s.do("T", 10, 250)
    for k in (0, 1, 2, 3, 4, 255, 0):
        s.do("t", k, 11)
    return s


def refusals():
    s = begun(11, 2, 4)
    for k in range(11):
        s.do("T", k, 9)
    for table, room in ((11, 2), (10, 2), (12, 8)):
        s.do("s", table, room)
        s.do("t", 9, table)
    s.do("b", 10)
    s.do("p", 3)
    s.do("M", 19, 5)  # a broken entry comes before all else
    s.do("s", 10, 2)
    s.do("t", 9, 10)
    s.do("p", 9)
    s.do("b", 10)
    s.do("M", 19, 4)
    s.do("m", 38)
    s.do("s", 11, 8)
    s.do("m", 40)
    s.do("t", 0, 11)
    s.do("m", 39)
    s.do("i", 10)
    s.do("s", 11, 8)
    s.do("p", 0)
    return s


def loads():
    s = begun(11, 3, 4)
    for k in range(4):
        s.do("p", k)
    s.do("T", 5, 0)
    s.do("b", 11)
    s.do("I", 10, 7)  # the short last page
    for k in range(3):
        s.do("p", k)
    s.do("T", 5, 0)
    s.do("b", 11)
    s.do("I", 5, 1)
    s.do("b", 11)
    return s


def empty():
    s = begun(0, 4, 2)
    s.do("s", 0, 0)
    s.do("t", 0, 0)
    s.do("t", 1, 0)
    s.do("p", 0)
    s.do("b", 0)
    s.do("b", 1)
    return s


def at_random(seed):
    """Sizes, edits, damage and calls by chance, most of them calls that are not refused."""
    chance = random.Random(seed)
    s = Script()
    for _ in range(20):
        size, n, page = chance.randint(0, 12), chance.randint(0, 5), chance.randint(0, 13)
        for k in range(size):
            s.do("I", k, chance.randint(0, 255))
        s.do("i", size)
        s.do("m", 96)
        s.do("n", n, page)
        if not (1 <= n <= 4 and page % 2 == 0 and page):
            continue
        pages = -(-size // page)
        whole = 18 + pages * (3 + 2 * n)
        s.do("m", whole + (chance.choice((-1, 1)) if chance.random() < 0.1 else 0))
        for _ in range(30):
            letter = chance.choice("TTTIMststpb")
            table = size if chance.random() < 0.9 else chance.randint(0, 12)
            if letter == "T":
                s.do("T", chance.randint(0, 11), chance.randint(0, 255))
            elif letter == "I" and chance.random() < 0.3:
                s.do("I", chance.randint(0, 11), chance.randint(0, 255))
            elif letter == "M" and chance.random() < 0.3:
                s.do("M", chance.randint(18, 95) if chance.random() < 0.8 else chance.randint(0, 17), chance.choice((0, 1, 2, 4, 5, 255)))
            elif letter == "s":
                s.do("s", table, min(8, pages) if chance.random() < 0.8 else chance.randint(0, 8))
            elif letter == "t":
                s.do("t", chance.randint(0, pages + 1), table)
            elif letter == "p":
                s.do("p", chance.randint(0, pages))
            elif letter == "b":
                s.do("b", table)
    return s


def stores_runs():
    for run in (steps, refusals, loads, empty):
        yield run.__name__, run()
    for seed in range(1, 5):
        yield f"random-{seed}", at_random(seed)


def symbols(data):
    return [data[i] | data[i + 1] << 8 for i in range(0, len(data), 2)]


def as_bytes(values):
    return b"".join(v.to_bytes(2, "little") for v in values)


def encode(plain):
    code = 0
    for k, symbol in enumerate(symbols(plain)):
        code ^= times_alpha(symbol, k)
        yield code


def decode(code):
    before = 0
    for k, symbol in enumerate(symbols(code)):
        yield times_alpha(symbol ^ before, -k)
        before = symbol


def hits(code, pattern):
    c, s1, size = symbols(code), component(pattern, 1), len(pattern) // 2
    for i in range(len(c) - size + 1):
        if c[i + size - 1] ^ (c[i - 1] if i else 0) == times_alpha(s1, i):
            yield i


def recode_tests(field, room):
    if len(field) > 65536:
        raise Refused(3, 0)
    if len(field) % 2:
        raise Refused(4, 0)
    if room < len(field):
        raise Refused(7, len(field))


def search_tests(field, pattern, room):
    if len(field) > 65536:
        raise Refused(3, 0)
    if len(field) % 2 or len(pattern) % 2:
        raise Refused(4, 0)
    needed = (len(field) - len(pattern)) // 2 + 1 if 0 < len(pattern) <= len(field) else 0
    if room < needed:
        raise Refused(7, needed)
    if not pattern:
        raise Refused(8, 0)


class Caption:
    """What the program `captions` prints for a script, and the script."""

    def __init__(self):
        self.field, self.pattern, self.output, self.list = bytearray(65538), bytearray(200000), bytearray(b"\xEE" * 65538), [99] * 32770
        self.lent = {"c": 0, "p": 0, "o": 0, "l": 0}
        self.given, self.text = b"", []

    def prints(self):
        return "".join(line + "\n" for line in self.text)

    def do(self, letter, number=0):
        self.given += letter.encode() + number.to_bytes(3, "little")
        place, high = number % 65536, number // 65536
        if letter in self.lent:
            self.lent[letter] = number
        elif letter in "CP":
            buffer = self.field if letter == "C" else self.pattern
            if place < len(buffer):
                buffer[place] = high
        elif letter in "FG":
            buffer = self.field if letter == "F" else self.pattern
            for i in range(len(buffer)):
                buffer[i] = high
                high = (high * 5 + 77) % 256
        elif letter == "B":
            self.field[:] = self.output
        else:
            getattr(self, "do_" + letter)(bytes(self.field[: self.lent["c"]]))

    def recode(self, field, new):
        try:
            recode_tests(field, min(self.lent["o"], 65538))
            written = as_bytes(new(field))
            self.output[: len(written)] = written
            self.text.append(f"bytes {len(written)}")
        except Refused as r:
            self.text.append("refused %d %d" % r.args)
        end = max(0, len(field) - 20)
        self.text += [self.output[:24].hex(), self.output[end : end + 24].hex()]

    def do_e(self, field):
        self.recode(field, encode)

    def do_d(self, field):
        self.recode(field, decode)

    def do_s(self, field):
        pattern, count = bytes(self.pattern[: self.lent["p"]]), 0
        try:
            search_tests(field, pattern, min(self.lent["l"], 32770))
            places = list(hits(field, pattern))
            count = len(places)
            self.list[:count] = places
            self.text.append(f"places {count}")
        except Refused as r:
            self.text.append("refused %d %d" % r.args)
        end = max(0, count - 4)
        self.text += map(str, self.list[:6] + self.list[end : end + 6])

    def put(self, field=None, pattern=None):
        for letter, lent, data in (("C", "c", field), ("P", "p", pattern)):
            if data is not None:
                for i, b in enumerate(data):
                    self.do(letter, i + 65536 * b)
                self.do(lent, len(data))


def captions():
    s = Caption()
    s.do("o", 65538)
    s.do("l", 32770)
    s.put(b"\1\0\2\0\3\0", b"\2\0\3\0")
    s.do("e")  # case 9
    s.do("B")
    s.do("s")  # case 10
    s.do("d")
    s.put(b"\2\0\0\0", b"\0\0\1\0")
    s.do("e")
    s.do("B")
    s.do("s")  # case 11
    return s


def caption_edges():
    s = Caption()
    s.do("F", 1 << 16)
    s.do("G", 1 << 16)
    for size, room in ((65536, 65536), (65536, 65535), (65535, 0), (65537, 0), (65538, 65538), (65534, 65538), (0, 0), (1, 0), (2, 1)):
        s.do("c", size)
        s.do("o", room)
        s.do("e")
        s.do("d")
    for size, pattern, room in (
        (65536, 65536, 1), (65536, 65536, 0), (65536, 65534, 1), (65536, 65534, 2), (65536, 65538, 0), (65536, 200000, 0), (65536, 199999, 0),
        (65537, 0, 0), (65537, 1, 0), (65535, 0, 0), (65536, 0, 0), (0, 0, 0), (0, 2, 0), (0, 1, 0), (2, 2, 0), (2, 2, 1), (4, 2, 1),
    ):  # fmt: skip
        s.do("c", size)
        s.do("p", pattern)
        s.do("l", room)
        s.do("s")
    return s


def caption_longest():
    """The bytes come round every 256, so that a pattern of them is found often."""
    s = Caption()
    s.do("F", 9 << 16)
    s.do("G", 9 << 16)
    s.do("c", 65536)
    s.do("o", 65536)
    s.do("l", 32768)
    s.do("e")
    s.do("B")
    for size in (2, 8, 256, 1024, 65280, 65536):
        s.do("p", size)
        s.do("s")
    s.do("P", 9 << 16 | 0)
    s.do("P", 200 << 16 | 3)
    s.do("p", 8)
    s.do("s")
    s.do("d")
    return s


def caption_random(seed):
    """Short fields over few symbols, so that patterns are found; a pattern cut from the field, or made up."""
    chance = random.Random(seed)
    s = Caption()
    for _ in range(14):
        few = [chance.randint(0, 65535) for _ in range(chance.randint(1, 3))]
        plain = as_bytes(chance.choice(few) for _ in range(chance.randint(0, 20)))[chance.random() < 0.1 :]
        at, size = chance.randint(0, 20) * 2, chance.randint(0, 4) * 2
        pattern = plain[at : at + size] if chance.random() < 0.6 else as_bytes(chance.choice(few) for _ in range(chance.randint(0, 3)))
        s.put(plain, pattern)
        s.do("o", len(plain) + chance.randint(-1, 6) if plain else 0)
        s.do("e")
        s.do("B")
        s.do("l", chance.choice((len(plain), len(plain), chance.randint(0, 8))))
        s.do("s")
        s.do("d")
    return s


def captions_runs():
    yield "edges", caption_edges()
    yield "longest", caption_longest()
    for seed in range(1, 5):
        yield f"random-{seed}", caption_random(seed)


def write(path, content):
    with open(path, "wb") as out:
        out.write(content)


here = os.path.dirname(os.path.abspath(__file__))
for name, given, prints in maplist_runs():
    write(f"{here}/maplist/{name}.in", given)
    write(f"{here}/maplist/{name}.out", prints.encode())
write(f"{here}/../crates/maps/stdout", maps_stdout().encode())
for name, script in stores_runs():
    write(f"{here}/stores/{name}.in", script.given)
    write(f"{here}/stores/{name}.out", script.prints().encode())
for name, script in captions_runs():
    write(f"{here}/captions/{name}.in", script.given)
    write(f"{here}/captions/{name}.out", script.prints().encode())
write(f"{here}/../crates/captions/stdin", captions().given)
write(f"{here}/../crates/captions/stdout", captions().prints().encode())
write(f"{here}/../crates/stores/stdin", stores().given)
write(f"{here}/../crates/stores/stdout", stores().prints().encode())
