#!/usr/bin/env python3
"""Prints target/bench/results.csv as tables, with the ratios that are aimed at beside those measured; or draws the signing as a picture.

Run as: bench/report.py               the tables, in Markdown
        bench/report.py PICTURE.svg   the picture, to that file
"""
import csv
import math
import sys
from pathlib import Path

RESULTS = Path(__file__).resolve().parent.parent / "target/bench/results.csv"
BUCKET = 1 << 24
NUMBERS = [1, 2, 4]
HAS_N = ["logarithm tables", "long logarithm tables", "Horner's rule"]  # the peers with a signature of n components


def read():
    """GB/s by what is done, size, n and candidate; and the candidates of each thing done, in their order."""
    speeds, names = {}, {}
    with open(RESULTS, newline="", encoding="ascii") as file:
        for row in csv.DictReader(file):
            key = row["what"], int(row["size"]), int(row["n"]), row["candidate"]
            speeds[key] = float(row["gbps"])
            names.setdefault(row["what"], {})[key[3], key[2]] = True
    return speeds, names


SPEEDS, NAMES = read()
SIZES = sorted({size for what, size, _, _ in SPEEDS if what == "sign"})
PEERS = list(dict.fromkeys(name for name, _ in NAMES["sign"] if name != "cotelark"))


def bytes_named(size):
    for unit, name in (1 << 20, "MiB"), (1 << 10, "KiB"):
        if size >= unit:
            return f"{size // unit} {name}"
    return f"{size} B"


def number(x):
    if x is None:
        return "-"
    return f"{x:.0f}" if x >= 100 else f"{x:.1f}" if x >= 10 else f"{x:.2f}"


def with_n(name, n):
    return f"{name}, n = {n}" if n else name


def table(head, rows):
    """Markdown, with columns of one width."""
    cells = [head] + [[row[0]] + [number(x) for x in row[1:]] for row in rows]
    widths = [max(len(row[i]) for row in cells) for i in range(len(head))]
    cells.insert(1, ["-" * widths[0]] + ["-" * (w - 1) + ":" for w in widths[1:]])
    for row in cells:
        print("| " + " | ".join([row[0].ljust(widths[0])] + [c.rjust(w) for c, w in zip(row[1:], widths[1:])]) + " |")
    print()


def speed(what, size, n, name):
    return SPEEDS.get((what, size, n, name))


def ratio(what, size, n, name, peer, peer_n):
    own, other = speed(what, size, n, name), speed(what, size, peer_n, peer)
    return own / other if own and other else None


def signing_ratio(size, n, peer):
    return ratio("sign", size, n, "cotelark", peer, n if peer in HAS_N else 0)


def signing():
    print("## Signing, GB/s\n")
    table(["page"] + list(map(bytes_named, SIZES)), [[with_n(name, n)] + [speed("sign", s, n, name) for s in SIZES] for name, n in NAMES["sign"]])
    for n in numbers_measured():
        print(f"## Signing with n = {n}: how many times as fast as its peers\n")
        table(["page"] + list(map(bytes_named, SIZES)), [[peer] + [signing_ratio(s, n, peer) for s in SIZES] for peer in PEERS])


def numbers_measured():
    return [n for n in NUMBERS if ("cotelark", n) in NAMES["sign"]]


# What is compared in a bucket: an operation, and its peer.
BUCKET_PAIRS = [
    ("make map", "sign the pages"),
    ("store, nothing changed", "sign the pages"),
    ("store, nothing changed", "copy"),
    ("store, nothing changed", "XXH3 store, nothing changed"),
    ("store by steps, nothing changed", "store, nothing changed"),
    ("store, all changed", "copy"),
    ("store, all changed", "XXH3 store, all changed"),
    ("store, all changed", "sign the pages and copy"),
    ("load bucket", "sign the pages and copy"),
    ("load page by page", "sign the pages"),
]


def buckets():
    columns = [(size, n) for size in sorted({s for what, s, _, _ in SPEEDS if what == "bucket"}) for n in NUMBERS]
    head = [f"{bytes_named(size)}, n = {n}" for size, n in columns]
    print("## A bucket of 16 MiB in pages, GB/s\n")
    names = dict.fromkeys(name for name, _ in NAMES["bucket"])
    table(["pages of"] + head, [[name] + [speed("bucket", s, n, name) for s, n in columns] for name in names])
    print("## The same: how many times as fast as its peer\n")
    pairs = [[f"{own} / {peer}"] + [ratio("bucket", s, n, own, peer, n) for s, n in columns] for own, peer in BUCKET_PAIRS]
    table(["pages of"] + head, pairs)


def captions():
    print("## Caption fields\n")
    sizes = sorted({size for what, size, _, _ in SPEEDS if what == "caption"})
    head = [f"{size // 2:,} symbols, {unit}" for size in sizes for unit in ("GB/s", "ns a symbol")]
    rows = []
    for name, _ in NAMES["caption"]:
        values = [speed("caption", size, 0, name) for size in sizes]
        rows.append([name] + [x for v in values for x in (v, 2 / v)])
    table(["field of"] + head, rows)


def by_size(title, what, label, of_size):
    """A table of all candidates of one thing done, GB/s."""
    columns = sorted({(size, n) for w, size, n, _ in SPEEDS if w == what})
    print(f"## {title}\n")
    names = dict.fromkeys(name for name, _ in NAMES[what])
    head = [label] + [with_n(of_size(size), n) for size, n in columns]
    table(head, [[name] + [speed(what, size, n, name) for size, n in columns] for name in names])


LARGE = [size for size in SIZES if size >= 16384]
# A ratio that is aimed at: over whom, at which page sizes, at least so much for n = 1 and 2, and for n = 4.
BARS = [
    ("logarithm tables", "pages of 16 KiB and more", LARGE, 15, 15),
    ("long logarithm tables", "pages of 16 KiB and more", LARGE, 15, 15),
    ("OpenSSL SHA-1", "every size", SIZES, 3, 2),
    ("OpenSSL SHA-1, old calls", "every size", SIZES, 3, 2),
    ("XXH3", "64 KiB", [65536], 1.3, 1.0),
    ("XXH3", "16 KiB", [16384], 1.1, 0.7),
    ("zlib crc32", "every size", SIZES, 1, 0.7),
    ("Horner's rule", "128 B", [128], 2.5, 1.8),
]


def bar(text, least, measured):
    """One line: the smallest of the ratios measured, with where it was."""
    known = [(x, where) for x, where in measured if x is not None]
    if not known:
        print(f"- {text}: at least {least}; not measured")
        return
    x, where = min(known)
    print(f"- {text}: at least {least}; {number(x)} ({where}), {'met' if x >= least else 'not met'}")


def bars():
    print("## What is aimed at, and the smallest ratio measured\n")
    for peer, where, sizes, few, four in BARS:
        for label, numbers, least in ("n = 1 and 2", [1, 2], few), ("n = 4", [4], four):
            measured = [(signing_ratio(s, n, peer), f"{bytes_named(s)}, n = {n}") for s in sizes for n in numbers]
            bar(f"signing over {peer}, {where}, {label}", least, measured)
    own, peer = BUCKET_PAIRS[1]
    pages = sorted({s for what, s, _, _ in SPEEDS if what == "bucket"})
    for label, numbers in ("n = 1 and 2", [1, 2]), ("n = 4", [4]):
        measured = [(ratio("bucket", s, n, own, peer, n), f"pages of {bytes_named(s)}, n = {n}") for s in pages for n in numbers]
        bar(f"a store of 16 MiB with nothing changed over signing its pages, {label}", 0.9, measured)
    print()


def tables():
    signing()
    buckets()
    captions()
    by_size("Search of a pattern that does not occur in 32,768 symbols, GB/s of the field", "search", "pattern of", lambda s: f"{s // 2} symbols")
    by_size("Repair of a page, GB/s of the page", "repair", "page of", bytes_named)
    bars()


# The picture: both axes are logarithmic.
WIDTH, HEIGHT = 900, 560
LEFT, RIGHT, TOP, BOTTOM = 64, 212, 46, 52
COLOURS = ["#b2182b", "#d6604d", "#e38b68", "#4d4d4d", "#1f7f86", "#8c6d31", "#1b7837", "#2166ac", "#4a9a52", "#762a83", "#6a6a6a", "#8f8f8f", "#b5a400"]
LABEL_GAP = 17


def lines():
    """The lines of the picture: a label and a speed for each size. A peer with n is drawn with n = 1, where it is fastest."""
    wanted = [("cotelark", n) for n in numbers_measured()] + [(peer, 1 if peer in HAS_N else 0) for peer in PEERS]
    return [(with_n(name, n), [speed("sign", s, n, name) for s in SIZES]) for name, n in wanted]


def scale(least, most, start, end):
    """The place of a value on a logarithmic axis."""
    return lambda x: start + (math.log(x) - math.log(least)) / (math.log(most) - math.log(least)) * (end - start)


def apart(places):
    """Places for labels, in the same order and nowhere closer than a label is high."""
    order = sorted(range(len(places)), key=lambda i: places[i])
    moved = list(places)
    for _ in range(500):
        for one, next_one in zip(order, order[1:]):
            short = LABEL_GAP - (moved[next_one] - moved[one])
            if short > 0:
                moved[one] -= short / 2
                moved[next_one] += short / 2
    return moved


def text(x, y, words, extra=""):
    return f'<text x="{x:.1f}" y="{y:.1f}" {extra}>{words}</text>'


def grid(x_at, y_at, marks):
    for size in SIZES:
        x = x_at(size)
        yield f'<line x1="{x:.1f}" y1="{TOP}" x2="{x:.1f}" y2="{HEIGHT - BOTTOM}" stroke="#eeeeee"/>'
        yield text(x, HEIGHT - BOTTOM + 20, bytes_named(size), 'text-anchor="middle"')
    for mark in marks:
        y = y_at(mark)
        yield f'<line x1="{LEFT}" y1="{y:.1f}" x2="{WIDTH - RIGHT}" y2="{y:.1f}" stroke="#dddddd"/>'
        yield text(LEFT - 8, y + 4, f"{mark:g}", 'text-anchor="end"')


def curve(label, colour, points, label_y):
    """A line with its label at the right end, and a hair from the one to the other."""
    strong = label.startswith("cotelark")
    x, y = points[-1]
    path = " ".join(f"{px:.1f},{py:.1f}" for px, py in points)
    yield f'<polyline points="{path}" fill="none" stroke="{colour}" stroke-width="{3 if strong else 1.6}"/>'
    yield f'<line x1="{x + 3:.1f}" y1="{y:.1f}" x2="{x + 18:.1f}" y2="{label_y:.1f}" stroke="{colour}" stroke-width="0.8"/>'
    yield text(x + 22, label_y + 4, label, f'fill="{colour}"' + (' font-weight="bold"' if strong else ""))


def picture():
    drawn = lines()
    speeds = [v for _, values in drawn for v in values]
    marks = [m * 10.0**e for e in range(-3, 4) for m in (1, 2, 5)]
    least = max(m for m in marks if m <= min(speeds))
    most = min(m for m in marks if m >= max(speeds))
    x_at = scale(SIZES[0], SIZES[-1], LEFT, WIDTH - RIGHT)
    y_at = scale(least, most, HEIGHT - BOTTOM, TOP)
    parts = [f'<svg xmlns="http://www.w3.org/2000/svg" viewBox="0 0 {WIDTH} {HEIGHT}" font-family="sans-serif" font-size="12" fill="#222222">']
    parts.append(f'<rect width="{WIDTH}" height="{HEIGHT}" fill="#ffffff"/>')
    parts.append(text(LEFT, 24, "Going over a page: GB/s by the page's size", 'font-size="15" font-weight="bold"'))
    parts += grid(x_at, y_at, [m for m in marks if least <= m <= most])
    ends = apart([y_at(values[-1]) for _, values in drawn])
    for i, (label, values) in enumerate(drawn):
        parts += curve(label, COLOURS[i % len(COLOURS)], [(x_at(s), y_at(v)) for s, v in zip(SIZES, values)], ends[i])
    parts.append(text(LEFT, HEIGHT - 10, "16 MiB: a bucket of 256 pages of 64 KiB. Both axes are logarithmic."))
    return "\n".join(parts + ["</svg>", ""])


if len(sys.argv) > 1:
    Path(sys.argv[1]).write_text(picture(), encoding="utf-8")
else:
    tables()
