"""Writes the dumps that are timed into a folder: python3 dumps.py FOLDER

full.dump   every section at its limit, the parts spread over objects of every kind with parts
small.dump  an Object whose two properties are one Date
map.dump    one Map with as many keys as a dump can hold, all numbers, all different
"""
import os
import struct
import sys

NULL, TRUE, UNDEFINED = (1, 0, 0), (2, 1, 0), (0, 0, 0)


def words(*numbers):
    return struct.pack("<%dI" % len(numbers), *numbers)


def double(x):
    return (5,) + struct.unpack("<II", struct.pack("<d", x))


def dump(texts, numerals, octets, objects, parts, root):
    """The bytes of a dump; each text is a str, each object (kind, words..), each part (key, value)."""
    rows, units = [], b""
    for text in texts:
        encoded = text.encode("utf-16-le")
        rows.append((len(units) // 2, len(encoded) // 2))
        units += encoded
    section = lambda records: words(len(records)) + b"".join(words(*r) for r in records)
    return (
        section(rows)
        + words(len(units) // 2) + units
        + section(numerals)
        + words(len(octets)) + octets
        + section([o + (0,) * (6 - len(o)) for o in objects])
        + section([key + value for key, value in parts])
        + section([root])
    )


def small():
    date = (8, 1, 0)
    return dump(["p", "q"], [], b"", [(6, 0, 2), (5, 0, 0)], [((7, 0, 0), date), ((7, 1, 0), date)], (8, 0, 0))


def one_map(count):
    """Whole numbers of both tags and fractions in turn, no two the same number."""
    keys = []
    for i in range(count):
        keys.append([(3, -i & 0xFFFFFFFF, 0), (4, 0x80000000 + i, 0), double(i + 0.5)][i % 3])
    return dump([], [], b"", [(9, 0, count)], [(key, NULL) for key in keys], (8, 0, 0))


def full():
    numbers = [n + 0.5 for n in range(1000, 5096)]
    # Neighbours agree in all but their last units, so that comparing them reads nearly all of both.
    names = ["k" * 246 + "%04d" % n for n in range(4096)]
    texts = ["%.1f" % x for x in numbers] + names
    numerals = [double(x)[1:] + (i,) for i, x in enumerate(numbers)]

    kinds = [(6, 6, 6, 6, 7, 7, 8, 8, 8, 9, 9, 10, 10, 11, 12, 4)[i % 16] for i in range(4096)]
    holders = [i for i, kind in enumerate(kinds) if 6 <= kind <= 10]
    share, rest = divmod(65536, len(holders))
    octets = bytes(i * 7 & 0xFF for i in range(1048576))
    objects, parts, used = [], [], 0

    def name(j):
        return (7, 4096 + j % 4096, 0)

    def value(i, j):
        return (UNDEFINED, TRUE, (3, j, 0), double(1000.5 + (i + j) % 4096), name(i * j), (8, (i + j) % 4096, 0))[j % 6]

    for i, kind in enumerate(kinds):
        first = len(parts)
        count = share + (i in holders[:rest])
        half = count // 2
        if kind in (6, 7):
            for j in range(count):
                parts.append(((3, j, 0) if j < half else name(i + j), value(i, j)))
            objects.append((kind, first, count) + ((half,) if kind == 7 else ()))
        elif kind == 8:
            for j in range(count):
                parts.append((UNDEFINED if j < half else name(i + j), value(i, j)))
            objects.append((8, first, half, first + half, count - half))
        elif kind == 9:
            for j in range(count):
                parts.append(((double(j + 0.5), (4, j, 0), name(i + j))[j % 3], value(i, j)))
            objects.append((9, first, count))
        elif kind == 10:
            for j in range(count):
                parts.append((UNDEFINED, (double(j + 0.5), (3, j, 0), (8, i - j if i >= j else i + j, 0))[j % 3]))
            objects.append((10, first, count))
        elif kind == 11:
            objects.append((11, used, 4096))
            used += 4096
        elif kind == 12:
            objects.append((12, i - 1, i // 16 % 12, 0, 512, 0))
        else:
            objects.append((4, i, 3))
    assert (len(texts), len(parts), len(objects), used) == (8192, 65536, 4096, 1048576)
    return dump(texts, numerals, octets, objects, parts, (8, 0, 0))


if __name__ == "__main__":
    for file, made in (("full", full()), ("small", small()), ("map", one_map(65536))):
        with open(os.path.join(sys.argv[1], file + ".dump"), "wb") as out:
            out.write(made)
