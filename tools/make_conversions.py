#!/usr/bin/env python3
"""Writes the input of the converters' test program and what it must print: stdin and stdout of crates/conversions.

The top of crates/conversions/src/main.rt says what a case and its line are. Both files of a circuit are made here, each in its
edition, so what a converter must write is known without reading a file; and which number it must answer is known by the one
fault that was put into a file, or by the earliest of more. Run it from the repository's root; building and testing need none of
it.
"""
import collections
import random

rng = random.Random(10)
cases = []  # each as its bytes and its line

Edition = collections.namedtuple("Edition", "way added delay_bytes most")  # the way that takes such files, and what they hold
FORMER, PRESENT = Edition(b"n", 0, 1, 63), Edition(b"o", 256, 2, 60000)
AREA = 4096
BUF, NOT, AND, NAND, OR, NOR, XOR, XNOR = range(8)


def two(n):
    return n.to_bytes(2, "little")


def record(edition, kind, d, di, fanins):
    delays = d.to_bytes(edition.delay_bytes, "little") + di.to_bytes(edition.delay_bytes, "little")
    return bytes([kind]) + delays + b"".join(map(two, fanins))


def joined(first, records, shift={}, lengths={}, tail=b""):
    """A file of these records with this number in front. An offset or a length may be another than the true one."""
    at, pairs = 4 + 4 * len(records), b""
    for j, r in enumerate(records):
        pairs += two(at + shift.get(j, 0)) + two(lengths.get(j, len(r)))
        at += len(r)
    return two(first) + two(len(records)) + pairs + b"".join(records) + tail


def file_of(edition, inputs, gates, **more):
    """A circuit's file in an edition; its gates are kind, d, di and fan-ins."""
    return joined(edition.added + inputs, [record(edition, *gate) for gate in gates], **more)


# ---- the cases


def summed(numbers):
    s = 0
    for x in numbers:
        s = (17 * s + x + 1) % 65521
    return s


def add(way, file, answer, area=AREA, rubbish=None):
    """A case whose answer is a number, of a refusal, or the file that must be written."""
    rubbish = rng.randrange(256) if rubbish is None else rubbish
    if isinstance(answer, int):
        line = f"refused {answer} {summed((rubbish + 7 * k) % 256 for k in range(area))}"
    else:
        line = f"written {len(answer)} {summed(answer + bytes(area - len(answer)))}"
    cases.append((way + len(file).to_bytes(4, "little") + two(area) + bytes([rubbish]) + file, line))


def both_ways(inputs, gates, **more):
    """A circuit of short delays: each of its files becomes the other, whoever says which way to go."""
    former, present = file_of(FORMER, inputs, gates), file_of(PRESENT, inputs, gates)
    add(rng.choice([b"n", b"w"]), former, present, **more)
    add(rng.choice([b"o", b"w"]), present, former, **more)


def refused(edition, file, number, **more):
    """A file that its edition's converter refuses; also where the number in front says which way to go, unless the file is long."""
    add(edition.way, file, number, **more)
    if (int.from_bytes(file[:2], "little") >= 256) == (edition is PRESENT) and len(file) < 5000:
        add(b"w", file, number, **more)


buf = (BUF, 1, 0, [0])
pulse = [(NOT, 2, 0, [0]), (AND, 1, 1, [0, 1])]  # document 01's example

# ---- what is written

both_ways(1, pulse)
for inputs in (1, 2, 31, 32):
    both_ways(inputs, [])
    both_ways(inputs, [(NOT, 63, 0, [inputs - 1])])
for kind in range(8):
    for m in ([1] if kind < 2 else range(2, 9)):
        both_ways(8, [(kind, 1 + m, 9 * m - 9, [*range(m)])])
for d, di in ((1, 0), (63, 63), (1, 63), (63, 0), (62, 1)):
    both_ways(1, [buf, (XOR, d, di, [0, 1, 0]), buf])
    both_ways(1, [(NOT, d, di, [0])])
largest = [(rng.randrange(2, 8), rng.randint(1, 63), rng.randint(0, 63), rng.choices(range(32 + j), k=8)) for j in range(128)]
both_ways(32, largest)
assert len(file_of(FORMER, 32, largest)) == 2948 and len(file_of(PRESENT, 32, largest)) == 3204
both_ways(32, [(AND, 63, 63, [31 + j] * 8) for j in range(128)])
both_ways(1, [(NOT, 1, 0, [j]) for j in range(128)])
for rubbish in (0, 1, 2, 7, 127, 128, 249, 255):  # whatever the area held before
    both_ways(1, pulse, rubbish=rubbish)
    both_ways(2, [], rubbish=rubbish)


def circuit(inputs, gates, most):
    made = []
    for j in range(gates):
        kind = rng.randrange(8)
        m = 1 if kind < 2 else rng.randint(2, 8)
        made.append((kind, rng.randint(1, most), rng.randint(0, most), [rng.randrange(inputs + j) for _ in range(m)]))
    return made


for turn in range(40):
    inputs = rng.choice([1, 2, 5, 32])
    both_ways(inputs, circuit(inputs, rng.choice([1, 2, 3, 8, 20]), 63))

# ---- 23: a delay above 63 has no place in a former file

for delay in (64, 65, 127, 128, 255, 256, 257, 256 + 63, 511, 512 + 1, 59999, 60000):
    for wrong in ((NOT, delay, 0, [0]), (NOT, 1, delay, [0])):
        for gates in ([wrong], [wrong, buf, buf], [buf, wrong, buf], [buf, buf, wrong], [(NOT, 63, 63, [0]), wrong]):
            refused(PRESENT, file_of(PRESENT, 1, gates), 23)
refused(PRESENT, file_of(PRESENT, 1, [(NOT, 60000, 60000, [0])]), 23)
for j in (0, 64, 127):
    refused(PRESENT, file_of(PRESENT, 32, [(g[0], 64 if k == j else g[1], *g[2:]) for k, g in enumerate(largest)]), 23)
for turn in range(10):
    refused(PRESENT, file_of(PRESENT, 3, circuit(3, rng.choice([2, 8, 20]), 60000) + [(BUF, 64, 0, [0])]), 23)

# ---- 10: another length of the area

for area in (0, 1, 28, 2948, 3204, 4095, 4097, 5000):
    for gates in ([], pulse, largest):
        inputs = 32 if gates is largest else 1
        refused(FORMER, file_of(FORMER, inputs, gates), 10, area=area)
        refused(PRESENT, file_of(PRESENT, inputs, gates), 10, area=area)
    refused(PRESENT, file_of(PRESENT, 1, [(NOT, 64, 0, [0])]), 10, area=area)  # before 23
    refused(PRESENT, file_of(PRESENT, 1, [(NOT, 1, 60000, [0])]), 10, area=area)

# ---- 1 to 9, of either edition


def damaged(e):
    """Files that the edition's reader refuses, with the number."""
    head, most, top, short = e.added + 1, e.most + 1, 256**e.delay_bytes - 1, 1 + 2 * e.delay_bytes

    def of(*gates, **more):
        return file_of(e, 1, gates, **more)

    def rec(*gate):
        return record(e, *gate)

    for n in range(4):
        yield of()[:n], 1
    for first in (e.added, e.added + 33, e.added + 255, 65535, 513, 8193):  # 0 and 33 inputs; 258 and 288 with the bytes exchanged
        yield two(first) + two(0), 2
        yield two(first) + of(buf)[2:], 2
    yield two(e.added) + two(129), 2
    for gates in (129, 256, 65535):
        yield two(head) + two(gates) + bytes(4 * 129), 3
    yield two(head) + two(129), 3
    yield two(head) + two(1), 4
    yield two(head) + two(1) + bytes(3), 4
    yield two(head) + two(128) + bytes(4 * 128 - 1), 4
    yield two(head) + two(128) + bytes(4 * 128), 5
    yield of(tail=b"\0"), 5
    yield of(tail=bytes(4000)), 5
    size = len(rec(*buf))
    for place, off in ((0, 1), (0, -1), (1, 1), (1, -1)):
        yield of(buf, buf, shift={place: off}), 5
        yield of(buf, buf, lengths={place: size + off}), 5
    yield of(buf, tail=b"\0"), 5
    yield of(buf)[:-1], 5
    for length in range(short):
        yield two(head) + two(1) + two(8) + two(length) + bytes(length), 5
    yield joined(head, [rec(*buf), b"", rec(*buf)]), 5
    yield two(head) + two(2) + two(12) + two(65000) + two(65012) + two(560) + bytes(36 - 12), 5  # a sum cut to two bytes is 36
    for kind in (8, 9, 128, 255):
        yield of((kind, 1, 0, [0])), 6
        yield of(buf, (kind, 1, 0, [0]), buf), 6
    for d, di in ((0, 0), (most, 0), (top, 0), (1, most), (1, top), (0, most)):
        yield of((BUF, d, di, [0])), 7
        yield of(buf, buf, (XOR, d, di, [0, 1])), 7
    for kind in range(8):
        for m in range(11):
            if not (m == 1 if kind < 2 else 2 <= m <= 8):
                yield of((kind, 1, 0, [0] * m)), 8
        yield joined(head, [rec(kind, 1, 0, [0, 0]) + b"\0"]), 8
        yield joined(head, [rec(kind, 1, 0, [0])[:-1]]), 8
    for fanin in (1, 2, 255, 256, 65535):
        yield of((NOT, 1, 0, [fanin])), 9
        yield of((AND, 1, 0, [0, 0, 0, 0, 0, 0, 0, fanin])), 9
    yield of(buf, (OR, 1, 0, [1, 2])), 9
    yield file_of(e, 32, [(NOT, 1, 0, [32])]), 9
    # several faults: an earlier question, or an earlier gate
    yield of((8, 0, most, [1])), 6
    yield of((AND, 0, 0, [1])), 7
    yield of((AND, 1, 0, [1])), 8
    yield of((NOT, 1, 0, [1]), (8, 0, 0, [0])), 9
    yield of((8, 1, 0, [0]), tail=b"\0"), 5
    yield of(buf, (BUF, most, 0, [9]), (8, 1, 0, [0])), 7
    yield joined(head, [rec(AND, 1, 0, [0] * ((65535 - short) // 2))]), 8  # offset and length add up to 65,543, the file's length


for edition in (FORMER, PRESENT):
    seen = collections.defaultdict(list)
    for file, number in damaged(edition):
        refused(edition, file, number)
        if len(file) < 1000:
            seen[number].append(file)
    assert sorted(seen) == [*range(1, 10)]
    for number, files in seen.items():  # before 10
        for area in (0, 4095, 4097):
            refused(edition, rng.choice(files), number, area=area)
    for turn in range(30):  # a fault in one gate of many
        inputs = rng.choice([1, 2, 32])
        gates = circuit(inputs, rng.choice([2, 5, 20]), edition.most)
        j, number = rng.randrange(len(gates)), rng.choice([6, 7, 8, 9])
        kind, d, di, fanins = gates[j]
        gates[j] = {
            6: (rng.randint(8, 255), d, di, fanins),
            7: (kind, *rng.choice([(0, di), (edition.most + 1, di), (d, edition.most + 1)]), fanins),
            8: (kind, d, di, fanins[:1] * (2 if kind < 2 else rng.choice([1, 9]))),
            9: (kind, d, di, fanins[:-1] + [inputs + j]),
        }[number]
        refused(edition, file_of(edition, inputs, gates), number)

# before 23: a long delay in the first gate, and a fault in the last
for number, gate in ((6, (8, 1, 0, [0])), (7, (BUF, 60001, 0, [0])), (8, (NOT, 1, 0, [0, 0])), (9, (NOT, 1, 0, [2]))):
    refused(PRESENT, file_of(PRESENT, 1, [(NOT, 64, 0, [0]), gate]), number)
    refused(PRESENT, file_of(PRESENT, 1, [(NOT, 1, 64, [0]), gate]), number, area=4095)
refused(PRESENT, file_of(PRESENT, 1, [(NOT, 64, 0, [0])], tail=b"\0"), 5)

# ---- a file of the other edition is 2, whatever is asked behind that; no file passes in both

for inputs, gates in ((1, pulse), (1, []), (32, []), (32, largest), (2, [(NOT, 63, 63, [1])])):
    add(b"n", file_of(PRESENT, inputs, gates), 2)
    add(b"o", file_of(FORMER, inputs, gates), 2)
    add(b"n", file_of(PRESENT, inputs, gates), 2, area=4095)
    add(b"o", file_of(FORMER, inputs, gates), 2, area=0)
# the records of one edition behind the number in front of the other's are read by the other's rules: a former record has a fan-in
# less there, its first one being di, and a present one a fan-in more, its di
for gate, answer in (
        ((NOT, 1, 0, [0]), 8), ((AND, 1, 0, [0, 0]), 8), ((AND, 1, 0, [0, 0, 0]), (AND, 1, 0, [0, 0])),
        ((OR, 1, 1, [0, 0, 0]), 23), ((OR, 1, 0, [64, 0, 0]), 23), ((XOR, 0, 0, [0, 0, 0]), 7), ((XOR, 1, 0, [60001, 0, 0]), 7)):
    written = answer if isinstance(answer, int) else file_of(FORMER, 1, [answer])
    add(b"o", joined(257, [record(FORMER, *gate)]), written)
for gate, answer in (
        ((NOT, 1, 0, [0]), 8), ((AND, 1, 0, [0] * 8), 8), ((AND, 1, 0, [0, 0]), (AND, 1, 0, [0, 0, 0])),
        ((OR, 513, 0, [0, 0]), (OR, 1, 2, [0, 0, 0])), ((OR, 64, 0, [0, 0]), 7), ((OR, 1 + 64 * 256, 0, [0, 0]), 7),
        ((OR, 1, 1, [0, 0]), 9)):
    written = answer if isinstance(answer, int) else file_of(PRESENT, 1, [answer])
    add(b"n", joined(1, [record(PRESENT, *gate)]), written)

# ---- written out; a last case that the program's buffers do not hold ends the run

with open("crates/conversions/stdin", "wb") as f:
    f.writelines(data for data, _ in cases)
    f.write(b"n" + (70001).to_bytes(4, "little") + two(AREA) + b"\0")
with open("crates/conversions/stdout", "w") as f:
    f.writelines(line + "\n" for _, line in cases)
    f.write("cut\n")
answers = collections.Counter(" ".join(line.split()[:2]) if line[0] == "r" else "written" for _, line in cases)
print(len(cases), "conversions;", ", ".join(f"{n} {answer}" for answer, n in sorted(answers.items())))
