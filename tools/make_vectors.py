#!/usr/bin/env python3
"""Writes the vectors of the program `outside` and what it must print: crates/outside/stdin and stdout.

    python3 tools/make_vectors.py [SEED]

The circuits, their inputs' change times and their words are made here from the seed. What the nets then do is worked
out by GHDL, a VHDL simulator by another hand, from a translation of every circuit: its own pulse rejection is the
inertial filter, and every time, word and count in stdout is read from the changes that it dumps. Of the paper's rules
only the kinds' functions stand here, as VHDL, and the potential times, to choose circuits within the limits. The
vectors that are turned down come first; their numbers are known by the way they are made.
Run it from the repository's root; building and testing need none of it. It needs `ghdl`.
"""
import itertools
import random
import re
import subprocess
import sys
import tempfile

CIRCUITS, BURSTS = 320, 140  # how many whose inputs change once, at 1, and how many whose inputs change in bursts
LONG, LONG_BURSTS = 90, 60  # the same with delays up to 60,000; those above have delays up to 63
TOGETHER = 20  # circuits in one simulation: a simulation takes its time for each time at which something changes, times all signals
BUF, NOT, AND, NAND, OR, NOR, XOR, XNOR = range(8)
COPY = [BUF, NOT]
ANY = [AND, NAND, OR, NOR, XOR, XNOR]


def two(n):
    return n.to_bytes(2, "little")


def four(n):
    return n.to_bytes(4, "little")


class Circuit:
    """Inputs, and gates as (kind, d, di, fan-ins)."""

    def __init__(self, inputs):
        self.inputs, self.gates = inputs, []

    def nets(self):
        return self.inputs + len(self.gates)

    def add(self, kind, d, di, *fanins):
        self.gates.append((kind, d, di, fanins))
        return self.nets() - 1

    def file(self):
        records = [bytes([kind]) + two(d) + two(di) + b"".join(map(two, fanins)) for kind, d, di, fanins in self.gates]
        at, pairs = 4 + 4 * len(records), b""
        for record in records:
            pairs += two(at) + two(len(record))
            at += len(record)
        return two(256 + self.inputs) + two(len(records)) + pairs + b"".join(records)

    def frames(self, moments):
        """How many potential times each net has, with these change times for each input."""
        times = [{0, *own} for own in moments]
        for _, d, _, fanins in self.gates:
            times.append({0} | {s + d for f in fanins for s in times[f] if s})
        return [len(t) for t in times]


# ---- circuits of several shapes


def loose(rng, delays, inertial):
    """Any kinds on any of the nets just before, with these d and di."""
    c = Circuit(rng.randint(1, 6))
    for _ in range(rng.randint(6, 18)):
        kind, near = rng.randrange(8), range(max(0, c.nets() - 7), c.nets())
        c.add(kind, rng.choice(delays), rng.choice(inertial), *rng.choices(near, k=1 if kind < AND else rng.randint(2, 5)))
    return c


def kinds(rng):
    """Each kind with two numbers of fan-ins from 2 to 8, on inputs and late copies of inputs."""
    c = Circuit(8)
    late = [c.add(rng.choice(COPY), rng.randint(1, 4), rng.randint(0, 3), rng.randrange(8)) for _ in range(6)]
    for kind in ANY:
        for m in rng.sample(range(2, 9), 2):
            c.add(kind, rng.randint(1, 3), rng.randint(0, 4), *rng.choices([*range(8), *late], k=m))
    return c


def parities(rng):
    """XOR and XNOR of 2 to 8 entries, on inputs, late copies of inputs and each other, some entries twice."""
    c = Circuit(rng.randint(2, 8))
    nets = [*range(c.inputs)]
    nets += [c.add(rng.choice(COPY), rng.randint(1, 4), rng.randint(0, 3), rng.randrange(c.inputs)) for _ in range(4)]
    for m in rng.sample(range(2, 9), 7):
        nets.append(c.add(rng.choice([XOR, XNOR]), rng.randint(1, 3), rng.randint(0, 3), *rng.choices(nets[-10:], k=m)))
    return c


def paths(rng):
    """Nets that part on paths of their own delays and meet again, three times over."""
    c = Circuit(rng.randint(1, 3))
    for _ in range(3):
        ends = [c.nets() - 1]
        for _ in range(rng.randint(1, 4)):
            ends.append(c.add(rng.choice(COPY), rng.randint(1, 8), rng.randint(0, 4), rng.choice(ends)))
        c.add(rng.choice(ANY), rng.randint(1, 5), rng.randint(0, 7), *ends)
    return c


def pulses(c, rng, spans):
    """A net with a pulse over each span of times, where an input of its own changes."""
    nets = []
    for start, end in spans:
        source = rng.randrange(c.inputs)
        nets.append(c.add(XOR, 1, 0, c.add(BUF, start, 0, source), c.add(BUF, end, 0, source)))
    return c.add(OR, 1, 0, *nets)


def filters(rng):
    """Pulses of 1 to 4 times, and gates behind them, beside each other and in rows, each with a di of its own."""
    c, spans, at = Circuit(rng.randint(1, 4)), [], 0
    for _ in range(rng.randint(2, 4)):
        start = at + rng.randint(1, 4)
        at = start + rng.randint(1, 4)
        spans.append((start, at))
    net = train = pulses(c, rng, spans)
    for di in rng.sample(range(8), 6):
        net = c.add(rng.choice(COPY), rng.randint(1, 9), di, rng.choice([train, net]))
    c.add(rng.choice(ANY), 1, rng.randint(1, 5), train, net, rng.randrange(c.inputs))
    return c


def ties(rng):
    """Two paths whose delays have one sum, so that both ends change at the same time; and one that is 1 or 2 later."""
    c, ends = Circuit(2), []
    for net in range(2):
        a, b = rng.randint(1, 9), rng.randint(1, 9)
        one = c.add(rng.choice(COPY), b, rng.randint(0, b), c.add(BUF, a, 0, net))
        other = c.add(rng.choice(COPY), a, 0, c.add(BUF, b, rng.randint(0, a), net))
        late = c.add(BUF, rng.randint(1, 2), rng.randint(0, 2), one)
        ends.append(c.add(rng.choice(ANY), rng.randint(1, 4), rng.randint(0, 3), one, other))
        ends.append(c.add(rng.choice(ANY), rng.randint(1, 4), rng.randint(0, 3), one, other, late))
    c.add(rng.choice(ANY), 1, rng.randint(0, 5), *ends)
    return c


def adder(rng):
    """A ripple-carry adder of two to four bits."""
    bits, d, di = rng.randint(2, 4), rng.randint(1, 3), rng.randint(0, 4)
    c = Circuit(2 * bits + 1)
    carry = 2 * bits
    for k in range(bits):
        half = c.add(XOR, d + 1, di, k, bits + k)
        c.add(XOR, d + 1, di, half, carry)
        carry = c.add(OR, d, di, c.add(AND, d, di, half, carry), c.add(AND, d, di, k, bits + k))
    return c


def crowded(rng, more):
    """A net of many frames with pulses of any width, and so many gates more that copy it and look far ahead."""
    c = Circuit(rng.choice([4, 8, 32]))
    net = pulses(c, rng, [sorted(rng.sample(range(1, 64), 2)) for _ in range(8)])
    late = [c.add(rng.choice(COPY), rng.randint(1, 63), rng.randint(0, 2), net) for _ in range(5)]
    net = c.add(rng.choice(ANY), rng.randint(1, 63), rng.randint(0, 3), *late)
    for _ in range(more):
        c.add(rng.choice(COPY), rng.randint(1, 63), rng.randint(0, 63), net)
    return c


ENDS = [1, 2, 31, 32, 62, 63]
SHAPES = [(loose, range(1, 10), range(10)), (loose, [1, 1, 2, 3], range(4)), (loose, ENDS, [0, *ENDS]),
          (kinds,), (parities,), (paths,), (filters,), (ties,), (adder,)]


def shaped(rng, turn):
    """The shapes in turn."""
    shape, *more = SHAPES[turn % len(SHAPES)]
    return shape(rng, *more)


def deep(rng):
    """A chain of long delays, with times in the millions, and gates that see its ends at once."""
    c = Circuit(2)
    for _ in range(rng.choice([30, 60, 120])):
        c.add(rng.choice(COPY), rng.choice([60000, 60000, 59999, 30000]), rng.choice([0, 1, 200, 59999, 60000]), c.nets() - 1)
    c.add(rng.choice(ANY), 60000, rng.choice([0, 60000]), 0, 1, c.nets() - 1)
    return c


def stretched(rng, c):
    """The same circuit with all delays times a number; in places they are one more or less, so that what met just does not."""
    times, off = rng.choice([2, 17, 256, 300, 952]), rng.choice([[0], [0, 0, 0, 1, -1]])
    longer = Circuit(c.inputs)
    for kind, d, di, fanins in c.gates:
        longer.add(kind, max(1, times * d + rng.choice(off)), max(0, times * di + rng.choice(off)), *fanins)
    return longer


FAR = [1, 63, 64, 254, 255, 256, 257, 5536, 29999, 30000, 59999, 60000]


def lengthy(rng, turn):
    """The shapes in turn with their delays stretched, and between them any delays up to 60,000."""
    if turn % 5 == 1:
        return loose(rng, FAR, [0, *FAR])
    if turn % 5 == 3:
        return loose(rng, range(1, 60001), range(60001))
    return deep(rng) if turn % 15 == 5 else stretched(rng, shaped(rng, turn))


def circuits(rng):
    """The shapes in turn. Every twentieth circuit is a crowded one, with a net of just 64 frames and up to 2,048 in all."""
    made = []
    while len(made) < CIRCUITS:
        turn = len(made)
        crowd = turn % 20 == 9
        c = crowded(rng, 26 if turn % 160 == 9 else 4) if crowd else shaped(rng, turn)
        frames = c.frames(once(c))
        if max(frames) == 64 and sum(frames) <= 2048 if crowd else max(frames) < 64 and sum(frames) <= 200:
            made.append(c)
    return made


def long_circuits(rng):
    """With delays up to 60,000, on a net up to 64 frames."""
    made = []
    while len(made) < LONG:
        c = lengthy(rng, len(made))
        frames = c.frames(once(c))
        if max(frames) <= 64 and sum(frames) <= 300:
            made.append(c)
    return made


def once(c):
    """Every input changes once, at 1."""
    return [[1]] * c.inputs


def words(rng, inputs):
    """Before and after words: all lanes at random, or few changes, or few ones."""
    a, b, x, y, z = ([rng.getrandbits(64) for _ in range(inputs)] for _ in range(5))
    few, style = [p & q & r for p, q, r in zip(x, y, z)], rng.randrange(4)
    if style == 0:
        return a, [p ^ q for p, q in zip(a, few)]
    if style == 1:
        return few, [p & q for p, q in zip(x, b)]
    return a, b


def burst(rng, most, last):
    """Up to so many change times up to the last, the last one often among them."""
    times = rng.sample(range(1, last + 1), rng.randint(0, most))
    return sorted({*times[1:], last} if times and rng.random() < 0.2 else times)


def bursting(rng, count, circuit):
    """So many circuits whose inputs change in bursts, on a net up to 64 frames; before words and after words."""
    made = []
    while len(made) < count:
        c, (most, last) = circuit(rng, len(made)), rng.choice([(2, 6), (3, 20), (5, 60), (8, 10), (8, 255)])
        moments = [burst(rng, most, last) for _ in range(c.inputs)]
        frames = c.frames(moments)
        if max(frames) <= 64 and 3 * c.nets() <= sum(frames) <= 300:
            before, after = [rng.getrandbits(64) for _ in moments], []
            for word, times in zip(before, moments):
                for _ in times:  # every lane at random, or few that change
                    turned = rng.getrandbits(64) & (rng.getrandbits(64) if rng.random() < 0.3 else -1)
                    after.append(word := word ^ turned)
            made.append((c, moments, before, after))
    return made


# ---- the simulator


def function(kind, names):
    """A gate's function in VHDL, whose `xor` of several is 1 where an odd number are, as the kind's is."""
    first = (names[0], " and ".join(names), " or ".join(names), " xor ".join(names))
    return f"not ({first[kind // 2]})" if kind % 2 else first[kind // 2]


def translate(j, c, moments, before, after, start):
    """Circuit j's signals and statements, by how much each net is late, and when all are settled.

    VHDL drops a pending change where the next one is no further behind it than the reject limit: with the limit di a pulse
    of length di goes, and one of di + 1 stays. It can drop only what is still pending, so the delay has to be above di.
    Where d is not, the delay is di + 1 and the net is late by the difference; fan-ins that are less late than others wait
    for them on a transport delay. No delay is 0, so fan-ins that change at one time change together, before a gate is worked
    out again: there is no pulse of width 0. Each lane of a vector has a driver of its own."""
    signals, lines = [f"c{j}n{net}" for net in range(c.nets())], []
    late, settled, rest = [0] * c.inputs, [0] * c.inputs, iter(after)
    for name, word, times in zip(signals, before, moments):
        lines.append(f'{name} <= x"{word:016x}"' + "".join(f', x"{next(rest):016x}" after {start + t} ns' for t in times) + ";")
    for net, (kind, d, di, fanins) in enumerate(c.gates, c.inputs):
        latest, delay, names = max(late[f] for f in fanins), max(d, di + 1), []
        for f in fanins:
            names.append(signals[f])
            if late[f] < latest:
                names[-1] = f"c{j}p{len(signals)}"
                signals.append(names[-1])
                lines.append(f"{names[-1]} <= transport {signals[f]} after {latest - late[f]} ns;")
        lines.append(f"{signals[net]} <= reject {di} ns inertial {function(kind, names)} after {delay} ns;")
        late.append(latest + delay - d)
        settled.append(max(settled[f] + latest - late[f] for f in fanins) + delay)
    return signals, lines, late, max(settled)


def simulate(vectors):
    """The nets' changes by the simulator: for each circuit and net a list of (time, word), time 0 first."""
    start = max(translate(0, *vector, 0)[3] for vector in vectors)  # the before words stand until all is settled
    parts = [translate(j, *vector, start) for j, vector in enumerate(vectors)]
    signals = "".join(f"signal {name} : bit_vector(63 downto 0);\n" for part in parts for name in part[0])
    lines = "".join(line + "\n" for part in parts for line in part[1])
    with tempfile.TemporaryDirectory() as folder:
        with open(folder + "/nets.vhd", "w") as f:
            f.write(f"entity nets is end;\narchitecture all_nets of nets is\n{signals}begin\n{lines}end;\n")
        for step in (["-a", "--std=93", "nets.vhd"], ["-e", "--std=93", "nets"], ["-r", "--std=93", "nets", "--vcd=nets.vcd"]):
            subprocess.run(["ghdl", *step], cwd=folder, check=True)
        seen = dumped(folder + "/nets.vcd")
    return [[from_zero(seen[f"c{j}n{net}"], start + late) for net, late in enumerate(part[2])] for j, part in enumerate(parts)]


def dumped(path):
    """Each signal's (time, word) pairs in the dump, whose times are in millionths of a nanosecond."""
    names, seen, now = {}, {}, 0
    with open(path) as f:
        for line in f:
            if line.startswith("#"):
                now = int(line[1:]) // 10**6
            elif line.startswith("b"):
                word, mark = line[1:].split()
                seen[names[mark]].append((now, int(word, 2)))
            elif var := re.match(r"\$var reg 64 (\S+) (\w+)", line):
                names[var[1]] = var[2]
                seen[var[2]] = []
    return seen


def from_zero(pairs, zero):
    return [(0, [word for t, word in pairs if t <= zero][-1])] + [(t - zero, word) for t, word in pairs if t > zero]


# ---- written out


def vector(file, counts, times, words):
    lists = bytes(counts) + b"".join(map(four, times)) + b"".join(word.to_bytes(8, "little") for word in words)
    return two(len(file)) + two(len(times)) + file + lists


def line(net, changes):
    count = sum(bin(a ^ b).count("1") for (_, a), (_, b) in zip(changes, changes[1:]))
    return f"{net} " + " ".join(f"{t}={word:016x}" for t, word in changes) + f"; {count}\n"


def turned_down():
    """Vectors that are turned down, each with its number."""
    plain, own, ladder = Circuit(1), Circuit(1), Circuit(1)
    own.add(BUF, 1, 0, 1)  # reads its own net
    for net in range(64):
        ladder.add(AND, 1, 0, net, 0)  # a frame more a gate, 65 in the end
    good, many = vector(plain.file(), [1], [1], [1, 2]), vector(ladder.file(), [1], [1], [1, 2])
    told = [(b"", 0), (good[:1], 0), (good[:3], 0), (good[:7], 0), (good + bytes(4096 - len(good)), 11),
            (vector(b"", [], [], []), 1), (vector(own.file(), [1], [1], [1]), 9), (good[:-1], 11), (good + bytes(1), 11),
            (many[:-8], 11), (many, 13)]
    # a word too few or too many for the changes, and change times that do not suit: both are asked before the frames are counted
    told += [(vector(c.file(), [1], times, [1, 2]), 11) for c in (plain, ladder) for times in ([], [0, 0])]
    for counts, times in (([1], [0]), ([1], [256]), ([2], [3, 3]), ([2], [3, 2]), ([9], range(1, 10)), ([1], [1, 2]), ([1], []),
                          ([0], [1]), ([255], range(1, 256)), ([8], [1] * 256), ([8], [1] * 257), ([1], [1] * 401),
                          ([1], [65537]), ([2], [1, 65538]), ([1], [2**32 - 1])):
        told += [(vector(c.file(), counts, times, [1] * (1 + len(times))), 20) for c in (plain, ladder)]
    told += [(vector(two(1) + plain.file()[2:], [1], [1], [1, 2]), 2)]  # of the former edition
    half = len(good) - 16 - 2  # behind the lower half of the time
    told += [(good[:half] + good[half + 2:], 11)]  # a time of two bytes, as it once was
    return told


rng = random.Random(int(sys.argv[1]) if len(sys.argv) > 1 else 1)
vectors = [(c, once(c), *words(rng, c.inputs)) for c in circuits(rng)] + bursting(rng, BURSTS, shaped)
vectors += [(c, once(c), *words(rng, c.inputs)) for c in long_circuits(rng)] + bursting(rng, LONG_BURSTS, lengthy)
results = [nets for k in range(0, len(vectors), TOGETHER) for nets in simulate(vectors[k:k + TOGETHER])]
with open("crates/outside/stdin", "wb") as f:
    made = [vector(c.file(), map(len, moments), [*itertools.chain(*moments)], b + a) for c, moments, b, a in vectors]
    f.writelines(two(len(data)) + data for data in [data for data, _ in turned_down()] + made)
    f.write(two(6) + bytes(5))  # the stream ends within this vector
with open("crates/outside/stdout", "w") as f:
    f.writelines(f"refused {number}\n\n" for _, number in turned_down())
    for nets in results:
        f.writelines([line(net, changes) for net, changes in enumerate(nets)] + ["\n"])
    f.write("cut\n")
for name, part in (("all", results), ("of long delays", results[CIRCUITS + BURSTS:])):
    changes = [len(changes) - 1 for nets in part for changes in nets]
    late = max(time for nets in part for net in nets for time, _ in net)
    print(name, len(part), "circuits,", len(changes), "nets,", sum(changes), "changes of a word, the last at", late)
