"""What the papers say, for the scripts that make the test programs' cases, and what these programs share: the bytes of a circuit
with its words, the sums of areas, and circuits and change lists that several of them are given.

The top of crates/testbench/src/lib.rt says how a case lies in its bytes, how areas are filled before a call and how they are
summed. What a call must answer and leave is worked out here by the papers' rules: Plan net by net, with sets and counts and none
of the programs' ways; Run lane by lane, with Bools, which can be held against the time-by-time machine.
"""
import bisect
import functools
import itertools

BUF, NOT, AND, NAND, OR, NOR, XOR, XNOR = range(8)
MOST = 2048  # the largest limit on the frame total


def two(n):
    return n.to_bytes(2, "little")


def four(n):
    return n.to_bytes(4, "little")


class Record(bytes):
    """A gate's record, with what it says beside its bytes."""

    def __new__(cls, kind, d, di, fanins):
        self = super().__new__(cls, bytes([kind]) + two(d) + two(di) + b"".join(two(f) for f in fanins))
        self.kind, self.d, self.di, self.fanins = kind, d, di, fanins
        return self


def file_of(inputs, records, shift={}, lengths={}, tail=b""):
    """The file of these records; an offset or a length may be given another value than the true one."""
    at, pairs = 4 + 4 * len(records), b""
    for j, r in enumerate(records):
        pairs += two(at + shift.get(j, 0)) + two(lengths.get(j, len(r)))
        at += len(r)
    return two(256 + inputs) + two(len(records)) + pairs + b"".join(records) + tail


# ---- Plan


def moments_of(inputs, counts, changes):
    """The change times of each input, from the two lists; nothing for 20."""
    own = [changes[end - count:end] for count, end in zip(counts, itertools.accumulate(counts))]
    right = len(counts) == inputs and max(counts) <= 8 and sum(counts) == len(changes)
    return own if right and all(times == sorted({*times} & {*range(1, 256)}) for times in own) else None


def once(inputs):
    """The change times of inputs that change once, at 1."""
    return [[1] for _ in range(inputs)]


def frames(moments, records):
    """The frames of each net: times, inertial indices, fan-in rows."""
    nets = [([0, *times], [0] * (1 + len(times)), []) for times in moments]
    for r in records:
        sources = [nets[f][0] for f in r.fanins]
        times = sorted({0} | {s + r.d for source in sources for s in source if s != 0})
        inertial = [sum(t < u <= t + r.di for u in times) for t in times]
        rows = [[0 if t == 0 else max(k for k, s in enumerate(source) if s <= t - r.d) for source in sources] for t in times]
        nets.append((times, inertial, rows))
    return nets


def planned(nets):
    """What Plan answers where it accepts these frames, and the four areas without the zeros behind; nothing for 13."""
    total = sum(len(times) for times, _, _ in nets)
    if any(len(times) > 64 for times, _, _ in nets) or total > 2048:
        return None
    directory, at = [], 0
    for times, _, _ in nets:
        directory += [at, len(times)]
        at += len(times)
    areas = [
        directory,
        [t for times, _, _ in nets for t in times],
        [i for _, inertial, _ in nets for i in inertial],
        [k for _, _, rows in nets for row in rows for k in row],
    ]
    return f"planned {total} {len(areas[3])} {max(areas[1])}", areas


# ---- Run, each lane by itself, and the machine


def outputs(r):
    """A gate's output for each number of ones among its entries. The kinds come in pairs, the second the complement."""
    m = len(r.fanins)
    first = [(ones == 1, ones == m, ones > 0, ones % 2 == 1)[r.kind // 2] for ones in range(m + 1)]
    return [output != (r.kind % 2 == 1) for output in first]


def evaluate(nets, records, driven):
    """The levels of one lane, net by net and frame by frame: raw, then filtered. The inputs are driven, frame by frame."""
    levels = [list(own) for own in driven]
    for r, (_, inertial, rows) in zip(records, nets[len(driven):]):
        output = outputs(r)
        raw = [output[sum(levels[f][k] for f, k in zip(r.fanins, row))] for row in rows]
        kept = raw[:1]
        for k in range(1, len(raw)):
            kept.append(kept[-1] if (not raw[k]) in raw[k + 1:k + 1 + inertial[k]] else raw[k])
        levels.append(kept)
    return levels


class Wave:
    """The level of a net in a lane at every time: from each of these times on, the first of which is 0, the level beside it. Times
    at which the level stays are left out."""

    def __init__(self, times, levels):
        turns = [k for k in range(len(times)) if k == 0 or levels[k] != levels[k - 1]]
        self.times, self.levels = [times[k] for k in turns], [levels[k] for k in turns]

    def at(self, time):
        return self.levels[bisect.bisect_right(self.times, time) - 1]

    def first_other(self, level, start, end):
        """The first time of a span at which the level is another; or nothing."""
        asked = [start] + [t for t in self.times if start < t <= end]
        return next((t for t in asked if self.at(t) != level), None)


def machine(records, moments, driven):
    """The waves of one lane, by the machine that knows no frames. A gate's raw level can change only where the level of a fan-in
    did, d before. Whether it stays for di more can change there too, and di before. So its rule is asked at these times, and
    from one to the next its answers are the same."""
    waves = [Wave([0, *times], own) for times, own in zip(moments, driven)]
    for r in records:
        output, sources = outputs(r), [waves[f] for f in r.fanins]
        turns = sorted({0} | {t + r.d for source in sources for t in source.times if t})
        raw = Wave(turns, [output[sum(source.at(max(t - r.d, 0)) for source in sources)] for t in turns])
        asked = sorted({t - back for t in raw.times for back in (0, r.di) if t >= back})
        levels = [raw.at(0)]
        for t in asked[1:]:
            steady = raw.first_other(raw.at(t), t, t + r.di) is None
            levels.append(raw.at(t) if steady else levels[-1])
        waves.append(Wave(asked, levels))
    return waves


def machine_at_every_time(records, moments, driven, until):
    """The same, word for word by the papers' rule, at every time up to this one."""
    need = [until] * (len(driven) + len(records))  # the last time to be known of each net
    for j in reversed(range(len(records))):
        for f in records[j].fanins:
            need[f] = max(need[f], need[len(driven) + j] + records[j].di - records[j].d)
    waves = [[own[sum(s <= t for s in times)] for t in range(end + 1)] for times, own, end in zip(moments, driven, need)]
    for r in records:
        output, end = outputs(r), need[len(waves)]
        raw = [output[sum(waves[f][max(t - r.d, 0)] for f in r.fanins)] for t in range(end + r.di + 1)]
        wave = raw[:1]
        for t in range(1, end + 1):
            wave.append(raw[t] if len(set(raw[t:t + r.di + 1])) == 1 else wave[-1])
        waves.append(wave)
    return [wave[:until + 1] for wave in waves]


LITERAL = 10**8  # how many times the rule at every time may look at; enough for all delays up to 63


class Run:
    """An accepted circuit with change times and words: the values net by net, and the machine's waves lane by lane. Without
    lists of change counts and times every input changes once, at 1."""

    def __init__(self, inputs, records, before, after, counts=None, changes=None):
        self.inputs, self.records, self.before, self.after, self.waves = inputs, records, before, after, {}
        self.counts, self.changes = [1] * inputs if counts is None else counts, [1] * inputs if changes is None else changes
        self.moments, self.plan = moments_of(inputs, self.counts, self.changes), None
        self.fault = 11 if [len(before), len(after)] != [inputs, len(self.changes)] else 20 if self.moments is None else 0
        if self.moments is None:
            return
        self.nets = frames(self.moments, records)
        self.times = [times for times, _, _ in self.nets]
        self.total = sum(map(len, self.times))
        self.plan = planned(self.nets)
        self.last = max(t for times in self.times for t in times)
        if self.plan and not self.fault:
            self.lanes = [evaluate(self.nets, records, self.driven(lane)) for lane in range(64)]
            packed = zip(*self.lanes)
            self.values = [[sum(level << lane for lane, level in enumerate(frame)) for frame in zip(*net)] for net in packed]

    def driven(self, lane):
        """The inputs' levels in a lane: the bit of the before word and those of the input's own after words."""
        rest = iter(self.after)
        words = [[before, *itertools.islice(rest, count)] for before, count in zip(self.before, self.counts)]
        return [[word >> lane & 1 == 1 for word in own] for own in words]

    def wave(self, net, lane):
        """The levels of a net in a lane by the machine. Every net's frames have to agree with it; and where that is no long way
        to go, both with its rule at every time until after the last potential one."""
        if lane not in self.waves:
            driven = self.driven(lane)
            self.waves[lane] = machine(self.records, self.moments, driven)
            for times, levels, wave in zip(self.times, self.lanes[lane], self.waves[lane]):
                assert all(wave.at(t) == level_at(times, levels, t) for t in {*times, *wave.times})
            if sum((self.last + r.di) * (r.di + 1) for r in self.records) <= LITERAL:
                every = machine_at_every_time(self.records, self.moments, driven, self.last + 1)
                assert every == [[wave.at(t) for t in range(self.last + 2)] for wave in self.waves[lane]]
        return self.waves[lane][net]


@functools.lru_cache(None)
def run_of(inputs, records, *lists):
    """The run of these tuples, worked out once."""
    return Run(inputs, list(records), *map(list, lists))


def level_at(times, levels, time):
    return levels[max(k for k, t in enumerate(times) if t <= time)]


def too_many(run, limit):
    """The "no" of the last two questions: 13, then 22; or 0. A limit that makes no sense is 22 for any total."""
    return 13 if not run.plan else 22 if limit not in range(1, MOST + 1) or run.total > limit else 0


# ---- a case

PIECES = (1, 2, 1, 1, 4)  # how many two-byte pieces a number of each area has


def summed(numbers, s=0):
    for x in numbers:
        s = (17 * s + x + 1) % 65521
    return s


def in_pieces(numbers, count):
    """The two-byte pieces of numbers, so many of each, the lowest first."""
    return [number >> 16 * k & 65535 for number in numbers for k in range(count)]


@functools.lru_cache(None)
def rubbish_sum(length, rubbish, pieces):
    return summed((rubbish + 257 * k) % 65536 for k in range(length) for _ in range(pieces))


def filled(lengths, rubbish):
    return [rubbish_sum(n, rubbish, pieces) for n, pieces in zip(lengths, PIECES)]


FULL = (320, 2048, 2048, 16384, 2048)  # how long areas are that hold any circuit
BUFFERS = (400, 2100, 2100, 16400, 2100)  # the programs hold no longer ones
NONE = (0, 0, 0, 0, 0)


def zeros(s, n):
    """The sum with n zeros more: n times 17 s + 1."""
    power = pow(17, n, 65521)
    return (s * power + (power - 1) * pow(16, -1, 65521)) % 65521


def left(areas):
    """The sums of full areas with these contents, and zeros behind."""
    return [zeros(summed(in_pieces(area, each)), each * (n - len(area))) for area, n, each in zip(areas, FULL, PIECES)]


CLEARED = left([[]] * 5)


def with_sums(answer, sums):
    return f"{answer} {' '.join(map(str, sums))}"


def case_bytes(file, run, limit, lengths, rubbish):
    """A circuit with its lists: the head, and what follows it."""
    head = four(len(file)) + b"".join(map(two, lengths)) + two(rubbish) + two(limit)
    head += bytes([len(run.counts)]) + two(len(run.changes)) + bytes([len(run.before)]) + two(len(run.after))
    data = file + bytes(run.counts) + b"".join(map(four, run.changes))
    return head + data + b"".join(word.to_bytes(8, "little") for word in run.before + run.after)


class Words:
    """The words of a case whose file is refused, and change times."""

    def __init__(self, before, after):
        self.before, self.after = before, after
        self.counts, self.changes = [1] * len(before), [1] * len(after)


# ---- circuits, and lengths


def frame_counts(inputs, gates):
    """How many frames each net has."""
    return [len(times) for times, _, _ in frames(once(inputs), gates)]


def comb(n):
    """One net with n frames, n from 57 to 65: eight delayed copies of a net of eight later times, merged."""
    gates = [Record(BUF, 1 + k, 0, [0]) for k in range(8)] + [Record(OR, 1, 0, list(range(1, 9)))]
    for d in (1, 9, 17, 25, 33, 41, 49, 49 + n - 57):
        gates.append(Record(NOT, d, 0, [9]))
    gates.append(Record(AND, 7, 5, list(range(10, 18))))
    assert frame_counts(1, gates)[-1] == n
    return gates


def copies(inputs, total, fanins):
    """So many frames in all: a comb with a net of 64 and nets of 9, and copies of those and of an input. A copy of the net
    of 64 names it so many times in its fan-in list."""
    gates = [Record(g.kind, g.d, g.di, [f + inputs - 1 if f else 0 for f in g.fanins]) for g in comb(64)]
    have = frame_counts(inputs, gates)
    rest = total - sum(have)
    big, nine = rest // 64 - 1, rest % 2
    small = (rest - 64 * big - 9 * nine) // 2
    gates += [Record(BUF if fanins == 1 else AND, 1 + k % 3, 2, [have.index(64)] * fanins) for k in range(big)]
    gates += [Record(BUF, 2, 0, [net]) for net in [have.index(9)] * nine + [0] * small]
    assert sum(frame_counts(inputs, gates)) == total
    return gates


def around(right):
    """These lengths, one of them one too short or too long."""
    places = range(len(right))
    return [tuple(right[i] + off * (i == k) for i in places) for k in places for off in (-1, 1)]


def circuit(rng, inputs, gates):
    """Gates of any kind on any nets before them: kind, d, di and fan-ins of each."""
    records = []
    for j in range(gates):
        kind = rng.randrange(8)
        m = 1 if kind < 2 else rng.randint(2, 8)
        records.append([kind, rng.randint(1, 63), rng.randint(0, 63), [rng.randrange(inputs + j) for _ in range(m)]])
    return records


def lively(rng, inputs, gates, span):
    """Short delays and few fan-ins, from the nets just before, so that levels change often."""
    records = []
    for net in range(inputs, inputs + gates):
        nets = range(max(0, net - span), net)
        kind = rng.choice([0, 1, 2, 3, 4, 5, 6, 6, 6, 7, 7, 7]) if len(nets) > 2 else BUF
        fanins = rng.sample(nets, 1 if kind < 2 else rng.choice([2, 2, 2, 3]))
        records.append(Record(kind, rng.randint(1, 4), rng.choice([0, 0, 0, 1, 1, 2, 3, 5]), fanins))
    return records


def bursts(rng, inputs, most, last):
    """Up to so many changes of each input, at any times up to the last."""
    return [sorted(rng.sample(range(1, last + 1), rng.randint(0, most))) for _ in range(inputs)]


# ---- lists of change counts and of change times, for two inputs

RISING = [1, 40, 254, 255]
SUITED = [
    ([2, 1], [3, 9, 1]), ([1, 2], [9, 3, 9]), ([0, 0], []), ([0, 3], [5, 6, 7]), ([3, 0], [5, 6, 255]), ([2, 2], [1, 2, 1, 2]),
    ([8, 8], [*range(1, 9)] * 2), ([4, 4], RISING * 2), ([1, 1], [255, 1])]
UNSUITED = [  # 20
    # not two counts
    ([], []), ([2], [3, 9]), ([3], [3, 9, 11]), ([2, 1, 0], [3, 9, 1]), ([2, 1, 1], [3, 9, 1, 1]), ([1] * 80, [1] * 80),
    ([0] * 80, []), ([], [3, 9, 1]),
    # a count above 8
    ([9, 0], [*range(1, 10)]), ([0, 9], [*range(1, 10)]), ([255, 0], [*range(1, 256)]), ([9, 9], [*range(1, 10)] * 2),
    # counts that do not add up to the times
    ([2, 1], []), ([2, 1], [3, 9]), ([2, 1], [3, 9, 1, 2]), ([0, 0], [1]), ([1, 1], [1]), ([0, 1], [1, 2]), ([1, 0], [1, 2]),
    ([8, 8], [*range(1, 9)]), ([2, 1], [1] * 400),
    # a time that is not from 1 to 255
    ([2, 1], [0, 9, 1]), ([2, 1], [3, 9, 0]), ([2, 1], [3, 256, 1]), ([2, 1], [3, 9, 256]), ([2, 1], [3, 65535, 1]),
    ([2, 1], [3, 9, 259]), ([1, 1], [0, 0]), ([2, 0], [0, 1]), ([1, 1], [256, 256]),
    # times of an input that do not rise
    ([2, 1], [9, 9, 1]), ([2, 1], [9, 3, 1]), ([1, 2], [9, 3, 3]), ([1, 2], [1, 9, 3]), ([4, 4], RISING + [1, 40, 40, 255]),
    ([4, 4], [40, 1, 254, 255] + RISING), ([4, 4], RISING + [1, 40, 255, 254]),
    ([8, 8], [1, 2, 3, 4, 5, 6, 7, 7, *range(1, 9)])]

# ---- small circuits, limits, and files with a fault or more, each with the number of the first

buf = Record(BUF, 1, 0, [0])
pulse = [Record(NOT, 2, 0, [0]), Record(AND, 1, 1, [0, 1])]  # document 01's example
small = [Record(NOT, 2, 1, [0]), Record(XOR, 3, 0, [0, 1])]
crowded = [Record(g.kind, g.d, g.di, [f + 1 if f else 0 for f in g.fanins]) for g in comb(65)]  # 65 on one net, for two inputs
SENSELESS = [0, 2049, 32768, 65535]  # limits
FAULTS = [
    (1, b""), (1, file_of(1, [])[:3]), (2, file_of(0, [])), (2, file_of(33, [buf])), (2, two(1) + file_of(1, pulse)[2:]),
    (3, two(257) + two(129) + bytes(4 * 129)), (3, two(288) + two(65535)), (4, two(257) + two(1) + bytes(3)),
    (4, two(257) + two(128) + bytes(511)), (5, file_of(1, [], tail=b"\0")), (5, file_of(1, [buf], shift={0: 1})),
    (5, file_of(2, small, lengths={1: 8})), (6, file_of(1, [Record(8, 0, 0, [9])])), (6, file_of(1, [buf, Record(255, 1, 0, [0])])),
    (7, file_of(1, [Record(BUF, 0, 0, [0])])), (7, file_of(1, [buf, Record(AND, 1, 60001, [0])])),
    (8, file_of(1, [Record(NOT, 1, 0, [0, 0])])), (8, file_of(1, [Record(XNOR, 1, 0, [0] * 9)])),
    (9, file_of(1, [Record(NOT, 1, 0, [1])])), (9, file_of(2, [*small, Record(AND, 1, 0, [0, 4])])),
    (9, file_of(2, [*crowded, Record(NOT, 1, 0, [65535])]))]
