#!/usr/bin/env python3
"""Writes the input of the test program of the charge call, and what it must print: stdin and stdout of crates/test_charge.

The tops of its src/main.rt and of crates/testbench/src/lib.rt say what a case and its line are. The number of a refused file is
known by the fault that was put into it. What the call must answer and leave is worked out by the papers' rules, which
tools/rules.py has: the kept changes of a lane are those of its frames, and those of the time-by-time machine, which have to be the
same. Their charges are added with Python's floats, which are the papers' 64-bit floats, one rounded addition after the other. Run
it from the repository's root; building and testing need none of it.
"""
import collections
import functools
import itertools
import math
import operator
import random
import struct

from rules import (AND, BUF, BUFFERS, CLEARED, FAULTS, FULL, MOST, NONE, NOT, OR, SENSELESS, SUITED, UNSUITED, XOR, Record, Words,
                   around, buf, bursts, case_bytes, circuit, comb, copies, crowded, file_of, filled, left, lively, once, pulse,
                   run_of, small, too_many, two, with_sums)

rng = random.Random(29)
cases = []  # each as its bytes and its line
RUBBISH = [rng.randrange(65536) for _ in range(32)]  # few, since the sums of full areas take their time


def random_words(count):
    return [rng.getrandbits(64) for _ in range(count)]


# ---- loads: a case byte and two charges for each net, the charges as the bits of floats


def bits_of(charge):
    return int.from_bytes(struct.pack("<d", charge), "little")


def float_of(bits):
    return struct.unpack("<d", bits.to_bytes(8, "little"))[0]


def digits(charge):
    """As the program prints it."""
    return f"{bits_of(charge):016x}"


INFINITY, MINUS = 0x7ff << 52, 1 << 63  # and the sign
NANS = [INFINITY + fraction + sign for sign in (0, MINUS) for fraction in (1, 1 << 51, 0x123456789abcd, (1 << 52) - 1)]
assert all(math.isnan(float_of(bits)) for bits in NANS)
ABOVE = bits_of(1000.0) + 1  # the least float above 1,000
WRONG = [*NANS, INFINITY, MINUS + INFINITY, ABOVE, MINUS + 1, *map(bits_of, (1000.5, 1e300, -1.0, -1000.0, -1e-300))]  # 21
assert float_of(ABOVE) > 1000 and float_of(MINUS + 1) == -5e-324
NOTHING = bits_of(0.0)


def nothings(count):
    return [NOTHING] * count


def whatever():
    """What stands where nothing is looked at."""
    return rng.choice([rng.choice(WRONG), NOTHING, bits_of(7.0), rng.getrandbits(64)])


def either(charge):
    """One charge for any change; the second number says nothing."""
    return 0, bits_of(charge), whatever()


def edges(rising, falling):
    return 1, bits_of(rising), bits_of(falling)


def charges_in(load):
    case, first, second = load
    return [first] if case == 0 else [first, second]


def suits(loads, nets):
    return len(loads) == nets and all(0 <= float_of(bits) <= 1000 for load in loads for bits in charges_in(load))


# ---- the charge drawn


def kept_changes(run, lane):
    """Net and new level of every kept change, nets in order, frames in order."""
    by_frames = [[level for before, level in zip(levels, levels[1:]) if level != before] for levels in run.lanes[lane]]
    assert by_frames == [run.wave(net, lane).levels[1:] for net in range(len(run.nets))]
    return [(net, level) for net, levels in enumerate(by_frames) for level in levels]


def charge_of(loads, change):
    net, level = change
    return float_of(charges_in(loads[net])[0 if level else -1])


def added(charges):
    """From 0, one after the other; sum() may round in another way."""
    return digits(functools.reduce(operator.add, charges, 0.0))


def drawn(run, lane, loads):
    return added(charge_of(loads, change) for change in kept_changes(run, lane))


def other_orders(run, lane, loads):
    """What the charge would be with the nets or the frames the other way round, with both, by time, with a sum for each net, and
    with one rounding of the whole."""
    changes = kept_changes(run, lane)
    nets = [[charge_of(loads, change) for change in own] for _, own in itertools.groupby(changes, lambda change: change[0])]
    everything = list(itertools.chain(*nets))
    times = [time for net in range(len(run.nets)) for time in run.wave(net, lane).times[1:]]
    by_time = [charge for _, charge in sorted(zip(times, everything), key=lambda pair: pair[0])]
    return [added(itertools.chain(*reversed(nets))), added(itertools.chain(*map(reversed, nets))), added(reversed(everything)),
            added(by_time), added(functools.reduce(operator.add, own) for own in nets), digits(math.fsum(everything))]


# ---- the lines


def line_of(number, run, limit, lengths, rubbish, lane, case_list, charges):
    """The order is 100, the file's number, 10, 11, 20, 16, 21, 13, 22. No number but 13 and 22 writes anything."""
    untouched = filled(lengths, rubbish)
    if len(charges) != 2 * len(case_list) or not {*case_list} <= {0, 1}:
        return with_sums("refused 100", untouched)
    number = number or (10 if lengths != FULL else run.fault)
    loads = [*zip(case_list, charges[::2], charges[1::2])]
    if not number:
        number = 16 if lane > 63 else 21 if not suits(loads, len(run.nets)) else too_many(run, limit)
    if number:
        return with_sums(f"refused {number}", CLEARED if number in (13, 22) else untouched)
    areas = run.plan[1] + [[word for net in run.values for word in net]]
    return with_sums(f"{run.plan[0]} {drawn(run, lane, loads)}", left(areas))


# ---- the cases


def case(file, number, run, case_list, charges, lane=0, limit=MOST, lengths=FULL, rubbish=None):
    rubbish = rng.choice(RUBBISH) if rubbish is None else rubbish
    data = bytes([lane]) + two(len(case_list)) + two(len(charges)) + case_bytes(file, run, limit, lengths, rubbish)
    data += bytes(case_list) + b"".join(bits.to_bytes(8, "little") for bits in charges)
    cases.append((data, line_of(number, run, limit, lengths, rubbish, lane, case_list, charges)))


def numbers_of(loads):
    return [load[0] for load in loads], [bits for load in loads for bits in load[1:]]


def add(run, loads, lane=0, **more):
    """A case of an accepted file with these loads; answers the digits of the charge, or the number."""
    case(file_of(run.inputs, run.records), 0, run, *numbers_of(loads), lane, **more)
    words = cases[-1][1].split()
    return words[4] if words[0] == "planned" else int(words[1])


def handed(inputs, records, counts, changes, before=None, after=None):
    """A circuit with any lists; without words as many random ones as 11 asks for."""
    before = random_words(inputs) if before is None else before
    after = random_words(len(changes)) if after is None else after
    return run_of(inputs, *map(tuple, (records, before, after, counts, changes)))


def driven(inputs, records, moments=None):
    """A circuit whose inputs change at these times; without any, once at 1."""
    moments = moments or once(inputs)
    return handed(inputs, records, [*map(len, moments)], [*itertools.chain(*moments)])


def toggled(inputs, records, moments=None):
    """The same, where in every lane an input's every change is one of its level."""
    moments, before = moments or once(inputs), random_words(inputs)
    after = [word ^ (2**64 - 1 if k % 2 == 0 else 0) for word, times in zip(before, moments) for k in range(len(times))]
    return handed(inputs, records, [*map(len, moments)], [*itertools.chain(*moments)], before, after)


def risen(inputs, records, before=0, after=2**64 - 1):
    """The same, where each input has this before word and, from 1 on, this after word; without any it rises in every lane."""
    return handed(inputs, records, [1] * inputs, [1] * inputs, [before] * inputs, [after] * inputs)


def random_charge():
    return rng.choice([rng.uniform(0, 1000), rng.uniform(0, 1), rng.randint(0, 1000) / 10, float(rng.randint(0, 1000)),
                       10.0**rng.randint(-20, 3), 0.0, float_of(rng.randrange(ABOVE))])


def random_loads(run):
    return [rng.choice([either(random_charge()), edges(random_charge(), random_charge())]) for _ in run.nets]


def nets_of(run):
    return run.inputs + len(run.records)


BURST = [*range(1, 9)]
FIVE = [2, 3, 5, 8, 13]

# ---- document 01's example: which changes draw what

for before, after in ((0, 1), (1, 0), (0, 0), (1, 1)):  # the input rises, falls and stays, in lane 0
    run = risen(1, pulse, before, after)
    for loads in ([either(1.0), either(2.0), either(4.0)], [edges(1.0, 2.0), edges(4.0, 8.0), edges(16.0, 32.0)],
                  [edges(2.0, 1.0), edges(8.0, 4.0), edges(32.0, 16.0)], [either(0.0), edges(0.5, 0.25), either(0.0)],
                  [either(3.0), either(0.0), either(0.0)], [either(0.0), either(0.0), edges(9.0, 0.0)]):
        add(run, loads)
rise = risen(1, pulse)
WEIGHED = [edges(1.0, 2.0), edges(4.0, 8.0), edges(16.0, 32.0)]
assert add(rise, WEIGHED) == digits(1.0 + 8.0 + 48.0)  # the pulse rises and falls
assert add(risen(1, [pulse[0], Record(AND, 1, 2, [0, 1])]), WEIGHED) == digits(9.0)  # the filter swallows it
for d, di in itertools.product((1, 2, 3), (0, 1, 2, 3, 9)):  # a pulse as long as the inverter's delay, and its filter
    add(risen(1, [Record(NOT, d, 0, [0]), Record(AND, 1, di, [0, 1]), Record(BUF, 3, d, [2])]), [*WEIGHED, edges(64.0, 128.0)])
for levels in (0, 2**64 - 1, 0x0123456789abcdef):  # at rest nothing is drawn, whatever the levels: frame 0 is no change
    for loads in ([either(1000.0)] * 3, [edges(1000.0, 999.0)] * 3):
        assert add(handed(1, pulse, [0], [], [levels], []), loads) == add(risen(1, pulse, levels, levels), loads) == "0" * 16
for inputs in (1, 2, 32):  # no gates: an input's changes draw its own load
    run = driven(inputs, [])
    for lane in (0, 63):
        add(run, [either(float(1 + k)) for k in range(inputs)], lane)
        add(run, [edges(2.0**-k, 2.0**-k / 3) for k in range(inputs)], lane)
        add(driven(inputs, [], [BURST] * inputs), [edges(0.1 * k, 0.7) for k in range(inputs)], lane)
for lane in range(3):  # one charge for any change is the same charge for rising and falling
    run = toggled(2, small, [[3, 9, 10], [1, 200]])
    assert add(run, [either(0.1), either(0.7), either(1e-3), either(9.9)], lane) == add(
        run, [edges(0.1, 0.1), edges(0.7, 0.7), edges(1e-3, 1e-3), edges(9.9, 9.9)], lane)
    assert add(run, [edges(0.1, 0.3)] * 4, lane) != add(run, [edges(0.3, 0.1)] * 4, lane)

# ---- lanes

mixed = driven(3, lively(rng, 3, 9, 6), [[1, 4, 9], FIVE, [7]])
loads = [edges(rng.uniform(0, 9), rng.uniform(0, 9)) for _ in mixed.nets]
by_lane = [add(mixed, loads, lane) for lane in range(64)]
assert len({*by_lane}) > 30
for lane in (64, 65, 95, 96, 127, 128, 191, 192, 254, 255):
    assert add(mixed, loads, lane) == 16
for lane in (0, 1, 31, 32, 62, 63):  # the other lanes changed
    own = 1 << lane
    for words in ([2**64 - 1 - own] * 10, random_words(10), [1 << (lane + 1) % 64, 0] * 5):
        others = [word & ~own for word in words]
        changed = handed(3, mixed.records, mixed.counts, mixed.changes, *(
            [word ^ other for word, other in zip(list_, others)] for list_ in (mixed.before, mixed.after)))
        assert add(changed, loads, lane) == by_lane[lane] and changed.values != mixed.values
for lane in (0, 31, 32, 63):  # this lane alone moves, or alone stays
    for moving in (1 << lane, 2**64 - 1 - (1 << lane)):
        add(risen(2, small, 0, moving), [edges(0.1, 0.2), edges(0.4, 0.8), edges(1.6, 3.2), edges(6.4, 12.8)], lane)

# ---- rounded additions

tenth = [either(0.1)] * 10
ten_times = [(toggled(1, [buf], [FIVE]), 2), (toggled(2, [], [FIVE, FIVE]), 2), (risen(10, []), 10),
             (risen(1, [Record(BUF, 1, 0, [j]) for j in range(9)]), 10)]
for run, nets in ten_times:  # 0.1 ten times is below 1
    assert add(run, tenth[:nets]) == add(run, [edges(0.1, 0.1)] * nets, 5) == "3fefffffffffffff"
eight = toggled(2, [], [BURST, [1]])  # eight additions of the first charge, then one of the second, and the other way round
eight_back = toggled(2, [], [[1], BURST])
for much, little in ((1000.0, 1e-16), (1000.0, 4e-14), (1.0, 1e-16), (1e-3, 1e-19), (1000.0, 1e-13), (512.0, 2.0**-44)):
    first, last = add(eight, [either(little), either(much)]), add(eight_back, [either(much), either(little)])
    assert (first == last) == (little == 1e-16 and much == 1000.0)  # beside 1,000 all eight are too little
    add(eight, [either(much), either(little)])
    add(toggled(1, [], [BURST]), [edges(much, little)], 0)
    add(toggled(1, [], [BURST]), [edges(little, much)], 0)


def sums_of(*charges):
    """Inputs that change once, each with its own charge: these additions in this order."""
    return add(risen(len(charges), []), [rng.choice([either(charge), edges(charge, 3.0)]) for charge in charges])


UNIT = 2.0**-52  # what 1 and the next float are apart
assert sums_of(1.0, UNIT / 2) == digits(1.0)  # as near to both: the even one
assert sums_of(1.0 + UNIT, UNIT / 2) == digits(1.0 + 2 * UNIT)
assert sums_of(1.0, math.nextafter(UNIT / 2, 1)) == digits(1.0 + UNIT)
assert sums_of(1.0, math.nextafter(UNIT / 2, 0)) == digits(1.0)
assert sums_of(1.0, UNIT / 2 + 2.0**-78) == digits(1.0 + UNIT)  # rounded twice, first to 64 digits, it would be 1
assert sums_of(1.0 + UNIT, UNIT / 2 - 2.0**-78) == digits(1.0 + UNIT)
assert sums_of(UNIT / 2, UNIT / 2, 1.0) != sums_of(1.0, UNIT / 2, UNIT / 2)
sums_of(0.5, math.nextafter(0.5, 0), UNIT / 4)  # up to the next power of two
sums_of(math.nextafter(512.0, 0), UNIT, 2.0**-44)
sums_of(999.9999999999999, 1e-13, 1e-13, 0.3, 0.7)
sums_of(16.0, 2.0**-20)  # more digits than 32-bit floats have
for charges in ([5e-324], [5e-324] * 3, [2.0**-1022, 5e-324], [2.0**-1022 - 5e-324, 5e-324], [2.0**-1023] * 4,
                [1e-310, 1e-320, 1e-308], [5e-324, 1000.0], [1000.0, 5e-324], [2.0**-1022] * 2):  # subnormals
    assert sums_of(*charges) == digits(math.fsum(charges))
assert sums_of(2.0**-1021, 5e-324, 5e-324) != sums_of(5e-324, 5e-324, 2.0**-1021)
for charges in ([-0.0], [-0.0, -0.0], [0.0, -0.0], [-0.0, 0.0], [-0.0] * 32, [0.0] * 32):  # from 0 no sum of zeros is -0
    assert sums_of(*charges) == "0" * 16
add(toggled(1, pulse, [BURST]), [edges(-0.0, 0.0), edges(0.0, -0.0), either(-0.0)], 9)
sums_of(-0.0, 5e-324, -0.0)
assert sums_of(*[1000.0] * 32) == digits(32000.0)
for charge in (1000.0, float_of(ABOVE - 2), 999.0, 1e3 / 3, 0.1, 1e-300, 5e-324):
    sums_of(*[charge] * 7)

# ---- the order of nets and that of frames

ORDERED = []
for turn in range(12):
    size = rng.choice([(2, 8, 5), (3, 12, 6), (4, 20, 8)])
    run = toggled(size[0], lively(rng, *size), [sorted(rng.sample(range(1, 40), rng.randint(3, 8))) for _ in range(size[0])])
    loads, lane = [edges(rng.uniform(0, 0.1), rng.uniform(0, 30)) for _ in run.nets], rng.randrange(64)
    charge = add(run, loads, lane)
    ORDERED += [{order for order, other in enumerate(other_orders(run, lane, loads)) if other != charge}]
    add(run, loads[::-1], lane)
assert all(sum(order in seen for seen in ORDERED) >= 6 for order in (0, 2, 3, 4, 5))
frames_alone = toggled(1, [], [BURST])  # one net: the frames' order alone
for load in (edges(0.1, 0.7), edges(0.7, 0.1), edges(0.2, 0.7), edges(700.7, 0.1), edges(0.1, 1 / 7)):
    assert other_orders(frames_alone, 0, [load])[1] != drawn(frames_alone, 0, [load])
    add(frames_alone, [load], 0)
nets_alone = risen(4, [])  # a change on each net: the nets' order alone
loads = [either(0.1), either(0.2), either(0.3), either(0.4)]
assert other_orders(nets_alone, 0, loads)[0] != drawn(nets_alone, 0, loads)
for order in itertools.islice(itertools.permutations(loads), 0, 24, 2):
    add(nets_alone, order)
late = toggled(2, [Record(BUF, 50, 0, [0]), Record(BUF, 1, 0, [1])], [[20, 30], [1, 2, 3]])  # a net's changes all before another's
assert other_orders(late, 3, loads)[3] != drawn(late, 3, loads)
for order in itertools.islice(itertools.permutations(loads), 0, 24, 2):
    add(late, order, 3)

# ---- what the inputs do: bursts, changes to the level that is there, no changes

for times in ([], [1], [255], [1, 255], FIVE, BURST, [*range(248, 256)]):
    for make in (driven, toggled):
        run = make(2, [*small, Record(XOR, 1, 0, [0, 1, 2]), Record(AND, 2, 3, [3, 4])], [times, [7]])
        add(run, random_loads(run), rng.randrange(64))
        add(run, [edges(0.1, 0.3)] * 6, rng.randrange(64))
for after in ([3, 3, 3, 3], [0, 0, 3, 3], [3, 0, 0, 3], [3, 3, 0, 0], [1, 2, 1, 2], [2, 2, 2, 1], [0, 0, 0, 0]):
    for lane in (0, 1):
        add(handed(1, [buf, Record(NOT, 2, 1, [0])], [4], [1, 2, 4, 9], [rng.choice([0, 3])], after), [edges(0.1, 0.7)] * 3, lane)
add(handed(3, [Record(OR, 1, 0, [0, 1, 2])], [0, 2, 0], [3, 4], [5, 6, 7], [1, 2]), [edges(1.0, 0.1)] * 4, 1)
for d in (1, 59999, 60000):  # long delays
    chain = [Record(NOT if j % 3 else BUF, d, 60000 * (j % 2), [j]) for j in range(3)]
    run = toggled(1, chain, [[1, 2, 4, 8, 16, 32, 128, 255]])
    add(run, [edges(0.1, 0.3)] * 4, 11)
    add(toggled(1, [Record(g.kind, g.d, 0, g.fanins) for g in chain], [[7, 255]]), random_loads(run), 12)

# ---- as many changes as there can be


def train(inputs, gates):
    """2,048 frames, at each of which but the first of a net it changes: a net of 64, copies of it, and copies of inputs; with 3
    inputs and 42 gates, or with as many as there can be."""
    line = [Record(BUF, 1 + 8 * k, 0, [0]) for k in range(7)] + [Record(BUF, 57, 0, [1])]
    top = inputs + len(line)
    line.append(Record(XOR, 1, 0, [*range(inputs, top)]))
    copied = {(3, 42): [top] * 29 + [0] * 4, (32, 128): [top] * 19 + [0] * 60 + [2] * 40}[inputs, gates]
    line += [Record(NOT if k % 3 else BUF, 1 + k % 5, 0, [net]) for k, net in enumerate(copied)]
    moments = [BURST, BURST[:7]] + {3: [[1, 9, 20]], 32: [[5], *[[k] for k in range(1, 30)]]}[inputs]
    assert len(line) == gates
    return toggled(inputs, line, moments)


for size in ((3, 42), (32, 128)):
    full = train(*size)
    assert full.total == MOST and max(map(len, full.times)) == 64
    assert len(kept_changes(full, 17)) == MOST - nets_of(full)
    for lane in (0, 17, 63):
        add(full, [either(1000.0)] * nets_of(full), lane)
        add(full, [edges(0.1, 1000.0)] * nets_of(full), lane)
        add(full, random_loads(full), lane)
    loads = [edges(rng.uniform(0, 1), rng.uniform(0, 1000)) for _ in full.nets]
    assert [drawn(full, 17, loads) == other for other in other_orders(full, 17, loads)][2:] == [False] * 4
    add(full, loads, 17)
    assert add(full, loads, 17, limit=MOST - 1) == 22
for n in (57, 63, 64):
    run = driven(1, comb(n))
    add(run, random_loads(run), n)
    add(run, random_loads(run), 0, limit=run.total)
for inputs, total, fanins in ((1, 2047, 1), (1, 2048, 8), (32, 2048, 1)):
    run = driven(inputs, copies(inputs, total, fanins))
    add(run, random_loads(run), rng.randrange(64))
still = driven(32, [Record(AND, 63, 63, [31 + j] * 8) for j in range(128)], [[]] * 32)  # 160 nets without a change
add(still, [either(1000.0)] * 160, 4)
long = toggled(32, [Record(NOT, 1, 0, [j]) for j in range(128)])  # 160 nets, each with one
add(long, [edges(k / 10, k / 7) for k in range(160)], 5)
add(long, [either(k / 10) for k in range(160)], 6)

# ---- a load for each net: 21

base = toggled(2, [*small, Record(AND, 1, 0, [0, 1])], [[1, 4], [2]])
fine = [edges(0.1, 0.2), either(0.3), either(0.4), edges(0.5, 0.6), either(0.7)]
assert add(base, fine, 3) not in (16, 21)
for run in (toggled(3, small), driven(1, []), driven(2, [buf]), risen(32, []), toggled(1, [buf] * 128), long):
    inputs, nets = run.inputs, nets_of(run)
    counts = {0, inputs, nets - inputs, nets - 1, nets, nets + 1, 161}
    for count in sorted(counts | ({1, 2 * nets, 160, 162, 200, 256, 256 + nets, 400} if nets == 5 else set())):
        answer = add(run, [edges(0.1, 0.7)] * count, rng.randrange(64))
        assert (answer != 21) == (count == nets)
for place in range(5):  # one load too many, and a wrong one among them
    assert add(base, [*fine[:place], (0, WRONG[place], NOTHING), *fine[place:]], place) == 21
for count in (162, 200, 400):
    add(still, [either(1.0)] * count, 63)
for place in (0, 159, 160, 161):  # of a list that is too long any load may be wrong
    add(risen(1, []), [edges(1.0, 2.0)] * place + [(1, NANS[1], NOTHING)] + [either(1.0)] * (161 - place), 1)

# ---- charges that are not from 0 to 1,000: 21, wherever they stand and whether or not they are drawn

at_rest = risen(1, [], 0, 0)
for k, bits in enumerate(WRONG):
    before, after = fine[:k % 5], fine[k % 5 + 1:]
    for load in ((0, bits, NOTHING), (1, bits, NOTHING), (1, NOTHING, bits)):
        assert add(base, [*before, load, *after], rng.randrange(64)) == 21
    assert add(base, [*before, (0, bits_of(0.9), bits), *after], 3) != 21  # nothing looks at it
    assert add(at_rest, [(0, bits, bits)]) == add(rise, [(1, NOTHING, bits), *WEIGHED[1:]]) == 21  # not drawn, but asked
for k, bits in enumerate((ABOVE - 1, ABOVE - 2, MINUS, 0, 1, (1 << 52) - 1, 1 << 52, bits_of(0.1), bits_of(1.0))):  # just within
    before, after = fine[:k % 5], fine[k % 5 + 1:]
    for load in ((0, bits, NANS[0]), (1, bits, NOTHING), (1, NOTHING, bits), (1, bits, bits)):
        assert add(base, [*before, load, *after], rng.randrange(64)) != 21
for pair in itertools.product((NANS[0], ABOVE, NOTHING), repeat=2):  # in two loads
    add(base, [(0, pair[0], NOTHING), *fine[1:4], (1, NOTHING, pair[1])])

# ---- the areas: 10, ahead of 11 and all that follow

worst = [(0, NANS[0], NANS[0])] * 3  # neither as many as there are nets nor in range
for lengths in around(FULL) + [NONE, BUFFERS, (10, 15, 15, 9, 15), (320, 2048, 2047, 16384, 2049)]:
    add(base, fine, 7, lengths=lengths)
    run = rng.choice([base, handed(2, crowded, *UNSUITED[1]), handed(2, small, [2, 1], [3, 9, 1], [1], [2])])
    add(run, rng.choice([worst, fine]), rng.choice([0, 64, 255]), lengths=lengths, limit=rng.choice([MOST, 0]))
for rubbish in (0, 1, 256, 32768, 65535):  # what stands in the areas before the call
    add(base, fine, 60, rubbish=rubbish)
    add(base, fine, 200, rubbish=rubbish)
    add(base, fine[:4], 60, rubbish=rubbish)
    add(base, fine, 60, rubbish=rubbish, lengths=BUFFERS)
    add(driven(2, crowded), [either(1.0)] * 20, 60, rubbish=rubbish)
    add(base, fine, 60, rubbish=rubbish, limit=base.total - 1)

# ---- the lists of words, 11, then the change times, 20: ahead of 16 and 21

for words in ((0, 0), (1, 3), (3, 3), (2, 2), (2, 4), (2, 0), (0, 3), (3, 2), (2, 400)):  # where (2, 3) is right
    assert add(handed(2, small, *SUITED[0], *map(random_words, words)), fine[:4]) == 11
    assert add(handed(2, crowded, [2, 1], [9, 3, 1], *map(random_words, words)), worst, 255, limit=0) == 11
for k, (counts, changes) in enumerate(SUITED):
    run = handed(2, small, counts, changes)
    add(run, fine[1:], 8)
    assert add(run, fine[k % 2:], (8, 64)[k % 2]) == (21, 16)[k % 2]
for k, (counts, changes) in enumerate(UNSUITED):
    run = handed(2, (small, crowded)[k % 2], counts, changes)
    assert add(run, (fine[:4], worst)[k % 2], (8, 64, 255)[k % 3], limit=rng.choice([MOST, 0])) == 20

# ---- 16, then 21, then 13, then 22: mixtures of them, and of those asked before

many = [driven(1, comb(65)), driven(2, crowded), driven(1, copies(1, 2049, 1)), driven(32, copies(32, 2049, 8))]
assert all(run.plan is None for run in many)
for run in (*many[1:3], base):
    right = [edges(0.25, 0.75)] * nets_of(run)
    for lane, loads, limit in itertools.product((63, 64), (right, right[1:], [*right[:-1], (1, NANS[0], NOTHING)]), (MOST, 0)):
        answer = add(run, loads, lane, limit=limit)
        assert answer == (16 if lane == 64 else 21 if loads != right else 13 if not run.plan else 22 if limit == 0 else answer)
for asked in itertools.product((False, True), repeat=7):  # 10, 11, 20, 16, 21, 13 and 22: none wrong, one, two, and all from one on
    if sum(asked) > 2 and list(asked) != sorted(asked):
        continue
    area, word, change, lane, load, frame, limit = asked
    counts, changes = ([2, 1], [9, 3, 1]) if change else SUITED[0]
    run = handed(2, crowded if frame else small, counts, changes, *map(random_words, (2, 4) if word else (2, 3)))
    loads = [either(0.5)] * (nets_of(run) - load)
    answer = add(run, loads, 64 if lane else 3, limit=0 if limit else MOST, lengths=BUFFERS if area else FULL)
    assert answer == next((n for n, no in zip((10, 11, 20, 16, 21, 13, 22), asked) if no), answer)

# ---- the caller's limit

for run in (base, driven(1, [], [[]]), mixed, driven(1, copies(1, 257, 1))):
    for limit in sorted({run.total - 1, run.total, run.total + 1, 1, 256, MOST, *SENSELESS}):
        add(run, [edges(0.3, 0.1)] * nets_of(run), 33, limit=limit)

# ---- refused files: ahead of all that the call asks

for number, file in FAULTS:
    words = Words(random_words(1), random_words(1))
    case(file, number, words, *numbers_of([either(1.0)] * 2))
    words = Words(random_words(rng.randint(0, 3)), random_words(rng.randint(0, 3)))
    words.counts, words.changes = rng.choice(UNSUITED)
    case(file, number, words, *numbers_of(rng.choice([worst, []])), rng.choice([64, 255]), rng.choice([MOST, *SENSELESS]),
         rng.choice([NONE, FULL, BUFFERS]))

# ---- numbers that are no list of loads: 100, ahead of everything

LISTS = [  # where five case bytes with ten charges would be right
    # a byte that is no case
    ([2], nothings(2)), ([255], nothings(2)), ([0, 0, 0, 0, 2], nothings(10)), ([2, 0, 0, 0, 0], nothings(10)),
    ([1, 1, 128, 1, 1], nothings(10)), ([0] * 160 + [2], nothings(322)), ([0] * 161 + [2], nothings(324)),
    ([0] * 399 + [255], nothings(800)),
    # another number of charges
    *[([0, 1, 0, 1, 0], nothings(count)) for count in (0, 5, 8, 9, 11, 12, 20)], ([], nothings(1)), ([], nothings(10)),
    ([], nothings(800)), ([0], nothings(3)), ([0] * 10, nothings(10)), ([0] * 400, nothings(10)), ([0] * 400, nothings(799)),
    # both, and charges that 21 would refuse
    ([2] * 5, nothings(3)), ([1] * 5, NANS + NANS[:1]), ([255, 0, 0, 0, 1], NANS + NANS[:2])]
for k, (case_list, charges) in enumerate(LISTS):
    case(file_of(2, base.records), 0, base, case_list, charges)
    if k % 2:
        number, file = rng.choice(FAULTS)
        case(file, number, Words(random_words(2), random_words(1)), case_list, charges, 255, 0, rng.choice([NONE, FULL, BUFFERS]))
    else:
        case(file_of(2, crowded), 0, many[1], case_list, charges, rng.choice([0, 64]))
case(file_of(2, base.records), 0, base, [], [])  # a list of no loads is one: 21
case(file_of(2, base.records), 0, base, [0] * 400, nothings(800))

# ---- at random

for turn in range(56):
    inputs = rng.choice([1, 2, 3, 8])
    gates = lively(rng, inputs, rng.choice([0, 1, 5, 12, 20]), 8)
    moments = rng.choice([once(inputs), bursts(rng, inputs, 3, 40), bursts(rng, inputs, 8, 255)])
    run = rng.choice([driven, toggled])(inputs, gates, moments)
    loads = random_loads(run)
    if turn % 8 == 0:
        loads[rng.randrange(len(loads))] = (rng.randrange(2), rng.choice(WRONG), rng.choice(WRONG))
    add(run, loads, rng.choice([0, 63, rng.randrange(64), rng.randrange(64), rng.randrange(70)]),
        limit=rng.choice([MOST, MOST, MOST, run.total, run.total - 1]))
for turn in range(8):
    inputs = rng.choice([1, 2, 5, 32])
    made = circuit(rng, inputs, rng.choice([1, 2, 3, 8]))
    gates = [Record(kind, rng.randint(1, 60000), rng.randint(0, 60000), fanins) for kind, _, _, fanins in made]
    run = driven(inputs, gates, bursts(rng, inputs, 4, 255))
    add(run, random_loads(run), rng.randrange(64))

# ---- written out; a last case that the program's buffers do not hold ends the run

add(at_rest, [either(1.0)] * 401)
too_long, _ = cases.pop()
with open("crates/test_charge/stdin", "wb") as f:
    f.writelines(data for data, _ in cases)
    f.write(too_long)
with open("crates/test_charge/stdout", "w") as f:
    f.writelines(line + "\n" for _, line in cases)
    f.write("cut\n")
answers = collections.Counter(" ".join(line.split()[:2]) if line[0] == "r" else "planned" for _, line in cases)
print(len(cases), "cases;", ", ".join(f"{n} {answer}" for answer, n in sorted(answers.items())))
