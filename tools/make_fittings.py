#!/usr/bin/env python3
"""Writes the input of the test program of Size and the fitted Run, and what it must print: stdin and stdout of crates/fittings.

The tops of its src/main.rt and of crates/testbench/src/lib.rt say what a case and its line are. The number of a refused file is
known by the fault that was put into it. What the calls must answer and leave is worked out by the papers' rules, which
tools/rules.py has; every accepted run is held against the time-by-time machine in one lane. Run it from the repository's root;
building and testing need none of it.
"""
import collections
import itertools
import random

from rules import (AND, BUF, BUFFERS, FAULTS, FULL, MOST, NONE, NOT, OR, PIECES, SENSELESS, SUITED, UNSUITED, XNOR, XOR, Record,
                   Words, around, buf, bursts, case_bytes, circuit, comb, copies, crowded, file_of, filled, four, frames, in_pieces,
                   lively, once, pulse, run_of, small, summed, too_many, two, with_sums)

rng = random.Random(17)
cases = []  # each as its bytes and its line


def random_words(count):
    return [rng.getrandbits(64) for _ in range(count)]


# ---- the lines


def fitting(run):
    """The lengths that the fitted Run asks for: a pair for each net, the frame total, the fan-in total. Where the change times
    are wrong, those for one change of each input."""
    nets = run.nets if run.moments else frames(once(run.inputs), run.records)
    total, entries = sum(len(times) for times, _, _ in nets), sum(len(row) for _, _, rows in nets for row in rows)
    return 2 * len(nets), total, total, entries, total


def is_held(lengths):
    return all(n <= most for n, most in zip(lengths, BUFFERS))


def held(run):
    """The fitting lengths, or the longest below them that leave the buffers room for one entry more."""
    return tuple(min(n, most - 1) for n, most in zip(fitting(run), BUFFERS))


def size_line(number, run, limit):
    number = number or (too_many(run, limit) if run.moments else 20)
    return f"refused {number}" if number else run.plan[0]


def fitted_line(number, run, limit, lengths, rubbish):
    """The order is the file's number, 11, 20, 13, 22, 10. No number writes anything; acceptance leaves what the first Run does,
    without the zeros behind."""
    number = number or run.fault or too_many(run, limit) or (10 if lengths != fitting(run) else 0)
    if number:
        return with_sums(f"refused {number}", filled(lengths, rubbish))
    areas = run.plan[1] + [[word for net in run.values for word in net]]
    return with_sums(run.plan[0], [summed(in_pieces(area, each)) for area, each in zip(areas, PIECES)])


# ---- the cases


def case(file, number, run, limit, lengths, rubbish):
    assert is_held(lengths)
    rubbish = rng.randrange(65536) if rubbish is None else rubbish
    line = f"{size_line(number, run, limit)}; {fitted_line(number, run, limit, lengths, rubbish)}"
    cases.append((case_bytes(file, run, limit, lengths, rubbish), line))


def add(run, limit=MOST, lengths=None, rubbish=None):
    """A case of an accepted file, in areas that just fit unless other lengths are given."""
    case(file_of(run.inputs, run.records), 0, run, limit, lengths or fitting(run), rubbish)


def bad(file, number, run, limit=MOST, lengths=NONE):
    case(file, number, run, limit, lengths, None)


def handed(inputs, records, counts, changes, words=None):
    """A circuit with any lists, and with so many random words; without numbers of words as many as 11 asks for."""
    before, after = map(random_words, words or (inputs, len(changes)))
    run = run_of(inputs, *map(tuple, (records, before, after, counts, changes)))
    if run.plan and not run.fault:
        run.wave(0, rng.randrange(64))
    return run


def driven(inputs, records, moments=None):
    """A circuit whose inputs change at these times; without any, once at 1."""
    moments = moments or once(inputs)
    return handed(inputs, records, [*map(len, moments)], [*itertools.chain(*moments)])


wide = [Record(kind, 1, 0, [*range(8)]) for kind in range(AND, XNOR + 1)]
BURST = [*range(1, 9)]

# ---- areas that just fit

for inputs in (1, 2, 31, 32):  # no gates, so no fan-in entries; no changes, one of each input, and eight
    for times in ([], [1], BURST):
        add(driven(inputs, [], [times] * inputs))
for kind in range(8):  # one gate, of each kind on each number of nets
    for m in ([1] if kind < 2 else range(2, 9)):
        add(driven(m, [Record(kind, 1 + m, m % 4, [*range(m)])]))
        if m in (1, 3, 8):  # a net that stands there more than once
            add(driven(1, [Record(kind, 5, 1, [0] * m)], [[3, 4, 9]]))
for times in ([], [1], [255], [1, 255], [254, 255], BURST, [*range(248, 256)]):
    add(driven(1, pulse, [times]))
    add(driven(2, small, [times, [1]]))
    add(driven(2, small, [[100], times]))
    add(driven(8, wide, [times] * 7 + [[7]]))
add(driven(32, [Record(AND, 63, 63, [31 + j] * 8) for j in range(128)], [[]] * 32))  # no changes: a frame for each of 160 nets
add(driven(1, [Record(NOT, 1, 0, [j]) for j in range(128)]))
add(driven(32, [Record(XOR, 2, 1, [0, 31]), *wide]))
for n in range(57, 65):  # up to 64 frames on a net
    add(driven(1, comb(n)))
for inputs in (1, 32):  # up to 2,048 in all
    for total in (2047, 2048):
        for fanins in (1, 8):
            add(driven(inputs, copies(inputs, total, fanins)))


def fullest():
    """2,048 frames and eight fan-ins on every gate. No fan-in total is larger: an input has two of the frames, or no net has more
    than one. Each gate of the ladder has one time more than the one before."""
    ladder = [Record(XOR, 1, 1, [j] * 7 + [0]) for j in range(39)]  # 2 to 40 frames
    gates = ladder + [Record(AND, 1 + k % 5, 2, [39] * 8) for k in range(30)] + [Record(OR, 3, 0, [26] * 8)]
    assert fitting(driven(1, gates)) == (142, 2048, 2048, 8 * 2046, 2048)
    return gates


def all_nets():
    """Directory, times, inertial and values as long as in the full course: 160 nets with 2,048 frames."""
    gates = [Record(g.kind, g.d, g.di, [f + 31 if f else 0 for f in g.fanins]) for g in comb(64)]
    gates += [Record(BUF, 1 + k % 3, 2, [net]) for k, net in enumerate([49] * 21 + [40] * 43 + [0] * 46)]
    lengths = fitting(driven(32, gates))
    assert lengths[:3] + lengths[4:] == FULL[:3] + FULL[4:]
    return gates


add(driven(1, fullest()))
add(driven(32, all_nets()))
chain = [Record(NOT if j % 3 else BUF, 60000, 60000 * (j % 2), [j]) for j in range(128)]
for times in ([], [255], [1, 2, 4, 8, 16, 32, 128, 255]):  # long delays: to the last time that any circuit has, 7,680,255
    add(driven(1, chain, [times]))
for d in (5534, 5535, 5536, 5537):  # the last time at 65,535 to 65,538
    add(driven(1, [Record(NOT, 60000, 0, [0]), Record(BUF, d, 9, [1])]))
for size in ((1, 12, 4), (2, 12, 6), (3, 20, 8), (4, 30, 10), (8, 40, 30)):
    add(driven(size[0], lively(rng, *size)))
    for most, last in ((2, 9), (3, 40), (8, 255)):
        add(driven(size[0], lively(rng, *size), bursts(rng, size[0], most, last)))
for turn in range(12):
    inputs = rng.choice([1, 2, 5, 32])
    made = circuit(rng, inputs, rng.choice([1, 2, 3, 8]))
    gates = [Record(kind, rng.randint(1, 60000), rng.randint(0, 60000), fanins) for kind, _, _, fanins in made]
    add(driven(inputs, gates, bursts(rng, inputs, 4, 255)))

# the last time is that of a net in the middle, of the first gate, of an input that no gate reads, or of one that a gate does
for gates in ([Record(NOT, 50, 0, [0]), buf], [buf, Record(NOT, 50, 0, [0]), buf], [Record(NOT, 60000, 0, [0]), buf, buf]):
    add(driven(1, gates))
    add(driven(2, gates, [[1], [200]]))
    add(driven(2, gates, [[2, 3], []]))
for moments in ([[1], [255]], [[255], [1]], [[254], [253, 255]], [[], [77]], [[77], []]):
    add(driven(2, [], moments))
    add(driven(2, [buf], moments))
    add(driven(3, [Record(OR, 9, 0, [1, 2])], moments + [[3]]))

# ---- areas that do not fit

RUNS = [driven(1, []), driven(3, [], [BURST, [], [9]]), driven(1, [buf]), driven(2, small, [[3, 9], []]), driven(8, wide),
        driven(3, lively(rng, 3, 20, 8), bursts(rng, 3, 5, 40)), driven(2, small, [[], []])]
assert all(run.plan for run in RUNS)


def beside(run):
    """One area one too short or too long; where there are no fan-in entries none are too few."""
    return [lengths for lengths in around(held(run)) if min(lengths) >= 0]


def others(run):
    """Lengths beside the fitting ones: one area that is one too short or too long, empty, or as long as in the full course; all of
    them so; lengths of one area for another; a directory of one number for each net, or of pairs for inputs or gates alone."""
    right = fitting(run)
    directory, total, _, entries, _ = right
    alone = [right[:k] + (n,) + right[k + 1:] for k in range(5) for n in (0, FULL[k])]
    pairs = [(n,) + right[1:] for n in (directory // 2, 2 * run.inputs, 2 * len(run.records), 320)]
    mixed = [(directory, total, total, total, total), (directory, entries, entries, entries, entries), (total,) + right[1:],
             (directory, total + 1, total - 1, entries, total), tuple(n + 1 for n in right)]
    every = dict.fromkeys(beside(run) + alone + pairs + mixed + [NONE, FULL, BUFFERS])  # each once
    return [lengths for lengths in every if is_held(lengths)]


for run in RUNS:
    for lengths in others(run):  # the answer is 10 unless they happen to fit
        add(run, lengths=lengths)
for gates, inputs in ((fullest(), 1), (all_nets(), 32)):
    run = driven(inputs, gates)
    for lengths in beside(run) + [FULL]:
        add(run, lengths=lengths)
for run in (driven(1, comb(64)), driven(1, copies(1, 2048, 1))):
    for lengths in (*beside(run)[2:4], FULL, NONE):
        add(run, lengths=lengths)
for first, second in itertools.permutations(([[3, 9], [1]], [[3, 9], []], [[], [1, 2, 3]], [[], []]), 2):  # what fits other times
    add(driven(2, small, first), lengths=fitting(driven(2, small, second)))

# ---- the caller's limit, 22: ahead of 10

for run in (*RUNS, driven(1, pulse), driven(1, [], [[]]), driven(1, chain, [[1, 255]])):
    total = run.total
    for limit in sorted({total - 1, total, total + 1, 1, MOST, *SENSELESS}):
        add(run, limit)
    for limit in (total - 1, total, 65535):
        add(run, limit, rng.choice(beside(run)))
        add(run, limit, rng.choice([NONE, FULL, BUFFERS]))
for total in (255, 256, 257):  # the demo's limit
    add(driven(1, copies(1, total, 1)), 256)
run = driven(1, copies(1, 2048, 8))
for limit in (2047, 2048, 2049):
    add(run, limit)
    add(run, limit, FULL)

# ---- too many frames, 13: ahead of 22 and of 10

many = [driven(1, comb(65)), driven(1, comb(65) + [buf]), driven(2, crowded), driven(1, copies(1, 2049, 1)),
        driven(32, copies(32, 2049, 8)), driven(1, [Record(BUF, d, 0, [0]) for d in (1, 9, 17, 25, 33, 41, 49, 57)] +
                                                [Record(OR, 1, 3, [*range(1, 9)])], [BURST])]
assert all(run.plan is None for run in many) and many[3].total == many[4].total == 2049
for run in many:
    for limit in (MOST, run.total, *SENSELESS):
        add(run, limit, held(run))
    for lengths in (NONE, FULL, BUFFERS, rng.choice(beside(run))):
        add(run, rng.choice([MOST, 0]), lengths)

# ---- lists of words, 11: ahead of all but the file's questions

WORDS = [(0, 0), (1, 3), (3, 3), (2, 2), (2, 4), (2, 0), (0, 3), (3, 2), (2, 400)]  # where (2, 3) is right
for words in WORDS:
    for records, counts, changes, limit in (
            (small, *SUITED[0], MOST), (small, [2, 1], [9, 3, 1], MOST), (crowded, *SUITED[0], MOST), (small, *SUITED[0], 0),
            ([], [2, 1, 0], [3, 9, 1], 65535)):
        run = handed(2, records, counts, changes, words)
        assert run.fault == 11
        add(run, limit)
        add(run, limit, rng.choice([NONE, FULL, BUFFERS]))
for counts, changes in (SUITED[2], SUITED[6], ([1, 1], [1])):  # as many after words as times, whatever the counts say
    for off in (-1, 0, 1):
        add(handed(2, small, counts, changes, (2, max(0, len(changes) + off))))
        add(handed(2, small, counts, changes, (2 + off, len(changes))))
for changes in ([2, 9, 30], [30]):  # one input with another number of changes than of inputs
    for after in (1, len(changes)):
        add(handed(1, pulse, [len(changes)], changes, (1, after)))

# ---- change times, 20: ahead of 13, 22 and 10

for counts, changes in SUITED:
    run = handed(2, small, counts, changes)
    assert not run.fault
    add(run)
    add(run, lengths=rng.choice(others(run)))
    add(handed(2, [], counts, changes))
for k, (counts, changes) in enumerate(UNSUITED):
    run = handed(2, (small, crowded)[k % 2], counts, changes)
    assert run.fault == 20
    add(run)
    add(run, rng.choice(SENSELESS), rng.choice([NONE, FULL]))
add(handed(32, [], [8] * 32, BURST * 32))
add(handed(32, [], [8] * 31 + [9], BURST * 31 + [*range(1, 10)]))
add(handed(32, [], [8] * 32, []))  # 256 is 0 in one byte
for place, time in itertools.product(range(3), (0, 256, 65536 + 2, 2**24 + 5, 2**32 - 1)):  # some are right in their lower half
    add(handed(2, small, [2, 1], [time if k == place else t for k, t in enumerate([3, 9, 1])]))

# ---- refused files: ahead of all

for number, file in FAULTS:
    right = Words(random_words(1), random_words(1))
    bad(file, number, right, lengths=(4, 4, 4, 2, 4))
    bad(file, number, right, rng.choice([1, *SENSELESS]), rng.choice([FULL, BUFFERS, (1, 2, 3, 4, 5)]))
    wrong = Words(random_words(rng.randint(0, 3)), random_words(rng.randint(0, 3)))
    wrong.counts, wrong.changes = rng.choice(UNSUITED)
    bad(file, number, wrong, rng.choice([MOST, 0]), rng.choice([NONE, FULL]))
bad(file_of(1, [Record(AND, 1, 0, [0] * 32765)]), 8, Words([1], [2]), lengths=FULL)  # a record's end above 65,535

# ---- rubbish of every sort: before an acceptance, 10, 22 and 13

for rubbish in (0, 1, 7, 255, 256, 32767, 32768, 65279, 65535):
    add(RUNS[3], rubbish=rubbish)
    add(RUNS[3], lengths=FULL, rubbish=rubbish)
    add(RUNS[3], 1, rubbish=rubbish)
    add(many[2], rubbish=rubbish)

# ---- at random: limits beside the total, and lengths that mostly fit

for turn in range(60):
    inputs = rng.choice([1, 2, 3, 8])
    gates = lively(rng, inputs, rng.choice([0, 1, 5, 12]), 8)
    run = driven(inputs, gates, rng.choice([once(inputs), bursts(rng, inputs, 3, 40), bursts(rng, inputs, 8, 255)]))
    add(run, rng.choice([MOST, MOST, run.total, run.total - 1, rng.randrange(65536)]),
        rng.choice([held(run), held(run), rng.choice(beside(run))]))

# ---- written out; a last case that the program's buffers do not hold ends the run

with open("crates/fittings/stdin", "wb") as f:
    f.writelines(data for data, _ in cases)
    f.write(four(4) + b"".join(map(two, FULL[:4])) + two(2101) + bytes(10))  # an area of 2,101 values
with open("crates/fittings/stdout", "w") as f:
    f.writelines(line + "\n" for _, line in cases)
    f.write("cut\n")
answers = collections.Counter(" ".join(line.split("; ")[1].split()[:2]) if "; r" in line else "planned" for _, line in cases)
print(len(cases), "cases;", ", ".join(f"{n} {answer}" for answer, n in sorted(answers.items())))
