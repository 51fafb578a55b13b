#!/usr/bin/env python3
"""Writes the test programs' input and what they must print: stdin and stdout of crates/cases, crates/parts and crates/marks.

The tops of their src/main.rt and of crates/testbench/src/lib.rt say what a case and its line are. What the reader must answer
is known by the way a file is made: a circuit within the limits, or one fault put into its file, or more, of which the earliest
counts. Nothing here reads a file back. What the calls must answer and leave is worked out by the papers' rules, which
tools/rules.py has: Plan net by net, with sets and counts and none of the programs' ways; Run lane by lane, with Bools, compared
with the time-by-time machine in some lanes of every case at every time of every net; Mark on the machine's levels, at the first
time of a span at which they are others. Where times go into millions the machine is asked at the times at which its rule can give
something new. Run it from the repository's root; building and testing need none of it.
"""
import collections
import itertools
import random

from rules import (AND, BUF, CLEARED, FULL as RIGHT, MOST, NOR, NOT, OR, SUITED, UNSUITED, XNOR, XOR, Record, Run, Words, around,
                   bursts, case_bytes, circuit, comb, copies, evaluate, file_of, filled, four, frames, left, level_at, lively,
                   moments_of, once, run_of, summed, too_many, two, with_sums)

rng = random.Random(7)
cases, parts, marks = [], [], []  # what the three programs are given, each case as its bytes and its line


# ---- Level, Count and Mark


def look_fault(times, values, lane):
    return (14 if len(times) != len(values) or len(times) not in range(1, 65) else
            15 if times != sorted({0, *times}) else 16 if lane > 63 else 0)


def frame_at(times, time):
    """When the frame began that holds the time, and when the next begins."""
    return f"{max(t for t in times if t <= time)} {min((t for t in times if t > time), default='no end')}"


def level_of(times, values, lane, time):
    no = look_fault(times, values, lane)
    return f"refused {no}" if no else f"{level_at(times, values, time) >> lane & 1} {frame_at(times, time)}"


def count_of(times, values, lane):
    no, bits = look_fault(times, values, lane), "".join(str(value >> lane & 1) for value in values)
    return f"refused {no}" if no else str(bits.count("01") + bits.count("10"))


def suits(expectation, nets):
    net, lane, start, end, expected = expectation
    return net < nets and lane < 64 and start <= end and expected < 2


def verdict(run, expectations):
    """The first expectation with a time at which the level is another, and the frame that holds the first such time."""
    for position, (net, lane, start, end, expected) in enumerate(expectations):
        t = run.wave(net, lane).first_other(expected == 1, start, end)
        if t is not None:
            return f"unmet {position} {sum(s <= t for s in run.times[net]) - 1}"
    return "all met"


# ---- the lines


def plan_part(run, limit, lengths, untouched):
    """What Plan answers and leaves. It is not handed the values."""
    if lengths[:4] != RIGHT[:4]:
        return with_sums("refused 10", untouched[:4])
    if run.moments is None:
        return with_sums("refused 20", untouched[:4])
    number = too_many(run, limit)
    if number:
        return with_sums(f"refused {number}", CLEARED[:4])
    answer, areas = run.plan
    return with_sums(answer, left(areas))


def asked_of(run, lengths):
    """The first "no" among Run's questions behind the reader's and before 13, or 0."""
    return 10 if lengths != RIGHT else run.fault


def sums_after(run, fault, untouched):
    """What Run leaves, with the number of its first "no"."""
    if fault:
        return CLEARED if fault in (13, 22) else untouched
    return left(run.plan[1] + [[word for net in run.values for word in net]])


def lanes_seen(run, net, time):
    """What Level and Count see of a net in all lanes."""
    times, values = (run.times[net], run.values[net]) if net < len(run.nets) else ([], [])
    no = look_fault(times, values, 63)
    if no:
        return f"refused {no}"
    counts = summed(int(count_of(times, values, lane)) for lane in range(64))
    return f"{level_at(times, values, time):016x} {frame_at(times, time)} {counts}"


def case_line(number, inputs, run, limit, lengths, rubbish, net, time):
    """What the reader, Plan, Run's questions and Run answer and leave, and what is seen of the net."""
    untouched = filled(lengths, rubbish)
    if number:
        refused = f"refused {number}"
        return [refused, with_sums(refused, untouched[:4]), refused, with_sums(refused, untouched)]
    read = f"accepted {inputs} {len(run.records)}"
    asked = asked_of(run, lengths)
    fault = asked or too_many(run, limit)
    ran = with_sums(f"refused {fault}" if fault else run.plan[0], sums_after(run, fault, untouched))
    line = [read, plan_part(run, limit, lengths, untouched), f"refused {asked}" if asked else read, ran]
    return line if fault else line + [lanes_seen(run, net, time)]


def mark_line(number, inputs, run, limit, lengths, rubbish, expectations):
    """What Mark answers and leaves."""
    untouched = filled(lengths, rubbish)
    fault = number or asked_of(run, lengths)
    if not fault and not all(suits(e, inputs + len(run.records)) for e in expectations):
        fault = 12
    fault = fault or too_many(run, limit)
    return with_sums(f"refused {fault}" if fault else verdict(run, expectations), sums_after(run, fault, untouched))


# ---- the cases


def add(file, number, inputs, run, limit=MOST, lengths=RIGHT, rubbish=None, net=0, time=0, expectations=(),
        marked_only=False):
    """A case with a circuit, for both programs: the reader's number, or 0 with the inputs and the run of an accepted file."""
    rubbish = rng.randrange(65536) if rubbish is None else rubbish
    data = case_bytes(file, run, limit, lengths, rubbish)
    records = b"".join(two(n) + bytes([l]) + four(a) + four(b) + bytes([x]) for n, l, a, b, x in expectations)
    marks.append((bytes([len(expectations)]) + data + records,
                  mark_line(number, inputs, run, limit, lengths, rubbish, expectations)))
    if not marked_only:
        cases.append((two(net) + four(time) + data,
                      "; ".join(case_line(number, inputs, run, limit, lengths, rubbish, net, time))))


def random_words(count):
    return [rng.getrandbits(64) for _ in range(count)]


def some_expectations(run, most, lanes):
    """Most are met: a stretch of one level of some net, or a part of it."""
    out = []
    for _ in range(rng.randint(0, most)):
        net, lane = rng.randrange(len(run.nets)), rng.choice(lanes)
        wave, start = run.wave(net, lane), rng.randrange(run.last + 2)
        level = wave.at(start)
        end = (wave.first_other(level, start, run.last + 1) or run.last + 2) - 1
        if end == run.last + 1 and rng.random() < 0.5:
            end = rng.choice([65535, run.last + rng.randint(1, 100)])
        out.append((net, lane, start, max(start, end - rng.choice([0, 0, 1])), int(level) ^ (rng.random() < 0.08)))
        if rng.random() < 0.05:
            out[-1] = (net, lane, max(0, start - rng.randint(0, 9)), end, out[-1][4])
    return out


def good(inputs, records, before=None, after=None, moments=None, **more):
    """An accepted file. What the case does not say is taken at random, looks mostly at the last nets. Without times for each
    input they change once, at 1."""
    moments = moments or once(inputs)
    counts, changes = list(map(len, moments)), list(itertools.chain(*moments))
    before, after = before or random_words(inputs), after or random_words(len(changes))
    run = run_of(inputs, tuple(records), tuple(before), tuple(after), tuple(counts), tuple(changes))
    if run.plan and more.get("lengths", RIGHT) == RIGHT and not run.fault:
        lanes = rng.sample(range(64), 2 if len(records) < 128 else 1)
        run.wave(0, lanes[0])
        more.setdefault("net", max(0, len(run.nets) - 1 - rng.choice([0, 0, 0, 1, 2])))
        if "time" not in more:
            more["time"] = max(0, rng.choice(run.times[more["net"]] + [run.last, 65535]) - rng.choice([0, 0, 1]))
        if "expectations" not in more:
            more["expectations"] = some_expectations(run, 12, lanes)
    add(file_of(inputs, records), 0, inputs, run, **more)


def bad(data, number, **more):
    """A refused file. Areas, lists and expectations are right or wrong as it comes: nothing of them is asked."""
    more.setdefault("lengths", rng.choice([RIGHT, (320, 2048, 2048, 16384, 2047), (0, 0, 0, 0, 0)]))
    more.setdefault("expectations", rng.choice([(), ((0, 0, 0, 0, 0),), ((65535, 64, 1, 0, 2),)]))
    add(data, number, 0, Words(random_words(rng.randint(0, 2)), random_words(rng.randint(0, 2))), **more)


def look(times, values, lane, time):
    """A case of parts of a net that no run made."""
    data = bytes([len(times), len(values), lane]) + four(time)
    data += b"".join(map(four, times)) + b"".join(value.to_bytes(8, "little") for value in values)
    parts.append((data, f"{level_of(times, values, lane, time)}; {count_of(times, values, lane)}"))


buf = Record(BUF, 1, 0, [0])

# ---- the reader's questions: 1 to 4

for n in range(4):
    bad(file_of(1, [])[:n], 1)
for i in (0, 33, 256, 65279):  # bench sheet, Others: I = 0 and 33 give 2
    bad(file_of(i, []), 2)
for i in (1, 2, 31, 32):
    good(i, [])
for g in (129, 256, 65535):  # bench sheet, Others: G = 129 gives 3
    bad(two(257) + two(g) + bytes(4 * 129), 3)
bad(two(256) + two(129), 2)
bad(two(257) + two(129), 3)
bad(two(257) + two(1), 4)
bad(two(257) + two(1) + bytes(3), 4)
bad(two(257) + two(128) + bytes(4 * 128 - 1), 4)
bad(two(257) + two(128) + bytes(4 * 128), 5)

# question 5
bad(file_of(1, [], tail=b"\0"), 5)
good(1, [buf])
bad(file_of(1, [buf], shift={0: 1}), 5)
bad(file_of(1, [buf], shift={0: -1}), 5)
bad(file_of(1, [buf], lengths={0: 6}), 5)
bad(file_of(1, [buf], tail=b"\0"), 5)
bad(file_of(1, [buf])[:-1], 5)
bad(file_of(1, [buf, buf], shift={1: 1}), 5)
bad(file_of(1, [buf, buf], lengths={0: 8}), 5)
bad(two(257) + two(1) + two(8) + two(4) + bytes(4), 5)
bad(two(257) + two(2) + two(12) + two(0) + two(12) + two(7) + buf, 5)
# offset and length add up to more than two bytes hold: the sum is 65,543, the file's length, so question 8 is reached
long = Record(AND, 1, 0, [0] * 32765)
bad(file_of(1, [long]), 8)
# a sum cut to two bytes would be 7
bad(two(257) + two(1) + two(8) + two(65535) + buf[:-1], 5)

# questions 6 to 9, each kind with each number of fan-ins
for kind in range(8):
    for m in range(0, 11):
        gate = Record(kind, 1, 0, [0] * m)
        if m == 1 if kind < 2 else 2 <= m <= 8:
            good(1, [gate])
        else:
            bad(file_of(1, [gate]), 8)
        if m:
            bad(file_of(1, [gate + b"\0"]), 8)
for kind in (8, 9, 128, 255):
    bad(file_of(1, [Record(kind, 1, 0, [0])]), 6)
# bench sheet, Others: d = 0 gives 7
for d, di in ((0, 0), (60001, 0), (65535, 0), (1, 60001), (60000, 65535), (0, 60001)):
    bad(file_of(1, [Record(BUF, d, di, [0])]), 7)
for d, di in ((1, 0), (63, 0), (1, 63), (63, 63)):
    good(1, [Record(BUF, d, di, [0])])
# bench sheet, Others: a gate that reads its own net gives 9
for own, fanin in ((1, 1), (1, 2), (1, 65535), (32, 32), (32, 256)):
    bad(file_of(own, [Record(NOT, 1, 0, [fanin])]), 9)
    bad(file_of(own, [Record(XNOR, 1, 0, [0, fanin, 0])]), 9)
good(32, [Record(NOT, 1, 0, [31])])
good(1, [buf, Record(AND, 1, 0, [1, 1])])
bad(file_of(1, [buf, Record(AND, 1, 0, [1, 2])]), 9)

# several faults: an earlier question or an earlier gate wins
bad(file_of(1, [Record(8, 0, 60001, [1])]), 6)
bad(file_of(1, [Record(AND, 0, 0, [1])]), 7)
bad(file_of(1, [Record(AND, 1, 0, [1])]), 8)
bad(file_of(1, [Record(NOT, 1, 0, [1]), Record(8, 0, 0, [0])]), 9)
bad(file_of(1, [Record(8, 1, 0, [0])], tail=b"\0"), 5)
bad(file_of(1, [buf, Record(BUF, 60001, 0, [9]), Record(8, 1, 0, [0])]), 7)

# ---- the bench sheet's rows: fan-in times {0,3,4} and {0,2,6}, d = 3, di = 2 (rows A to C)
good(1, [Record(BUF, 1, 0, [0]), Record(BUF, 2, 0, [0]), Record(BUF, 3, 0, [0]), Record(BUF, 4, 0, [0]),
         Record(OR, 1, 0, [1, 2]), Record(OR, 1, 0, [0, 4]), Record(XNOR, 3, 2, [5, 6])])


def bench(records, times, levels):
    """A circuit whose last net has these times, and in a lane that rises these levels."""
    nets = frames(once(1), records)
    assert nets[-1][0] == times and evaluate(nets, records, [(False, True)])[-1] == [level == 1 for level in levels]
    good(1, records)


def wave_circuit(di):
    return [Record(NOT, 2, 0, [0]), Record(AND, 1, di, [0, 1])]


def step(time):
    return Record(BUF, time - 1, 0, [0])


bench([step(4), step(6), Record(XOR, 1, 2, [1, 2])], [0, 5, 7], [0, 0, 0])  # row D
bench([step(4), step(6), Record(XOR, 1, 1, [1, 2])], [0, 5, 7], [0, 1, 0])  # E
bench([step(3), step(4), Record(XOR, 1, 0, [1, 2]), step(6), Record(OR, 1, 1, [3, 4])], [0, 5, 6, 7], [0, 0, 0, 1])  # F
bench([step(2), step(5), Record(XNOR, 1, 3, [1, 2])], [0, 3, 6], [1, 1, 1])  # G
bench([step(3), step(5), Record(XOR, 1, 0, [1, 2]), step(4), Record(XOR, 1, 0, [4, 4]), Record(OR, 1, 2, [3, 5])],
      [0, 5, 6, 7], [0, 0, 0, 0])  # H
bench(wave_circuit(1), [0, 2, 4], [0, 1, 0])
bench(wave_circuit(2), [0, 2, 4], [0, 0, 0])  # I
bench([step(2), Record(XOR, 1, 0, [1, 1, 1])], [0, 3], [0, 1])  # J, as request P4 changed it


# ---- lively nets


def pulses(di):
    """A net with 48 changes where its input changes: pulses of 1 to 3 times, 1 to 3 apart, of which a delay leaves some."""
    gates, at = [], 2
    for width, gap in ((1, 1), (2, 1), (3, 2), (1, 3), (2, 2), (3, 1), (1, 2), (2, 3)):
        gates += [step(at), step(at + width), Record(XOR, 1, 0, [len(gates) + 1, len(gates) + 2])]
        at += width + gap
    gates.append(Record(OR, 1, 0, list(range(3, 25, 3))))
    return gates + [Record(BUF, d, 0, [25]) for d in (1, 31, 61)] + [Record(OR, 1, di, [26, 27, 28])]


for di in range(5):
    good(1, pulses(di))

# every kind of gate on 2 to 8 nets
for _ in range(3):
    good(8, [Record(kind, 1, 0, list(range(m))) for kind in range(AND, XNOR + 1) for m in range(2, 9)])

# a net twice in a list, and the last net not the latest
good(1, [buf, Record(AND, 5, 9, [0, 1, 0, 1]), Record(XNOR, 1, 63, [0, 0])])

# ---- XOR and XNOR of two to eight entries


def every_pattern(inputs):
    """A word for each input: lane L has the levels of the bits of L, inputs 6 and 7 those of L's highest and lowest bit."""
    return [sum((lane >> (0, 1, 2, 3, 4, 5, 5, 0)[i] & 1) << lane for lane in range(64)) for i in range(inputs)]


def backwards(words):
    return [int(f"{word:064b}"[::-1], 2) for word in words]


for kind in (XOR, XNOR):
    for m in range(2, 9):
        words = every_pattern(m)
        for time in (0, 2):  # before the change and after it, all 64 lanes in the line
            good(m, [Record(kind, 1, 0, list(range(m)))], words, backwards(words), net=m, time=time)
        # the entries rise one by one and the gate turns at each; an inertial delay of 1 leaves no turn but the last
        good(1, [step(2 + k) for k in range(m)] + [Record(kind, 1, 0, list(range(1, m + 1)))], [0], [2**64 - 1])
        good(1, [step(2 + k) for k in range(m)] + [Record(kind, 1, 1, list(range(1, m + 1)))], [0], [2**64 - 1])
    for fanins in ([0, 0, 0], [0, 0, 1], [0, 1, 0, 1], [2, 2, 2, 0], [0, 1, 1, 2, 2], [0] * 7, [0] * 8, [0, 1, 2, 2, 1, 0, 1]):
        words = every_pattern(3)  # a net that stands twice counts twice
        good(3, [Record(kind, 1, 0, fanins)], words, backwards(words), net=3, time=2)
bench([step(2 + k) for k in range(8)] + [Record(XOR, 1, 0, list(range(1, 9)))], [0, *range(3, 11)], [0, 1, 0, 1, 0, 1, 0, 1, 0])
bench([step(2 + k) for k in range(7)] + [Record(XNOR, 1, 1, list(range(1, 8)))], [0, *range(3, 10)], [1] * 7 + [0])

# ---- question 13

for n in range(57, 66):  # bench sheet, Others: 64 frames on a net pass, 65 give 13
    good(1, comb(n))
good(1, comb(65) + [buf])
for inputs in (1, 2, 32):
    for total in (2047, 2048, 2049):
        good(inputs, copies(inputs, total, 1))
        good(inputs, copies(inputs, total, 8))

# ---- lengths of the areas and the lists: each one too short or too long, and more than one

small = [Record(NOT, 2, 1, [0]), Record(XOR, 3, 0, [0, 1])]
for inputs, gates in ((1, []), (2, small), (1, comb(65))):  # the last is refused with 13 where the lengths are right
    words = (inputs, inputs)
    for at in [RIGHT + words] + around(RIGHT + words) + [
            RIGHT + (0, 0), RIGHT + (inputs + 1,) * 2, RIGHT[:4] + (0, 0, 0), (0,) * 7, (0,) * 5 + words,
            (319, 2049) + RIGHT[2:] + words, (400, 2100, 2100, 16400, 2100) + words,
            (320, 2048, 2047, 16384, 2049) + words, (320, 2048, 2048, 2048, 2048) + words,
            RIGHT + (inputs, 80)]:
        before, after = random_words(at[5]), random_words(at[6])
        add(file_of(inputs, gates), 0, inputs, Run(inputs, gates, before, after), lengths=at[:5])
# a refused file comes first, whatever the lengths are
bad(file_of(0, []), 2, lengths=(1, 2, 3, 4, 5))
bad(file_of(1, [Record(NOT, 1, 0, [1])]), 9, lengths=(400, 2100, 2100, 16400, 2100))
# rubbish of every sort before an acceptance, and before 13
for rubbish in (0, 1, 7, 255, 256, 32767, 32768, 65279, 65535):
    good(2, small, rubbish=rubbish)
    good(1, comb(65), rubbish=rubbish)

# ---- looks after a run: the waves of document 01's example at every time, then nets that are not there

for di in (1, 2):
    for net in range(3):
        for time in (0, 1, 2, 3, 4, 5, 65535):
            good(1, wave_circuit(di), [0], [1], net=net, time=time, expectations=())
for net, time in ((3, 4), (159, 4), (160, 4), (199, 4), (200, 4), (65535, 4), (2, 4), (1, 0), (1, 65535), (0, 0),
                  (0, 65535)):
    good(1, wave_circuit(1), [2**63 + 5], [2**62 + 6], net=net, time=time, expectations=())


# ---- Mark


def mark(inputs, records, words, expectations, **more):
    """A case for the program of Mark alone."""
    good(inputs, records, words[0], words[1], expectations=tuple(expectations), marked_only=True, **more)


def spans(run, net, lane):
    """The frames of a net in a lane: from, to and level of each; the last ends with the last time there is."""
    ends = [t - 1 for t in run.times[net][1:]] + [65535]
    return [(start, end, int(run.wave(net, lane).at(start))) for start, end in zip(run.times[net], ends)]


marked = pulses(1)
marked_words = ([0x0123456789abcdef], [0xfedcba9876543210])  # no lane stays: each lane's before and after differ
marked_run = Run(1, marked, *marked_words)
net, lane = len(marked), 37
all_spans = spans(marked_run, net, lane)
assert len(all_spans) == 49 and len({level for _, _, level in all_spans}) == 2
met = [(net, lane, start, end, level) for start, end, level in all_spans]


def broken(expectation):
    return expectation[:4] + (1 - expectation[4],)


# lists of 0 to 12 that are met; then one that is not, at each position, at some frame of the net
for n in range(13):
    mark(1, marked, marked_words, met[3:3 + n])
for position in range(12):
    mark(1, marked, marked_words, met[:position] + [broken(met[4 * position])] + met[position + 1:12])
# the frame that breaks: every fourth, the first and the last, alone in the span, then from its middle on
for k in sorted({*range(0, 49, 4), 48}):
    start, end, level = all_spans[k]
    mark(1, marked, marked_words, [(net, lane, start, start, 1 - level)])
    mark(1, marked, marked_words, [met[k], (net, lane, min(end, start + 1), end, 1 - level)])
# spans that end at a frame's last time, and one time later, where another level begins; a frame that began before the span
for k in [k for k in range(48) if all_spans[k][2] != all_spans[k + 1][2]][::3]:
    start, end, level = all_spans[k]
    mark(1, marked, marked_words, [(net, lane, start, end, level), (net, lane, end, end + 1, level)])
    mark(1, marked, marked_words, [(net, lane, end + 1, end + 1, 1 - level), (net, lane, end, end + 1, 1 - level)])
# beyond the last frame, up to time 65,535
last, final = marked_run.last, all_spans[-1][2]
for start, end in ((last + 1, last + 1), (last + 1, 65535), (65535, 65535), (last, 65535), (65534, 65535)):
    mark(1, marked, marked_words, [(net, lane, start, end, final)])
    mark(1, marked, marked_words, [(net, lane, start, end, 1 - final)])
mark(1, marked, marked_words, [(net, lane, 0, 65535, final)])
mark(1, marked, marked_words, [(net, lane, 0, 65535, 1 - final)])
# more than one is not met: the first counts, also where its frame is later or its net is
mark(1, marked, marked_words, [met[0], broken(met[40]), broken(met[2]), broken(met[1])])
mark(1, marked, marked_words, [(0, lane, 0, 0, int(marked_run.wave(0, lane).at(0))), broken(met[48]), (0, lane, 0, 65535, 0)])
mark(1, marked, marked_words, [broken(met[9])] * 12)
# inputs, and each lane by its own bits
for l in (0, 1, 31, 32, 62, 63):
    first = int(marked_run.wave(0, l).at(0))
    mark(1, marked, marked_words, [(0, l, 0, 0, first), (0, l, 1, 65535, 1 - first)])
    mark(1, marked, marked_words, [(0, l, 0, 0, first), (0, l, 1, 9, first)])
    mark(1, marked, marked_words, [(net, l, 0, 65535, int(marked_run.wave(net, l).at(last)))])
# document 01's example: the level holds over frames that do not change it
mark(1, wave_circuit(2), ([0], [1]), [(2, 0, 0, 65535, 0), (1, 0, 0, 2, 1), (1, 0, 3, 65535, 0), (1, 0, 2, 3, 0)])
mark(1, wave_circuit(1), ([0], [1]), [(2, 0, 0, 1, 0), (2, 0, 2, 3, 1), (2, 0, 4, 9, 0), (2, 0, 1, 3, 1)])
# XOR of 1, 1, 1 is 1, and XNOR of them 0
for kind, level in ((XOR, 1), (XNOR, 0)):
    mark(1, [step(2), Record(kind, 1, 0, [1, 1, 1])], ([0], [1]), [(2, 0, 0, 2, 1 - level), (2, 0, 3, 65535, level)])
    mark(1, [step(2), Record(kind, 1, 0, [1, 1, 1])], ([0], [1]), [(2, 0, 0, 65535, 1 - level)])

# question 12, for each reason, alone and at each end of a list; what is not met before it does not count
nets = net + 1
for wrong in ((nets, lane, 0, 0, 0), (65535, lane, 0, 0, 0), (net, 64, 0, 0, 0), (net, 255, 0, 0, 0), (net, lane, 1, 0, 0),
              (net, lane, 65535, 65534, 0), (net, lane, 0, 0, 2), (net, lane, 0, 0, 255), (nets, 64, 1, 0, 2)):
    mark(1, marked, marked_words, [wrong])
    mark(1, marked, marked_words, met[:11] + [wrong])
    mark(1, marked, marked_words, [wrong, broken(met[0])])
    mark(1, marked, marked_words, [broken(met[0]), wrong])
# the largest that suits: the last net, lane 63, from and to 65,535, level 1
mark(1, marked, marked_words, [(net, 63, 65535, 65535, 1)])
# 12 before 13, and 13 where the list suits; 10 and 11 before 12; a refused file before all
mark(1, comb(65), ([1], [2]), [(19, 0, 0, 0, 0)])
mark(1, comb(65), ([1], [2]), [(18, 0, 0, 0, 0)])
mark(1, comb(65), ([1], [2]), [(18, 64, 0, 0, 0)])
mark(1, marked, marked_words, [(nets, lane, 0, 0, 0)], lengths=RIGHT[:4] + (2047,))
mark(1, marked, marked_words, [met[0]], lengths=(321,) + RIGHT[1:])
mark(1, marked, ([1, 2], [3]), [(nets, lane, 0, 0, 0)])
mark(1, marked, ([1], [2, 3]), [met[0]])
for number, data in ((1, b""), (2, file_of(0, [])), (8, file_of(1, [Record(NOT, 1, 0, [0, 0])]))):
    bad(data, number, expectations=tuple(met[:12]))
    bad(data, number, expectations=((nets, 64, 1, 0, 2),))

# ---- circuits at random

good(32, [Record(AND, 63, 63, [31 + j] * 8) for j in range(128)])
for turn in range(40):
    inputs, gates = rng.choice([1, 2, 5, 32]), rng.choice([1, 2, 3, 8, 40, 128])
    c = circuit(rng, inputs, gates)
    good(inputs, [Record(*g) for g in c])
    j = rng.randrange(gates)
    kind, d, di, fanins = c[j]
    fault = rng.choice([6, 7, 8, 9])
    place = rng.randrange(len(fanins))
    c[j] = {
        6: [rng.randint(8, 255), d, di, fanins],
        7: [kind, rng.choice([0, 60001]), di, fanins],
        8: [kind, d, di, fanins[:1] * (2 if kind < 2 else rng.choice([1, 9]))],
        9: [kind, d, di, fanins[:place] + [inputs + j] + fanins[place + 1:]],
    }[fault]
    bad(file_of(inputs, [Record(*g) for g in c]), fault)

for size in ((1, 12, 4), (2, 12, 6), (4, 40, 10), (5, 60, 20), (8, 128, 60), (16, 128, 60), (32, 128, 100), (8, 128, 160)):
    for turn in range(4):
        good(size[0], lively(rng, *size))

# ---- parts of a net that no run made

three, words = [0, 5, 7], [2**31, 2**63 + 1, 2**31 + 1]
# question 14, which comes before 15 and 16
for times, values, lane, time in (([], [], 0, 0), ([], [0], 0, 0), ([0], [], 0, 0), ([0, 5], [0, 1, 0], 0, 5),
                                  (three, [0, 1], 0, 5), ([5, 7], [0, 1, 0], 0, 5), ([5, 7], [0, 1, 0], 64, 5)):
    look(times, values, lane, time)
rising = [3 * k for k in range(80)]
for m, n in ((63, 63), (64, 64), (65, 65), (64, 65), (65, 64), (80, 80), (1, 80), (80, 1)):  # 64 frames pass, 65 do not
    look(rising[:m], random_words(n), 63, 100)
    look([0] * m, [0] * n, 0, 0)
# question 15, which comes before 16
for times, lane, time in (([1], 0, 1), ([1, 2], 0, 1), ([0, 0], 0, 0), ([0, 5, 5], 0, 5), ([0, 5, 4], 0, 5),
                          ([0, 5, 7, 7], 0, 0), ([0, 5, 7, 6], 0, 0), ([0, 256, 255, 257], 0, 0), ([0, 5, 5], 64, 5)):
    look(times, [0, 1, 0, 1][:len(times)], lane, time)
look(rising[:63] + [rising[62]], random_words(64), 0, 0)
# question 16 (bench sheet, Others: lane 63 passes, 64 gives 16), and each lane by its own bit
for lane in (64, 65, 127, 128, 255, 0, 1, 30, 31, 32, 62, 63):
    look(three, words, lane, 5)
# times just before, at and behind those of the frames
for time in (0, 1, 4, 5, 6, 7, 8, 65535):
    look(three, words, 63, time)
for time in (65533, 65534, 65535):
    look([0, 65534, 65535], words, 31, time)
for time in (0, 65535):
    look([0], words[:1], 31, time)
for turn in range(60):
    n = rng.choice([1, 2, 3, 8, 40, 64])
    times = [0] + sorted(rng.sample(range(1, rng.choice([100, 700, 65536])), n - 1))
    look(times, random_words(n), rng.randrange(64), max(0, rng.choice(times + [65535]) - rng.choice([0, 0, 1])))

# ---- until when a level holds: the frame is the potential frame, also where the level stays at its end; the last has no end

for level in (0, 1):  # one level in three frames, and only then another
    for time in (0, 4, 5, 6, 7, 8, 9, 10, 65535):
        look([0, 5, 7, 9], [level << 40] * 3 + [(1 - level) << 40], 40, time)
for n in (2, 63, 64):  # the first frame, the second, the last but one and the last, just before, at and just behind
    times = [0] + [1000 * k - 1 for k in range(1, n)]
    for k in sorted({0, 1, n - 2, n - 1}):
        for time in range(max(0, times[k] - 1), times[k] + 2):
            look(times, random_words(n), 63, time)
for time in (65534, 65535):  # a frame of one unit at the end of all times
    look([0, 65535], [0, 1], 0, time)
ends = frames(once(1), comb(64))[18][0][-3:]
for time in (0, 1, 65535, *ends, *(t - 1 for t in ends)):  # after a run: the net of 64 frames, and one that it reads
    good(1, comb(64), [0], [2**64 - 1], net=18, time=time)
    good(1, comb(64), [0], [2**64 - 1], net=17, time=time)
for time in range(9):  # a pulse of 2 units that an inertial delay of 2 swallows: its frames are there all the same
    good(1, wave_circuit(2) + [Record(BUF, 3, 0, [2])], [0], [2**64 - 1], net=3, time=time)

# ---- inputs that change at times of their own


def drive(records, stimuli, times, levels):
    """A circuit whose inputs have these levels, a list of pairs of a time and a level each, the first at 0. Its last net has
    these times, and these levels at them."""
    moments = [[time for time, _ in own[1:]] for own in stimuli]
    nets, stimulus = frames(moments, records), [[level == 1 for _, level in own] for own in stimuli]
    assert nets[-1][0] == times and evaluate(nets, records, stimulus)[-1] == [level == 1 for level in levels]
    words = [[level * (2**64 - 1) for _, level in own] for own in stimuli]
    for time in (0, times[-1]):
        good(len(stimuli), records, [own[0] for own in words], [word for own in words for word in own[1:]], moments,
             net=len(nets) - 1, time=time)
    good(len(stimuli), records, moments=moments)


pulse = [(0, 0), (4, 1), (9, 0)]  # a pulse of 5 units
drive([Record(XOR, 2, 0, [0, 1])], [pulse, [(0, 0)]], [0, 6, 11], [0, 1, 0])
drive([Record(XOR, 2, 0, [0, 1]), Record(NOT, 3, 0, [1])], [pulse, [(0, 0)]], [0], [1])  # its one fan-in never changes
drive([Record(BUF, 3, 4, [0])], [pulse], [0, 7, 12], [0, 1, 0])
drive([Record(BUF, 3, 5, [0])], [pulse], [0, 7, 12], [0, 0, 0])
drive([Record(BUF, 1, 1, [0])], [[(0, 0), (4, 1), (5, 0), (7, 1)]], [0, 5, 6, 8], [0, 0, 0, 1])  # as row F
drive([Record(BUF, 1, 2, [0])], [[(0, 0), (4, 1), (5, 1), (6, 0)]], [0, 5, 6, 7], [0, 0, 0, 0])  # as row H
drive([Record(XOR, 1, 0, [0, 1])], [pulse, [(0, 1), (4, 0), (9, 0)]], [0, 5, 10], [1, 1, 0])  # both change at 4
drive([Record(BUF, 5, 0, [0]), Record(AND, 1, 0, [0, 1])], [pulse], [0, 5, 10, 15], [0, 0, 0, 0])  # 9 is 4 + 5: one time
drive([Record(BUF, 4, 0, [0]), Record(AND, 1, 0, [0, 1])], [pulse], [0, 5, 9, 10, 14], [0, 0, 1, 0, 0])
drive([Record(NOT, 63, 63, [0])], [[(0, 1), (255, 0)]], [0, 318], [0, 1])

# none, one and eight changes, at the first times, the last and any between; a change at 1 beside others; no gates, and many
wide = [Record(kind, 1, 0, list(range(8))) for kind in range(AND, XNOR + 1)]
for times in ([], [1], [255], [1, 2], [254, 255], [1, 255], [*range(1, 9)], [*range(248, 256)], [*range(31, 256, 32)]):
    good(1, [], moments=[times])
    good(1, [buf, Record(XNOR, 1, 1, [0, 1])], moments=[times])
    good(2, [Record(AND, 2, 1, [0, 1]), Record(NOT, 1, 0, [2])], moments=[times, [1]])
    good(2, [Record(OR, 2, 1, [0, 1]), Record(NOT, 1, 0, [2])], moments=[[100], times])
    good(32, [], moments=[times] * 32)
    good(32, wide, moments=[times] * 31 + [[7]])
    good(32, [Record(AND, 63, 63, [31 + j] * 8) for j in range(128)], moments=[[]] * 31 + [times])  # last time 255 + 128 * 63
    good(1, [Record(AND, 1, 0, [j] * 2) for j in range(128)], moments=[times])

for size in ((1, 12, 4), (2, 12, 6), (3, 20, 8), (4, 40, 10), (8, 60, 30), (16, 128, 60), (32, 128, 100)):
    for most, last in ((2, 9), (3, 40), (8, 16), (8, 255)):
        good(size[0], lively(rng, *size), moments=bursts(rng, size[0], most, last))
for turn in range(40):
    inputs, gates = rng.choice([1, 2, 5, 32]), rng.choice([1, 2, 3, 8, 24])
    gates = [Record(*g) for g in circuit(rng, inputs, gates)]
    good(inputs, gates, moments=bursts(rng, inputs, rng.choice([2, 8]), rng.choice([8, 255])))

# words that agree in one lane alone: what is seen in that lane is the same
for lane in (0, 17, 63):
    gates, moments = lively(rng, 3, 15, 8), bursts(rng, 3, 5, 30)
    lists = [random_words(3), random_words(sum(map(len, moments)))]
    others = [[word & 1 << lane | rng.getrandbits(64) & ~(1 << lane) for word in words] for words in lists]
    for net in (0, 9, 17):
        for words in (lists, others):
            good(3, gates, *words, moments, net=net, time=35)
    ran, again = (Run(3, gates, *words, list(map(len, moments)), [*itertools.chain(*moments)]) for words in (lists, others))
    assert not ran.plan or all(ran.wave(net, lane).at(t) == again.wave(net, lane).at(t) for net in range(18) for t in range(99))


# ---- question 20, and its place among the others


def handed(inputs, records, counts, changes, before=None, after=None, **more):
    """An accepted file with any lists; as many words as 11 asks for, unless they are given."""
    before = random_words(inputs) if before is None else before
    after = random_words(len(changes)) if after is None else after
    add(file_of(inputs, records), 0, inputs, Run(inputs, records, before, after, counts, changes), **more)


crowded = [Record(g.kind, g.d, g.di, [f + 1 if f else 0 for f in g.fanins]) for g in comb(65)]  # 13 at one change already
for suited, pairs in ((True, SUITED), (False, UNSUITED)):
    for counts, changes in pairs:
        assert (moments_of(2, counts, changes) is not None) == suited
        handed(2, small, counts, changes)
        handed(2, [], counts, changes, expectations=[(0, 0, 0, 0, 0)])
        handed(2, crowded, counts, changes)
handed(32, [], [8] * 32, [*range(1, 9)] * 32)
handed(32, [], [8] * 31 + [9], [*range(1, 9)] * 31 + [*range(1, 10)])
handed(32, [], [8] * 32, [])  # 256 is 0 in one byte
handed(2, small, [0, 0], [1] * 256)
handed(32, [], [8] * 32, [*range(1, 9)] * 31 + [1, 2, 3, 4, 5, 6, 7, 256])
for number, data in ((1, b""), (5, file_of(1, [buf], tail=b"\0")), (9, file_of(1, [Record(NOT, 1, 0, [1])]))):
    for counts, changes in UNSUITED[::6]:  # a refused file before all
        words = Words(random_words(1), random_words(2))
        words.counts, words.changes = counts, changes
        add(data, number, 0, words)
for lengths in around(RIGHT):  # 10 before 11 and 20; Plan does not ask about the values
    handed(2, small, [2, 1], [3, 9, 1], lengths=lengths)
    handed(2, small, [2, 1], [9, 3, 1], lengths=lengths)
    handed(2, small, [2, 1], [9, 3, 1], after=[], lengths=lengths)
for counts, changes in (SUITED[0], SUITED[2], ([2, 1], [9, 3, 1]), ([9, 0], [*range(1, 10)]), ([2], [3, 9]), ([1, 1], [1])):
    total = len(changes)  # 11 before 20, and by the number of times alone
    for before, after in ((1, total), (3, total), (2, total + 1), (2, max(0, total - 1)), (2, 0), (2, 2), (total, 2)):
        handed(2, small, counts, changes, random_words(before), random_words(after))
        handed(2, crowded, counts, changes, random_words(before), random_words(after), expectations=[(65535, 64, 1, 0, 2)])
handed(2, small, *SUITED[0], after=random_words(400))
for wrong in ((65535, 0, 0, 0, 0), (0, 64, 0, 0, 0), (0, 0, 1, 0, 0), (0, 0, 0, 0, 2)):  # 20 before 12, 12 before 13
    for counts, changes in (([2, 1], [3, 9, 1]), ([2, 1], [3, 9, 0]), ([2, 1, 0], [3, 9, 1])):
        handed(2, small, counts, changes, expectations=[wrong])
        handed(2, crowded, counts, changes, expectations=[(0, 0, 0, 0, 0), wrong])

# question 13 where bursts alone make the frames too many: a net of 64 or 65 frames from copies of an input with eight changes
for late in (56, 57):
    gates = [Record(BUF, d, 0, [0]) for d in (1, 9, 17, 25, 33, 41, 49, late)] + [Record(OR, 1, 3, list(range(1, 9)))]
    for last in (1, 4, 7, 8):
        good(1, gates, moments=[[*range(1, last + 1)]])
    good(1, gates, moments=[[*range(248, 256)]])
    good(1, gates + [buf], moments=[[*range(1, 9)]])
# and 2,047 to 2,049 in all, by changes of inputs that no gate reads
for last in ([], [1], [9, 255]):
    gates = [Record(BUF, d, 0, [0]) for d in (1, 9, 17, 25, 33, 41, 49, 56)] + [Record(OR, 1, 3, list(range(7, 15)))]
    gates += [Record(NOT, 1 + k % 3, k % 4, [15]) for k in range(29)]
    moments = [[*range(1, 9)]] + [[*range(2, 10)]] * 5 + [last]
    assert sum(len(times) for times, _, _ in frames(moments, gates)) == 2047 + len(last)
    good(7, gates, moments=moments)

# ---- Mark on bursts

carry = [Record(NOT, 1, 0, [0]), Record(AND, 2, 0, [3, 1, 2]), Record(NOR, 2, 0, [0, 1, 2]), Record(NOR, 2, 2, [0, 1, 2]),
         Record(XOR, 2, 0, [0, 1, 2])]
bits = [[10 * k for k in range(1, 9)], [22, 42, 62, 82], [44, 84]]  # a counter's bits
ticking = [[0] * 3, [word for times in bits for word in [2**64 - 1, 0] * (len(times) // 2)]]
lanes_apart = [random_words(3), random_words(14)]
for words in (ticking, lanes_apart):
    run = Run(3, carry, *words, list(map(len, bits)), [*itertools.chain(*bits)])
    for net in range(8):
        for lane in (0, 41):
            all_spans = spans(run, net, lane)
            met = [(net, lane, start, end, level) for start, end, level in all_spans]
            good(3, carry, *words, bits, expectations=tuple(met[:12]), marked_only=True)
            k = rng.randrange(min(12, len(met)))
            good(3, carry, *words, bits, expectations=tuple(met[:k] + [broken(met[k])] + met[k + 1:12]), marked_only=True)
            start, end, level = all_spans[k]
            for a, b in ((start, 65535), (max(0, start - 1), start), (end, min(65535, end + 1)), (0, start)):
                good(3, carry, *words, bits, expectations=((net, lane, a, b, level),), marked_only=True)
for before in (0, 2**64 - 1):  # no changes: one frame on each net, without an end
    for net in (0, 3, 4, 7):
        level = int(Run(3, carry, [before] * 3, [], [0] * 3, []).wave(net, 63).at(0))
        for a, b in ((0, 0), (0, 65535), (65535, 65535)):
            for expected in (level, 1 - level):
                good(3, carry, [before] * 3, [], [[]] * 3, expectations=((net, 63, a, b, expected),), marked_only=True)

# ---- question 22, the caller's limit on the frame total, and its place among the others

SENSELESS = [0, 2049, 2304, 32769, 65535]  # 2,304 has the bytes of 9, exchanged


def under(limits, inputs, records, moments=None, **more):
    """One circuit with the same words, the same look and the same expectations under each of these limits. Under all that
    allow its frame total the lines are the same."""
    moments = moments or once(inputs)
    lists = [*map(len, moments)], [*itertools.chain(*moments)]
    words = random_words(inputs), random_words(len(lists[1]))
    run = run_of(inputs, tuple(records), *map(tuple, words + lists))
    more["net"], more["time"] = rng.randrange(inputs + len(records)), rng.choice([0, 1, 9, 65535])
    more["expectations"] = some_expectations(run, 6, [rng.randrange(64)]) if run.plan else ()
    made = len(cases), len(marks)
    for limit in limits:
        good(inputs, records, *words, moments, limit=limit, **more)
    for new in (cases[made[0]:], marks[made[1]:]):
        assert len({line for _, line in new if "refused" not in line}) < 2


def near(total):
    return [total - 1, total, total + 1]


def total_of(inputs, records, moments=None):
    return sum(len(times) for times, _, _ in frames(moments or once(inputs), records))


def near_total(inputs, records, moments=None, also=()):
    """Under limits just below, at and just above the frame total, and others."""
    under(near(total_of(inputs, records, moments)) + [*also], inputs, records, moments)


# the smallest totals, where an input does not change and where it does; a fan-in total and a last time above the limit
for gates in ([], [Record(NOT, 63, 63, [0])]):
    under([0, 1, 2, 3], 1, gates, [[]])
    under([1, 2, 3, 4, 5], 1, gates)
under([MOST - 1, MOST] + SENSELESS, 1, [], [[]])
for moments in ([[]], [[1]]):
    near_total(1, wave_circuit(1), moments, near(256) + [MOST - 1, MOST] + SENSELESS)
near_total(8, [Record(AND, 1, 0, [*range(8)]), Record(OR, 1, 0, [8] * 8), Record(XOR, 63, 0, [9] * 8), buf])
# the limit is passed at the last input, and at the last gate
near_total(32, [], [[*range(1, 9)]] * 32)
near_total(32, [Record(BUF, 1 + j % 63, 0, [j % 32]) for j in range(128)])
# the demo's limit, and the course's
for total in near(256):
    under(near(256), 2, copies(2, total, 1))
    under([256], 1, copies(1, total, 8))
for total in (2047, 2048):
    under([1, 256, 2046, 2047, 2048, 2049, 65535], 1, copies(1, total, 1))
# 13 before 22: too many frames in all, or on one net, under any limit
under([0, 2048, 2049, 65535], 1, copies(1, 2049, 1))
near_total(1, comb(65), also=[0, 1, 2048, 65535])
# every sort of rubbish before 22
for rubbish in (0, 1, 255, 32768, 65279, 65535):
    under([0, 6], 1, wave_circuit(1), rubbish=rubbish)

# each other question fails before 22 is asked, whatever is wrong with the limit
wrong_limits = itertools.cycle(SENSELESS + [1])
for number, data in (
        (1, b""), (2, file_of(33, [buf])), (3, two(257) + two(129) + bytes(4 * 129)), (4, two(257) + two(1) + bytes(3)),
        (5, file_of(1, [buf], tail=b"\0")), (6, file_of(1, [Record(8, 1, 0, [0])])), (7, file_of(1, [Record(BUF, 60001, 0, [0])])),
        (8, file_of(1, [Record(NOT, 1, 0, [0, 0])])), (9, file_of(1, [Record(NOT, 1, 0, [1])]))):
    for limit in (0, next(wrong_limits)):
        add(data, number, 0, Words(random_words(1), random_words(1)), limit=limit)
for lengths in around(RIGHT):  # Plan does not ask about the values, so that it comes to the limit there
    handed(2, small, *SUITED[0], lengths=lengths, limit=next(wrong_limits))
for before, after in ((1, 3), (3, 3), (2, 2), (2, 4), (0, 0), (2, 400)):  # nor about the words
    handed(2, small, *SUITED[0], random_words(before), random_words(after), limit=next(wrong_limits))
for pair in UNSUITED[::3]:
    handed(2, small, *pair, limit=next(wrong_limits))
total = total_of(2, small, [[3, 9], [1]])
for wrong in ((4, 0, 0, 0, 0), (0, 64, 0, 0, 0), (0, 0, 1, 0, 0), (0, 0, 0, 0, 2)):
    for limit in (0, total - 1, total, 2049):
        handed(2, small, *SUITED[0], expectations=[wrong], limit=limit, marked_only=limit > 0)
    handed(2, crowded, *SUITED[0], expectations=[wrong], limit=next(wrong_limits), marked_only=True)
for more in ({"lengths": (0,) * 5}, {"before": []}, {}):  # all the questions from these on
    handed(2, crowded, [2, 1], [9, 3, 1], expectations=[(65535, 64, 1, 0, 2)], limit=0, **more)

# Mark: lists that are met, that are not and that are empty, under limits that just allow the total and just do not
net = len(marked)
met = [(net, 37, start, end, level) for start, end, level in spans(marked_run, net, 37)]
for expectations in ([], met[:12], met[:11] + [broken(met[40])], [broken(met[0])]):
    for limit in near(marked_run.total) + [MOST]:
        mark(1, marked, marked_words, expectations, limit=limit)

# at random
for turn in range(24):
    inputs = rng.choice([1, 2, 3, 8])
    gates = lively(rng, inputs, rng.choice([0, 1, 5, 20, 40]), 8)
    moments = rng.choice([once(inputs), bursts(rng, inputs, 3, 40), bursts(rng, inputs, 8, 255)])
    total = total_of(inputs, gates, moments)
    under([rng.choice(near(total)), rng.randint(1, 2 * total), rng.randrange(65536)][turn % 2:], inputs, gates, moments)

# ---- the edition: delays of two bytes, times of four, and I + 256 in front

END = 2**32 - 1  # the last time that there is


def former(inputs, records):
    """The file of the same circuit in the former edition."""
    rows = [bytes([r.kind, r.d, r.di]) + b"".join(map(two, r.fanins)) for r in records]
    at, pairs = 4 + 4 * len(rows), b""
    for row in rows:
        pairs += two(at) + two(len(row))
        at += len(row)
    return two(inputs) + two(len(rows)) + pairs + b"".join(rows)


# question 2: a file of the former edition, the numbers beside the least and the greatest, and those with the bytes exchanged
for number in (0, 1, 2, 31, 32, 33, 255, 256, 289, 290, 511, 513, 544, 2 * 256 + 1, 32 * 256 + 1, 65535):
    bad(two(number) + two(0), 2)
for inputs, gates in ((1, wave_circuit(1)), (2, small), (32, wide), (1, comb(64)), (1, [Record(8, 0, 0, [9])])):
    bad(former(inputs, gates), 2)
bad(two(1) + file_of(1, wave_circuit(1))[2:], 2)
for inputs in (1, 32):
    good(inputs, [Record(BUF, 64, 0, [inputs - 1]), Record(NOT, 60000, 60000, [0])])

# question 5: records of under 5 bytes, first and last, and pairs whose sum is the file's length if it is cut to two bytes
for length in range(5):
    bad(two(257) + two(1) + two(8) + two(length) + bytes(length), 5)
    bad(two(257) + two(2) + two(12) + two(7) + two(19) + two(length) + buf + bytes(length), 5)
bad(two(257) + two(2) + two(12) + two(65000) + two(65012) + two(560) + bytes(36 - 12), 5)
# question 8: a record of the former edition, which is 2 bytes shorter, and all lengths around the right ones
for kind in (NOT, AND, XNOR):
    for m in (1, 2, 8):
        record = bytes([kind, 1, 0]) + bytes(2 * m)
        right = m - 1 == 1 if kind < 2 else 2 <= m - 1 <= 8
        if right:  # it is the record of a circuit with a fan-in less
            good(1, [Record(kind, 1, 0, [0] * (m - 1))])
        else:
            bad(file_of(1, [record]), 8)
        whole = Record(kind, 1, 0, [0] * m)
        for at in (len(whole) - 1, len(whole) + 1):
            bad(file_of(1, [(whole + b"\0")[:at]]), 8)
for kind in range(8):
    bad(file_of(1, [Record(kind, 1, 0, []) + b"\0"]), 8)

# question 7: both bytes of both delays
for d in (63, 64, 255, 256, 257, 511, 512, 59999, 60000):
    good(1, [Record(NOT, d, 0, [0])], net=1, time=1 + d)
    good(1, [buf, Record(XOR, 1, d, [0, 1])])
    good(2, [Record(BUF, 1, 60000, [1]), Record(OR, d, 60000 - d, [0, 2])], net=3, time=d)
for d, di in ((0, 256), (0, 60000), (60002, 0), (60160, 0), (61440, 0), (65280, 0), (1, 60001), (256, 60160), (60000, 65280),
              (60001, 60001)):
    bad(file_of(1, [Record(NOT, d, di, [0])]), 7)
    bad(file_of(1, [Record(NOT, 60000, 60000, [0]), Record(AND, d, di, [0, 1])]), 7)
bad(file_of(1, [Record(9, 60001, 0, [0])]), 6)
bad(file_of(1, [Record(NOT, 60001, 0, [0, 0])]), 7)
bad(file_of(1, [Record(NOT, 60000, 0, [1]), Record(NOT, 0, 60001, [0])]), 9)


def beside(times):
    """These times, those just before and just behind, and what two bytes hold of them."""
    near = {t + off for t in times for off in (-1, 0, 1)} | {t % 65536 for t in times} | {65535, 65536, END}
    return sorted(t for t in near if 0 <= t <= END)


def close_expectations(run, most, lanes):
    """Most are met: spans that begin and end where a frame of the net does, or just beside."""
    out = []
    for _ in range(rng.randint(1, most)):
        net, lane = rng.randrange(len(run.nets)), rng.choice(lanes)
        times = run.times[net]
        k = rng.randrange(len(times))
        start, end = times[k], (times[k + 1:] + [END + 1])[0] - 1
        if rng.random() < 0.1:
            start, end = max(0, start - rng.randint(0, 1)), min(END, end + rng.randint(0, 1))
        elif rng.random() < 0.5:
            start, end = rng.choice([(start, start), (end, end), (max(start, end - 65536), end)])
        out.append((net, lane, start, end, int(run.lanes[lane][net][k]) ^ (rng.random() < 0.1)))
    return out


def far(inputs, records, moments=None, words=None, looks=1, **more):
    """A circuit with late times, looked at beside the times of a net's frames, and expectations that begin and end there."""
    moments = moments or once(inputs)
    lists = [*map(len, moments)], [*itertools.chain(*moments)]
    words = words or (random_words(inputs), random_words(len(lists[1])))
    run = run_of(inputs, tuple(records), *map(tuple, words + lists))
    for _ in range(looks):
        net = max(0, len(run.nets) - 1 - rng.choice([0, 0, 0, 1, 2]))
        if run.plan:
            more["expectations"] = close_expectations(run, 12, rng.sample(range(64), 2))
        good(inputs, records, *words, moments, net=net, time=rng.choice(beside(run.times[net])), **more)


# a chain of 128 gates of the longest delay, to the last time that any circuit has, 255 + 128 * 60,000
for di in (0, 1, 60000):
    chain = [Record(NOT if j % 3 else BUF, 60000, di, [j]) for j in range(128)]
    far(1, chain, [[255]], looks=2)
    far(1, chain, [[1, 2, 4, 8, 16, 32, 128, 255]], looks=2)
    far(1, chain, [[]])
assert Run(1, chain, [0], [1], [1], [255]).last == 7680255
for time in (65535, 65536, 7680254, 7680255, 7680256, 7680255 % 65536, 2**24, 2**31 - 1, 2**31, END):
    good(1, chain, [0], [2**64 - 1], [[255]], net=128, time=time, expectations=((128, 0, 7680255, END, 1), (128, 0, 0, time, 0)))
far(32, [Record(AND, 60000, 60000, [31 + j] * 8) for j in range(128)], [[]] * 31 + [[255]])

# nets whose times are equal, or in another order, in their lower halves
late = [Record(BUF, 60000, 0, [0]), Record(BUF, 5536, 0, [1])]  # 65,536 later
for kind in (AND, OR, XOR, NOR):
    for fanins in ([0, 2, 3], [3, 2, 0]):
        far(1, late + [Record(BUF, 1, 0, [2]), Record(kind, 3, 0, fanins)], looks=2)
    far(1, late + [Record(kind, 3, 0, [0, 2]), Record(NOT, 60000, 65536 - 60000, [3])], [[1, 2]], looks=3)
far(1, late + [Record(BUF, 60000, 0, [2]), Record(BUF, 5536, 0, [3]), Record(XOR, 1, 0, [0, 2, 4]), Record(XOR, 2, 1, [5, 5, 0])],
    looks=3)
for d in (5534, 5535, 5536, 5537):  # the last frame at 65,534 to 65,538
    far(1, [Record(NOT, 60000, 0, [0]), Record(BUF, d, 0, [1]), Record(XOR, 1, 0, [0, 2])], words=([0], [2**64 - 1]), looks=3)


def long_pulse(width, di):
    """A pulse so long behind an inertial delay."""
    steps = [60000] * ((width - 1) // 60000)
    gates = [Record(BUF, d, 0, [j]) for j, d in enumerate(steps + [width - sum(steps)])]
    gates += [Record(XOR, 7, 0, [0, len(gates)]), Record(BUF, 60000, di, [len(gates) + 1])]
    assert evaluate(frames(once(1), gates), gates, [(False, True)])[-1] == [False, width > di, False]
    return gates


for width in (63, 64, 255, 256, 257, 59999, 60000, 60001, 65535, 65536, 65537, 65599, 120000):
    for di in sorted({0, min(width - 1, 60000), min(width, 60000), width % 65536 if width % 65536 <= 60000 else 1}):
        far(1, long_pulse(width, di), words=([0x5555555555555555], [0x3333333333333333]))
# how many frames follow within di: steps of 20,000, of which three are 60,000
stairs = [Record(BUF, 20000, 0, [j]) for j in range(7)]
for di in (19999, 20000, 39999, 40000, 59999, 60000):
    far(1, stairs + [Record(XOR, 1, di, [*range(8)])], words=([0], [2**64 - 1]))
    far(1, stairs + [Record(AND, 60000, di, [*range(8)])], [[1, 255]])


def sheet(inputs, gates, span, delays):
    """Few fan-ins, from the nets just before, with any of these delays."""
    records = []
    for net in range(inputs, inputs + gates):
        nets = range(max(0, net - span), net)
        kind = rng.choice([0, 1, 2, 3, 4, 5, 6, 6, 7, 7]) if len(nets) > 2 else BUF
        fanins = rng.sample(nets, 1 if kind < 2 else rng.choice([2, 2, 2, 3]))
        records.append(Record(kind, rng.choice(delays), rng.choice([0, 0, *(d // 2 for d in delays), *delays]), fanins))
    return records


SHEETS = [[1200, 1450, 2400], [60000, 59999, 30000], [256, 512, 768, 1], [5536, 60000, 5535, 1], [300, 20000, 40000, 60000]]
for size in ((1, 12, 4), (2, 16, 6), (3, 20, 8), (4, 40, 10), (8, 60, 30)):
    for delays in SHEETS:
        far(size[0], sheet(*size, delays))
        far(size[0], sheet(*size, delays), bursts(rng, size[0], 3, rng.choice([9, 255])))
for turn in range(30):
    inputs, gates = rng.choice([1, 2, 5, 32]), rng.choice([1, 2, 3, 8, 24])
    made = circuit(rng, inputs, gates)
    gates = [Record(kind, rng.randint(1, 60000), rng.randint(0, 60000), fanins) for kind, _, _, fanins in made]
    far(inputs, gates, bursts(rng, inputs, rng.choice([2, 8]), 255) if turn % 2 else None)
# 13 and 22 where the delays are long: 64 frames and 65, and limits beside a total
for n in (64, 65):
    gates = [Record(g.kind, 900 * g.d, 900 * g.di, g.fanins) for g in comb(n)]
    far(1, gates)
    near_total(1, gates)
near_total(1, chain[:20], [[1, 255]])

# question 20: change times that are right in their lower half, or in their lowest byte
for place in range(3):
    for time in (256, 257, 259, 65536, 65537, 65545, 65791, 2**24 + 3, 2**31 + 3, END - 255, END):
        changes = [3, 9, 1]
        changes[place] = time
        handed(2, small, [2, 1], changes)
handed(2, small, [2, 1], [65539, 65545, 65537])
handed(2, small, [2, 1], [3, 65538, 1])
handed(2, crowded, [2, 1], [3, 65545, 1], expectations=[(65535, 64, 1, 0, 2)], limit=0)

# Mark: spans above 65,535, and question 12 where from and to are in another order in their lower halves
pulse = [Record(NOT, 60000, 0, [0]), Record(BUF, 60000, 59999, [1]), Record(AND, 10000, 9999, [0, 2])]
words = ([0], [2**64 - 1])
run = Run(1, pulse, *words)
assert run.times[3] == [0, 10001, 130001] and [run.wave(3, 9).at(t) for t in run.times[3]] == [False, True, False]
for start, end in ((0, 10000), (10001, 130000), (130001, END), (65536, 130000), (65535, 65536), (130000, 130000), (130001, 130001),
                   (130000, 130001), (10000, 10001), (0, END), (END, END), (2**31, END), (1000, 66000), (66000, 66001),
                   (75537, 75537), (64464, 64465), (195537, 195537), (10001, 65536 + 10000), (130001 - 65536, 130001)):
    for level in (0, 1):
        mark(1, pulse, words, [(3, 9, start, end, level)])
for start, end in ((1, 0), (65536, 65535), (65537, 65536), (65536, 0), (65537, 1), (131072, 65536), (END, END - 1), (END, 0),
                   (2**31, 2**31 - 1), (2**24, 65535), (70000, 66000)):
    mark(1, pulse, words, [(3, 9, start, end, 0)])
    mark(1, pulse, words, [(3, 9, 0, 0, 1), (3, 9, start, end, 1)])
    mark(1, pulse, words, [(3, 9, end, start, 0)])
for net in range(4):  # every frame of every net, met and then not met in turn
    whole = [(net, 9, start, END if end == 65535 else end, level) for start, end, level in spans(run, net, 9)]
    mark(1, pulse, words, whole)
    for k in range(len(whole)):
        mark(1, pulse, words, whole[:k] + [broken(whole[k])] + whole[k + 1:])

# Level and Count on parts with times of four bytes: low halves that are equal, 0, or in another order
for times in ([0, 65536], [0, 65536, 65537], [0, 5, 65541], [0, 65535, 65536], [0, 70000, 131072], [0, 10, 65546, 131082], [0, END],
              [0, END - 1, END], [0, 2**31 - 1, 2**31, 2**31 + 1], [0, 255, 256, 65791, 2**24, 2**24 + 256], [0, 7680255]):
    for time in beside(times):
        look(times, random_words(len(times)), 63, time)
for times in ([65536], [65536, 65537], [END], [0, 65536, 65536], [0, 65537, 65536], [0, 131072, 65536], [0, 70000, 5],
              [0, 70000, 69999], [0, 2**31, 2**31 - 1], [0, 65536, 0], [0, END, END], [0, END, 1], [0, 2**24 + 1, 2**24],
              [1, 65536]):
    for lane in (0, 64):
        look(times, random_words(len(times)), lane, 65536)
look([65536 * k for k in range(64)], random_words(64), 17, 40 * 65536 - 1)
look([65536 * k for k in range(63)] + [61 * 65536], random_words(64), 17, END)
for turn in range(60):
    n = rng.choice([2, 3, 8, 40, 64])
    times = [0] + sorted(rng.sample(range(1, rng.choice([2**18, 7680256, 2**32])), n - 1))
    look(times, random_words(n), rng.randrange(64), rng.choice(beside(times)))

# ---- written out; a last case that the program's buffers do not hold ends each run


def write(program, made, too_large):
    with open(f"crates/{program}/stdin", "wb") as f:
        f.writelines(data for data, _ in made)
        f.write(too_large)
    with open(f"crates/{program}/stdout", "w") as f:
        f.writelines(line + "\n" for _, line in made)
        f.write("cut\n")


lengths = b"".join(map(two, RIGHT))
write("cases", cases, bytes(6) + four(70001) + lengths + bytes(10))  # a file of 70,001 bytes
write("parts", parts, bytes([81, 1, 0]) + four(0))  # 81 times
write("marks", marks, b"\x0d" + four(4) + lengths + bytes(10))  # 13 expectations

lines = [line for _, line in cases]
print("cases:", len(cases), "circuits,", sum("; planned" in line for line in lines), "planned,",
      ", ".join(f"{sum(f'refused {n} ' in line for line in lines)} with {n}" for n in (13, 22)))
print("parts:", len(parts), "looks,", sum("refused" in line for _, line in parts), "refused")
verdicts = collections.Counter(" ".join(line.split()[:2]) if line[0] != "u" else "unmet" for _, line in marks)
print("marks:", len(marks), "circuits;", ", ".join(f"{n} {answer}" for answer, n in sorted(verdicts.items())))
