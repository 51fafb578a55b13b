#!/usr/bin/env python3
r"""Writes an input of the wave program or of the program outside, or a circuit file alone, from a text that a person can read;
draws what the programs print.

    python3 tools/circuit_file.py examples/first.txt > first.wave                   an input of the wave program
    python3 tools/circuit_file.py --outside examples/counter.txt > counter.outside  an input of the program outside
    python3 tools/circuit_file.py --circuit examples/first.txt > first.circuit      the circuit file alone
    python3 tools/circuit_file.py --former examples/first.txt > first.former        the same in the former edition
    target/bin/wave < first.wave | python3 tools/circuit_file.py --draw examples/first.txt
    target/bin/wave < first.wave | python3 tools/circuit_file.py --draw --at 3 examples/first.txt
    target/bin/outside < counter.outside | python3 tools/circuit_file.py --draw examples/counter.txt

The text has a line for each net, the inputs first. What follows a # is a comment.

    input a 0->1                              level before, and from time 1 on; `input a 1` stays at 1, `input a` at 0
    input b 0 1@3 0@7                         level before, then changes: a level and the time from which it holds
    not_a = NOT a, delay 2                    kind, nets that the gate reads, transport delay
    pulse = AND a not_a, delay 1, inertial 1  the inertial delay is 0 if it is not given

A delay is at most 60,000; in the former edition of the circuit file it is at most 63. The unit may be any, such as the
picoseconds of a supplier's sheet. An input has at most 8 changes, at rising times from 1 to 255; the level may stay at one. The
wave program knows just one change, at time 1; outside takes them all. Nets are numbered in the order of their lines, from 0. The
levels go into lane 0; the other lanes are 0.

In a drawing _ is level 0, - is level 1, and / and \ stand at the times of the changes. A column is a unit of time where the last
time is below 98. Later ones would make the picture too wide: then a column is 2, 5, 10, 20 .. units, as a line below the picture
says, / or \ stands where the net changes once in these, and X where it changes more than once. With --at the frame of each net
under that time follows: its level, when it began, and when the next begins (outside prints changes alone, so there it is when the
level next changes).
"""
import argparse
import itertools
import re
import sys
from collections import namedtuple

Input = namedtuple("Input", "name before changes")  # changes: pairs of a time and the level from then on
Gate = namedtuple("Gate", "name kind fanins delay inertial")

# ---- The bytes: all that this script knows of the file format and its limits

KINDS = ["BUF", "NOT", "AND", "NAND", "OR", "NOR", "XOR", "XNOR"]  # a kind's number is its place
MOST_INPUTS, MOST_GATES, MOST_FANINS, MOST_DELAY, MOST_TIME = 32, 128, 8, 60000, 2**32 - 1
MOST_CHANGES, LAST_CHANGE = 8, 255
FORMER_DELAY = 63  # the most that a delay's one byte may hold in the former edition


def two(number):
    return number.to_bytes(2, "little")


def record(gate, delay_bytes):
    delays = b"".join(delay.to_bytes(delay_bytes, "little") for delay in (gate.delay, gate.inertial))
    return bytes([KINDS.index(gate.kind)]) + delays + b"".join(two(net) for net in gate.fanins)


def file_of(first, gates, delay_bytes):
    """A circuit file with this number in its bytes 0 and 1, and so many bytes for each delay."""
    records = [record(gate, delay_bytes) for gate in gates]
    at, pairs = 4 + 4 * len(records), b""
    for r in records:
        pairs += two(at) + two(len(r))
        at += len(r)
    return two(first) + two(len(gates)) + pairs + b"".join(records)


def circuit_file(inputs, gates):
    return file_of(256 + len(inputs), gates, 2)


def former_file(inputs, gates):
    """The circuit file in the former edition, which the program convert turns into the one of today."""
    for gate in gates:
        if max(gate.delay, gate.inertial) > FORMER_DELAY:
            raise Fault(f"the former edition has no delay above {FORMER_DELAY}, as {gate.name} has one")
    return file_of(len(inputs), gates, 1)


def words(levels):
    return b"".join(level.to_bytes(8, "little") for level in levels)


def wave_input(inputs, gates):
    """Every input changes once, at 1: one that stays changes to the level that it has."""
    for i in inputs:
        if [time for time, _ in i.changes] not in ([], [1]):
            raise Fault(f"the wave program takes one change of an input, at time 1, and {i.name} has others; "
                        "--outside writes an input of the program outside, which takes them")
    circuit = circuit_file(inputs, gates)
    after = [i.changes[0][1] if i.changes else i.before for i in inputs]
    return two(len(circuit)) + circuit + words([i.before for i in inputs] + after)


def outside_input(inputs, gates):
    circuit, changes = circuit_file(inputs, gates), [change for i in inputs for change in i.changes]
    counts, times = bytes(len(i.changes) for i in inputs), b"".join(time.to_bytes(4, "little") for time, _ in changes)
    levels = [i.before for i in inputs] + [level for _, level in changes]
    vector = two(len(circuit)) + two(len(changes)) + circuit + counts + times + words(levels)
    return two(len(vector)) + vector


# ---- The text


class Fault(Exception):
    """What is wrong with a line, for the person who wrote it."""


def input_of(name, said):
    levels = re.fullmatch(r"([01])(?:\s*->\s*([01])|((?:\s+[01]@\d{1,9})+))?", said or "0")
    if not levels:
        raise Fault(f"the level of input {name} is 0, 1, 0->1 or 1->0, or one with its changes, as 0 1@3 0@7, not '{said}'")
    before, after, later = levels.groups()
    changes = [(1, int(after))] if after else [(int(t), int(level)) for level, t in re.findall("([01])@([0-9]+)", later or "")]
    times = [time for time, _ in changes]
    if len(times) > MOST_CHANGES:
        raise Fault(f"input {name} has {len(times)} changes; {MOST_CHANGES} are the most")
    if any(not 1 <= time <= LAST_CHANGE for time in times) or times != sorted(set(times)):
        raise Fault(f"the change times of input {name} are from 1 to {LAST_CHANGE}, and each is later than the one before")
    return Input(name, int(before), changes)


def gate_of(name, said, nets):
    said = said.replace(",", " ").strip()  # commas are for the eye alone
    parts = re.fullmatch(r"(\w+)\s(.*?)\s*\bdelay\s+(\d{1,9})(?:\s+inertial\s+(\d{1,9}))?", said)
    if not parts or {"delay", "inertial"} & set(parts[2].split()):
        raise Fault("a gate is written NAME = KIND NET NET .., delay NUMBER, inertial NUMBER; 'inertial' may be left out")
    kind, read, delay, inertial = parts[1].upper(), parts[2].split(), int(parts[3]), int(parts[4] or 0)
    if kind not in KINDS:
        raise Fault(f"'{parts[1]}' is not a kind of gate; the kinds are {', '.join(KINDS)}")
    least, most = (1, 1) if kind in ("BUF", "NOT") else (2, MOST_FANINS)
    if not least <= len(read) <= most:
        raise Fault(f"{kind} reads {'1 net' if most == 1 else f'{least} to {most} nets'}, not {len(read)}")
    for net in read:
        if net not in nets:
            raise Fault(f"no net above is called '{net}'; a gate stands below the nets that it reads, without loops")
    if not (1 <= delay <= MOST_DELAY and inertial <= MOST_DELAY):
        raise Fault(f"a delay is from 1 to {MOST_DELAY}, an inertial delay from 0 to {MOST_DELAY}")
    return Gate(name, kind, [nets[net] for net in read], delay, inertial)


def add_net(line, inputs, gates, nets):
    of_input = re.fullmatch(r"input\s+(\w+)\s*(.*)", line)
    parts = of_input or re.fullmatch(r"(\w+)\s*=\s*(.*)", line)
    if not parts:
        raise Fault(f"'{line}' is neither 'input NAME LEVEL' nor 'NAME = KIND NET NET .., delay NUMBER'")
    name, said = parts.groups()
    if name in nets:
        raise Fault(f"two nets are called '{name}'")
    if of_input and gates:
        raise Fault("the inputs stand above all gates")
    if of_input:
        inputs.append(input_of(name, said))
    else:
        gates.append(gate_of(name, said, nets))
    if len(inputs) > MOST_INPUTS or len(gates) > MOST_GATES:
        raise Fault(f"a circuit has at most {MOST_INPUTS} inputs and {MOST_GATES} gates")
    nets[name] = len(nets)


def read_text(lines):
    """The inputs and the gates of a text."""
    inputs, gates, nets = [], [], {}  # nets: the number of each name
    for number, line in enumerate(lines, 1):
        line = line.split("#")[0].strip()
        try:
            if line:
                add_net(line, inputs, gates, nets)
        except Fault as fault:
            raise Fault(f"line {number}: {fault}") from None
    if not inputs:
        raise Fault("a circuit has at least one input")
    return inputs, gates


# ---- The drawing


def frames_of(line):
    """The levels of a net by their times, from a line that the wave program or outside printed; of its words lane 0 counts."""
    if not re.fullmatch(r"\d+ 0=([01]( \d+=[01])*|[0-9a-f]{16}( \d+=[0-9a-f]{16})*; \d+)", line):
        raise Fault(f"neither the wave program nor outside prints '{line}'")
    return {int(time): int(word, 16) & 1 for time, word in re.findall(r"(\d+)=([0-9a-f]+)", line)}


MOST_COLUMNS = 100


def step_for(last):
    """How many units of time a column is: 1, 2, 5, 10, 20 .., the first that leaves few enough of them."""
    steps = (digit * 10**power for power in itertools.count() for digit in (1, 2, 5))
    return next(step for step in steps if last // step + 3 <= MOST_COLUMNS)


def picture(frames, columns, step):
    """A net's levels, a character a column: the level if it stays, else how it changes, or X if it does more than once."""
    drawn, level = "", frames[0]
    for column in range(columns):
        seen = [level] + [frames[time] for time in sorted(frames) if time // step == column]
        level = seen[-1]
        changes = sum(a != b for a, b in zip(seen, seen[1:]))
        drawn += "X" if changes > 1 else "_/\\-"[2 * seen[0] + level]
    return drawn


def ruler(columns, step):
    """The times above the picture, at every fifth column, or at every tenth where they have more than four digits."""
    apart = 5 if (columns - 1) * step < 10000 else 10
    return "".join(f"{column * step:<{apart}}" for column in range(0, columns, apart)).rstrip()


def frame_under(frames, time):
    """A net's frame that holds the time: its level, when it began, and when the next begins."""
    began = max(t for t in frames if t <= time)
    later = [t for t in frames if t > time]
    return f"{frames[began]} from {began}" + (f" until {min(later)}" if later else ", no end")


def draw(names, output, at=None):
    """The lines of a program's output as a picture; with a time, the frames under it too."""
    if output[:1] and output[0].startswith("refused"):
        return [output[0] + " (README.md has a table of the refusals)"]
    if len(output) != len(names):
        raise Fault(f"the text has {len(names)} nets, and the program printed {len(output)} lines")
    waves = [frames_of(line) for line in output]
    last, width = max(max(frames) for frames in waves), max(map(len, names))
    step = step_for(last)
    columns = last // step + 3
    rows = [f"{net:3} {name:{width}}  " for net, name in enumerate(names)]
    drawn = [row + picture(frames, columns, step) for row, frames in zip(rows, waves)]
    drawn.insert(0, f"    {'':{width}}  {ruler(columns, step)}")
    if step > 1:
        drawn += ["", f"a column is {step} units of time; X is more than one change in it"]
    if at is not None:
        drawn += ["", f"at time {at}"] + [row + frame_under(frames, at) for row, frames in zip(rows, waves)]
    return drawn


def main():
    parser = argparse.ArgumentParser(description="Writes an input of the wave program from a text, on standard output.")
    parser.add_argument("text", help="the text of the circuit, such as examples/first.txt")
    other = parser.add_mutually_exclusive_group()
    other.add_argument("--outside", action="store_true", help="write an input of the program outside")
    other.add_argument("--circuit", action="store_true", help="write the circuit file alone")
    other.add_argument("--former", action="store_true", help="write the circuit file alone, in the former edition")
    other.add_argument("--draw", action="store_true", help="draw what the wave program or outside printed, from standard input")
    parser.add_argument("--at", type=int, metavar="TIME", help="with --draw: each net's frame under this time too")
    asked = parser.parse_args()
    if asked.at is not None and not (asked.draw and 0 <= asked.at <= MOST_TIME):
        parser.error(f"--at takes a time from 0 to {MOST_TIME}, and goes with --draw")
    try:
        with open(asked.text, encoding="utf-8-sig", errors="replace") as text:
            inputs, gates = read_text(text.read().split("\n"))
        if asked.draw:
            output = [line for line in sys.stdin.read().splitlines() if line]  # outside ends with an empty line
            print("\n".join(draw([net.name for net in inputs + gates], output, asked.at)))
        elif sys.stdout.isatty():
            raise Fault("the output is no text: send it to a file with > FILE")
        else:
            write = (circuit_file if asked.circuit else former_file if asked.former else
                     outside_input if asked.outside else wave_input)
            sys.stdout.buffer.write(write(inputs, gates))
    except Fault as fault:
        sys.exit(f"{asked.text}: {fault}")
    except OSError as fault:
        sys.exit(f"{asked.text}: {fault.strerror}")


if __name__ == "__main__":
    main()
