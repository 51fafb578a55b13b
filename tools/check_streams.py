#!/usr/bin/env python3
"""Runs the built programs on their stored inputs where reading and writing wait or fail, which the gate does not.
Usage: python3 tools/check_streams.py [NAME ..]   (all programs, unless names are given)"""
import fcntl
import os
import subprocess
import sys
import threading
import time

F_SETPIPE_SZ = 1031  # of Linux
ROOT = os.path.join(os.path.dirname(os.path.abspath(__file__)), '..')


def stored(name, file):
    with open(os.path.join(ROOT, 'crates', name, file), 'rb') as f:
        return f.read()


def feed(end, pieces, pause):
    try:
        for k, piece in enumerate(pieces):
            if k:
                time.sleep(pause)
            while piece:
                piece = piece[os.write(end, piece):]
    except BrokenPipeError:  # the program has stopped before its input does
        pass
    os.close(end)


def late(program, pieces, pause):
    """Standard input is a non-blocking pipe into which the pieces come one by one."""
    out, into = os.pipe()
    os.set_blocking(out, False)
    process = subprocess.Popen([program], stdin=out, stdout=subprocess.PIPE, stderr=subprocess.PIPE)
    os.close(out)
    feeder = threading.Thread(target=feed, args=(into, pieces, pause))
    feeder.start()
    answer = process.communicate()
    feeder.join()
    return answer


def slow(program, data):
    """Standard output is a small non-blocking pipe that is emptied slowly."""
    out, into = os.pipe()
    os.set_blocking(into, False)
    fcntl.fcntl(into, F_SETPIPE_SZ, 4096)
    process = subprocess.Popen([program], stdin=subprocess.PIPE, stdout=into, stderr=subprocess.PIPE)
    os.close(into)
    feeder = threading.Thread(target=feed, args=(os.dup(process.stdin.fileno()), [data], 0))
    feeder.start()
    process.stdin.close()
    time.sleep(0.3)
    text = b''
    while piece := os.read(out, 4000):
        text += piece
        time.sleep(0.001)
    feeder.join()
    return text, process.stderr.read()


def plain(program, redirection, data=None):
    answer = subprocess.run(f'{program} {redirection}', shell=True, input=data, capture_output=True)
    return answer.stdout, answer.stderr


def checks(name):
    program = os.path.join(ROOT, 'target', 'bin', name)
    data, text = stored(name, 'stdin'), stored(name, 'stdout')
    half = len(data) // 2
    nothing = b'' if name in ('wave', 'convert', 'measure') else b'cut\n'
    way = b'from the former edition to the present one (picoseconds)\n' if name == 'convert' else b''
    yield 'the second half comes late', late(program, [data[:half], data[half:]], 0.5) == (text, way)
    pieces = [data[k:k + 1] for k in range(half)][:2000]
    yield 'byte by byte', late(program, pieces + [data[len(pieces):]], 0.0001) == (text, way)
    yield 'the output is slow', slow(program, data) == (text, way)
    out, said = plain(program, '< ' + ROOT)
    yield 'the input is a directory', out == nothing and said.startswith(b'cannot read standard input: ')
    out, said = plain(program, '<&-')
    yield 'the input is closed', out == nothing and said.startswith(b'cannot read standard input: ')
    out, said = plain(program, '> /dev/full', data)
    yield 'the output is full', said.startswith(way + b'cannot write standard output: ')


wrong = 0
names = sys.argv[1:] or ['wave', 'convert', 'measure', 'cases', 'parts', 'marks', 'outside', 'conversions', 'fittings']
for name in names:
    for what, holds in checks(name):
        if not holds:
            wrong += 1
            print(f'{name}: wrong where {what}')
print(f'{len(names)} programs, {wrong} checks wrong')
sys.exit(wrong != 0)
