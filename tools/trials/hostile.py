#!/usr/bin/env python3
"""Runs the program on damaged inputs, and sees that each run ends as it may.

    hostile.py --gco crates/gco/out/gco [--count 10000] [--seed 1] [--seconds 20] [--megabytes 2048]

Each run takes one of the inputs below (a picture, two pictures, a problem file) with its words, changes it at one to
four places (bits, bytes, cuts, doubled and exchanged pieces, pieces of another input, long and huge numbers, deep
nesting, words of the other formats), and gives it to the program with a limit on processor time and on memory.
It has to end with status 0, 1 or 2, never by a signal or the limit of time. Standard output is empty unless the status
is 0. Standard error has one line `refused ..` at status 1, at status 0 nothing beside the lines of an energy and of a
bound. The same input has to give the same answer with `--threads 2` where it is asked for. The status is 1 where a run
ended otherwise; such an input is kept in the folder that is told.
"""
import argparse
import collections
import random
import re
import resource
import subprocess
import sys
import tempfile

PICTURE = b'P5\n3 1\n3\n\0\3\0'
WIDE = b'P5\n8 8\n7\n' + bytes((x * 5 + y * 3) % 8 for y in range(8) for x in range(8))
PLAIN = b'P2 # by hand\n3 1\n255\n10 12 200\n'
PAIR = b'P5\n4 1\n9\n\0\t\0\0P5\n4 1\n9\n\t\0\0\0'
SEEDED = b'P5\n3 1\n255\n\n\x0c\xc8P5\n3 1\n2\n\1\0\2'
TERMS = b'variables = 3\nconstant = -2\nterms = [{ on = [0], values = [5,2] }, { on = [0,1], values = [0,3,4,0] }, ' \
    b'{ on = [0,1,2], values = [0,0,0,0,0,0,0,-4] }]\n'
LABELS = b'sites = 2\nlabels = 3\ndata = [0,9,3,3,9,0]\nsmooth = [0,1,4,1,0,1,4,1,0]\npairs = [[0,1,2]]\nstart = [0,2]\n' \
    b'moves = "swap"\ncycles = 9\n'
COSTS = b'sites = 2\nlabels = 3\ndata = [0,3,9,9,3,0]\nlabel_costs = [5,5,5]\n'

CASES = [
    (['energy'], TERMS),
    (['label'], LABELS),
    (['label', '--bound'], COSTS),
    (['label', '--threads', '2', '--blocks', '3'], LABELS),
    (['restore'], PICTURE),
    (['restore', '--label-cost', '3', '--bound'], WIDE),
    (['restore', '--smooth', 'quadratic', '--trunc', '4', '--neighbours', '8'], WIDE),
    (['restore', '--moves', 'swap', '--threads', '2', '--ring', '1'], WIDE),
    (['restore'], PLAIN),
    (['stereo', '--labels', '2', '--cap', '9', '--weight', '1', '--bound'], PAIR),
    (['segment', '--low', '11', '--high', '200'], SEEDED),
]

NUMBERS = [b'0', b'1', b'-1', b'255', b'256', b'4096', b'4097', b'65535', b'65536', b'1048576', b'1048577', b'2097153',
           b'4294967295', b'4294967296', b'9223372036854775807', b'-9223372036854775808', b'9223372036854775808', b'00000001',
           b'9' * 1000, b'1.5', b'1e999', b'0x10', b'nan']
PIECES = [b'#', b'# x\n', b'\r', b'\n', b'\0', b'\xff', b'[' * 2000, b'{a=' * 500, b'"', b'"""', b'P5', b'P2', b'P5#', b'terms = 3\n',
          b'[[terms]]\n', b'labels = 1\n', b'data = []\n', b'\xef\xbb\xbf', b'smooth = "potts"\n', b', ', b']', b'}', b'=']


def number_places(data):
    return [match.span() for match in re.finditer(rb'-?[0-9]+', data)]


def changed(data, draw):
    """The input with one thing changed."""
    kind = draw.randrange(11)
    at = draw.randrange(len(data) + 1)
    end = min(len(data), at + draw.randrange(1, 12))
    if kind == 0 and data:
        at = draw.randrange(len(data))
        return data[:at] + bytes([data[at] ^ (1 << draw.randrange(8))]) + data[at + 1:]
    if kind == 1:
        return data[:at] + bytes([draw.randrange(256)]) + data[at + 1:]
    if kind == 2:
        return data[:at]
    if kind == 3:
        return data[:at] + data[end:]
    if kind == 4:
        return data[:end] + data[at:]
    if kind == 5:
        return data[:at] + draw.choice(PIECES) + data[at:]
    if kind == 6:
        other = draw.choice(CASES)[1]
        return data[:at] + other[draw.randrange(len(other)):]
    if kind == 7:
        return data + draw.choice(CASES)[1]
    if kind == 8:
        return data[:at] + data[at:end] * draw.choice([2, 50, 5000]) + data[end:]
    spans = number_places(data)
    if not spans:
        return data + draw.choice(NUMBERS)
    first, last = draw.choice(spans)
    return data[:first] + draw.choice(NUMBERS) + data[last:]


def limits(seconds, megabytes):
    def set_limits():
        resource.setrlimit(resource.RLIMIT_CPU, (seconds, seconds + 1))
        resource.setrlimit(resource.RLIMIT_AS, (megabytes << 20, megabytes << 20))
    return set_limits


def run(gco, words, given, options):
    done = subprocess.run([gco] + words, input=given, capture_output=True, timeout=10 * options.seconds,
                          preexec_fn=limits(options.seconds, options.megabytes), check=False)
    return done.returncode, done.stdout, done.stderr


ENERGY = rb'(energy \d+ data \d+ smooth \d+( label \d+)?\n(bound (none|\d+ \d+)\n)?)?'


def fault(ended):
    """What is wrong with how a run ended, or None."""
    status, out, err = ended
    if status == 0:
        return None if re.fullmatch(ENERGY, err) else 'status 0 and beside it ' + repr(err[:80])
    if status == 1:
        if not re.fullmatch(rb'refused \d+( [a-z_0-9 ]+)?\n', err):
            return 'status 1 and ' + repr(err[:80])
        return 'status 1 and output' if out else None
    if status == 2:
        return 'status 2 and output' if out else None
    return 'status %d' % status


def without_threads(words):
    kept = []
    skip = False
    for word in words:
        if skip:
            skip = False
        elif word in ('--threads', '--blocks', '--ring'):
            skip = True
        else:
            kept.append(word)
    return kept


def main():
    parser = argparse.ArgumentParser(description=__doc__.splitlines()[0])
    parser.add_argument('--gco', required=True)
    parser.add_argument('--count', type=int, default=10000)
    parser.add_argument('--seed', type=int, default=1)
    parser.add_argument('--seconds', type=int, default=20)
    parser.add_argument('--megabytes', type=int, default=2048)
    options = parser.parse_args()
    draw = random.Random(options.seed)
    folder = tempfile.mkdtemp(prefix='hostile')
    ends = collections.Counter()
    wrong = 0
    for number in range(options.count):
        words, given = draw.choice(CASES)
        for _ in range(draw.randrange(1, 5)):
            given = changed(given, draw)
        try:
            ended = run(options.gco, words, given, options)
            what = fault(ended)
            if what is None and without_threads(words) != words:
                plain = run(options.gco, without_threads(words), given, options)
                if plain != ended:
                    what = 'another answer by one thread: %r' % (plain[2][:80],)
        except subprocess.TimeoutExpired:
            ended, what = (None, b'', b''), 'no end'
        line = ended[2].split(b'\n')[0]
        ends[line.split(b' ')[1].decode() if ended[0] == 1 else 'done' if ended[0] == 0 else str(ended[0])] += 1
        if what is not None:
            wrong += 1
            with open('%s/%d' % (folder, number), 'wb') as file:
                file.write(given)
            print('input %d of gco %s: %s (kept in %s)' % (number, ' '.join(words), what, folder))
    told = ', '.join('%s %d' % pair for pair in sorted(ends.items()))
    print('%d inputs, seed %d: %s' % (options.count, options.seed, told))
    print('%d passed, %d failed' % (options.count - wrong, wrong))
    sys.exit(1 if wrong else 0)


if __name__ == '__main__':
    main()
