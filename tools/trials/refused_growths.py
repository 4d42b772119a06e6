#!/usr/bin/env python3
"""Runs the program on small inputs and refuses each of its growths of memory, and each of its threads, in turn.

    refused_growths.py --gco crates/gco/out/gco

For each input and each N, the N-th call of the main thread that asks for memory (malloc or realloc) answers none, until
a run meets none. Such a run has to end with `refused 0` and nothing written, or with exactly the answer that ample
memory gives (a library may do without what it was refused). With workers it may also end with `refused 22`, but only
where the call was one of those that start a thread. They are the last ones before that start, as many as lie between
the two nearest starts. Calls of other threads are refused in the same way, and may end with either line.
Of each command by workers each start of a thread (pthread_create) is refused in the same way: such a run has to end with
`refused 22` and nothing written, or with exactly the answer; and each command has to start one for some input.
The calls are counted and refused by a small library that is loaded before the C library; a C compiler is needed to
build it. The status is 1 where a run ended otherwise.
"""
import argparse
import collections
import os
import subprocess
import sys
import tempfile

SHIM = r'''
#define _GNU_SOURCE
#include <dlfcn.h>
#include <errno.h>
#include <fcntl.h>
#include <pthread.h>
#include <stdio.h>
#include <stdlib.h>
#include <unistd.h>
typedef void *(*Work)(void *);
static long growths, refused_growth = -1, others, refused_other = -1, threads, refused_thread = -1;
static void *(*next_malloc)(size_t);
static void *(*next_realloc)(void *, size_t);
static int (*next_create)(pthread_t *, const pthread_attr_t *, Work, void *);
static void begin(void) {
  if (next_malloc) return;
  next_malloc = (void *(*)(size_t))dlsym(RTLD_NEXT, "malloc");
  next_realloc = (void *(*)(void *, size_t))dlsym(RTLD_NEXT, "realloc");
  next_create = (int (*)(pthread_t *, const pthread_attr_t *, Work, void *))dlsym(RTLD_NEXT, "pthread_create");
  if (getenv("REFUSED_GROWTH")) refused_growth = atol(getenv("REFUSED_GROWTH"));
  if (getenv("REFUSED_GROWTH_BESIDE")) refused_other = atol(getenv("REFUSED_GROWTH_BESIDE"));
  if (getenv("REFUSED_THREAD")) refused_thread = atol(getenv("REFUSED_THREAD"));
}
static int is_refused(long *count, long refused) {
  if (__atomic_add_fetch(count, 1, __ATOMIC_SEQ_CST) != refused) return 0;
  int file = open(getenv("MET"), O_WRONLY);
  (void)!write(file, "x", 1);
  close(file);
  return 1;
}
static int is_growth_refused(void) {
  return getpid() == gettid() ? is_refused(&growths, refused_growth) : is_refused(&others, refused_other);
}
void *malloc(size_t size) { begin(); return is_growth_refused() ? 0 : next_malloc(size); }
void *realloc(void *old, size_t size) { begin(); return is_growth_refused() ? 0 : next_realloc(old, size); }
/* How many growths the main thread had asked for before each start of a thread goes to a file, one line a start. */
static void tell_start(void) {
  char line[32];
  int length = snprintf(line, sizeof line, "%ld\n", growths);
  int file = open(getenv("STARTS"), O_WRONLY | O_APPEND);
  (void)!write(file, line, length);
  close(file);
}
int pthread_create(pthread_t *thread, const pthread_attr_t *how, Work work, void *given) {
  begin();
  tell_start();
  return is_refused(&threads, refused_thread) ? EAGAIN : next_create(thread, how, work, given);
}
'''

ROW = b'P5\n3 1\n3\n\0\3\0'
LONE = b'P5\n1 1\n3\n\2'
PAIR = b'P5\n4 1\n9\n\0\t\0\0P5\n4 1\n9\n\t\0\0\0'
SEEDED = b'P5\n3 1\n255\n\n\x0c\xc8P5\n3 1\n2\n\1\0\2'
# In these two not all sites are decided before a cut.
TWISTED = b'P5\n3 3\n9\n\6\4\6\x08\6\t\5\x08\tP5\n3 3\n9\n\6\t\3\5\0\4\t\2\5'
MIXED = b'P5\n3 2\n9\n\3\t\4\4\1\1P5\n3 2\n2\n\0\0\0\0\0\0'
SWAP = b'sites = 2\nlabels = 3\ndata = [0,9,3,3,9,0]\nsmooth = [0,1,4,1,0,1,4,1,0]\npairs = [[0,1]]\nstart = [0,2]\nmoves = "swap"'
TWICE = b'sites = 2\nlabels = 2\ndata = [0,3,3,0]\npairs = [[0,1],[0,1]]'
COSTLY = b'sites = 2\nlabels = 3\ndata = [0,3,9,9,3,0]\nlabel_costs = [5,5,5]'
TWO = b'variables = 2\nterms = [{ on = [0], values = [5,2] }, { on = [1], values = [1,6] }, { on = [0,1], values = [0,3,4,0] }]'
TERMS = b'variables = 3\nterms = [{ on = [0], values = [5,2] }, { on = [0,1], values = [0,3,4,0] }, { on = [0,1,2], values = [0,0,0,0,0,0,0,-4] }]'
IRREGULAR = b'variables = 2\nterms = [{ on = [0,1], values = [1,0,0,1] }]'

# These have nets of 4,096 nodes, the fewest that workers share. An energy is cut whole. In the others the neighbours of
# each site outweigh its own costs, so each is left open.
PART = '{ on = [%d], values = [0,3] }, { on = [%d], values = [3,0] }, { on = [%d,%d], values = [0,2,2,0] }'
MANY = ('variables = 4096\nterms = [%s]' % ', '.join(PART % (i, i + 1, i, i + 1) for i in range(0, 4096, 2))).encode()
LONG = ('sites = 4096\nlabels = 2\ndata = [%s]\npairs = [%s]' % (
    ','.join(['3,0'] * 4096), ','.join('[%d,%d,9]' % (i, i + 1) for i in range(0, 4096, 2)))).encode()
FLAT = b'P5\n64 64\n3\n' + b'\1' * 4096
EVEN = (b'P5\n64 64\n9\n' + b'\5' * 4096) * 2
GREY = b'P5\n64 64\n9\n' + b'\5' * 4096 + b'P5\n64 64\n2\n' + b'\0' * 4096

# Each command with its input: they are run on one thread, and by two workers.
COMMANDS = [
    (['energy'], TWO),
    (['energy'], TERMS),
    (['energy'], IRREGULAR),
    (['label'], SWAP),
    (['label', '--bound'], TWICE),
    (['label', '--bound'], COSTLY),
    (['restore', '--weight', '1'], ROW),
    (['restore', '--weight', '1', '--moves', 'swap'], ROW),
    (['restore', '--label-cost', '1', '--bound'], ROW),
    (['restore', '--blocks', '16'], LONE),
    (['restore'], ROW[:11]),
    (['stereo', '--labels', '2', '--cap', '9', '--weight', '1', '--bound'], PAIR),
    (['stereo', '--labels', '2', '--cap', '9', '--weight', '2', '--bound'], TWISTED),
    (['segment', '--low', '11', '--high', '200'], SEEDED),
    (['segment', '--low', '2', '--high', '7', '--strong', '3', '--weak', '1', '--edge', '2'], MIXED),
]

# Each command with an input that workers share.
SHARED = [
    (['energy'], MANY),
    (['label'], LONG),
    (['restore', '--weight', '9', '--cycles', '1'], FLAT),
    (['stereo', '--labels', '2', '--cap', '9', '--weight', '9', '--cycles', '1'], EVEN),
    (['segment', '--low', '2', '--high', '7', '--strong', '3', '--weak', '3', '--edge', '9', '--cycles', '1'], GREY),
]

CASES = [(words + more, given) for more in ([], ['--threads', '2']) for words, given in COMMANDS] + [
    (words + ['--threads', '2', '--blocks', '2', '--rounds', '2'], given) for words, given in SHARED
] + [
    (['restore', '--help'], b''),
    (['help', 'segment'], b''),
    (['paint'], b''),
    (['segment', '--low', '1'], b''),
]


def run(gco, words, given, shim, what, number):
    """The status and both streams of a run whose growth or thread of this number is refused, whether it had so many, and
    how many growths of the main thread came before each start of a thread."""
    with tempfile.NamedTemporaryFile() as met, tempfile.NamedTemporaryFile() as starts:
        environment = dict(os.environ, LD_PRELOAD=shim, MET=met.name, STARTS=starts.name, **{what: str(number)})
        done = subprocess.run([gco] + words, input=given, capture_output=True, env=environment)
        return (done.returncode, done.stdout, done.stderr), met.read() != b'', [int(line) for line in starts.read().split()]


def growths_of_starts(starts):
    """Which growths of the main thread may be those that start a thread, by how many came before each start."""
    between = [later - earlier for earlier, later in zip(starts, starts[1:])]
    each = min(between, default=0)
    return {growth for start in starts for growth in range(start - each + 1, start + 1)}


def refuse_each(gco, words, given, shim, what, right):
    """How often something of the kind was met, how often the run was refused for it, and how often it ended wrongly."""
    whole, _, starts = run(gco, words, given, shim, what, -1)
    told_as_worker = growths_of_starts(starts)
    met = refused = wrong = 0
    ended, is_met, _ = run(gco, words, given, shim, what, 1)
    while is_met:
        met += 1
        refused += ended != whole
        is_right = ended in [whole] + right
        if what == 'REFUSED_GROWTH' and ended == NO_WORKER and met not in told_as_worker:
            is_right = False
        if not is_right:
            wrong += 1
            print('%s %d of gco %s: %r' % (what, met, ' '.join(words), ended))
        ended, is_met, _ = run(gco, words, given, shim, what, met + 1)
    return met, refused, wrong


NO_MEMORY = (1, b'', b'refused 0\n')
NO_WORKER = (1, b'', b'refused 22\n')


def main():
    parser = argparse.ArgumentParser(description=__doc__.splitlines()[0])
    parser.add_argument('--gco', required=True)
    gco = parser.parse_args().gco
    all_wrong = 0
    threads = collections.Counter()
    with tempfile.TemporaryDirectory() as folder:
        shim = folder + '/shim.so'
        subprocess.run(['cc', '-O1', '-shared', '-fPIC', '-x', 'c', '-', '-o', shim, '-ldl'], input=SHIM.encode(), check=True)
        for words, given in CASES:
            by_workers = '--threads' in words
            right = [NO_MEMORY, NO_WORKER] if by_workers else [NO_MEMORY]
            met, refused, wrong = refuse_each(gco, words, given, shim, 'REFUSED_GROWTH', right)
            all_wrong += wrong
            print('%4d growths, %4d times refused: gco %s' % (met, refused, ' '.join(words)))
            if by_workers:
                met, refused, wrong = refuse_each(gco, words, given, shim, 'REFUSED_GROWTH_BESIDE', right)
                all_wrong += wrong
                print('%4d growths beside, %4d times refused: gco %s' % (met, refused, ' '.join(words)))
                met, refused, wrong = refuse_each(gco, words, given, shim, 'REFUSED_THREAD', [NO_WORKER])
                all_wrong += wrong
                threads[words[0]] += met
                print('%4d threads, %4d times refused: gco %s' % (met, refused, ' '.join(words)))
    for command, met in threads.items():
        if met == 0:
            all_wrong += 1
            print('no thread of gco %s --threads 2' % command)
    sys.exit(1 if all_wrong else 0)


if __name__ == '__main__':
    main()
