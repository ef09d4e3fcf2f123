#!/usr/bin/env python3
"""What parts cost beside one run: bench/spread.py [--parts 2,4,8,32] [--workers 2,4,8,32] INSTANCE..

It solves each instance in one run, and then cut into so many parts, one after the other, and joins these. It prints processor seconds: of the
one run; of the quick runs for the range; of the parts' runs together, and of the longest; what so many workers would take, each beginning the
next part where it ends one (worked out from the measured parts: nothing runs at the same time); and the megabytes of the joined log, the
seconds of joining, and those of `check`. SCUTTLE names the executable, else it is the released one.
"""
import os
import resource
import subprocess
import sys
import tempfile
import time

ROOT = os.path.join(os.path.dirname(os.path.realpath(__file__)), '..')
sys.path.insert(0, os.path.join(ROOT, 'python'))
os.environ.setdefault('SCUTTLE', os.path.join(ROOT, 'release', 'scuttle'))

from scuttle.join import join  # noqa: E402
from scuttle.lists import read_list  # noqa: E402
from scuttle.split import make_split  # noqa: E402


def spent(who=resource.RUSAGE_CHILDREN):
    usage = resource.getrusage(who)
    return usage.ru_utime + usage.ru_stime


def seconds_of(*words):
    """The processor seconds of a command of the program that ends well."""
    before = spent()
    subprocess.run([os.environ['SCUTTLE'], *words], check=True, stdout=subprocess.DEVNULL)
    return spent() - before


def finish(parts, workers):
    """When the last of some workers ends, where each takes the next part as it ends one."""
    ends = [0.0] * workers
    for part in parts:
        ends[ends.index(min(ends))] += part
    return max(ends)


def measure(path, counts, workers):
    with tempfile.TemporaryDirectory() as folder:
        listed, logged = os.path.join(folder, 'one.list'), os.path.join(folder, 'one.log')
        one = seconds_of('solve', path, listed, logged)
        size = os.path.getsize(logged) / 1e6
        print('%s: %d entries; one run %.1f s, log %.1f MB, check %.1f s' % (
            os.path.basename(path), len(read_list(listed).entries), one, size, seconds_of('check', path, listed, logged)), flush=True)
        for count in counts:
            print('| %s | %.1f |' % (os.path.basename(path), one) + row(path, os.path.join(folder, str(count)), count, listed, workers), flush=True)


def row(path, folder, count, one, workers):
    before = spent()
    split = make_split(path, folder, count)
    probes = spent() - before
    names = [str(node.name) for node, _ in split.parts()]
    parts = [seconds_of('solve', *(split.path(name, ending) for ending in ('.opb', '.list', '.log'))) for name in names]
    listed, logged = os.path.join(folder, 'all'), os.path.join(folder, 'all.log')
    before = spent(resource.RUSAGE_SELF)
    joined = join(split, listed, logged)
    took = spent(resource.RUSAGE_SELF) - before
    if joined.refused or [e.costs for e in read_list(listed).entries] != [e.costs for e in read_list(one).entries]:
        sys.exit('%s: %s' % (path, joined))
    ends = ' | '.join('%.1f' % (probes + finish(parts, each)) for each in workers)
    return ' %d | %.1f | %.1f | %.1f | %s | %.1f | %.1f | %.2f |' % (len(names), probes, sum(parts), max(parts), ends,
                                                                  os.path.getsize(logged) / 1e6, took,
                                                                  seconds_of('check', path, listed, logged))


def main():
    words, options = sys.argv[1:], {'--parts': '2,4,8,32', '--workers': '2,4,8,32'}
    while words and words[0] in options:
        options[words[0]], words = words[1], words[2:]
    if not words:
        sys.exit(__doc__)
    counts, workers = ([int(number) for number in options[name].split(',')] for name in ('--parts', '--workers'))
    print('| instance | one run | parts | quick runs | sum | longest | %s | MB | join | check |' % ' | '.join('%d workers' % w for w in workers))
    for path in words:
        measure(path, counts, workers)


if __name__ == '__main__':
    main()
