"""Random instances cut at random, solved apart and joined: `check` accepts, and the list has the costs of one run.

usage: test_spread_random.py [--cases N] [--first SEED]      so many cases, of seeds from SEED on

Then a byte of a part's log is changed: what comes out is refused, or right.
"""
import collections
import os
import random
import shutil
import subprocess
import sys
import unittest

from parts_by_chance import instance_text, random_split
from setting import PROGRAM, InFolder

from scuttle.errors import Malformed
from scuttle.join import join
from scuttle.lists import read_list
from scuttle.parts import Source, Split

# How many cases run where no number is given, and how many reach everything that is counted.
CASES, REACHES_ALL = 60, 60
# How many bytes are changed a case. Few changed logs are accepted: a line for a closed case has little that doesn't matter.
CHANGES = 5
SEARCHES = ([], ['--search', 'lower-bounding'], ['--boost'], ['--search', 'turns', '--turns', '12'])
# What wants two costs.
SEARCHES_OF_TWO = (['--search', 'bioptsat'], ['--search', 'turns', '--turns', '132'])
BYTES = b'0123456789x~:+ -*dsw>=!\n'


def costs_of(path):
    return [entry.costs for entry in read_list(path).entries]


class Random(InFolder):
    """One test of many cases; `reached` counts what they have shown."""

    first, cases = 1, CASES

    def setUp(self):
        super().setUp()
        self.reached = collections.Counter()

    def run_program(self, *words):
        ran = subprocess.run([PROGRAM] + list(words), stdout=subprocess.PIPE, stderr=subprocess.PIPE)
        self.assertEqual((ran.returncode, ran.stderr), (0, b''), words)
        return ran.stdout

    def solved_split(self, chance, name):
        """A random split, its parts solved in either version of the log by any search, and as a later call reads it."""
        source = Source.of_file(name)
        shutil.rmtree('parts', ignore_errors=True)
        os.mkdir('parts')
        split = random_split(chance, source, 'parts', chance.randint(1, 7))
        split.save()
        searches = SEARCHES + (SEARCHES_OF_TWO if len(source.costs) == 2 else ())
        for node, _ in split.parts():
            paths = [split.path(node.name, ending) for ending in ('.opb', '.list', '.log')]
            self.run_program('solve', *paths, '--log-version', chance.choice('12'), *chance.choice(searches))
            self.reached['parts without a model'] += not costs_of(paths[1])
        self.reached['problems closed by a model'] += sum(node.model is not None for node, _ in split.root.walk())
        self.reached['splits of %s' % {0: 'no part', 1: 'one part'}.get(len(split.parts()), 'parts')] += 1
        return Split.load(source, 'parts')

    def change_a_byte(self, chance, split, right):
        """Changes a byte of a part's log for one call."""
        node, _ = chance.choice(split.parts())
        path = split.path(node.name, '.log')
        with open(path, 'rb') as file:
            data = file.read()
        at = chance.randrange(len(data))
        other = chance.choice([byte for byte in BYTES if byte != data[at]])
        with open(path, 'wb') as file:
            file.write(data[:at] + bytes([other]) + data[at + 1:])
        try:
            self.join_changed(chance, split, path, right)
        finally:
            with open(path, 'wb') as file:
                file.write(data)

    def join_changed(self, chance, split, path, right):
        """Joins parts of which one has a changed log: a fault of that file, a log that is refused, or the same costs."""
        try:
            joined = join(split, 'changed.list', 'changed.log', chance.choice((1, 2)))
        except Malformed as fault:
            self.assertEqual(fault.path, path)
            self.reached['changed logs that are none'] += 1
            return
        self.reached['changed logs that check %s' % ('accepts' if joined.refused is None else 'refuses')] += 1
        if joined.refused is None:
            self.assertEqual(costs_of('changed.list'), right)
        else:
            self.assertFalse(os.path.exists('changed.list') or os.path.exists('changed.log'))
        for name in ('changed.list', 'changed.log'):
            if os.path.exists(name):
                os.remove(name)

    def test_random_instances(self):
        for seed in range(self.first, self.first + self.cases):
            with self.subTest(seed=seed):
                chance = random.Random(seed)
                is_clauses = chance.random() < 0.4
                name = self.write('in.mcnf' if is_clauses else 'in.opb', instance_text(chance, is_clauses))
                self.reached['clauses' if is_clauses else 'statements'] += 1
                self.run_program('solve', name, 'one.list', 'one.log')
                split = self.solved_split(chance, name)
                self.assertEqual(join(split, 'all.list', 'all.log', chance.choice((1, 2)))[::2], ([], None))
                self.assertEqual(costs_of('all.list'), costs_of('one.list'))
                self.assertEqual(self.run_program('check', name, 'all.list', 'all.log'), b'accepted\n')
                for _ in range(CHANGES if split.parts() else 0):
                    self.change_a_byte(chance, split, costs_of('one.list'))
        if self.cases >= REACHES_ALL:
            wanted = ['clauses', 'statements', 'splits of one part', 'splits of parts', 'parts without a model', 'problems closed by a model',
                      'changed logs that are none', 'changed logs that check refuses', 'changed logs that check accepts']
            self.assertEqual([what for what in wanted if not self.reached[what]], [])
        if self.cases != CASES:
            print(self.cases, 'cases;', '; '.join('%s: %d' % pair for pair in sorted(self.reached.items())))


if __name__ == '__main__':
    for option, field in (('--cases', 'cases'), ('--first', 'first')):
        if option in sys.argv:
            at = sys.argv.index(option)
            setattr(Random, field, int(sys.argv[at + 1]))
            del sys.argv[at:at + 2]
    unittest.main()
