"""Models in and out: LP, MPS, weighted clauses; compared with glpsol and cbc where these are installed, and with each assignment."""
import glob
import itertools
import os
import random
import re
import shutil
import subprocess
import unittest

from setting import EXAMPLES, InFolder

import scuttle
from scuttle import Front, Model, at_most, no
from scuttle.from_lp import read_lp
from scuttle.from_wcnf import read_wcnf
from scuttle.instances import costs_of, keeps_to, read_instance
from scuttle.lists import read_list
from scuttle.solving import Settings, solve
from scuttle.front import Labels, Source

GLPSOL, CBC = shutil.which('glpsol'), shutil.which('cbc')


def made(seed, only_clauses=False):
    """A small model with two costs; with rows that have few clauses, where it is asked for."""
    chance, m = random.Random(seed), Model()
    xs = [m.option('x', k) for k in range(6)]
    signed = [x if chance.random() < 0.7 else no(x) for x in xs]
    m.add(sum(chance.sample(signed, 3)) >= 1, at_most(3, signed), signed[0].implies(signed[1]), sum(signed[2:]) == 2)
    if not only_clauses:
        m.add(sum(chance.randint(-5, 9) * x for x in xs) <= 12, sum(chance.randint(1, 9) * x for x in signed) >= 8)
    for name in ('pay', 'joy'):
        put = m.minimise if chance.random() < 0.5 or only_clauses else m.maximise
        put(name, sum(chance.randint(-3, 9) * x for x in signed) + chance.randint(-4, 4))
    return m


def front_of_file(path):
    """The front of an instance's file."""
    instance = read_instance(path)
    names = ['cost %d' % k for k in range(len(instance.objectives))]
    labels = Labels(names, [o.sense for o in instance.objectives], ['x%d' % k for k in range(instance.variables)])
    with open(path, encoding='utf-8') as file:
        return solve(Source(os.path.basename(path), file.read()), labels, Settings(seconds=60))


def vectors(front):
    return sorted(tuple(plan.costs.values()) for plan in front)


def optimum_by(program, path):
    """The least or greatest sum of a model in LP."""
    if program == GLPSOL:
        said = subprocess.run([program, '--lp', path, '-o', 'solved'], stdout=subprocess.PIPE).stdout
        with open('solved') as file:
            found = re.search(r'Objective: .* = ([-0-9.e+]+) \((MIN|MAX)imum\)', file.read())
        return round(float(found.group(1))) if b'OPTIMAL SOLUTION FOUND' in said else None
    said = subprocess.run([program, path, 'solve'], stdout=subprocess.PIPE).stdout.decode()
    found = re.search(r'Objective value: +([-0-9.e+]+)', said)
    return round(float(found.group(1))) if found and 'Optimal solution found' in said else None


class ToLp(InFolder):
    def test_the_optimum_of_20_models(self):
        """Each objective has the same optimum by other programs, and the files of all give the same front."""
        for seed in range(20):
            m = made(seed)
            m.write('m.opb')
            front = m.solve()
            self.assertEqual(self.command('to-lp', 'm.opb', 'm')[0], 0)
            for k, name in enumerate(('pay', 'joy'), 1):
                best = front.best(name).costs[name] if front.plans else None
                for program in filter(None, (GLPSOL, CBC)):
                    self.assertEqual(optimum_by(program, 'm.%d.lp' % k), best, (seed, program, name))
            number, _, warned = self.command('from-lp', 'm.1.lp', 'm.2.lp', 'again.opb')
            self.assertEqual(number, 0, warned)
            self.assertEqual(vectors(front_of_file('again.opb')), vectors(front), seed)

    @unittest.skipUnless(GLPSOL, 'glpsol is not installed')
    def test_what_glpsol_checks_and_writes(self):
        for seed in range(20):
            m = made(seed)
            m.write('m.opb')
            self.command('to-lp', 'm.opb', 'm')
            for k in (1, 2):
                said = subprocess.run([GLPSOL, '--check', '--lp', 'm.%d.lp' % k, '--wlp', 'g.lp', '--wfreemps', 'g.mps', '--wmps', 'f.mps'],
                                      stdout=subprocess.PIPE).stdout
                self.assertIn(b'Writing problem data', said)
                wanted = vectors(self.one_cost('from-lp', 'm.%d.lp' % k))
                self.assertEqual(vectors(self.one_cost('from-lp', 'g.lp')), wanted)
                if m.solve().labels.senses[k - 1] == 'min':
                    for name in ('g.mps', 'f.mps'):
                        self.assertEqual(vectors(self.one_cost('from-mps', name)), wanted)

    def one_cost(self, command, path):
        number, _, warned = self.command(command, path, 'one.opb')
        self.assertEqual(number, 0, warned)
        return front_of_file('one.opb')

    def test_each_example(self):
        for path in glob.glob(os.path.join(EXAMPLES, '*.opb')) + glob.glob(os.path.join(EXAMPLES, '*.mcnf')):
            listed = os.path.splitext(path)[0] + '.list'
            if not os.path.exists(listed) or os.path.getsize(listed) > 2000:
                continue
            self.assertEqual(self.command('to-lp', path, 'e')[0], 0)
            files = ['e.%d.lp' % k for k in range(1, 1 + len(read_instance(path).objectives))]
            number, _, warned = self.command('from-lp', *files + ['e.opb'])
            if path.endswith('.opb'):
                self.assertEqual(number, 0, warned)
                self.assertEqual(vectors(front_of_file('e.opb')), sorted(entry.costs for entry in read_list(listed).entries))
            for k, file in enumerate(files):
                self.command('from-lp', file, 'one.opb')
                senses = [o.sense for o in read_instance(path).objectives]
                best = (min if senses[k] == 'min' else max)(entry.costs[k] for entry in read_list(listed).entries)
                self.assertEqual(vectors(front_of_file('one.opb')), [(best,)])

    def test_a_model_without_costs_or_rows(self):
        self.write('e.opb', '')
        self.assertEqual(self.command('to-lp', 'e.opb', 'e')[0], 0)
        self.assertEqual(self.command('from-lp', 'e.1.lp', 'again.opb')[0], 0)


class FromLp(InFolder):
    def test_as_others_write_it(self):
        self.write('p.lp', '''\\* test_one *\\
Maximize
OBJ: 2.5 x_0 + 3 x_1 - x_2
 + 7 + y
Subject To
_C1: x_0 + x_1 - 2 x_2 - y <= -1
some_row: x_0 + x_1 + x_2 >= 1
 1 <= x_0 + 2 x_1 <= 3
 -x_0 - y > -2
Bounds
 0 <= y <= 1
 __dummy = 0
 z = 1
Generals
 y z
Binaries
x_0
x_1 x_2
End
''')
        self.assertEqual(self.command('from-lp', 'p.lp', 'p.opb'), (0, '', 'from-lp: costs: max OBJ, in 0.1\n'))
        self.assertEqual(self.read('p.opb'), '''* x1 x_0
* x2 x_1
* x3 x_2
* x4 y
* max 1 OBJ, in 0.1
max: +25 x1 +30 x2 -10 x3 +10 x4 +70 x1 +70 ~x1 ;
* row _C1
+1 x1 +1 x2 -2 x3 -1 x4 <= -1 ;
* row some_row
+1 x1 +1 x2 +1 x3 >= 1 ;
* row R3
+1 x1 +2 x2 >= 1 ;
* row R3
+1 x1 +2 x2 <= 3 ;
* row R5
-1 x1 -1 x4 >= -2 ;
''')

    def test_several_objectives(self):
        self.write('m.lp', 'Minimize multi-objectives\n pay: Priority=2 Weight=1 AbsTol=0 RelTol=0\n  3 a + b\n joy: Priority=1\n  - 0.25 a\n'
                           'Subject To\n c1: a + b >= 1\nBinary\n a b\nEnd\n')
        self.assertEqual(self.command('from-lp', 'm.lp', 'm.opb')[2], 'from-lp: costs: min pay; min joy, in 0.01\n')
        self.assertIn('min: +3 x1 +1 x2 ;\nmin: -25 x1 ;\n', self.read('m.opb'))

    def test_what_cannot_be_taken(self):
        head, tail = 'Minimize\n obj: a + b\nSubject To\n', 'Binary\n a b\nEnd\n'
        for line, what, text in (
                (4, 'the variable c is continuous', head + ' a + c >= 1\n' + tail), (6, 'from 0 to 7', head + ' a >= 0\nBounds\n c <= 7\nGeneral\n c\n' + tail),
                (6, 'from 0', head + ' a >= 0\nGeneral\n c\n' + tail), (4, 'products and squares', head + ' [ a * b ] >= 1\n' + tail),
                (2, 'products and squares', 'Minimize\n obj: a + [ a ^2 ] / 2\nSubject To\n' + tail), (5, 'a section `SOS`', head + ' a >= 1\nSOS\n s1: S1:: a:1\n' + tail),
                (4, 'indicator', head + ' c1: a = 1 -> b >= 1\n' + tail), (4, 'stands', head + ' a >= b >= c >= d\n' + tail),
                (4, 'stands a number', head + ' a >= \n' + tail), (1, 'begins with', 'a >= 1\n'), (1, 'begins with', ''), (4, 'stands <=', head + ' a + b\n' + tail),
                (4, 'too many decimals', head + ' 0.12345678901234567890 a + b >= 1\n' + tail), (4, 'too large', head + ' 9e30 a + b >= 1\n' + tail),
                (4, 'too large', head + ' 1e999999 a + b >= 1\n' + tail), (2, "'¬a'", 'Minimize\n obj: 3 ²¬a\nSubject To\n' + tail), (4, 'is nothing', head + ' a \\\n' + ' ] >= 1\n' + tail)):
            with self.subTest(what + ' ' + text[-60:]):
                self.write('w.lp', text)
                number, _, warned = self.command('from-lp', 'w.lp', 'w.opb')
                self.assertEqual(number, 65, warned)
                self.assertTrue(warned.startswith('from-lp: w.lp:'), warned)
        self.write('a.lp', head + ' a + b >= 1\n' + tail)
        self.write('b.lp', head + ' a + b >= 2\n' + tail)
        self.assertIn("aren't those of a.lp", self.command('from-lp', 'a.lp', 'b.lp', 'w.opb')[2])
        self.assertIn('two objectives have one name', self.command('from-lp', 'a.lp', 'a.lp', 'w.opb')[2])

    def test_as_pyomo_and_gurobi_write_it(self):
        self.write('g.lp', '''\\* Source Pyomo model name=unknown *\\

min
cost:
+2 x[0]
+3 x(1,2)
+4 ONE_VAR_CONSTANT

s.t.

c_u_limit_:
+1 x[0]
+1 x(1,2)
>= 1

c_e_ONE_VAR_CONSTANT:
ONE_VAR_CONSTANT = 1.0

bounds
  0 <= x[0] <= 1
  1 <= ONE_VAR_CONSTANT <= 1
binary
  x[0]
  x(1,2)
end
''')
        self.assertEqual(self.command('from-lp', 'g.lp', 'g.opb')[0], 0)
        self.assertEqual([line for line in self.read('g.opb').split('\n') if not line.startswith('* row')], [
            '* x1 x[0]', '* x2 x(1,2)', '* min 1 cost', 'min: +2 x1 +3 x2 +4 x1 +4 ~x1 ;', '+1 x1 +1 x2 >= 1 ;', '= 0 ;', ''])

    def test_names_that_look_like_sections(self):
        self.write('s.lp', 'min\n max_load + bin_1 + e1 + st2\nst\n end_: max_load + bin_1 >= 1\n min_: e1 + st2 >= 1\nbin\n max_load bin_1 e1 st2\nend\n')
        self.assertEqual(list(read_lp('s.lp').variables), ['max_load', 'bin_1', 'e1', 'st2'])
        self.write('s.lp', 'max\n a\n + min\nst\n st + a >= 1\n min - max <= 0\nbin\n a min max st\nend\n')
        self.assertEqual(list(read_lp('s.lp').variables), ['a', 'min', 'st', 'max'])


class FromMps(InFolder):
    TEXT = '''NAME r
ROWS
 N pay
 N joy
 L R1
 E R2
COLUMNS
 M1 'MARKER' 'INTORG'
 a pay 3 R1 1
 a R2 1
 b pay 2.5 R1 1
 b joy -1 R2 1
 M2 'MARKER' 'INTEND'
 one pay 2
RHS
 RHS R1 2 R2 1
RANGES
 RNG R1 1 R2 1
BOUNDS
 BV BND a
 UP BND b 1
 FX BND one 1
ENDATA
'''

    def test_sections(self):
        self.write('r.mps', self.TEXT)
        self.assertEqual(self.command('from-mps', 'r.mps', 'r.opb')[2], 'from-mps: costs: min pay, in 0.1; min joy\n')
        self.assertEqual([line for line in self.read('r.opb').split('\n') if line[:1] != '*'], [
            'min: +30 x1 +25 x2 +20 x1 +20 ~x1 ;', 'min: -1 x2 ;', '+1 x1 +1 x2 >= 1 ;', '+1 x1 +1 x2 <= 2 ;', '+1 x1 +1 x2 >= 1 ;',
            '+1 x1 +1 x2 <= 2 ;', ''])
        for sense in ('OBJSENSE\n MAX\nROWS', 'OBJSENSE MAX\nROWS', '*SENSE:Maximize\nROWS'):
            self.write('r.mps', self.TEXT.replace('ROWS', sense, 1))
            self.assertIn('max pay', self.command('from-mps', 'r.mps', 'r.opb')[2])

    def test_what_cannot_be_taken(self):
        for what, old, new in (('from 0 and', ' UP BND b 1\n', ''), ('right side', 'RHS R1 2', 'RHS pay 2'), ('no row R9', 'RHS R1 2', 'RHS R9 2'),
                               ('a section SOS', 'BOUNDS', 'SOS'), ('a bound `SC`', 'UP BND b', 'SC BND b'), ('without ENDATA', 'ENDATA', ''),
                               ('continuous', " M1 'MARKER' 'INTORG'\n", ''), ('no number', '2.5', 'two'), ('no number', '2.5', '1e9999999'),
                               ('two numbers', ' a R2 1', ' a R1 1'), ('name of a new row', ' L R1', ' L joy'), ('bound of a column', 'UP BND b', 'UP BND c')):
            with self.subTest(what):
                self.write('r.mps', self.TEXT.replace(old, new, 1))
                number, _, warned = self.command('from-mps', 'r.mps', 'r.opb')
                self.assertEqual((number, warned.startswith('from-mps: r.mps:')), (65, True), warned)
                self.assertIn(what.replace(' and', ','), warned)


class Clauses(InFolder):
    def test_costs_of_each_assignment(self):
        """What the files of clauses miss is, with the number that they say, what the instance costs; and they allow the same."""
        for seed in range(20):
            m = made(seed, only_clauses=True)
            m.write('m.opb')
            self.assertEqual(self.command('to-wcnf', 'm.opb', 'm')[0], 0)
            instance = read_instance('m.opb')
            files = [read_wcnf('m.%d.wcnf' % k) for k in (1, 2)]
            offsets = [int(re.search(r'missed ([-+][0-9]+)', self.read('m.%d.wcnf' % k)).group(1)) for k in (1, 2)]
            for values in itertools.product((False, True), repeat=6):
                model = [k if taken else -k for k, taken in enumerate(values, 1)]
                allowed = all(any(literal in model for literal in clause) for clause in files[0].hard)
                self.assertEqual(allowed, all(keeps_to(row, model) for row in instance.rows))
                missed = [sum(weight for weight, clause in file.soft if not any(literal in model for literal in clause)) for file in files]
                self.assertEqual(tuple(a + b for a, b in zip(missed, offsets)), costs_of(instance, model))
            self.assertEqual(self.command('from-wcnf', 'm.1.wcnf', 'm.2.wcnf', 'again.mcnf')[0], 0)
            shifted = [tuple(a + b for a, b in zip(vector, offsets)) for vector in vectors(front_of_file('again.mcnf'))]
            self.assertEqual(shifted, vectors(m.solve()))

    def test_maximised(self):
        self.write('g.opb', 'max: 3 x1 -2 x2 ;\nx1 +x2 >= 1 ;\n')
        self.command('to-wcnf', 'g.opb', 'g')
        self.assertEqual(self.read('g.1.wcnf').split('\n')[1:], ['c the cost is 3 less what is missed', 'h 1 2 0', '3 1 0', '2 -2 0', ''])

    def test_clauses_and_back(self):
        path = os.path.join(EXAMPLES, 'bicycles.mcnf')
        self.command('to-wcnf', path, 'b')
        self.command('from-wcnf', 'b.1.wcnf', 'b.2.wcnf', 'b.3.wcnf', 'again.mcnf')
        self.assertEqual(vectors(front_of_file('again.mcnf')), vectors(Front.read(path, os.path.splitext(path)[0] + '.list')))

    def test_both_ways_of_hard_clauses(self):
        self.write('a.wcnf', 'c x1 shop\np wcnf 2 3 10\n10 1 2 0\n3 -1 0\n4 -2 0\n')
        self.write('b.wcnf', 'c other\nh 2 1 0\n1 1 0\n')
        self.assertEqual(self.command('from-wcnf', 'a.wcnf', 'b.wcnf', 'ab.mcnf')[0], 0)
        self.assertEqual(self.read('ab.mcnf'), 'c x1 shop\nc min 1 a\nc min 2 b\nh 1 2 0\no1 3 -1 0\no1 4 -2 0\no2 1 1 0\n')

    def test_what_cannot_be_taken(self):
        self.write('a.wcnf', 'h 1 2 0\n3 -1 0\n')
        for what, text in (("aren't those", 'h 1 0\n'), (':1: ', 'p cnf 2 1\n1 2 0\n'), (':2: ', 'h 1 2 0\n1.5 1 0\n'), (':2: ', 'h 1 2 0\n1 2\n'),
                           (':2: ', 'h 1 2 0\n-3 1 0\n'), (':1: ', 'h 1 x 0\n'), (':2: ', 'h 1 2 0\n%s 1 0\n' % ('9' * 5000))):
            self.write('b.wcnf', text)
            number, _, warned = self.command('from-wcnf', 'a.wcnf', 'b.wcnf', 'ab.mcnf')
            self.assertEqual(number, 65)
            self.assertIn('b.wcnf' + what if what[0] == ':' else what, warned)
        self.write('r.opb', 'min: x1 ;\n3 x1 +2 x2 +2 x3 >= 4 ;\n')
        self.assertEqual(self.command('to-wcnf', 'r.opb', 'r')[::2], (
            65, 'to-wcnf: r.opb: the row of line 2 counts with different weights, and is no clause\n'))
        self.write('r.opb', ' '.join('+1 x%d' % k for k in range(1, 60)) + ' >= 30 ;\n')
        self.assertIn('more than 10000 clauses', self.command('to-wcnf', 'r.opb', 'r')[2])
        self.assertEqual(glob.glob('r.*.wcnf'), [])

    def test_plain_statements_of_the_competitions(self):
        """They are read as they are."""
        self.write('c.opb', '* #variable= 3 #constraint= 2\n* comment\nmin: +1 x1 -2 x2 +3 x3 ;\n+1 x1 +1 x2 >= 1 ;\n-2 x1 +3 ~x3 = 3 ;\n')
        self.assertEqual(vectors(front_of_file('c.opb')), [(-2,)])


if __name__ == '__main__':
    unittest.main()
