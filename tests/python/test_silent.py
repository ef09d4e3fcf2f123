"""What would be lost without a word is refused or warned of: misspelt names, rows that were never added, files that weren't written."""
import datetime
import enum
import gc
import json
import os
import pathlib
import shutil
import subprocess
import unittest
import warnings

from setting import PACKAGE, ROOT, InFolder

import scuttle
from scuttle import Model, NotAdded, UnknownName, at_most, exactly, if_then, no


class Day(enum.Enum):
    MON = 1
    TUE = 2


class Number:
    """A number of another package."""

    def __init__(self, number):
        self.number = number

    def __index__(self):
        return self.number


class Names(InFolder):
    def work(self, **how):
        m = Model(**how)
        return m, m.options(['Ann', 'Ben'], ['Mon', 'Tue'])

    def test_a_misspelt_name_is_refused_with_the_near_one_and_its_line(self):
        for what in (lambda m: m.text(), lambda m: m.solve(), lambda m: m.write('in.opb'), lambda m: m.conflict()):
            m, _ = self.work()
            m.add(exactly(1, 'Ann Mon', 'Ben Mno'))
            with self.assertRaisesRegex(UnknownName, r"has made 'Ben Mno' \(.*test_silent.py, line [0-9]+\): is 'Ben Mon' meant\?.*strict=False"):
                what(m)
        self.assertEqual(os.listdir('.'), [])

    def test_each_place_of_a_name(self):
        for use in (lambda m: m.cost('pay', 3, 'Ben Mno'), lambda m: m.gain('joy', 3, [('Ben', 'Mno')]), lambda m: m.implies('Ann Mon', 'Ben Mno'),
                    lambda m: m.row([(2, no('Ben Mno'))], '>=', 1), lambda m: m.at_least(1, ['Ben Mno']),
                    lambda m: m.add(if_then('Ben Mno', m.option('Ann', 'Mon') >= 1))):
            m, _ = self.work()
            use(m)
            with self.assertRaisesRegex(UnknownName, 'Ben Mno'):
                m.text()

    def test_a_name_may_stand_before_its_option(self):
        m = Model()
        m.add(exactly(1, 'Ann Mon', ('Ben', 'Mon')))
        m.options(['Ann', 'Ben'], ['Mon'])
        self.assertEqual([plan.taken for plan in m.solve()][0] in ([('Ann', 'Mon')], [('Ben', 'Mon')]), True)

    def test_no_near_name(self):
        m, _ = self.work()
        m.cost('pay', 3, 'Zoe')
        with self.assertRaisesRegex(UnknownName, r"'Zoe' \(.*\)\. Model"):
            m.text()

    def test_a_helping_option_and_a_lone_number_are_no_unknown_names(self):
        m, work = self.work()
        m.minimise('overtime', m.excess(sum(work.values()), over=1) + 5)
        self.assertTrue(m.solve().complete)
        m = Model()
        m.minimise('pay', 3)
        self.assertEqual([plan.costs for plan in m.solve()], [{'pay': 3}])

    def test_a_model_that_isnt_strict_makes_an_option_of_each_name(self):
        m, _ = self.work(strict=False)
        m.add(exactly(1, 'Ann Mon', 'Ben Mno'))
        self.assertIn('* x5 Ben Mno\n', m.text())

    def test_parts_of_other_packages(self):
        times = [datetime.date(2026, 12, 1), datetime.datetime(2026, 12, 1, 8), datetime.time(8, 30)]
        texts = ['2026-12-01', '2026-12-01 08:00:00', '08:30:00']
        stamp = type('datetime64', (), {'__module__': 'numpy', '__str__': lambda self: '2026-12-02'})()
        for part, kept in list(zip(times, texts)) + [(Day.MON, 'MON'), (Number(3), 3), (stamp, '2026-12-02')]:
            with self.subTest(kept):
                m = Model()
                work = m.options(['Ann'], [part])
                self.assertEqual(work['Ann', part].name, ('Ann', kept))
                m.add(work['Ann', part] >= 1)
                front = m.solve()
                self.assertEqual((front[0].taken, front[0]['Ann', part], front[0]['Ann %s' % kept]), ([('Ann', kept)], True, True))
                self.assertEqual(json.loads(front.to_json())['options'][0]['parts'], ['Ann', kept])
        self.assertEqual(Model().option(Day.TUE).name, 'TUE')

    def test_the_type_of_what_is_no_part_is_named(self):
        missing = type('NaTType', (datetime.datetime,), {'__eq__': lambda self, other: False, '__hash__': None})(2026, 1, 1)
        for part, kind in ((1.5, 'float'), (True, 'bool'), (None, 'NoneType'), ([1], 'list'), (missing, 'NaTType')):
            with self.assertRaisesRegex(scuttle.BadName, ' is a %s$' % kind):
                Model().option('day', part)
        with self.assertRaisesRegex(scuttle.BadName, "a number alone is no name of an option"):
            Model().add(exactly(1, [3]))

    def test_numpy_and_pandas(self):
        # Debian's own Python has them where apt has brought them.
        python = '/usr/bin/python3'
        program = '''import numpy, pandas
from scuttle import Model
m = Model()
dates = pandas.date_range('2026-12-01', periods=1)
m.options(numpy.array(['Ann']), numpy.arange(1)), m.options(['Ann'], dates), m.options(['Ann'], dates.values)
m.options(pandas.Series(['Ben']).unique(), pandas.Series([7]))
for name in m.labels().options: print(name)
'''
        if not os.path.exists(python) or subprocess.run([python, '-c', 'import pandas'], stderr=subprocess.DEVNULL).returncode:
            self.skipTest('pandas is not installed')
        ran = subprocess.run([python, '-B', '-c', program], env=dict(os.environ, PYTHONPATH=PACKAGE), stdout=subprocess.PIPE, stderr=subprocess.STDOUT)
        self.assertEqual(ran.stdout.decode().split('\n')[:-1], [
            "('Ann', 0)", "('Ann', '2026-12-01 00:00:00')", "('Ann', '2026-12-01T00:00:00.000000000')", "('Ben', 7)"])


class Rows(unittest.TestCase):
    def warned(self, what):
        gc.collect()
        with warnings.catch_warnings(record=True) as found:
            warnings.simplefilter('always')
            try:
                what()
            except scuttle.ModelError:
                pass
            gc.collect()
        return [str(warning.message) for warning in found if warning.category is NotAdded]

    def setUp(self):
        self.m = Model()
        self.a, self.b = self.m.option('a'), self.m.option('b')

    def test_one_that_was_never_added_is_warned_of(self):
        a, b = self.a, self.b
        for what, said in ((lambda: a >= 1, 'a >= 1'), (lambda: at_most(1, 'a', 'b'), 'a + b <= 1'), (lambda: a.implies(b), 'no(a) + b >= 1'),
                           (lambda: a == b, 'a - b = 0')):
            self.assertEqual(self.warned(what), ['the row `%s` was made and never added: m.add(..) adds it' % said])

    def test_the_warning_names_the_line(self):
        with warnings.catch_warnings(record=True) as found:
            warnings.simplefilter('always')
            self.a >= 1
        self.assertEqual(os.path.basename(found[0].filename), 'test_silent.py')

    def test_others_are_not(self):
        a, b, m = self.a, self.b, self.m
        for what in (lambda: m.add(a >= 1), lambda: m.add([a >= 1, [b <= 0]]), lambda: m.__iadd__(a + b == 1), lambda: m.add(if_then(a, b >= 1)),
                     lambda: m.add(a.implies(b <= 0)), lambda: a in [b, a], lambda: {a: 1, b: 2}[m.option('b')], lambda: [b, a].index(a),
                     lambda: m.exactly(1, a, b), lambda: m.minimise('most', m.maximum([a, b])), lambda: 1 <= a <= 2,
                     lambda: m.add(a >= 1, b >= 1, 3)):
            self.assertEqual(self.warned(what), [])


class Files(InFolder):
    def front(self):
        m = Model()
        a, b = m.option('a'), m.option('b')
        m.add(a + b >= 1)
        m.minimise('pay', 3 * a + 2 * b)
        return m.solve()

    def test_a_path_gets_the_file(self):
        front = self.front()
        for name in ('html', 'csv', 'json', 'svg'):
            write = getattr(front, 'to_' + name)
            self.assertIsNone(write('front.' + name))
            self.assertEqual(self.read('front.' + name), write())
            self.assertIsNone(write(pathlib.Path('again.' + name)))
            self.assertEqual(self.read('again.' + name), write(path=None))
        front.to_html('front.html', title='a day')
        self.assertEqual(self.read('front.html'), front.to_html(title='a day'))
        with self.assertRaisesRegex(OSError, 'there/front.csv'):
            front.to_csv('there/front.csv')


class Refusals(InFolder):
    def test_a_number_too_wide_is_named_by_its_note_or_cost(self):
        m = Model()
        xs = [m.option('x', k) for k in range(3)]
        m.add(sum(xs) >= 1, note='one of three')
        m.minimise('pay', sum(xs))
        m.add(2 ** 70 * xs[0] >= 1, note='the big row')
        with self.assertRaisesRegex(scuttle.Failed, r'the row `the big row`: a number is at most 2\^63 - 1'):
            m.solve()
        with self.assertRaisesRegex(scuttle.Failed, 'the row `the big row`'):
            m.solve(jobs=2)
        m = Model()
        m.add(2 ** 62 * m.option('a') + 2 ** 62 * m.option('b') >= 1)
        with self.assertRaisesRegex(scuttle.Failed, r'the row `4611686018427387904 a .*`: the coefficients of one row and its bound sum up to'):
            m.solve()
        m = Model()
        m.maximise('joy', m.option('a')), m.minimise('way', 2 ** 64 * m.option('a')), m.add(m.option('a') >= 0)
        with self.assertRaisesRegex(scuttle.Failed, r'the cost `way`: a number is at most'):
            m.solve()

    def test_a_cost_without_a_name(self):
        m = Model()
        with self.assertRaisesRegex(scuttle.ModelError, 'a cost has a name, which comes first, .* and this is a Sum: 3 a'):
            m.minimise(3 * m.option('a'))

    def test_settings_that_cant_be(self):
        m = Model()
        m.add(m.option('a') >= 1)
        for how, said in (({'search': 'foo'}, "search is p-minimal, lower-bounding, bioptsat or turns, and not 'foo'"),
                          ({'seconds': '5'}, "seconds are a number from 0, or None for no limit, and this is a str: '5'"),
                          ({'seconds': -1}, 'this is a int: -1'), ({'seconds': float('nan')}, 'this is a float: nan'),
                          ({'seconds': True}, 'a bool'), ({'learn': 1.5}, 'learn is a whole number from 1, and this is a float: 1.5'),
                          ({'jobs': 0}, 'jobs is a whole number from 1, and this is a int: 0'), ({'log_version': 3}, 'log_version is 1 or 2'),
                          ({'search': 'turns'}, "search='turns' wants turns"), ({'turns': '12'}, 'no other search has them')):
            with self.assertRaisesRegex(scuttle.ModelError, said):
                m.solve(**how)
        for wrong in (lambda: m.solve().more(0, 3, seconds='5'), lambda: m.conflict(seconds='5')):
            with self.assertRaisesRegex(scuttle.ModelError, 'seconds are a number'):
                wrong()
        self.assertTrue(m.solve(seconds=60.5, search='turns', turns='12').complete)


class Types(InFolder):
    @unittest.skipUnless(shutil.which('mypy'), 'mypy is not installed')
    def test_what_users_write(self):
        """The Python of README and of the page of the examples is right for mypy, and what is wrong isn't."""
        import re
        pieces = ['from typing import List\nfrom scuttle import Model\nm = Model()\nthree = m.options(["a"], range(3), ["x"])\na = three["a", 1, "x"]\n'
                  'm.add(sum(three.values()) <= 3, a == a)\ntext: str = m.solve().to_csv()\nm.solve().to_csv("a.csv")\n']
        for page in ('README.md', 'examples/README.md'):
            with open(os.path.join(ROOT, page), encoding='utf-8') as file:
                pieces += [''.join(line[2:] if line.startswith('  ') and page == 'README.md' else line for line in piece.splitlines(True))
                           for piece in re.findall(r'```python\n(.*?)```', file.read(), re.DOTALL)]
        self.assertGreater(len(pieces), 2)
        for at, piece in enumerate(pieces):
            self.write('piece_%d.py' % at, piece)
        self.write('wrong.py', pieces[0] + 'three["a", 1]\n')
        for names, number in ((['piece_%d.py' % at for at in range(len(pieces))], 0), (['wrong.py'], 1)):
            ran = subprocess.run(['mypy', '--strict', '--python-version', '3.8', '--cache-dir', 'cache'] + names,
                                 env=dict(os.environ, MYPYPATH=PACKAGE), stdout=subprocess.PIPE, stderr=subprocess.STDOUT)
            self.assertEqual(ran.returncode, number, ran.stdout.decode())


if __name__ == '__main__':
    unittest.main()
