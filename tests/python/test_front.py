"""Fronts: choosing, comparing, writing; read from files; of other sizes."""
import csv
import html.parser
import io
import json
import os
import random
import unittest
from unittest import mock
import xml.etree.ElementTree as xml

from setting import EXAMPLES, InFolder

import scuttle
from scuttle import Front, Labels, Model, Plan, exactly, no
from scuttle.dominance import as_good, best_of, is_as_good


def front_of(vectors, senses, complete=True, accepted=True, names=None, options=('a', 'b')):
    labels = Labels(names or ['cost %d' % k for k in range(1, len(senses) + 1)], list(senses), list(options))
    model = [k if k == 1 else -k for k in range(1, len(options) + 1)]
    return Front(complete, accepted, [Plan(k, tuple(vector), model, labels) for k, vector in enumerate(vectors, 1)], labels)


def shop():
    m = Model()
    red, blue, box, tape = [m.option(name) for name in ('red', 'blue', 'box', 'tape')]
    m.add(exactly(1, red, blue), box.implies(red), tape <= 0)
    m.minimise('pay', 5 * red + 3 * blue + 2 * box)
    m.maximise('joy', 2 * red + blue + 2 * box)
    return m


class Choosing(InFolder):
    def setUp(self):
        super().setUp()
        self.front = shop().solve()

    def test_sequence(self):
        self.assertEqual([plan.costs for plan in self.front], [{'pay': 3, 'joy': 1}, {'pay': 5, 'joy': 2}, {'pay': 7, 'joy': 4}])
        self.assertEqual((len(self.front), self.front[-1].taken, self.front.plans[0].number), (3, ['red', 'box'], 1))
        self.assertEqual(self.front[0].values, {'red': False, 'blue': True, 'box': False, 'tape': False})

    def test_best(self):
        self.assertEqual((self.front.best('pay').number, self.front.best('joy').number), (1, 3))
        with self.assertRaisesRegex(KeyError, "no cost 'joys'; there are 'pay', 'joy'"):
            self.front.best('joys')
        with self.assertRaises(IndexError):
            self.front.where(pay=lambda v: False).best('pay')

    def test_where(self):
        cheap = self.front.where(pay=lambda v: v <= 5)
        self.assertEqual(([plan.number for plan in cheap], cheap.complete, cheap.accepted, cheap.listed), ([1, 2], True, True, 3))
        self.assertEqual(cheap.title(), '2 of 3 best compromises')
        self.assertEqual([plan.number for plan in self.front.where({'joy': lambda v: v > 1}, pay=lambda v: v < 7)], [2])
        self.assertEqual([plan.number for plan in self.front.where(lambda plan: plan['red'] and not plan[no('box')])], [3])
        self.assertEqual(len(cheap.where(pay=lambda v: v > 3)), 1)
        with self.assertRaises(KeyError):
            self.front.where(money=lambda v: True)

    def test_always_and_never(self):
        self.assertEqual((self.front.always(), self.front.never()), ([], ['tape']))
        self.assertEqual(self.front.where(joy=lambda v: v >= 2).always(), ['red'])
        self.assertEqual(self.front.where(joy=lambda v: v >= 2).never(), ['blue', 'tape'])
        none = self.front.where(pay=lambda v: False)
        self.assertEqual((none.always(), none.never()), ([], []))

    def test_knee(self):
        self.assertEqual(front_of([(0, 10), (2, 2), (10, 0)], ['min', 'min']).knee().number, 2)
        self.assertEqual(front_of([(0, 0), (8, 8), (10, 10)], ['min', 'max']).knee().number, 2)
        self.assertEqual(front_of([(1, 5), (2, 9), (10, 10)], ['min', 'max']).knee().number, 2)
        self.assertEqual(front_of([(7, 7)], ['min', 'min']).knee().number, 1)
        with self.assertRaises(IndexError):
            front_of([], ['min']).knee()

    def test_diff(self):
        found = self.front.diff(0, 2)
        self.assertEqual((found.costs, found.only_first, found.only_second), ({'pay': 4, 'joy': 3}, ['blue'], ['red', 'box']))
        self.assertEqual(self.front.diff(self.front[2], 0).costs, {'pay': -4, 'joy': -3})

    def test_more(self):
        m = Model()
        xs = [m.option('x', k) for k in range(4)]
        m.add(exactly(2, xs))
        m.minimise('pay', xs[0] + xs[1] + m.excess(sum(xs[1:]), over=1))
        front = m.solve()
        for k, is_all in ((1, False), (9, True)):
            more = front.more(0, k)
            self.assertEqual((more.all, more.accepted, all(plan.costs == front[0].costs for plan in more.plans)), (is_all, True, True))
        taken = {tuple(plan.taken) for plan in more.plans}
        self.assertEqual(len(taken), len(more.plans))
        self.assertEqual(taken, {(('x', a), ('x', b)) for a, b in ((0, 2), (0, 3), (2, 3))})
        self.assertEqual(front.choices, [more])
        # A program that doesn't end: the real one may be done before it can be stopped.
        slow = os.path.abspath(self.write('slow', '#!/bin/sh\nexec sleep 60\n'))
        os.chmod(slow, 0o700)
        with mock.patch.dict(os.environ, {'SCUTTLE': slow}):
            none = front.more(0, 9, seconds=0)
        self.assertEqual((none.all, none.accepted, none.plans), (False, None, [front[0]]))

    def test_more_of_a_front_that_is_not_complete(self):
        front = shop().solve()
        front.complete = False
        self.assertTrue(front.more(2, 5).accepted)
        with self.assertRaisesRegex(scuttle.ScuttleError, 'no instance'):
            front_of([(1,)], ['min']).more(0, 1)


class Written(InFolder):
    def test_json(self):
        m = shop()
        m.minimise('late', m.excess(m.option('Ann', 1) + m.option('red'), over=1))
        m.add(m.option('Ann', 1) >= 1)
        front = m.solve()
        front.more(0, 3)
        found = json.loads(front.to_json())
        self.assertEqual([(o['name'], o['sense']) for o in found['objectives']], [('pay', 'min'), ('joy', 'max'), ('late', 'min')])
        self.assertEqual([o.get('parts') for o in found['options']], [None, None, None, None, ['Ann', 1], None])
        self.assertEqual([o['helping'] for o in found['options']], [False] * 5 + [True])
        for plan, written in zip(front, found['plans']):
            names = [found['options'][k]['name'] for k in written['taken'] if not found['options'][k]['helping']]
            self.assertEqual(names, [' '.join(map(str, name)) if isinstance(name, tuple) else name for name in plan.taken])
            self.assertEqual(written['costs'], list(plan.costs.values()))
        self.assertEqual(found['knee'], front.plans.index(front.knee()))
        self.assertEqual((found['complete'], found['accepted'], found['listed'], found['title']), (True, True, len(front), front.title()))
        self.assertEqual([more and more['all'] for more in found['more']], [True] + [None] * (len(front) - 1))
        self.assertEqual(front.to_json(), front.to_json())
        self.assertEqual(json.loads(front_of([], ['min'], False, None).to_json())['accepted'], None)

    def test_csv(self):
        names = ['=pay', 'joy, "in" €']
        front = front_of([(-3, 1), (2, 5)], ['min', 'max'], names=names, options=('+a', 'b;c', '@x', "-5"))
        rows = list(csv.reader(io.StringIO(front.to_csv())))
        self.assertEqual(rows, [['entry', 'complete', "'=pay", 'joy, "in" €', "'+a", 'b;c', "'@x", "'-5"], ['1', 'yes', '-3', '1', '1', '0', '0', '0'],
                                ['2', 'yes', '2', '5', '1', '0', '0', '0']])

    def test_svg_and_html(self):
        for count in (0, 1, 2, 40, 400):
            for costs in range(9):
                vectors = [[k + at for at in range(costs)] for k in range(count if costs else min(count, 1))]
                front = front_of(vectors, ['min', 'max'] * 4 if costs == 8 else (['min', 'max'] * 4)[:costs], names=[
                    '<script>alert(1)</script>', 'a & "b"', 'שלום', '👩‍👩‍👧', 'bad \x01 \ud800 \x7f', '=1', "it's", '\u202eright'][:costs])
                circles = [c for c in xml.fromstring(front.to_svg().encode('utf-8', 'strict')).iter() if c.tag.endswith('circle')]
                self.assertEqual(len({c.attrib['data-entry'] for c in circles}), len(vectors) if costs else 0)
                shown = front._repr_html_()
                self.assertNotIn('<script', shown)
                self.assertEqual(shown.count('<tr>'), 1 + min(len(vectors), 100))
                html.parser.HTMLParser().feed(shown)
        self.assertIn('INCOMPLETE', front_of([(1, 2)], ['min', 'min'], complete=False).to_svg())
        self.assertIn('>1 best compromise<', front_of([(1, 2)], ['min', 'min']).to_svg())
        self.assertIn('INCOMPLETE', front_of([(1, 2)], ['min', 'min'], complete=False)._repr_html_())

    def test_for_other_packages(self):
        front = front_of([(1, 5), (2, 4)], ['min', 'min'], names=['pay', 'joy'])
        try:
            import pandas  # noqa: F401
            frame = front.to_dataframe()
            self.assertEqual((list(frame.columns), list(frame.index), list(frame['joy'])), (['pay', 'joy'], [1, 2], [5, 4]))
        except ImportError:
            with self.assertRaises(ImportError):
                front.to_dataframe()
        try:
            import matplotlib
            matplotlib.use('agg')
            self.assertEqual(front.plot().get_xlabel(), 'pay')
        except ImportError:
            with self.assertRaises(ImportError):
                front.plot()


class Read(InFolder):
    def test_each_example(self):
        for name in ('network.opb', 'bicycles.mcnf', 'grants.opb', 'roofs.opb', 'sites.mcnf'):
            path = os.path.join(EXAMPLES, name)
            stem = os.path.splitext(path)[0]
            log = stem + '.log' if os.path.exists(stem + '.log') else None
            front = Front.read(path, stem + '.list', log)
            self.assertEqual((front.complete, front.accepted), (True, True if log else None))
            more = front.more(len(front) - 1, 20)
            self.assertTrue(more.accepted)
            self.assertIn(front[-1].taken, [plan.taken for plan in more.plans])

    def test_a_log_that_proves_nothing(self):
        self.write('empty.log', '')
        front = Front.read(os.path.join(EXAMPLES, 'sites.mcnf'), os.path.join(EXAMPLES, 'sites.list'), 'empty.log')
        self.assertEqual((front.complete, front.accepted), (True, False))

    def test_models_beside(self):
        self.write('cars.opb', '* x1 red\n* x2 blue\n* min 1 pay\nmin: 5 x1 +5 x2 ;\nx1 +x2 >= 1 ;\n')
        self.write('cars.list', 's COMPLETE 1\no 5\nv 1 -2 0\n')
        self.write('cars.models', 's MODELS 1\ne ALL 2\nv 1 -2 0\nv -1 2 0\n')
        front = Front.read('cars.opb', 'cars.list', models='cars.models')
        self.assertEqual(([plan.taken for plan in front.choices[0].plans], front.choices[0].accepted), ([['red'], ['blue']], None))
        self.write('no.models', 's MODELS 0\n')
        with self.assertRaises(scuttle.ScuttleError):
            Front.read('cars.opb', 'cars.list', models='no.models')

    def test_names_that_are_there_twice(self):
        self.write('a.opb', '* x1 red\n* x2 red\n* min 1 pay\n* min 2 pay\nmin: 5 x1 ;\nmin: x2 ;\nx1 +x2 >= 2 ;\n')
        self.write('a.list', 's COMPLETE 1\no 5 1\nv 1 2 0\n')
        front = Front.read('a.opb', 'a.list')
        self.assertEqual((front[0].costs, front[0].taken), ({'pay': 5, 'pay (2)': 1}, ['red', 'red (2)']))


class Dominance(unittest.TestCase):
    def test_against_each_with_each(self):
        chance = random.Random(3)
        for _ in range(60):
            costs = chance.randint(0, 4)
            senses = [chance.choice(['min', 'max']) for _ in range(costs)]
            asked, others = [[tuple(chance.randint(0, 4) for _ in range(costs)) for _ in range(chance.randint(0, 30))] for _ in range(2)]
            wanted = [sum(1 << k for k, other in enumerate(others) if is_as_good(senses, other, vector)) for vector in asked]
            self.assertEqual(list(as_good(senses, asked, others)), wanted)
            different = list(set(asked))
            best = [v for v in different if not any(w != v and is_as_good(senses, w, v) for w in different)]
            self.assertEqual(best_of(different, senses), sorted(best))


if __name__ == '__main__':
    unittest.main()
