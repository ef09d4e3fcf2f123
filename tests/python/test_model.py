"""Models: what operators and calls write, what is refused, and how."""
import itertools
import random
import unittest
from decimal import Decimal
from fractions import Fraction

from setting import InFolder

import scuttle
from scuttle import Model, Option, at_least, at_most, exactly, if_then, no
from scuttle.instances import keeps_to, read_instance


def rows_of(model):
    return [row.text for row in model.rows]


class Sums(InFolder):
    def setUp(self):
        super().setUp()
        self.m = Model()
        self.a, self.b, self.c = [self.m.option(name) for name in 'abc']

    def test_operators(self):
        a, b, c = self.a, self.b, self.c
        self.m.add(3 * a + b - c <= 2, sum([a, b, c]) >= 2, a + 1 > b, 2 - a < b * 2, a - b == 0, -(a + b) >= -1, no(a) + ~b >= 1)
        self.assertEqual(rows_of(self.m), [
            '+3 x1 +1 x2 -1 x3 <= 2 ;', '+1 x1 +1 x2 +1 x3 >= 2 ;', '+1 x2 -1 x1 <= 0 ;', '-1 x1 -2 x2 <= -3 ;', '+1 x1 -1 x2 = 0 ;',
            '-1 x1 -1 x2 >= -1 ;', '+1 ~x1 +1 ~x2 >= 1 ;'])

    def test_words(self):
        a, b, c = self.a, self.b, self.c
        self.m.add(a.implies(b), a.iff(b), at_most(1, [a, b]), at_least(1, a, b), exactly(2, [a, b, c]), if_then(a, b + c >= 2), a != b)
        self.assertEqual(rows_of(self.m), [
            '+1 ~x1 +1 x2 >= 1 ;', '+1 x1 -1 x2 = 0 ;', '+1 x1 +1 x2 <= 1 ;', '+1 x1 +1 x2 >= 1 ;', '+1 x1 +1 x2 +1 x3 = 2 ;',
            '+2 ~x1 +1 x2 +1 x3 >= 2 ;', '+1 x1 +1 x2 = 1 ;'])

    def test_what_rows_mean(self):
        """Random rows by operators are satisfied by what Python says satisfies them."""
        chance = random.Random(5)
        for _ in range(200):
            m = Model()
            options = [m.option('o', k) for k in range(4)]
            weights = [chance.randint(-3, 3) for _ in range(5)]
            bound, sign, given = chance.randint(-4, 4), chance.choice('<>=lg'), chance.randrange(4)
            total = sum(weight * option for weight, option in zip(weights, options)) + weights[4]
            row = {'<': total.__lt__, '>': total.__gt__, '=': total.__eq__, 'l': total.__le__, 'g': lambda bound: bound <= total}[sign](bound)
            m.add(if_then(options[given], row), options[0] + no(options[3]) >= 0)
            m.write('row.opb')
            instance = read_instance('row.opb')
            for values in itertools.product((False, True), repeat=4):
                value = sum(weight * taken for weight, taken in zip(weights, values)) + weights[4]
                holds = {'<': value < bound, '>': value > bound, '=': value == bound, 'l': value <= bound, 'g': value >= bound}[sign]
                model = [k if taken else -k for k, taken in enumerate(values, 1)]
                self.assertEqual(all(keeps_to(written, model) for written in instance.rows), holds or not values[given])

    def test_options_in_python(self):
        a, b = self.a, self.b
        self.assertIn(a, [b, a])
        self.assertNotIn(self.c, [a, b])
        self.assertEqual({a: 1, b: 2}[self.m.option('b')], 2)
        self.assertEqual([option.name for option in (a, b) if option != a], ['b'])
        self.assertFalse(a == 'a')

    def test_what_python_would_drop_is_refused(self):
        a, b = self.a, self.b
        for wrong in (lambda: 1 <= a + b <= 2, lambda: a and b, lambda: not a, lambda: a + b != 1, lambda: a * b, lambda: self.m.add(a),
                      lambda: self.m.add('a'), lambda: self.m.add(None), lambda: a + 'b', lambda: at_most(1, ('a', 'b'))):
            with self.assertRaises((scuttle.ModelError, TypeError)):
                wrong()

    def test_sums_of_nothing(self):
        self.m.add(sum([]) >= 0, at_most(1, []))
        self.m.add(sum([]) >= 1)
        self.assertEqual(rows_of(self.m)[-1], '>= 1 ;')
        self.assertEqual(len(self.m.solve()), 0)

    def test_options_of_another_model(self):
        other = Model().option('a')
        for wrong in (lambda: self.m.add(other >= 1), lambda: self.a + other, lambda: self.m.minimise('pay', other)):
            with self.assertRaises(scuttle.ModelError):
                wrong()

    def test_long_sums(self):
        m = Model()
        options = [m.option('o', k) for k in range(100000)]
        m.add(sum(options) >= 2)
        m.minimise('count', sum(options))
        self.assertEqual(m.text().count('\n'), 100000 + 3)


class Numbers(unittest.TestCase):
    def test_whole_ones(self):
        m = Model()
        m.minimise('pay', Decimal('24.0') * m.option('a') + Fraction(6, 2) * m.option('b'))
        self.assertIn('min: +24 x1 +3 x2 ;', m.text())

    def test_others_are_refused(self):
        m, a = Model(), Option('a')
        for number in (24.9, 24.0, float('nan'), float('inf'), Decimal('2.9'), Decimal('NaN'), Fraction(1, 3), '3', None, [1], 1j):
            for wrong in (lambda: m.cost('pay', number, 'a'), lambda: m.row([(number, 'a')], '>=', 1), lambda: m.row([(1, 'a')], '>=', number),
                          lambda: number * a, lambda: a + number, lambda: a <= number, lambda: m.at_least(number, 'a'),
                          lambda: m.excess(a, over=number), lambda: m.maximum([a], up_to=number) if number is not None else None * a):
                with self.assertRaises((scuttle.ModelError, TypeError), msg=repr(number)):
                    wrong()
        with self.assertRaisesRegex(scuttle.NotWhole, '24.9 is a float.*multiply'):
            m.cost('pay', 24.9, 'a')

    def test_a_number_too_wide(self):
        m = Model(strict=False)
        m.row([(1 << 63, 'a')], '>=', 0)
        with self.assertRaisesRegex(scuttle.Failed, '65.*NumberTooWide'):
            m.solve()


class Names(InFolder):
    def test_what_can_break_out_of_a_comment_is_refused(self):
        for name in ('pay\nmin: +9 x2 ;', 'a\rb', 'a\x0bb', 'a\x85b', 'a\u2028b', 'a\x00', ' a', 'a  b', '', '\ud800', 'a\tb', 7, None, (), ('a', 1.5)):
            m = Model()
            for wrong in (lambda: m.cost(name, 1, 'a'), lambda: m.minimise(name, m.option('a')), lambda: m.add(at_least(1, [name])),
                          lambda: m.add(m.option('a') >= 1, note=name) if name else m.option(name), lambda: m.excess(m.option('a'), 0, name=name)
                          if name else m.option(name)):
                with self.assertRaises((scuttle.ModelError, TypeError), msg=ascii(name)):
                    wrong()
            self.assertEqual(m.text().replace('* x1 a\n', '').replace('+1 x1 >= 0 ;\n', ''), '')

    def test_all_others_are_kept(self):
        names = ['Größe, "in" <kg>', "<script>alert('x')</script>", '=1+1', 'שלום', '👩‍👩‍👧', '* x2 b', 'min: x1 ;', '; h 1 0', '١٢']
        m = Model()
        for name in names:
            m.add(m.option(name) >= 1)
            m.minimise(name, m.option(name))
        front = m.solve(folder='.')
        self.assertEqual(front[0].taken, names)
        self.assertEqual(list(front[0].costs), names)
        again = scuttle.Front.read('model.opb', 'model.list', 'model.log')
        self.assertEqual((again.accepted, again[0].taken, again[0].costs), (True, names, front[0].costs))

    def test_tuples(self):
        m = Model(strict=False)
        self.assertEqual(m.option('Ann', 3).name, ('Ann', 3))
        m.add(m.option('Ann', 3) >= 1, at_least(1, [('Ben', 'Mon')]))
        self.assertEqual(m.solve()[0].taken, [('Ann', 3), ('Ben', 'Mon')])
        m.implies(('Ann', 3), ('Cas', 1))
        m.row([(2, ('Cas', 1)), (1, no(('Dan', 1)))], '>=', 3)
        m.cost('pay', 2, ('Cas', 1), ('Dan', 1))
        m.gain('joy', 2, [('Cas', 1)])
        self.assertEqual((m.solve()[0].taken[2:], m.solve()[0].costs), ([('Cas', 1)], {'pay': 2, 'joy': 2}))
        self.assertTrue(m.solve()[0]['Ann 3'] and m.solve()[0]['Ann', 3] and m.solve()[0][m.option('Ann', 3)])
        with self.assertRaisesRegex(scuttle.BadName, 'one name'):
            m.add(m.option('Ben Mon', 'early') + m.option('Ben', 'Mon early') >= 1)

    def test_the_text_is_the_same_each_time(self):
        def text():
            m = Model()
            work = m.options(['Ann', 'Ben'], range(3))
            m.add(exactly(1, [work['Ann', 0], work['Ben', 0]]), note='one of both')
            m.minimise('load', m.maximum([sum(work['Ann', day] for day in range(3)), work['Ben', 1] + work['Ben', 2]]))
            return m.text()
        self.assertEqual(text(), text())
        self.assertIn('* row 1: one of both\n', text())

    def test_an_option_in_no_row_counts(self):
        m = Model()
        m.option('a'), m.option('b')
        self.assertEqual([len(plan.values) for plan in m.solve()], [2])


class Helping(unittest.TestCase):
    def front_of(self, m):
        front = m.solve()
        self.assertTrue(front.accepted)
        return [tuple(plan.costs.values()) for plan in front]

    def test_excess(self):
        m = Model()
        xs = [m.option('x', k) for k in range(5)]
        m.minimise('over', m.excess(sum(xs), over=3))
        m.maximise('all', sum(xs))
        self.assertEqual(self.front_of(m), [(0, 3), (1, 4), (2, 5)])
        self.assertEqual([len(plan.taken) for plan in m.solve()], [3, 4, 5])

    def test_wide_excess(self):
        m = Model()
        xs = [m.option('x', k) for k in range(3)]
        m.minimise('over', m.excess(100 * xs[0] + 70 * xs[1] + 45 * xs[2], over=60))
        m.maximise('count', sum(xs))
        self.assertEqual(self.front_of(m), [(0, 1), (55, 2), (155, 3)])
        self.assertLess(len(m.numbers), 15)

    def test_shortfall(self):
        m = Model()
        xs = [m.option('x', k) for k in range(3)]
        m.minimise('missing', 7 * m.shortfall(sum(xs), under=2))
        m.minimise('count', sum(xs))
        self.assertEqual(self.front_of(m), [(0, 2), (7, 1), (14, 0)])

    def test_maximum(self):
        m = Model()
        work = m.options('AB', range(4))
        for day in range(4):
            m.add(exactly(1, [work['A', day], work['B', day]]))
        m.minimise('heaviest', m.maximum([sum(work[name, day] for day in range(4)) for name in 'AB']))
        m.minimise('pay', sum(work['A', day] for day in range(4)))
        self.assertEqual(self.front_of(m), [(2, 2), (3, 1), (4, 0)])

    def test_maximum_of_numbers_below_0_and_with_an_end(self):
        m = Model()
        a, b = m.option('a'), m.option('b')
        m.minimise('most', m.maximum([a - 3, 2 * b - 4]))
        m.maximise('both', a + b)
        self.assertEqual(self.front_of(m), [(-3, 0), (-2, 2)])
        m = Model()
        xs = [m.option('x', k) for k in range(4)]
        m.minimise('most', m.maximum([sum(xs)], up_to=2))
        m.maximise('all', sum(xs))
        self.assertEqual(self.front_of(m), [(0, 0), (1, 1), (2, 2)])

    def test_names_of_helping_options(self):
        m = Model()
        m.option('load, step 1')
        with self.assertRaises(scuttle.BadName):
            m.excess(m.option('a'), 0, name='load')
        m.excess(m.option('a'), 0, name='other')
        for wrong in (lambda: m.option('other, step 1'), lambda: m.excess(m.option('a'), 0, name='other')):
            with self.assertRaises(scuttle.BadName):
                wrong()

    def test_what_they_would_not_say_is_refused(self):
        m = Model()
        a, b = m.option('a'), m.option('b')
        over = m.excess(a + b, over=1)
        for wrong in (lambda: m.add(over >= 1), lambda: m.add(over == 0), lambda: m.maximise('over', over), lambda: m.minimise('less', a - over),
                      lambda: m.excess(3 - over, over=1)):
            with self.assertRaisesRegex(scuttle.ModelError, 'known from below'):
                wrong()
        m.add(over <= 0)
        m.maximise('less', a - over)


if __name__ == '__main__':
    unittest.main()
