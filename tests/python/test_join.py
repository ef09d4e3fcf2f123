"""What is joined, and what is refused and named."""
import os
import shutil
import unittest

from parts_by_hand import CLAUSES, SHOPS, Parts

from scuttle import joined_log
from scuttle.join import join

class Joined(Parts):
    def test_maximised_costs_negative_coefficients_and_offsets(self):
        for cost, bounds in ((1, (1, 2, 7, 20)), (2, (1, 3, 4, 5, 9))):
            split = self.slabs(bounds=bounds, cost=cost)
            self.assertIsNone(join(split, 'all.list', 'all.log').refused)
            self.is_front('all.list', 'all.log')
            shutil.rmtree('parts')

    def test_clauses(self):
        split = self.slabs(CLAUSES, 'in.mcnf', (1, 2, 6), 1)
        self.assertIsNone(join(split, 'all.list', 'all.log').refused)
        self.is_front('all.list', 'all.log', 'in.mcnf')

    def test_one_slab_alone(self):
        split = self.slabs(bounds=())
        self.assertIsNone(join(split, 'all.list', 'all.log').refused)
        self.assertEqual(self.lines('all.log')[1], self.lines('parts/part-1.log')[1])
        self.is_front('all.list', 'all.log')

    def test_an_end_by_a_row_of_the_instance(self):
        split = self.slabs('min: 2 x1 ;\nmin: 3 ~x1 ;\n>= 1 ;\n', bounds=(1,))
        self.write('parts/part-1.log', 'scuttle proof version 1\nend 1\n')
        self.assertEqual(join(split, 'all.list', 'all.log'), ([], 0, None))
        self.is_front('all.list', 'all.log')

    def test_boosted_parts(self):
        split = self.slabs(SHOPS, 'in.opb', (2, 5), 1, '--boost')
        self.assertIsNone(join(split, 'all.list', 'all.log').refused)

    def test_versions_of_the_text(self):
        split = self.slabs()
        self.solve(split, '--log-version', '2', names=['part-2'])
        for version, head in ((1, 'scuttle proof version 1'), (2, 'scuttle proof version 2 rows 4')):
            self.assertIsNone(join(split, 'all.list', 'all.log', version).refused)
            self.assertEqual(self.lines('all.log')[0], head)
            self.is_front('all.list', 'all.log')

    def test_parts_in_which_things_are_alike(self):
        """The lines that put them in order move to others of the same cost, and leave each test of a cost as it is."""
        items = 'min: 3 x1 +3 x2 +3 x3 +1 x4 ;\nmin: 1 ~x1 +1 ~x2 +1 ~x3 +2 ~x4 ;\nx1 +1 x2 +1 x3 +1 x4 >= 1 ;\n'
        split = self.slabs(items, bounds=(4, 7))
        self.solve(split, '--log-version', '2', names=['part-2'])
        for name in ('part-1', 'part-2', 'part-3'):
            self.assertEqual([line[:4] for line in self.lines('parts/%s.log' % name)[1:3]], ['red ', 'red '])
        for version in (1, 2):
            self.assertIsNone(join(split, 'all.list', 'all.log', version).refused)
            self.is_front('all.list', 'all.log')

    def test_cubes_that_fix_things_that_are_alike(self):
        """In a part two of them are fixed alike, and yet not put in order: the rows that fix them differ."""
        items = 'min: 3 x1 +3 x2 +3 x3 +3 x4 ;\nmin: 2 ~x1 +2 ~x2 +2 ~x3 +2 ~x4 ;\nx1 +1 x2 +1 x3 +1 x4 >= 1 ;\n'
        split = self.cubes(items, (1, 2))
        for part, _ in split.parts():
            self.assertIn('red 1 x3 1 ~x4 >= 1 : x3 x4 x4 x3', self.read('parts/%s.log' % part.name))
            self.assertNotIn('red 1 x1 1 ~x2 >= 1', self.read('parts/%s.log' % part.name))
        self.assertIsNone(join(split, 'all.list', 'all.log').refused)
        self.is_front('all.list', 'all.log')

    def test_lines_that_are_seldom(self):
        """A goal of degree 2, factors, literals and weakening in `pol`, and `del` and `reduce` lines of all lengths."""
        split = self.slabs('min: 2 x1 +1 x2 ;\nmin: 3 ~x1 ;\nx1 >= 1 ;\nx1 +1 x2 >= 1 ;\n', bounds=(2,))
        self.solve(split, '--log-version', '2')
        head, rest = self.read('parts/part-2.log').split('\n', 1)
        many = ['rup 2 x1 >= 2 : 1', 'pol 3 x2 2 * + x2 w 2 d s', 'learn 1 x1 >= 1 : ~ 1 -2'] + ['pol 2 1 +'] * 5
        self.write('parts/part-2.log', '\n'.join([head] + many + ['del -2', 'reduce -7 -5..-3', 'del -8 -6', rest]))
        for version in (1, 2):
            self.assertIsNone(join(split, 'all.list', 'all.log', version).refused)
            self.is_front('all.list', 'all.log')
        self.assertIn('rup 2 x1 2 ~x3 >= 2 : 1', self.read('all.log'))

    def test_refutations_whose_goal_is_no_clause(self):
        """They divide their own negation, by either name, and add what the part has derived."""
        split = self.slabs('min: 2 x1 +1 x2 ;\nmin: 3 ~x1 ;\nx1 >= 1 ;\nx1 +1 x2 >= 1 ;\n', bounds=(2,))
        self.solve(split, '--log-version', '2')
        head, rest = self.read('parts/part-2.log').split('\n', 1)
        lines = ['rup 2 x1 >= 2 : 1', 'red 3 x1 >= 3 : : c pol ~ 3 d 2 * -1 +', 'red 2 x1 1 x2 >= 2 : : c pol ! x2 w 2 d -1 +',
                 'red 3 x1 >= 2 : : c rup ~ -2', 'red 1 x1 >= 1 : : c pol ~ 2 d 1 +', 'red 1 x1 >= 0 : : c pol ~']
        self.write('parts/part-2.log', '\n'.join([head] + lines + [rest]))
        for version in (1, 2):
            self.assertIsNone(join(split, 'all.list', 'all.log', version).refused)
            self.is_front('all.list', 'all.log')
        self.assertIn('red 2 x1 1 x2 2 ~x3 >= 2 : : c pol ! x3 w x2 w 2 d -1 + ! x1 w x2 w 2 d %d * +\n' % 2 ** 80, self.read('all.log'))

    def test_ids_and_variables_above_32_bits(self):
        split = self.slabs('min: 2 x1 +1 x2 ;\nmin: 3 ~x1 ;\nx1 +1 x2 >= 1 ;\n', bounds=(2,))
        with open('all.log', 'w') as out:
            log = joined_log.JoinedLog(out, split, 1)
            log.next_id, log.variables = 2 ** 40, 2 ** 33
            self.write('parts/part-1.log', 'scuttle proof version 1\ndef x3 : 1 x1 1 x2 >= 2\nrup 1 ~x3 >= 1 : 2 3\nreduce 5\nend 4\n')
            conditions, first = split.root.children[0]
            log.add_node(first, conditions)
        self.assertEqual(self.lines('all.log')[2:-1], [
            'def x%d : 1 x1 1 x2 >= 2' % (2 ** 33 + 1), 'rup 1 x3 1 ~x%d >= 1 : 3 %d' % (2 ** 33 + 1, 2 ** 40), 'reduce %d' % (2 ** 40 + 2),
            'rup 1 x3 >= 1 : %d' % (2 ** 40 + 1), 'del %d %d' % (2 ** 40, 2 ** 40 + 1)])

    def test_parts_that_are_missing_are_named_and_nothing_is_written(self):
        self.slabs()
        os.remove('parts/part-2.list')
        self.write('all.list', 'older\n')
        self.assertEqual(self.command('join', 'in.opb', 'parts', 'all.list', 'all.log'), (10, '', 'join: not solved yet in parts: part-2\n'))
        self.assertEqual((self.read('all.list'), os.path.exists('all.log')), ('older\n', False))

    def refused(self, what, number=65):
        """A join that names what is wrong, and writes nothing."""
        before = sorted(os.listdir('.'))
        got, said, warned = self.command('join', 'in.opb', 'parts', 'all.list', 'all.log')
        self.assertEqual((got, said, what in warned), (number, '', True), warned)
        self.assertEqual(sorted(os.listdir('.')), before)

    def test_parts_that_are_torn_or_anothers_are_named(self):
        self.slabs()
        log, listed = self.read('parts/part-2.log'), self.read('parts/part-2.list')
        self.write('parts/part-2.log', log[:-1])
        self.refused('parts/part-2.log:%d: the log is torn' % log.count('\n'))
        self.write('parts/part-2.log', '\n'.join(log.split('\n')[:-2]) + '\n')
        self.refused('parts/part-2.log:1: the log is torn: it has no end')
        self.write('parts/part-2.log', 'scuttle proof version 2 rows 9\n')
        self.refused('parts/part-2.log:1: this log is of another problem: it has 9 rows, and the part 6')
        self.write('parts/part-2.log', 'scuttle proof version 1\nsol x1 x2 : : 0 0\nend 1\n')
        self.refused('parts/part-2.log:2: this is no line of a log of this part')
        self.write('parts/part-2.log', log)
        self.write('parts/part-2.list', self.read('parts/part-1.list'))
        self.refused('parts/part-2.list:3: this model is of another problem than the part')
        self.write('parts/part-2.list', listed[:-4])
        self.refused('parts/part-2.list:')
        os.remove('parts/part-2.log')
        self.write('parts/part-2.list', listed)
        self.refused('parts/part-2.log', 74)

    def test_a_log_that_check_refuses_is_named_by_its_line(self):
        self.slabs()
        lines = self.lines('parts/part-3.log')
        at = next(k for k, line in enumerate(lines) if line.startswith('rup') and not line.endswith(':'))
        lines[at] = lines[at][:lines[at].index(':') + 1]
        self.write('parts/part-3.log', '\n'.join(lines))
        self.refused('RupOpen (that is line %d of parts/part-3.log)' % (at + 1), 11)

    def test_hardened_parts_are_refused(self):
        split = self.slabs('min: 2 x1 +1 x3 ;\nmin: 3 ~x1 ;\nx1 +1 x2 >= 1 ;\n', bounds=(1,))
        self.solve(split, '--harden')
        self.refused('parts/part-1.log:2: a line by --harden')

    def test_parts_of_another_instance(self):
        self.slabs()
        self.write('in.opb', SHOPS + 'x1 >= 0 ;\n')
        self.refused('these are parts of another instance than in.opb')
        # Nothing that the plan names is in this one.
        self.write('in.opb', 'x1 >= 1 ;\n')
        self.refused('these are parts of another instance than in.opb')
        self.write('parts/split.json', '{}')
        self.refused('parts/split.json:1: this is no plan of parts')

    def test_a_plan_that_leads_out_of_its_folder(self):
        self.slabs()
        self.write('parts/split.json', self.read('parts/split.json').replace('part-1', '../part-1'))
        self.refused('parts/split.json:1: this is no plan of parts')

    def test_names_of_one_file(self):
        self.slabs()
        self.assertEqual(self.command('join', 'in.opb', 'parts', 'in.opb', 'all.log')[0], 64)
        self.assertEqual(self.read('in.opb'), SHOPS)


if __name__ == '__main__':
    unittest.main()
