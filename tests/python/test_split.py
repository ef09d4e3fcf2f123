"""How an instance is cut, and what can't be."""
import os
import shutil
import subprocess
import unittest

from parts_by_hand import CLAUSES, SHOPS, Parts, costs_of

from scuttle.join import join
from scuttle.parts import Condition, Node, Source, Split, Test, narrowed
from scuttle.ranges import Quick, find_range
from scuttle.split import make_split, named

class Cut(Parts):
    def test_slabs_stand_in_the_sense_of_the_problem(self):
        self.slabs(bounds=(2, 5), cost=2)
        first = [self.lines('parts/part-%d.opb' % k)[0] for k in (1, 2, 3)]
        # The cost row has the signs changed, and an offset of -6.
        self.assertEqual([line.split(' of in.opb: ')[1] for line in first], ['cost 2 >= 5', 'cost 2 <= 4, cost 2 >= 2', 'cost 2 <= 1'])
        self.assertEqual(sorted(value for k in (1, 2, 3) for _, value in costs_of('parts/part-%d.list' % k) if value >= 5),
                         sorted(value for _, value in costs_of('parts/part-1.list')))

    def test_the_rows_of_a_slab_come_last(self):
        self.slabs()
        self.assertEqual(self.lines('parts/part-2.opb')[-3:], ['+4 x1 +3 ~x2 +1 ~x3 +5 x4 >= 2 ;', '+4 x1 +3 ~x2 +1 ~x3 +5 x4 <= 4 ;', ''])
        self.assertIn('* x1 the shop', self.lines('parts/part-2.opb'))

    def test_clauses_become_statements_of_the_same_rows_and_variables(self):
        split = make_split(self.write('in.mcnf', CLAUSES), 'parts', 1)
        self.assertEqual((split.source.rows, split.source.variables), (4, 7))
        self.assertEqual(self.lines('parts/part-1.opb')[1:-1], [
            'min: +3 ~x1 +2 x6 ;', 'min: +4 x7 +1 x1 +2 ~x4 ;', '+1 x1 +1 x2 >= 1 ;', '+1 x3 +1 ~x3 >= 1 ;', '+1 x2 +1 x3 +1 x6 >= 1 ;',
            '+1 ~x1 +1 ~x2 +1 x7 >= 1 ;'])

    def test_cubes(self):
        self.write('in.opb', SHOPS)
        self.assertEqual(self.command('split', 'in.opb', 'parts', '--by', 'x4,2')[:2], (0, '4 parts\n'))
        self.assertEqual([self.lines('parts/part-%d.opb' % k)[0].split(': ')[1] for k in (1, 2, 3, 4)], ['~x2, ~x4', 'x2, ~x4', '~x2, x4', 'x2, x4'])

    def test_no_cost_or_one_makes_cubes(self):
        for text in ('x1 +1 x2 +1 x3 >= 2 ;\nx1 +1 x2 <= 1 ;\n', 'min: 3 x1 +1 x2 ;\nx1 +1 x2 +1 x3 >= 2 ;\n'):
            split = make_split(self.write('in.opb', text), 'parts', 3)
            self.assertEqual((len(split.parts()), split.cost), (3, 0))
            self.solve(split)
            self.assertIsNone(join(split, 'all.list', 'all.log').refused)
            self.is_front('all.list', 'all.log')
            shutil.rmtree('parts')

    def test_the_cost_of_the_widest_range(self):
        source = Source.of_file(self.write('in.opb', 'min: 1 x1 ;\nmin: 20 ~x1 +10 x2 ;\nmin: x3 ;\nx1 +1 x2 +1 x3 >= 1 ;\n'))
        quick = Quick(10.0, 2, None)
        self.assertEqual([find_range(source, cost, quick) for cost in (None, 1, 3)], [(2, 0, 20), (1, 0, 1), (3, 0, 0)])

    def test_costs_are_cut_by_models(self):
        self.write('in.opb', 'min: 1 x1 +2 x2 +3 x3 ;\nmin: 4 ~x1 +4 ~x2 +4 ~x3 ;\nx1 +1 x2 +1 x3 >= 1 ;\n')
        split = make_split('in.opb', 'parts', 3, 1)
        said = [self.lines('parts/part-%d.opb' % k)[0].split(': ')[1] for k in (1, 2, 3)]
        # Which model a quick run finds is the program's choice: the first bound is below that of x1 alone.
        self.assertIn(said[0], ('cost 1 <= 0', 'cost 1 <= 1'))
        self.assertEqual(said[1:], ['cost 1 <= 2, cost 2 <= 7', 'cost 2 <= 3'])
        self.assertTrue(all(not c.reached for node, path in split.parts() for c in path))
        models = [node.model for node, _ in split.root.walk() if node.model]
        self.assertGreater(len(models), 0)
        self.solve(split)
        self.assertIsNone(join(Split.load(split.source, 'parts'), 'all.list', 'all.log').refused)
        self.is_front('all.list', 'all.log')

    def test_a_model_without_any_cost_leaves_no_part(self):
        self.write('in.opb', 'min: 3 x1 ;\nmin: 2 x1 +1 x2 ;\nx1 +1 x2 +1 x3 >= 1 ;\n')
        self.assertEqual(self.command('spread', 'in.opb', 'all.list', 'all.log')[:2], (0, 'complete 1\naccepted\n'))

    def test_a_problem_without_models_is_one_part(self):
        self.write('in.opb', 'min: 1 x1 ;\nmin: 2 ~x1 ;\nx1 >= 1 ;\nx1 <= 0 ;\n')
        split = make_split('in.opb', 'parts', 4)
        self.solve(split)
        self.assertEqual(join(split, 'all.list', 'all.log'), ([], 0, None))

    def test_wrong_words(self):
        self.write('in.opb', SHOPS)
        for words in (['in.opb'], ['in.opb', 'parts', '--by', 'x9'], ['in.opb', 'parts', '--by', 'x1,x1'], ['in.opb', 'parts', '--cost', '3'],
                      ['in.opb', 'parts', '--parts', '0'], ['in.opb', 'parts', '--parts'], ['in.opb', 'parts', '--harden', '1'],
                      ['in.opb', 'parts', '--cost', '1', '--by', 'x1']):
            self.assertEqual(self.command('split', *words)[0], 64, words)
        self.write('one.opb', 'min: 1 x1 ;\n')
        self.assertEqual(self.command('split', 'one.opb', 'parts', '--cost', '1')[0], 64)
        self.assertEqual(sorted(os.listdir('.')), ['in.opb', 'one.opb'])

    def test_nothing_is_written_into_a_folder_that_has_something(self):
        self.write('in.opb', SHOPS)
        os.mkdir('parts')
        self.write('parts/mine', 'mine\n')
        self.assertEqual(self.command('split', 'in.opb', 'parts'), (65, '', 'split: parts is there already, and not empty\n'))
        self.assertEqual(os.listdir('parts'), ['mine'])

    def test_what_is_no_instance(self):
        self.write('in.opb', 'min: x1 x2 ;\n')
        number, _, warned = self.command('split', 'in.opb', 'parts')
        self.assertEqual((number, 'Product' in warned, os.path.exists('parts')), (65, True, False))

    def test_weights_too_large_for_a_row(self):
        self.write('in.opb', 'min: %d x1 +%d x2 ;\nmin: 1 ~x1 ;\nx1 +1 x2 >= 1 ;\n' % (2 ** 62, 2 ** 61))
        number, _, warned = self.command('split', 'in.opb', 'parts', '--cost', '1', '--parts', '4')
        self.assertEqual((number, 'too large' in warned, os.path.exists('parts')), (65, True, False))

    @unittest.skipUnless(shutil.which('make'), 'make is not installed')
    def test_make(self):
        self.write('in.opb', SHOPS)
        self.assertEqual(self.command('split', 'in.opb', 'parts', '--parts', '3')[0], 0)
        first = subprocess.run(['make', '-C', 'parts', '-j2'], stdout=subprocess.PIPE, stderr=subprocess.PIPE)
        self.assertEqual((first.returncode, first.stderr), (0, b''))
        again = subprocess.run(['make', '-C', 'parts'], stdout=subprocess.PIPE)
        self.assertNotIn(b'solve', again.stdout)
        self.assertEqual(self.command('join', 'in.opb', 'parts', 'all.list', 'all.log')[0], 0)
        self.is_front('all.list', 'all.log')

    def test_commands(self):
        self.write('in.opb', SHOPS)
        self.command('split', 'in.opb', 'parts', '--parts', '3')
        for line in self.lines('parts/commands.txt')[:-1]:
            subprocess.run(line, shell=True, cwd='parts', check=True, stdout=subprocess.PIPE)
        self.assertEqual(self.command('join', 'in.opb', 'parts', 'all.list', 'all.log')[1].split('\n')[1], 'accepted')


class Words(unittest.TestCase):
    def test_the_narrower_of_two_bounds_counts(self):
        path = [Condition(Test('cost', 1, bound), reached) for bound, reached in ((5, True), (8, True), (20, False), (12, False))]
        self.assertEqual([(c.test.bound, c.reached) for c in narrowed(path)], [(8, True), (12, False)])

    def test_a_tree_of_one(self):
        self.assertEqual([node.name for node, _ in named(Node()).walk()], ['part-1'])


if __name__ == '__main__':
    unittest.main()
