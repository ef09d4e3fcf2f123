"""Solving: what is answered when a search ends, is stopped, or can't begin, and which files stay."""
import os
import random
import signal
import subprocess
import sys
import threading
import unittest
import unittest.mock

from setting import PACKAGE, PROGRAM, InFolder

import scuttle
from scuttle import Model, at_most, exactly, no


def projects(count):
    """A choice of projects within a budget, with three costs of large numbers: plans come soon, and the front is too long to end."""
    chance, m = random.Random(7), Model()
    xs = [m.option('project', k) for k in range(count)]
    m.add(sum(chance.randint(10, 99) * x for x in xs) <= 20 * count)
    m.maximise('value', sum(chance.randint(100, 999) * x for x in xs))
    m.minimise('risk', sum(chance.randint(100, 999) * x for x in xs))
    m.maximise('joy', sum(chance.randint(100, 999) * x for x in xs))
    return m


def pigeons(holes):
    """One pigeon more than holes, with three costs: linear relaxations don't tell all, so that clauses are learned."""
    m = Model()
    at = m.options(range(holes + 1), range(holes))
    m.minimise('out', sum(1 - sum(at[p, h] for h in range(holes)) for p in range(holes + 1)))
    m.minimise('last', sum((h + p) % 5 * at[p, h] for p, h in at))
    m.maximise('other', sum((3 * h + 2 * p) % 7 * at[p, h] for p, h in at))
    for p in range(holes + 1):
        m.add(at_most(1, [at[p, h] for h in range(holes)]))
    for h in range(holes):
        m.add(at_most(1, [at[p, h] for p in range(holes + 1)]))
    return m


# How long the searches may take that don't end. Seconds; on a slow machine the first plan wants more than this.
LIMIT = 3


class Ended(InFolder):
    def test_files_stay_where_a_folder_is_given(self):
        m = Model()
        m.minimise('pay', 3 * m.option('a') + 5 * m.option('b'))
        m.add(m.option('a') + m.option('b') >= 1)
        front = m.solve(folder='new/folder')
        self.assertEqual((front.complete, front.accepted, [plan.costs for plan in front]), (True, True, [{'pay': 3}]))
        self.assertEqual(sorted(os.listdir('new/folder')), ['model.list', 'model.log', 'model.opb'])
        self.assertEqual(subprocess.run([PROGRAM, 'check'] + ['new/folder/model.' + end for end in ('opb', 'list', 'log')],
                                        stdout=subprocess.PIPE).stdout, b'accepted\n')
        self.assertEqual(os.listdir('.'), ['new'])

    def test_nothing_stays_elsewhere(self):
        os.mkdir('temporary')
        with unittest.mock.patch('tempfile.tempdir', os.path.abspath('temporary')):
            front = Model().solve()
            front.more(0, 2)
            projects(60).solve(seconds=0)
        self.assertEqual((os.listdir('.'), os.listdir('temporary')), (['temporary'], []))

    def test_models_without_costs_rows_or_options(self):
        self.assertEqual([plan.costs for plan in Model().solve()], [{}])
        m = Model()
        m.add(m.option('a') >= 1)
        self.assertEqual([(plan.costs, plan.taken) for plan in m.solve()], [({}, ['a'])])
        m = Model()
        m.minimise('pay', 7)
        self.assertEqual([(plan.costs, plan.taken) for plan in m.solve()], [({'pay': 7}, [])])

    def test_options_of_the_search(self):
        wanted = None
        for settings in ({}, {'search': 'lower-bounding'}, {'search': 'bioptsat'}, {'search': 'turns', 'turns': '123'}, {'harden': True},
                         {'boost': True}, {'log_version': 2}, {'harden': True, 'boost': True, 'log_version': 2}):
            m = Model()
            xs = [m.option('x', k) for k in range(8)]
            m.add(sum((k + 1) * x for k, x in enumerate(xs)) >= 17)
            m.minimise('first', sum((3 * k) % 7 * x for k, x in enumerate(xs)))
            m.minimise('second', sum((5 * k) % 8 * x for k, x in enumerate(xs)))
            front = m.solve(folder='all', **settings)
            self.assertTrue(front.accepted, settings)
            wanted = wanted or [plan.costs for plan in front]
            self.assertEqual([plan.costs for plan in front], wanted, settings)
            with open('all/model.log') as log:
                self.assertIn('version %d' % settings.get('log_version', 1), log.readline())

    def test_wrong_options_of_the_search(self):
        with self.assertRaisesRegex(scuttle.Failed, '64'):
            Model().solve(search='bioptsat')

    def test_each_plan_is_told(self):
        m = Model()
        xs = [m.option('x', k) for k in range(6)]
        m.add(sum(xs) >= 1)
        m.minimise('first', sum(2 ** k * x for k, x in enumerate(xs)))
        m.minimise('second', sum(2 ** (5 - k) * x for k, x in enumerate(xs)))
        for version in (1, 2):
            told = []
            front = m.solve(on_plan=told.append, log_version=version)
            self.assertTrue({tuple(plan.costs.values()) for plan in front} <= {tuple(plan.costs.values()) for plan in told})
            self.assertEqual([plan.number for plan in told], list(range(1, len(told) + 1)))
            self.assertEqual(told[0].costs['first'], sum(2 ** name[1] for name in told[0].taken))

    def test_two_models_at_once(self):
        fronts = {}

        def solve(k):
            m = Model()
            m.minimise('pay', k * m.option('a') + 1)
            m.add(m.option('a') >= 1)
            fronts[k] = m.solve()
        threads = [threading.Thread(target=solve, args=(k,)) for k in range(6)]
        for thread in threads:
            thread.start()
        for thread in threads:
            thread.join()
        self.assertEqual({k: front[0].costs['pay'] for k, front in fronts.items()}, {k: k + 1 for k in range(6)})


class NoPlan(unittest.TestCase):
    def test_a_small_set_of_rows_is_named(self):
        m = Model()
        xs = [m.option('x', k) for k in range(40)]
        for one, two in zip(xs, xs[1:]):
            m.add(one.implies(two))
        m.add(xs[30] + xs[31] + xs[32] >= 3, note='three are wanted')
        m.add(at_most(2, xs[30:33]), note='two are there')
        front = m.solve()
        self.assertEqual((front.complete, front.accepted, len(front)), (True, True, 0))
        self.assertEqual(front.conflict, ['x 30 + x 31 + x 32 >= 3 (three are wanted)', 'x 30 + x 31 + x 32 <= 2 (two are there)'])
        self.assertIn('no plan keeps to all constraints', str(front))
        self.assertIn('three are wanted', str(front))

    def test_only_rows_that_clash_are_named(self):
        m = Model()
        a, b, c = [m.option(name) for name in 'abc']
        m.add(a.implies(b), b.implies(c), a >= 1, no(c) >= 1, a + b + c <= 3)
        self.assertEqual(m.solve().conflict, ['no(a) + b >= 1', 'no(b) + c >= 1', 'a >= 1', 'no(c) >= 1'])


class Stopped(InFolder):
    def test_time_is_up(self):
        front = projects(60).solve(seconds=LIMIT, folder='kept')
        self.assertEqual((front.complete, front.accepted), (False, False))
        self.assertEqual(front.title()[:10], 'INCOMPLETE')
        self.assertEqual(sorted(os.listdir('kept')), ['model.list', 'model.log', 'model.opb'])
        again = scuttle.Front.read('kept/model.opb', 'kept/model.list')
        self.assertEqual([plan.costs for plan in again], [plan.costs for plan in front])
        self.assertFalse(again.complete)
        self.assertGreater(len(front), 0)

    def test_no_time_at_all(self):
        front = projects(60).solve(seconds=0)
        self.assertEqual((front.complete, front.accepted), (False, False))

    def test_clauses_are_spent(self):
        front = pigeons(12).solve(learn=1, seconds=60)
        self.assertEqual((front.complete, front.accepted), (False, False))

    def test_an_earlier_list_is_not_taken_for_this_one(self):
        os.mkdir('kept')
        self.write('kept/model.list', 's COMPLETE 0\n')
        self.write('kept/model.log', 'scuttle proof version 1\nend 1\n')
        self.assertFalse(projects(60).solve(seconds=0, folder='kept').complete)

    def test_interrupt(self):
        self.write('run.py', '''import sys
sys.path[:0] = %r, %r
from test_solve import projects
def tell(plan):
    print('one', flush=True)
front = projects(60).solve(on_plan=tell, folder='kept')
print('left', front.complete, front.accepted, len(front) > 0, flush=True)
''' % (PACKAGE, os.path.dirname(os.path.abspath(__file__))))
        # Where the tests run behind `&`, SIGINT is ignored, and what they start would ignore it too.
        process = subprocess.Popen([sys.executable, 'run.py'], stdout=subprocess.PIPE, start_new_session=True,
                                   preexec_fn=lambda: signal.signal(signal.SIGINT, signal.default_int_handler))
        self.assertEqual(process.stdout.readline(), b'one\n')
        os.killpg(process.pid, signal.SIGINT)
        said = process.communicate(timeout=60)[0]
        self.assertEqual(said.split(b'\n')[-2:], [b'left False False True', b''])
        self.assertEqual(sorted(os.listdir('kept')), ['model.list', 'model.log', 'model.opb'])

    def test_a_callback_that_fails_ends_the_search(self):
        def fail(plan):
            raise RuntimeError('enough')
        with self.assertRaisesRegex(RuntimeError, 'enough'):
            projects(60).solve(on_plan=fail)
        self.assertNotIn('model.opb', subprocess.run(['ps', '-o', 'args', '--ppid', str(os.getpid())], stdout=subprocess.PIPE).stdout.decode())


class CannotRun(InFolder):
    def test_no_executable(self):
        with self.assertRaisesRegex(scuttle.NoProgram, 'there is no executable /none'):
            Model().solve(program='/none')

    def test_one_of_another_system(self):
        self.write('other', '\x7fELF not of this machine')
        os.chmod('other', 0o755)
        with self.assertRaisesRegex(scuttle.NoProgram, "doesn't run on this system"):
            Model().solve(program='other')

    def test_one_that_may_not_be_run(self):
        self.write('other', '')
        with self.assertRaisesRegex(scuttle.NoProgram, "doesn't run on this system.*Permission denied"):
            Model().solve(program='other')

    def test_a_folder_that_cannot_be_written(self):
        self.write('file', '')
        for folder in ('file', 'file/in', '/proc/none'):
            with self.assertRaises(OSError) as caught:
                Model().solve(folder=folder)
            self.assertIn(folder.split('/')[0] or '/proc', str(caught.exception))

    def test_a_check_that_refuses(self):
        """Nothing is called accepted that `check` doesn't accept."""
        self.write('other', '#!/bin/sh\nif [ "$1" = check ]; then exit 11; fi\nexec %s "$@"\n' % PROGRAM)
        os.chmod('other', 0o755)
        front = Model().solve(program=os.path.abspath('other'))
        self.assertEqual((front.complete, front.accepted), (True, False))
        self.assertIn('not accepted', repr(front))

    def test_rows_that_hold(self):
        m = Model()
        m.add(exactly(1, m.option('a'), m.option('b')))
        self.assertEqual(m.conflict(), [])


if __name__ == '__main__':
    unittest.main()
