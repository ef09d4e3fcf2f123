"""Parts on several processors: what runs, what is tried again, cut again or named, and what a second call takes up."""
import os
import shutil
import signal
import stat
import subprocess
import sys
import time
import unittest
import unittest.mock
from concurrent.futures import ProcessPoolExecutor, ThreadPoolExecutor

from parts_by_hand import CLAUSES, SHOPS, Parts
from setting import EXAMPLES, PACKAGE, PROGRAM

from scuttle import Model, part_runs, pool, spread
from scuttle.errors import Malformed, ModelError, ScuttleError
from scuttle.join import join
from scuttle.lists import read_list
from scuttle.parts import Split
from scuttle.split import cut_again, make_split

class Spread(Parts):
    def program(self, text):
        """An executable by a script, where $SCUTTLE is the real one."""
        path = os.path.abspath(self.write('program', '#!/bin/sh\n' + text))
        os.chmod(path, stat.S_IRWXU)
        return path

    def run_spread(self, executor=None, said=None, **settings):
        return spread.spread('in.opb', 'all.list', 'all.log', spread.Settings(**settings), executor, (said if said is not None else []).append)

    def test_one_call(self):
        self.write('in.opb', SHOPS)
        number, said, warned = self.command('spread', 'in.opb', 'all.list', 'all.log', '--jobs', '2', '--parts', '3')
        self.assertEqual((number, said.split('\n')[1]), (0, 'accepted'))
        # A part whose models are all known from the quick runs isn't solved.
        self.assertIn(warned.count(': solved in '), (1, 2))
        self.assertEqual(sorted(os.listdir('.')), ['all.list', 'all.log', 'in.opb'])
        self.is_front('all.list', 'all.log')

    def test_clauses_in_version_2(self):
        self.write('in.mcnf', CLAUSES)
        self.assertEqual(self.command('spread', 'in.mcnf', 'all.list', 'all.log', '--jobs', '2', '--log-version', '2', '--boost')[0], 0)
        self.is_front('all.list', 'all.log', 'in.mcnf')

    def test_what_is_solved_is_taken_up(self):
        split = self.unsolved_slabs()
        self.solve(split, names=['part-1', 'part-3'])
        said = []
        self.assertEqual(self.run_spread(None, said, jobs=2, folder='parts').joined.unsolved, [])
        self.assertEqual([line.split(':')[0] for line in said], ['part-2'])
        self.assertIn('part-2.log', os.listdir('parts'))
        self.is_front('all.list', 'all.log')

    def test_a_part_that_fails_is_tried_again_once(self):
        self.unsolved_slabs()
        program = self.program('case "$2" in */part-2.opb) [ -e failed ] || { echo full >&2; : > failed; exit 71; };; esac\nexec %s "$@"\n' % PROGRAM)
        said = []
        self.assertEqual(self.run_spread(None, said, jobs=2, folder='parts', program=program).joined.refused, None)
        self.assertIn('part-2: the program ended with 71: full; it is tried again', said)

    def test_a_part_that_fails_twice_or_is_killed_is_named_and_the_others_stay(self):
        self.unsolved_slabs()
        for what in ('exit 71', 'kill -9 $$'):
            program = self.program('case "$2" in */part-2.opb) %s;; esac\nexec %s "$@"\n' % (what, PROGRAM))
            result = self.run_spread(jobs=2, folder='parts', program=program)
            self.assertEqual((result.joined.unsolved, list(result.failed)), (['part-2'], ['part-2']))
            self.assertFalse(read_list('all.list').complete)
            self.assertEqual([os.path.exists('parts/part-%d.list' % k) for k in (1, 2, 3)], [True, False, True])
        self.assertEqual(self.run_spread(jobs=2, folder='parts').joined.unsolved, [])

    def test_a_time_that_is_up(self):
        self.unsolved_slabs()
        program = self.program('case "$2" in */part-2.opb) exec sleep 60;; esac\nexec %s "$@"\n' % PROGRAM)
        result = self.run_spread(jobs=1, folder='parts', program=program, seconds=4)
        self.assertEqual((result.joined.unsolved[-2:], result.failed), (['part-2', 'part-3'], {}))
        self.assertFalse(read_list('all.list').complete)
        self.assertFalse([name for name in os.listdir('parts') if '.run-' in name])

    def test_idle_workers_share_a_long_part(self):
        self.write('in.opb', SHOPS)
        make_split('in.opb', 'parts', 1, 1)
        program = self.program('case "$2" in */part-1.opb) exec sleep 60;; esac\nexec %s "$@"\n' % PROGRAM)
        said = []
        with unittest.mock.patch.object(pool, 'LONG', 0.1):
            result = self.run_spread(None, said, jobs=3, folder='parts', program=program)
        self.assertEqual((result.joined.refused, result.joined.unsolved), (None, []))
        self.assertIn('part-1: cut in 2', said)
        self.assertEqual(sorted(name for name in os.listdir('parts') if name.endswith('.list')), ['part-1-1.list', 'part-1-2.list'])
        self.is_front('all.list', 'all.log')

    def test_a_part_may_be_done_before_its_halves(self):
        split = self.slabs(bounds=(4,))
        self.assertTrue(part_runs.is_needed('parts', 'part-1-1', ()))
        self.assertFalse(part_runs.is_needed('parts', 'part-1-1', ('part-1',)))
        node, path = split.parts()[0]
        self.assertTrue(cut_again(split, node, path))
        split.save()
        self.assertIsNone(join(Split.load(split.source, 'parts'), 'all.list', 'all.log').refused)
        os.remove('parts/part-1.list')
        self.assertEqual(join(split, 'all.list', 'all.log').unsolved, ['part-1-1', 'part-1-2'])
        self.solve(split, names=['part-1-1', 'part-1-2'])
        self.assertIsNone(join(split, 'all.list', 'all.log').refused)
        self.is_front('all.list', 'all.log')

    def test_a_long_part_is_shared_by_a_model_that_it_has(self):
        """The models so far close a problem by themselves, so that nothing that is left has a bound that makes it harder."""
        text = 'min: 1 x1 +2 x2 +3 x3 ;\nmin: 4 ~x1 +4 ~x2 +4 ~x3 ;\nx1 +1 x2 +1 x3 >= 1 ;\n'
        split = self.unsolved_slabs(text, bounds=())
        program = self.program('case "$2" in */part-1.opb) printf "scuttle proof version 1\\nsol x1 x2 ~x3 : : 0 0\\n" > "$4"; exec sleep 60;;\n'
                               'esac\nexec %s "$@"\n' % PROGRAM)
        with unittest.mock.patch.object(pool, 'LONG', 0.3):
            result = self.run_spread(jobs=3, folder='parts', program=program)
        self.assertEqual((result.joined.refused, result.joined.unsolved), (None, []))
        self.assertEqual([(node.name, node.model, [split.source.words_of(c) for c in path]) for node, path in result.split.root.walk()][1:4], [
            ('part-1-1', None, ['cost 1 <= 2']), ('part-1-2', None, ['cost 2 <= 3']), (None, '110', ['cost 1 >= 3', 'cost 2 >= 4'])])
        self.is_front('all.list', 'all.log')

    def test_a_long_part_that_a_model_closes(self):
        """Nothing is better than costs of 0: there is nothing left to hand over, and the part's own run goes on."""
        split = self.unsolved_slabs('min: 1 x1 ;\nmin: 1 x2 ;\nx1 +1 x2 +1 x3 >= 1 ;\n', bounds=())
        program = self.program('case "$2" in */part-1.opb) printf "scuttle proof version 1\\nsol ~x1 ~x2 x3 : : 0 0\\n" > "$4"; sleep 2;;\n'
                               'esac\nexec %s "$@"\n' % PROGRAM)
        with unittest.mock.patch.object(pool, 'LONG', 0.3):
            self.assertIsNone(self.run_spread(jobs=2, folder='parts', program=program).joined.refused)
        self.assertEqual([node.model for node, _ in split.load(split.source, 'parts').root.walk()], [None, '001'])
        self.is_front('all.list', 'all.log')

    def test_two_calls_in_one_folder(self):
        self.write('in.opb', SHOPS)
        with spread._alone_in('parts'):
            with self.assertRaises(ScuttleError):
                self.run_spread(folder='parts')

    def test_a_folder_of_another_instance(self):
        self.write('in.opb', SHOPS)
        make_split('in.opb', 'all.log.parts', 2, 1)
        self.write('in.opb', SHOPS + 'x1 >= 0 ;\n')
        with self.assertRaises(Malformed):
            self.run_spread()
        self.assertEqual(sorted(os.listdir('.')), ['all.log.parts', 'in.opb'])

    def test_a_folder_that_has_something_else(self):
        self.write('in.opb', SHOPS)
        os.mkdir('all.log.parts')
        self.write('all.log.parts/stop', 'mine\n')
        with self.assertRaises(ScuttleError):
            self.run_spread()
        self.assertEqual(os.listdir('all.log.parts'), ['stop'])

    def test_what_is_no_instance_leaves_nothing(self):
        self.write('in.opb', 'min: x1 x2 ;\n')
        self.assertEqual(self.command('spread', 'in.opb', 'all.list', 'all.log')[0], 65)
        self.assertEqual(os.listdir('.'), ['in.opb'])

    def test_a_request_to_end(self):
        self.unsolved_slabs()
        program = self.program('case "$2" in */part-2.opb) touch begun; exec sleep 60;; esac\nexec %s "$@"\n' % PROGRAM)
        words = [sys.executable, '-m', 'scuttle', 'spread', 'in.opb', 'all.list', 'all.log', '--jobs', '2', '--folder', 'parts']
        ran = subprocess.Popen(words, stdout=subprocess.PIPE, stderr=subprocess.PIPE, env=dict(os.environ, SCUTTLE=program, PYTHONPATH=PACKAGE))
        while not os.path.exists('begun'):
            time.sleep(0.1)
        ran.send_signal(signal.SIGTERM)
        said, warned = ran.communicate(timeout=60)
        self.assertEqual((ran.returncode, said.startswith(b'stopped: '), b'what is solved stays in' in warned), (10, True, True))
        self.assertFalse([name for name in os.listdir('parts') if '.run-' in name])

    def test_any_executor(self):
        shutil.copy(os.path.join(EXAMPLES, 'grants.opb'), 'in.opb')
        for make in (ProcessPoolExecutor, ThreadPoolExecutor):
            with make(2) as executor:
                self.assertIsNone(self.run_spread(executor, parts=4).joined.refused)
            self.is_front('all.list', 'all.log')

    def test_what_isnt_of_the_parts_stays_in_the_folder(self):
        """Folders of runs of these parts that have died go; others that are called nearly so stay."""
        self.unsolved_slabs()
        names = ('weekly.run-3', 'part-1.run-abcd1234', 'part-9.run-abcd1234', 'part-1.run-of-mine')
        for name in names:
            os.mkdir('parts/' + name)
            self.write('parts/%s/mine' % name, 'mine\n')
        self.write('parts/part-2.run-abcd1234', 'a file\n')
        self.write('parts/stop', '')
        self.assertIsNone(self.run_spread(jobs=2, folder='parts').joined.refused)
        left = set(os.listdir('parts'))
        self.assertEqual([name in left for name in names], [True, False, True, True])
        self.assertEqual(self.read('parts/part-2.run-abcd1234'), 'a file\n')
        self.assertNotIn('stop', left)

    def test_a_file_that_stops_all_runs_and_isnt_ours_is_named(self):
        self.unsolved_slabs()
        self.write('parts/stop', 'mine\n')
        with self.assertRaisesRegex(ScuttleError, 'stop stops all runs of these parts: take it away'):
            self.run_spread(jobs=2, folder='parts')
        self.assertEqual(self.read('parts/stop'), 'mine\n')


class InOneCall(Parts):
    def model(self):
        m = Model()
        xs = [m.option('x', k) for k in range(12)]
        m.add(sum(xs) >= 5)
        m.minimise('pay', sum((3 * k * k + 7) % 11 * x for k, x in enumerate(xs)))
        m.maximise('joy', sum((5 * k + 2) % 7 * x for k, x in enumerate(xs)))
        return m

    def test_a_model_in_parts(self):
        with ThreadPoolExecutor(2) as executor:
            fronts = [self.model().solve(**how) for how in ({}, {'jobs': 2}, {'executor': executor, 'boost': True, 'log_version': 2})]
        self.assertTrue(fronts[0].complete)
        for front in fronts[1:]:
            self.assertEqual((front.complete, front.accepted, [p.costs for p in front]), (True, True, [p.costs for p in fronts[0]]))

    def test_the_files_stay_in_the_folder(self):
        self.model().solve(jobs=2, folder='mine')
        self.assertEqual(sorted(os.listdir('mine')), ['model.list', 'model.log', 'model.opb'])

    def test_a_time_that_is_up(self):
        front = self.model().solve(jobs=1, seconds=0)
        self.assertEqual((front.complete, front.accepted), (False, False))

    def test_what_cant_be_had_in_parts(self):
        for how in ({'harden': True}, {'learn': 5}, {'on_plan': print}):
            with self.assertRaises(ModelError):
                self.model().solve(jobs=2, **how)


if __name__ == '__main__':
    unittest.main()
