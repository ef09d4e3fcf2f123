"""Workers that see no folder of ours: what goes to them and comes back, what they lack, and a cluster one of whose workers dies."""
import importlib.util
import os
import pickle
import subprocess
import sys
import time
import unittest
import unittest.mock
from concurrent.futures import Future, ProcessPoolExecutor

from parts_by_hand import SHOPS, Parts
from setting import HERE, PACKAGE, PROGRAM

from scuttle import CannotTake, Failed, Malformed, NoProgram, ScuttleError, packed, part_runs, pool, spread

# Debian's own Python has the packages that apt brings.
DEBIAN = '/usr/bin/python3'


class Away(ProcessPoolExecutor):
    """Processes that see none of the caller's relative folders, as they stand in one of their own."""

    def __init__(self, folder, **variables):
        super().__init__(1, initializer=stand_in, initargs=(folder, variables))


def stand_in(folder, variables):
    os.makedirs(folder, exist_ok=True)
    os.chdir(folder)
    os.environ.update(variables)
    import tempfile
    tempfile.tempdir = variables.get('TMPDIR')


class WithExecutor:
    def __init__(self, executor):
        self.executor = executor

    def get_executor(self):
        return self.executor


class Workers(Parts):
    # Each process reads it by its own folder.
    FOLDER = '/proc/self/cwd/parts'

    def spread_by(self, executor, **settings):
        self.write('in.opb', SHOPS)
        return spread.spread('in.opb', 'all.list', 'all.log', spread.Settings(parts=3, folder=self.FOLDER, **settings), executor)

    def test_a_part_goes_out_and_list_and_log_come_back(self):
        with Away('away') as executor:
            result = self.spread_by(executor)
        self.assertEqual((result.joined.refused, result.joined.unsolved), (None, []))
        self.assertEqual(os.listdir('away'), [])
        self.is_front('all.list', 'all.log')

    def test_an_executor_may_be_had_from_a_client(self):
        with Away('away') as executor:
            self.assertIsNone(self.spread_by(WithExecutor(executor)).joined.refused)
        self.is_front('all.list', 'all.log')
        with self.assertRaisesRegex(ScuttleError, 'an executor is one of concurrent.futures, .* and this is a str'):
            self.spread_by('10.0.0.1:8786')

    def test_what_a_worker_lacks_is_said_with_its_machine(self):
        self.unsolved_slabs()
        with Away('away', SCUTTLE='/there/is/none') as executor:
            with self.assertRaisesRegex(NoProgram, 'on machine .*, process [0-9]+: there is no executable /there/is/none'):
                self.spread_by(executor)
        with Away('away', TMPDIR='/there/is/none') as executor:
            failed = self.spread_by(executor).failed
        self.assertEqual(sorted(failed), ['part-1', 'part-2', 'part-3'])
        self.assertRegex(failed['part-2'], 'on machine .*, process [0-9]+: there is no folder for scratch files .TMPDIR names one.: .*/there/is/none')

    def test_a_worker_of_another_version(self):
        self.unsolved_slabs()
        task = part_runs.task_of('parts', 'part-1', (), None, (), None)
        other = task._replace(caller='machine far, process 1', version='0.1.0')
        with self.assertRaisesRegex(NoProgram, 'on machine .*: here is version .* of the package, and the caller has 0.1.0'):
            part_runs.solve_part(other)

    def test_a_worker_without_the_package(self):
        split = self.unsolved_slabs()
        for fault in (ModuleNotFoundError("No module named 'scuttle'"), TypeError('Task() takes 6 arguments')):
            future = Future()
            future.set_exception(fault)
            line = pool.Pool(split, 1, None, (), None, print)
            line.running[future] = 'part-1', 0.0
            with self.assertRaisesRegex(NoProgram, 'a worker has no package scuttle, or not version .* as here'):
                line._take(future)

    def test_the_folder_is_seen_by_its_text(self):
        self.unsolved_slabs()
        task = part_runs.task_of('parts', 'part-1', (), None, (), None)
        self.assertTrue(part_runs.sees_folder(task))
        self.assertFalse(part_runs.sees_folder(task._replace(text=packed.pack_text(b'another'))))
        os.mkdir('other')
        self.assertFalse(part_runs.sees_folder(task._replace(folder='other')))

    def test_a_run_that_is_stopped_sends_its_log(self):
        self.unsolved_slabs()
        slow = os.path.abspath(self.write('slow', '#!/bin/sh\nprintf "scuttle proof version 1\\n" > "$4"; exec sleep 60\n'))
        os.chmod(slow, 0o700)
        task = part_runs.task_of('parts', 'part-1', (), time.time() + 3, (), slow)
        with unittest.mock.patch.object(part_runs, 'sees_folder', lambda task: False):
            sent = part_runs.solve_part(task)
        self.assertEqual((sent.solved, sent.listed), (False, b''))
        part_runs.keep_sent('parts', 'part-1', sent)
        self.assertEqual([os.path.exists('parts/part-1.' + ending) for ending in ('list', 'log')], [False, True])
        self.assertEqual(self.read('parts/part-1.log'), 'scuttle proof version 1\n')

    def test_errors_are_sent_by_processes(self):
        for fault in (Malformed('a', 1, 'b'), CannotTake('a', 'b'), Failed(65, 'b'), NoProgram('a')):
            again = pickle.loads(pickle.dumps(fault))
            self.assertEqual((type(again), str(again), again.__dict__), (type(fault), str(fault), fault.__dict__))

    def test_a_large_file_is_packed_in_pieces(self):
        data = os.urandom(1000) * 5000
        with open('a', 'wb') as out:
            out.write(data)
        sent = packed.pack_file('a')
        self.assertLess(len(sent), len(data) // 10)
        packed.unpack_to('b', sent)
        with open('b', 'rb') as file:
            self.assertEqual(file.read(), data)


class Cluster(Parts):
    """Two workers of Dask in folders of their own."""

    def setUp(self):
        super().setUp()
        found = [python for python in (sys.executable, DEBIAN) if self.has_dask(python)]
        if not found:
            print('\ntest_workers: NO CLUSTER WAS TRIED, as distributed is not installed (Debian: python3-distributed)', file=sys.stderr)
            self.skipTest('distributed is not installed')
        self.python = found[0]

    @staticmethod
    def has_dask(python):
        if python == sys.executable:
            return importlib.util.find_spec('distributed') is not None
        return os.path.exists(python) and subprocess.run([python, '-c', 'import distributed'], stderr=subprocess.DEVNULL).returncode == 0

    def test_a_worker_that_is_killed(self):
        self.write('in.opb', SHOPS)
        words = [self.python, '-B', os.path.join(HERE, 'cluster_of_two.py'), PROGRAM]
        ran = subprocess.run(words, env=dict(os.environ, PYTHONPATH=PACKAGE), stdout=subprocess.PIPE, stderr=subprocess.STDOUT, timeout=240)
        said = ran.stdout.decode(errors='replace')
        self.assertEqual(ran.returncode, 0, said)
        self.assertIn('killed the worker first\n', said)
        self.assertIn('accepted: True\n', said)
        # What came is what the other worker has solved; the caller's folder was seen by neither.
        self.assertEqual([os.path.exists('second/solved'), os.path.exists('first/solved')], [True, False])
        self.is_front('all.list', 'all.log')


if __name__ == '__main__':
    unittest.main()
