"""What `bench/services` makes and prints: its problems, byte by byte, what small ones of each family come to, and its table."""
import hashlib
import os
import subprocess
import sys
import unittest

from setting import PROGRAM, ROOT, InFolder

sys.path.insert(0, os.path.join(ROOT, 'bench'))

from service_problems import (PROBLEMS, cables, crews, investments, jobs, lines, portfolio, release, sensors, servers, tasks,  # noqa: E402
                              timetable, tournament)

COMMAND = os.path.join(ROOT, 'bench', 'services')
DIGEST = 'f0f8c9ff1fa0428ae04cad4c1446f4fe785dbb64d2320865511319d18b00ccdb'


class Services(InFolder):
    def front(self, *words):
        """The cost vectors of the list that a command writes for the instance."""
        ran = subprocess.run([PROGRAM, words[0], 'a.opb', 'a.list', *words[1:]], stdout=subprocess.PIPE, timeout=600)
        self.assertEqual((ran.returncode, ran.stdout.decode().split()[0]), (0, 'complete'))
        with open('a.list', encoding='ascii') as file:
            return sorted(line for line in file if line.startswith('o'))

    def test_the_problems_are_the_same_everywhere(self):
        self.assertEqual(hashlib.sha256(''.join(make().text() for make in PROBLEMS.values()).encode()).hexdigest(), DIGEST)

    def test_small_problems_have_the_front_of_all_assignments(self):
        for problem in (crews(4, 10, 1), jobs(2, 2, 8, 1), servers(4, 2, 1), tasks(2, 5, 1), investments(5, 2, 1), release(6, 6, 1),
                        sensors(6, 8, 3, 1), portfolio(12, 1), cables(2, 1, 1)):
            self.write('a.opb', problem.text())
            found = self.front('solve', 'a.log')
            self.assertEqual(found, self.front('front'))
            self.assertTrue(found)

    def test_larger_ones_have_the_same_front_by_two_searches(self):
        for problem in (timetable(5, 2, 2, 4, 1), tournament(4, 1), lines(5, 1, 1)):
            self.write('a.opb', problem.text())
            found = self.front('solve', 'a.log')
            self.assertEqual(found, self.front('solve', 'a.log', '--search', 'lower-bounding'))
            self.assertTrue(found)

    def test_table(self):
        ran = subprocess.run([COMMAND, 'ours=' + PROGRAM, '--only', 'jobs-12'], stdout=subprocess.PIPE, stderr=subprocess.PIPE, timeout=600)
        self.assertEqual(ran.returncode, 0, ran.stderr)
        head, _, row = ran.stdout.decode().rstrip('\n').split('\n')
        self.assertEqual(head, '| Problem | Variables | Rows | Costs | Compromises | `solve`, s | log | learned | `pol` lines |')
        self.assertRegex(row, r'^\| jobs-12 \| 256 \| 84 \| 2 \| 5 \| \d+\.\d\d \| [\d.]+ [kM]B \| [\d,]+ \| [\d,]+ \|$')


if __name__ == '__main__':
    unittest.main()
