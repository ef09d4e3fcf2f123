"""What `bench/planned` makes and prints: its problems, byte by byte, what small ones of each family come to, and its table."""
import hashlib
import os
import subprocess
import sys
import unittest

from setting import PROGRAM, ROOT, InFolder

sys.path.insert(0, os.path.join(ROOT, 'bench'))

from planned_problems import PROBLEMS, assignment, covering, facilities, knapsack, nurses, overlaps, projects, roster, skills, towns  # noqa: E402

COMMAND = os.path.join(ROOT, 'bench', 'planned')
DIGEST = '765222891d1a78dfc703aae65a193ca811fcd8f14c58a195a15908bd1260b9b9'


class Planned(InFolder):
    def front(self, *words):
        """The cost vectors of the list that a command writes for the instance."""
        ran = subprocess.run([PROGRAM, words[0], 'a.opb', 'a.list', *words[1:]], stdout=subprocess.PIPE, timeout=600)
        self.assertEqual((ran.returncode, ran.stdout.decode().split()[0]), (0, 'complete'))
        with open('a.list', encoding='ascii') as file:
            return sorted(line for line in file if line.startswith('o'))

    def test_the_problems_are_the_same_everywhere(self):
        self.assertEqual(hashlib.sha256(''.join(make().text() for make in PROBLEMS.values()).encode()).hexdigest(), DIGEST)

    def test_small_problems_have_the_front_of_all_assignments(self):
        for problem in (facilities(5, 2, 2), projects(14, 3), knapsack(12, 1), assignment(4, 1), covering(8, 12, 1), overlaps(14, 6, 3, 1),
                        towns(4, 1)):
            self.write('a.opb', problem.text())
            found = self.front('solve', 'a.log')
            self.assertEqual(found, self.front('front'))
            self.assertTrue(found)

    def test_small_rosters_have_compromises(self):
        for problem in (roster(6, 1, 3, 1), nurses(5, 1, 1), skills(6, 7, 2, 2, 1)):
            self.write('a.opb', problem.text())
            self.assertTrue(self.front('solve', 'a.log'))

    def test_table(self):
        ran = subprocess.run([COMMAND, 'ours=' + PROGRAM, '--only', 'covering-100'], stdout=subprocess.PIPE, stderr=subprocess.PIPE, timeout=600)
        self.assertEqual(ran.returncode, 0, ran.stderr)
        head, _, row = ran.stdout.decode().rstrip('\n').split('\n')
        self.assertEqual(head, '| Problem | Variables | Rows | Costs | Compromises | `solve`, s | log | learned | `pol` lines |')
        self.assertRegex(row, r'^\| covering-100 \| 100 \| 60 \| 2 \| \d+ \| \d+\.\d\d \| [\d.]+ [kM]B \| [\d,]+ \| [\d,]+ \|$')


if __name__ == '__main__':
    unittest.main()
