"""What `bench/structured` makes and prints: its problems, byte by byte, what small ones of each family come to, and its table."""
import hashlib
import os
import subprocess
import sys
import unittest

from setting import PROGRAM, ROOT, InFolder

sys.path.insert(0, os.path.join(ROOT, 'bench'))

from structured_problems import PROBLEMS, adders, counters, decision_rules, multipliers, test_patterns  # noqa: E402

COMMAND = os.path.join(ROOT, 'bench', 'structured')
DIGEST = '043e9b90edd7aa70fda918d84b35898ae8b0e30ea316db0706b5676e83f24e77'


class Structured(InFolder):
    def compromises(self, problem):
        """How many compromises a problem has."""
        self.write('a.opb', problem.text())
        ran = subprocess.run([PROGRAM, 'solve', 'a.opb', 'a.list', 'a.log'], stdout=subprocess.PIPE, timeout=600)
        word, count = ran.stdout.decode().split()
        self.assertEqual((ran.returncode, word), (0, 'complete'))
        return int(count)

    def test_the_problems_are_the_same_everywhere(self):
        self.assertEqual(hashlib.sha256(''.join(make().text() for make in PROBLEMS.values()).encode()).hexdigest(), DIGEST)

    def test_circuits_that_are_equal(self):
        for problem in (counters(3, 3), adders(5, 2), multipliers(3)):
            self.assertEqual(self.compromises(problem), 0)

    def test_a_wrong_gate_shows(self):
        self.assertGreater(sum(self.compromises(test_patterns(3, seed)) for seed in range(1, 4)), 0)

    def test_rules_explain_samples(self):
        self.assertGreater(self.compromises(decision_rules(4, 8, 2, 8)), 0)

    def test_table(self):
        ran = subprocess.run([COMMAND, 'ours=' + PROGRAM, '--only', 'multipliers-6'], stdout=subprocess.PIPE, stderr=subprocess.PIPE, timeout=600)
        self.assertEqual(ran.returncode, 0, ran.stderr)
        head, _, row = ran.stdout.decode().rstrip('\n').split('\n')
        self.assertEqual(head, '| Problem | Variables | Rows | Costs | Compromises | `solve`, s | log | learned | `rup` lines |')
        self.assertRegex(row, r'^\| multipliers-6 \| 457 \| 1,490 \| 0 \| 0 \| \d+\.\d\d \| [\d.]+ [kM]B \| [\d,]+ \| [\d,]+ \|$')


if __name__ == '__main__':
    unittest.main()
