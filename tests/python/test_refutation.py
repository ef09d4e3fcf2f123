"""What `bench/refutation` makes of clauses and a refutation of them, and what it says of checkers that accept and that don't."""
import lzma
import os
import subprocess
import unittest

from setting import PROGRAM, ROOT, InFolder

COMMAND = os.path.join(ROOT, 'bench', 'refutation')
CNF = 'c all four of two variables\np cnf 2 4\n1 2 0 -1\n2 0\n1 -2 0\n-1 -2 0\n'
LRAT = '5 2 0 1 2 0\n5 d 1 2 0\n6 -2 0 3 4 0\n6 d 3 0\n9 2 0 5 0\n9 d 5 0\n10 0 6 9 0\n10 d 6 0\n'


class Refutation(InFolder):
    def refutation(self, *words):
        ran = subprocess.run([COMMAND, *words], stdout=subprocess.PIPE, stderr=subprocess.PIPE, timeout=120, env=dict(os.environ, PATH='/usr/bin:/bin'))
        return ran.returncode, ran.stdout.decode(), ran.stderr.decode()

    def test_accepted(self):
        """Numbers of lines follow one another; rows of the problem stay."""
        self.write('a.cnf', CNF)
        with open('a.lrat.xz', 'wb') as file:
            file.write(lzma.compress(LRAT.encode()))
        self.write('keep', '#!/bin/sh\ncp "$4" kept.log\nexec %s "$@"\n' % PROGRAM)
        os.chmod('keep', 0o700)
        number, said, warned = self.refutation('keep', 'a.cnf', 'a.lrat.xz')
        self.assertEqual((number, warned), (0, ''))
        self.assertRegex(said, r'^log +110 bytes\ncheck +\d\.\d\d\d s, .* instructions\n$')
        with open('kept.log', encoding='ascii') as file:
            self.assertEqual(file.read().split('\n')[1:-1], ['rup 1 x2 >= 1 : 1 2', 'rup 1 ~x2 >= 1 : 3 4', 'rup 1 x2 >= 1 : 5', 'del 5',
                                                               'rup >= 1 : 6 7', 'end 8'])

    def test_another_checker(self):
        self.write('a.cnf', CNF)
        self.write('a.lrat', LRAT)
        self.write('other', '#!/bin/sh\ncmp -s "$1" a.cnf && cmp -s "$2" a.lrat\n')
        os.chmod('other', 0o700)
        number, said, _ = self.refutation(PROGRAM, 'a.cnf', 'a.lrat', 'other')
        self.assertEqual((number, len(said.split('\n'))), (0, 4))
        self.assertEqual(self.refutation(PROGRAM, 'a.cnf', 'a.lrat', '/bin/false')[::2], (1, 'refutation: other refuses it\n'))

    def test_refused(self):
        self.write('a.cnf', CNF)
        self.write('a.lrat', LRAT.replace('6 9 0', '9 0'))
        self.assertEqual(self.refutation(PROGRAM, 'a.cnf', 'a.lrat')[::2], (1, 'refutation: check refuses it\n'))
        self.assertEqual(self.refutation(PROGRAM, 'a.cnf')[0], 2)


if __name__ == '__main__':
    unittest.main()
