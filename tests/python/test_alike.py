"""What `bench/alike` makes and prints: its problems, byte by byte, and its table of programs that end, that don't, and that err."""
import hashlib
import os
import subprocess
import sys
import unittest

from setting import PROGRAM, ROOT, InFolder

sys.path.insert(0, os.path.join(ROOT, 'bench'))

from alike_problems import PROBLEMS, machine_problems  # noqa: E402

from scuttle.instances import read_instance  # noqa: E402

COMMAND = os.path.join(ROOT, 'bench', 'alike')
DIGEST = 'bb90cf51b32c7e7922085c380998503e972bbbda791bd3f642148d60d23f563c'
# Variables, rows, costs.
SIZES = {'kn12-21': (60, 1, 2), 'kn8o3-21': (32, 1, 3), 'kn8o3-22': (32, 1, 3), 'li9-11': (45, 71, 2), 'li10-21': (51, 122, 2),
         'co30-21': (282, 1846, 2), 'co34-21': (302, 1518, 2), 'ma24-21': (199, 31, 2), 'ma24-22': (199, 31, 2), 'ma24k-21': (199, 31, 2),
         'roA-31': (158, 202, 3), 'roB-31': (173, 221, 3), 'roB-32': (173, 221, 3), 'roC-31': (178, 212, 2), 'pigeons-8': (72, 297, 0),
         'pigeons-12': (156, 949, 0)}


class Alike(InFolder):
    def run_alike(self, *words):
        ran = subprocess.run([COMMAND, *words], stdout=subprocess.PIPE, stderr=subprocess.PIPE, timeout=600)
        return ran.returncode, ran.stdout.decode(), ran.stderr.decode()

    def program(self, name, text):
        """An executable by a script."""
        self.write(name, '#!/bin/sh\n' + text)
        os.chmod(name, 0o700)
        return name

    def test_the_problems_are_the_same_everywhere(self):
        self.assertEqual({name: (made.variables, len(made.rows), len(made.costs)) for name, made in
                          ((name, make()) for name, make in PROBLEMS.items())}, SIZES)
        self.assertEqual(hashlib.sha256(''.join(make().text() for make in PROBLEMS.values()).encode()).hexdigest(), DIGEST)

    def test_problems_with_machines(self):
        made = machine_problems()
        self.assertEqual(len(made), 40)
        for name in ('ma24-21', 'ma24-22', 'ma24k-21'):
            self.assertEqual(made[name]().text(), PROBLEMS[name]().text())
        self.assertEqual({(problem.variables, len(problem.rows)) for problem in (make() for make in made.values())}, {(199, 31)})
        self.assertEqual(len({make().text() for make in made.values()}), 40)

    def test_files(self):
        self.assertEqual(self.run_alike('--instances', 'made'), (0, '', ''))
        self.assertEqual(set(os.listdir('made')), {name + '.opb' for name in PROBLEMS})
        for name in PROBLEMS:
            instance = read_instance(os.path.join('made', name + '.opb'))
            self.assertEqual((instance.variables, len(instance.objectives)), SIZES[name][::2], name)

    def test_two_programs(self):
        """One that ends and one that doesn't, the last one in either place."""
        endless = self.program('endless', 'while :; do :; done\n')
        number, said, warned = self.run_alike('ours=' + PROGRAM, endless, '--limit', '1', '--only', 'pigeons-8')
        self.assertEqual(number, 0, warned)
        self.assertIn('alike: ours has ended 1 of 1\nalike: endless has ended 0 of 1\n', warned)
        head, _, row = said.rstrip('\n').split('\n')
        self.assertEqual(head, '| Problem | Variables | Rows | Costs | Compromises | ours: `solve`, s | log | learned '
                               '| endless: `solve`, s | log | learned | `red` lines |')
        self.assertRegex(row, r'^\| pigeons-8 \| 72 \| 297 \| 0 \| 0 \| \d\.\d\d \| \d+ kB \| [\d,]+ \| over 1 \|  \|  \|  \|$')
        late = self.program('late', 'kill -XCPU $$\n')
        row = self.run_alike(late, PROGRAM, '--limit', '1', '--only', 'pigeons-8')[1].rstrip('\n').split('\n')[2]
        self.assertRegex(row, r'\| over 1 \|  \|  \| \d\.\d\d \| \d+ kB \| [\d,]+ \| \d+ \|$')

    def test_programs_that_err(self):
        for text, what in (
                ('exit 3\n', 'solve ends with 3'),
                ('kill -9 $$\n', 'solve ends with -9'),
                ('exec "%s" "$@" --learn 0\n' % PROGRAM, 'solve ends'),
                ('[ $1 = solve ] || exec echo refused; exec "%s" "$@"\n' % PROGRAM, 'check ends with 0: refused')):
            number, _, warned = self.run_alike(self.program('wrong', text), '--only', 'pigeons-8')
            self.assertEqual(number, 1, what)
            self.assertIn('alike: pigeons-8: wrong: ' + what, warned)

    def test_fronts_that_differ(self):
        fewer = self.program('fewer', 'case $1 in check) echo accepted;; *) printf "s COMPLETE 1\\no 1 1\\nv -1 0\\n" > "$3"\n'
                                      ': > "$4"; echo complete 1;; esac\n')
        none = self.program('none', 'case $1 in check) echo accepted;; *) echo s COMPLETE 0 > "$3"; : > "$4"; echo complete 0;; esac\n')
        number, _, warned = self.run_alike(none, fewer, '--only', 'pigeons-8')
        self.assertEqual(number, 1)
        self.assertIn('the fronts differ', warned)

    def test_words(self):
        for words in ((), ('--limit', '0', PROGRAM), ('--limit',), ('--other', PROGRAM), ('--only', 'nothing', PROGRAM),
                      ('--only', 'kn', '--write', PROGRAM), ('no/program',)):
            self.assertEqual(self.run_alike(*words)[0], 2, words)


if __name__ == '__main__':
    unittest.main()
