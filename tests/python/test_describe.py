"""What `describe` says of logs: of one that `solve` wrote, of one in each version, and of what is none."""
import os
import subprocess

from setting import EXAMPLES, PROGRAM, InFolder

from scuttle.describe import describe


class Describing(InFolder):
    def test_a_log_of_solve(self):
        instance = os.path.join(EXAMPLES, 'network.opb')
        subprocess.run([PROGRAM, 'solve', instance, 'a.list', 'a.log'], check=True, stdout=subprocess.DEVNULL)
        found = describe('a.log')
        with open('a.log', encoding='ascii') as file:
            lines = file.read().split('\n')[1:-1]
        self.assertEqual(sum(found.kinds.values()), len(lines))
        self.assertEqual(found.kinds['end'], 1)
        with open('a.list', encoding='ascii') as file:
            self.assertGreaterEqual(found.kinds['sol'], sum(line.startswith('v') for line in file))
        self.assertFalse(found.is_cut)

    def test_each_version_is_described_alike(self):
        instance = os.path.join(EXAMPLES, 'network.opb')
        for version in ('1', '2'):
            subprocess.run([PROGRAM, 'solve', instance, 'a.list', version + '.log', '--log-version', version], check=True,
                           stdout=subprocess.DEVNULL)
        one, two = describe('1.log'), describe('2.log')
        self.assertEqual((one.kinds, one.variable, one.ids()), (two.kinds, two.variable, two.ids()))
        self.assertRegex(two.head, 'version 2 rows [0-9]+$')

    def test_what_is_printed(self):
        self.write('a.log', 'scuttle proof version 1\nrup 1 x1 >= 1 : 2\nsol x1 ~x12 : x1 : 0\ndel 3\nen')
        self.assertEqual(self.command('describe', 'a.log'), (0, '''\
version    1
rup        1
sol        1
del        1
lines      3
ids        2
variables  12
solutions  1
ends       no
last line  without an end, left out
''', ''))

    def test_what_is_no_log(self):
        self.write('a.list', 'scuttle front 1\n')
        self.assertEqual(self.command('describe', 'a.list')[0], 65)
        self.write('b.log', 'scuttle proof version 1\nadd 1 x1 >= 1 : 2\n')
        self.assertEqual(self.command('describe', 'b.log'), (65, '', 'describe: b.log:2: there is no line of the kind add\n'))
        self.assertEqual((self.command('describe')[0], self.command('describe', 'no.log')[0]), (64, 74))
