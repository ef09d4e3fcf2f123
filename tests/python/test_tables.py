"""Tables in, and what commands do with files and words that aren't as they should be."""
import os
import subprocess
import sys
import time
import unittest

from setting import EXAMPLES, PACKAGE, ROOT, InFolder

from scuttle.instances import read_instance, read_names

TABLE = '''option,group,choose,price,weight,needs,excludes
steel,frame,,20.5,60,,
carbon,frame,,75,30,,bag
bag,extras,0-1,-9.25,18,steel,
'''


class Tables(InFolder):
    def made(self, data, number=0):
        """The instance of a table, as text, and what is said on standard error."""
        with open('t.csv', 'wb') as out:
            out.write(data if isinstance(data, bytes) else data.encode('utf-8'))
        ended, said, warned = self.command('from-csv', 't.csv', 't.opb')
        self.assertEqual((ended, said), (number, ''), warned)
        return (self.read('t.opb') if number == 0 else ''), warned

    def test_the_same_in_other_spellings(self):
        wanted = self.made(TABLE)[0]
        for name, data in (
                ('semicolons and decimal commas', TABLE.replace(',', ';').replace('.', ',')), ('semicolons', TABLE.replace(',', ';')),
                ('tabs', TABLE.replace(',', '\t').replace('.', ',')), ('a byte-order mark', b'\xef\xbb\xbf' + TABLE.encode()),
                ('UTF-16', TABLE.encode('utf-16')), ('carriage returns', TABLE.replace('\n', '\r\n')), ('quotes', TABLE.replace('carbon', '"carbon"')),
                ('large letters', TABLE.replace('option,group,choose', 'Option,GROUP,Choose').replace('needs,excludes', 'NEEDS,Excludes')),
                ('empty rows', TABLE + ',,,,,,\n\n'), ('blanks', TABLE.replace(',', ' , '))):
            with self.subTest(name):
                self.assertEqual(self.made(data)[0], wanted)

    def test_windows_1252(self):
        self.made('option,coût\nvélo,3\n'.encode('cp1252'))
        self.assertEqual((read_names('t.opb').variables, read_names('t.opb').objectives), ({1: 'vélo'}, {1: 'coût'}))

    def test_what_is_no_text(self):
        self.assertIn(':2: these bytes are no text', self.made(b'option,a\nx\x81,3\n', 65)[1])

    def test_large_is_better(self):
        for word in ('max profit', 'Max profit', 'MAX profit'):
            text = self.made('option,%s,min cost\na,2,1\n' % word)[0]
            self.assertIn('max: +2 x1 ;\nmin: +1 x1 ;\n', text)
            self.assertEqual(read_names('t.opb').objectives, {1: 'profit', 2: 'cost'})

    def test_what_became_of_columns_is_said(self):
        text, warned = self.made('option,cost,notes,max joy,remarks\na,1,"cheap, good",2,\nb,2,,3,\n')
        self.assertEqual(len(read_instance('t.opb').objectives), 2)
        self.assertIn('costs: min cost; max joy\n', warned)
        self.assertIn('left out, for there is no number in them: notes; remarks\n', warned)

    def test_a_column_of_numbers_that_are_not_taken_is_no_note(self):
        self.assertIn(":2: '1e9' in the column pay is no number", self.made('option,pay\na,1e9\nb,\n', 65)[1])
        self.assertIn('left out, for there is no number in them: code\n', self.made('option,pay,code\na,1,3e8\nb,2,x\n')[1])

    def test_budgets(self):
        text = self.made('option;max value;budget capex;Budget people\na;5;10,5;1\nb;4;7;2\nc;3;;2\nwithin;;17,25;3\n')[0]
        self.assertIn('* budget capex\n+1050 x1 +700 x2 +0 x3 <= 1725 ;\n* Budget people\n+1 x1 +2 x2 +2 x3 <= 3 ;\n', text)
        self.assertEqual(read_names('t.opb').variables, {1: 'a', 2: 'b', 3: 'c'})
        self.assertEqual(self.made('option,cost\nwithin,3\n')[0].split('\n')[0], '* x1 within')

    def test_faults(self):
        head = 'option,group,choose,cost,needs,excludes\n'
        for line, what, data in (
                (2, "excludes itself", head + 'a,,,1,,a\n'), (2, "needs itself", head + 'a,,,1,a,\n'),
                (2, 'which has 1', head + 'a,g,3,1,,\n'), (3, 'which has 2', head + 'a,g,,1,,\nb,g,2-1,1,,\n'), (2, 'which has 1', head + 'a,g,2-,1,,\n'),
                (2, 'larger than field limit', head + 'a,,,1,,%s\n' % ('b' * 131073)), (2, 'too many digits', head + 'a,,,%s,,\n' % ('9' * 5000)),
                (2, "'²' in the column cost is no number", head + 'a,,,²,,\nb,,,3,,\n'), (3, "'٣' in the column cost", head + 'a,,,3,,\nb,,,٣,,\n'),
                (2, "isn't how many", head + 'a,g,²,1,,\n'), (2, "isn't how many", head + 'a,g,%s,1,,\n' % ('1' * 5000)),
                (2, 'printable', head + 'a\x01b,,,1,,\n'), (2, 'name of its own', head + ',,,1,,\n'), (3, 'there already', head + 'a,,,1,,\na,,,2,,\n'),
                (3, 'is no number', 'option;a\nx;1\ny;1.500,5\n'),
                (3, 'another decimal mark', 'option;a\nx;1,5\ny;1.5\n'), (2, "'1,5' in the column a is no number", 'option,a\nx,"1,5"\ny,2\n'),
                (1, 'whose option is `within`', 'option,budget b\na,1\n'), (3, 'a limit for each budget', 'option,cost,budget b\na,1,1\nwithin,,\n'),
                (3, 'a limit for each budget', 'option,cost,budget b\na,1,1\nwithin,2,3\n'), (4, 'one row', 'option,budget b\na,1\nwithin,3\nwithin,4\n'),
                (2, 'no number', 'option,max joy\na,much\n'), (1, 'two costs have one name', 'option,cost,max cost\na,1,2\n'), (1, 'names the columns', ''),
                (1, 'names the columns', 'option,a,a\n'), (2, 'more cells', 'option,a\nb,1,2\n')):
            with self.subTest(what + ': ' + data[-30:]):
                self.write('t.opb', 'before')
                warned = self.made(data, 65)[1]
                self.assertIn(what, warned)
                self.assertTrue(warned.startswith('from-csv: t.csv:%d: ' % line), warned)
                self.assertEqual(self.read('t.opb'), 'before')


class Faults(InFolder):
    def test_numbers_of_many_digits(self):
        self.write('a.opb', 'min: x1 ;\n')
        for text in ('s COMPLETE 1\no %s\nv 1 0\n' % ('9' * 5000), 's COMPLETE %s\n' % ('9' * 5000), 's COMPLETE 1\no 1\nv %s 0\n' % ('9' * 5000),
                     's COMPLETE 1\no ²\nv 1 0\n', 's COMPLETE ٣\n'):
            self.write('a.list', text)
            for words in (('plan', 'a.opb', 'a.list'), ('picture', 'a.list', 'a.svg'), ('compare', 'a.list', 'a.list'), ('choices', 'a.opb', 'a.list', 'a.list')):
                number, said, warned = self.command(*words)
                self.assertEqual((number, said), (65, ''), warned)
                self.assertIn('a.list:', warned)
        self.write('b.opb', 'min: %s x1 ;\n' % ('9' * 5000))
        self.assertEqual(self.command('plan', 'b.opb', 'a.list')[0], 65)

    def test_entries_by_other_digits(self):
        path, listed = os.path.join(EXAMPLES, 'network.opb'), os.path.join(EXAMPLES, 'network.list')
        self.write('network.models', 's MODELS 5\n' + 'e FIRST 0\n' * 5)
        for word in ('²', '٣', '0', '6', '9' * 5000):
            self.assertEqual(self.command('plan', path, listed, word)[::2], (64, 'plan: the list has the entries 1 to 5\n'))
            self.assertEqual(self.command('choices', path, listed, 'network.models', word)[0], 64)

    def test_names_that_a_terminal_cannot_print(self):
        self.write('a.opb', '* x1 Größe 👩\nx1 >= 1 ;\n')
        self.write('a.list', 's COMPLETE 1\no\nv 1 0\n')
        for words in ((), ('--csv',), ('--json',)):
            number, said, warned = self.process('plan', 'a.opb', 'a.list', *words, LC_ALL='C', PYTHONCOERCECLOCALE='0', PYTHONUTF8='0')
            self.assertEqual((number, warned), (0, ''))
            self.assertIn('Gr\\xf6\\xdfe', said)

    def test_control_characters_in_a_picture(self):
        self.write('a.opb', '* min 1 a\x01b\nmin: x1 ;\n')
        self.write('a.list', 's COMPLETE 1\no 1\nv 1 0\n')
        self.assertEqual(self.command('picture', 'a.list', 'a.opb', 'a.svg')[0], 0)
        self.assertIn('>ab<', self.read('a.svg'))
        self.assertIn('>1 best compromise<', self.read('a.svg'))

    def test_an_instance_from_a_pipe(self):
        words = [os.path.join(EXAMPLES, 'network.opb'), os.path.join(EXAMPLES, 'network.list')]
        piped = subprocess.run(['bash', '-c', '"$0" <(cat "$1") "$2" 1', os.path.join(ROOT, 'tools', 'plan')] + words, stdout=subprocess.PIPE)
        self.assertEqual((0, piped.stdout.decode()), self.command('plan', *words, '1')[:2])

    def test_a_full_disk(self):
        """A file is whole or as it was, and the message names it."""
        self.write('t.csv', 'option,cost\n' + ''.join('o%d,1\n' % k for k in range(2000)))
        self.write('a.list', 's COMPLETE 400\n' + ''.join('o %d %d\nv 1 0\n' % (k, 400 - k) for k in range(400)))
        for words, out in ((('from-csv', 't.csv', 'out.opb'), 'out.opb'), (('picture', 'a.list', 'out.svg'), 'out.svg')):
            self.write(out, 'before')
            command = ['bash', '-c', 'trap "" XFSZ; ulimit -f 4; exec "$0" -B -m scuttle "$@"', sys.executable] + list(words)
            ran = subprocess.run(command, stderr=subprocess.PIPE, env=dict(os.environ, PYTHONPATH=PACKAGE))
            self.assertEqual(ran.returncode, 74)
            self.assertIn('%s: %s: File too large' % (words[0], out), ran.stderr.decode())
            self.assertEqual(self.read(out), 'before')
        self.assertEqual(sorted(os.listdir('.')), ['a.list', 'out.opb', 'out.svg', 't.csv'])

    def test_writing_keeps_rights_links_and_devices(self):
        self.write('t.csv', 'option,cost\na,1\n')
        self.write('real.opb', 'before')
        os.chmod('real.opb', 0o640)
        os.symlink('real.opb', 'link.opb')
        os.symlink('/dev/null', 'null.opb')
        os.symlink('/dev/full', 'full.opb')
        self.assertEqual([self.command('from-csv', 't.csv', out)[0] for out in ('link.opb', 'null.opb', 'full.opb')], [0, 0, 74])
        self.assertEqual((self.read('real.opb')[:4], os.stat('real.opb').st_mode & 0o777, os.path.islink('link.opb')), ('* x1', 0o640, True))
        self.assertIn('full.opb: No space left on device', self.command('from-csv', 't.csv', 'full.opb')[2])

    def test_two_long_lists_are_compared_soon(self):
        def listed(name, first):
            vectors = [[(k * (7 + at) + first) % 10007 for at in range(8)] for k in range(10000)]
            self.write(name, 's INCOMPLETE 10000\n' + ''.join('o %s\nv 1 0\n' % ' '.join(map(str, v)) for v in vectors))
        listed('old.list', 0)
        listed('new.list', 5)
        begun = time.monotonic()
        number, said, _ = self.command('compare', 'old.list', 'new.list')
        self.assertEqual((number, said.count('\n  ') > 9000), (1, True))
        # Each with each takes more than half a minute; the index takes about two seconds.
        self.assertLess(time.monotonic() - begun, 20)


if __name__ == '__main__':
    unittest.main()
