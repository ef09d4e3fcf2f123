"""Files of other kinds than the one that is wanted: packed ones, workbooks, and models that another tool reads."""
import bz2
import gzip
import lzma
import os
import subprocess
import unittest
import zipfile

from setting import EXAMPLES, ROOT, InFolder

from scuttle import Front, Malformed
from scuttle.parts import Source

NETWORK = [os.path.join(EXAMPLES, 'network.' + ending) for ending in ('opb', 'list')]


class Kinds(InFolder):
    def pack(self, name, packed):
        with open(name, 'wb') as out:
            out.write(packed)
        return name

    def refused(self, said, *words):
        number, out, warned = self.command(*words)
        self.assertEqual((number, out), (65, ''), warned)
        self.assertIn(said, warned)
        self.assertEqual(warned.count('\n'), 1)

    def test_packed_files(self):
        with open(NETWORK[0], 'rb') as file:
            text = file.read()
        for name, packed, said in (('a.opb.gz', gzip.compress(text), 'this is packed by gzip: `gzip -d` unpacks it'),
                                   ('a.opb', gzip.compress(text), 'gzip -d'), ('a.opb.xz', lzma.compress(text), 'xz -d'),
                                   ('a.opb.bz2', bz2.compress(text), 'bzip2 -d'), ('a.opb.zst', b'\x28\xb5\x2f\xfd' + text, 'zstd -d')):
            self.pack(name, packed)
            for words in (('plan', name, NETWORK[1]), ('plan', NETWORK[0], name), ('to-lp', name, 'out.lp'), ('from-csv', name, 'out.opb'),
                          ('from-lp', name, 'out.opb'), ('from-mps', name, 'out.opb'), ('from-wcnf', name, 'out.mcnf'), ('describe', name),
                          ('split', name, 'parts'), ('far', NETWORK[0], name), ('watch', name)):
                with self.subTest(words=words):
                    self.refused(said, *words)
            for read in (lambda: Front.read(name, NETWORK[1]), lambda: Front.read(NETWORK[0], name), lambda: Source.of_file(name)):
                with self.assertRaisesRegex(Malformed, said):
                    read()
        self.assertFalse([name for name in os.listdir('.') if name.startswith(('out', 'parts'))])

    def test_workbooks(self):
        for name, member, said in (('plan.xlsx', '[Content_Types].xml', 'this is an Excel workbook: save it as CSV'),
                                   ('plan.csv', '[Content_Types].xml', 'this is an Excel workbook: save it as CSV'),
                                   ('plan.ods', 'mimetype', 'this is a workbook: save it as CSV'), ('plan.zip', 'plan.csv', 'this is packed by zip')):
            with zipfile.ZipFile(name, 'w') as packed:
                packed.writestr(member, 'application/vnd.oasis.opendocument.spreadsheet')
            self.refused(said, 'from-csv', name, 'out.opb')
            self.refused(said, 'plan', name, NETWORK[1])
        self.refused('this is an Excel workbook', 'from-csv', self.pack('plan.xls', b'\xd0\xcf\x11\xe0\xa1\xb1\x1a\xe1'), 'out.opb')

    def test_models_of_other_tools(self):
        for name, tool, made in (('a.lp', 'from-lp', '.opb'), ('a.MPS', 'from-mps', '.opb'), ('a.wcnf', 'from-wcnf', '.mcnf'), ('a.csv', 'from-csv', '.opb')):
            self.write(name, 'h 1 0\n')
            said = 'by its name this is no instance yet: the tool %s makes a %s of it' % (tool, made)
            for words in (('plan', name, NETWORK[1]), ('to-lp', name, 'out.lp'), ('split', name, 'parts'), ('page', name, NETWORK[1], 'out.html')):
                self.refused(said, *words)
            with self.assertRaisesRegex(Malformed, said):
                Front.read(name, NETWORK[1])
            other = 'from-wcnf' if tool == 'from-lp' else 'from-lp'
            self.refused('by its name this is for the tool ' + tool, other, name, 'out.mcnf' if other == 'from-wcnf' else 'out.opb')
            self.refused('by its name this is an instance already', tool, NETWORK[0], 'out' + made)

    def test_what_a_pipe_gives_is_read_once(self):
        """A name of no ending is taken by what stands in it, packed or not."""
        for packer, said in (('cat', '5 best compromises'), ('gzip', 'packed by gzip')):
            with open(NETWORK[1], 'rb') as listed:
                packed = subprocess.Popen([packer], stdin=listed, stdout=subprocess.PIPE)
            ran = subprocess.run([os.path.join(ROOT, 'tools', 'plan'), NETWORK[0], '/dev/stdin'], stdin=packed.stdout, stdout=subprocess.PIPE,
                                 stderr=subprocess.STDOUT)
            packed.stdout.close()
            packed.wait()
            self.assertIn(said, ran.stdout.decode())


if __name__ == '__main__':
    unittest.main()
