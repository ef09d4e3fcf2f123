"""The package: types, the oldest Python, installing without a network, and commands by each of their names."""
import ast
import glob
import os
import re
import shutil
import subprocess
import sys
import unittest
import unittest.mock
import zipfile

from setting import EXAMPLES, PACKAGE, ROOT, InFolder

import scuttle
from scuttle.__main__ import COMMANDS

SITES = [os.path.join(EXAMPLES, name) for name in ('sites.mcnf', 'sites.list')]
# Commands whose modules other parts of the project bring.
BROUGHT = ('recheck',)


def said_by(words, **more):
    ran = subprocess.run(words, stdout=subprocess.PIPE, stderr=subprocess.STDOUT, timeout=300, env=dict(os.environ, **more))
    return ran.returncode, ran.stdout.decode()


class Package(InFolder):
    @unittest.skipUnless(shutil.which('mypy'), 'mypy is not installed')
    def test_types(self):
        number, said = said_by(['mypy', '--strict', '--python-version', '3.8', '--cache-dir', os.devnull, os.path.join(PACKAGE, 'scuttle'),
                                os.path.join(PACKAGE, 'scuttle_build.py')], MYPYPATH=PACKAGE)
        self.assertEqual(number, 0, said)

    def test_the_oldest_python(self):
        for path in glob.glob(os.path.join(PACKAGE, '*.py')) + glob.glob(os.path.join(PACKAGE, 'scuttle', '*.py')):
            with open(path, encoding='utf-8') as file:
                ast.parse(file.read(), path, feature_version=(3, 8))

    def test_files_are_short(self):
        for path in glob.glob(os.path.join(PACKAGE, 'scuttle', '*.py')):
            if os.path.basename(path).startswith(BROUGHT):
                continue
            with open(path, encoding='utf-8') as file:
                self.assertLess(len(file.readlines()), 500, path)

    def test_installing_without_a_network(self):
        """Into a new environment, from the top of the tree; then it runs from any folder, with its own executable."""
        self.copy_tree()
        number, said = said_by([sys.executable, '-m', 'venv', 'env'])
        if number != 0:
            self.skipTest('there is no venv: ' + said)
        number, said = said_by([os.path.join('env', 'bin', 'pip'), 'install', '--no-build-isolation', '--no-index', './tree'])
        self.assertEqual(number, 0, said)
        bare = {'PYTHONPATH': '', 'SCUTTLE': ''}
        number, said = said_by([os.path.join('env', 'bin', 'python'), '-c', 'import scuttle; print(scuttle.Model().solve())'], **bare)
        self.assertEqual((number, said.split('\n')[0]), (0, '1 best compromise'))
        for name in set(COMMANDS) - set(BROUGHT):
            self.assertTrue(said_by([os.path.join('env', 'bin', 'scuttle-' + name), '--help'], **bare)[1].startswith(name + ': '))
            self.assertIn('usage: scuttle-' + name, said_by([os.path.join('env', 'bin', 'scuttle-' + name)], **bare)[1])
        self.runs_by_itself(bare)

    def copy_tree(self):
        for part in ('python', 'pyproject.toml', 'NEWS.md', 'README.md', 'release', 'scuttle', 'launcher', 'docs', 'tools'):
            copy = shutil.copytree if os.path.isdir(os.path.join(ROOT, part)) else shutil.copy
            copy(os.path.join(ROOT, part), os.path.join('tree', part) if copy is shutil.copytree else self.folder_of('tree', part))

    def runs_by_itself(self, bare):
        """The command `scuttle` of the environment, without the tree."""
        shutil.rmtree('tree')
        shutil.copy(os.path.join(EXAMPLES, 'roster.opb'), 'in.opb')
        for call in ([os.path.join('env', 'bin', 'scuttle')], [os.path.join('env', 'bin', 'python'), '-m', 'scuttle']):
            self.assertEqual(said_by(call + ['solve', 'in.opb', 'a.list', 'a.log'], **bare), (0, 'complete 7\n'))
            self.assertEqual(said_by(call + ['check', 'in.opb', 'a.list', 'a.log'], **bare), (0, 'accepted\n'))
            self.assertRegex(said_by(call + ['--version'], **bare)[1], '^scuttle [0-9.]+\n$')
            self.assertTrue(said_by(call + ['help', 'check'], **bare)[1].startswith('scuttle check IN LIST LOG'))
            self.assertRegex(said_by(call + ['solve', 'in.op', 'a.list', 'a.log'], **bare)[1], '^scuttle: .*in.op')
        # What it runs to list the models of a search that was stopped finds the package, by whatever Python is on the path.
        number, said = said_by([os.path.join('env', 'bin', 'scuttle-far'), 'in.opb', 'a.log'], **bare)
        site = said_by([os.path.join('env', 'bin', 'python'), '-c', 'import scuttle; print(scuttle.__path__[0])'], **bare)[1].strip()
        self.assertEqual(said_by([os.path.join(site, 'tree', 'tools', 'far'), 'in.opb', 'a.log'], **bare), (number, said))
        self.assertTrue(said.startswith('s INCOMPLETE 7\n'))

    def folder_of(self, *parts):
        os.makedirs(os.path.dirname(os.path.join(*parts)), exist_ok=True)
        return os.path.join(*parts)

    def test_the_wheel(self):
        sys.path.insert(0, PACKAGE)
        import scuttle_build
        os.mkdir('one'), os.mkdir('two')
        names = [scuttle_build.build_wheel(folder) for folder in ('one', 'two')]
        with open('one/' + names[0], 'rb') as one, open('two/' + names[1], 'rb') as two:
            self.assertEqual(one.read(), two.read())
        with open(os.path.join(ROOT, 'NEWS.md')) as news:
            self.assertEqual(names[0].split('-')[1], re.search('## ([0-9.]+)', news.read()).group(1))
        with zipfile.ZipFile('one/' + names[0]) as wheel:
            files = set(wheel.namelist())
            self.assertTrue({'scuttle/' + os.path.basename(path) for path in glob.glob(os.path.join(PACKAGE, 'scuttle', '*.py'))} <= files)
            texts = {name.split('/')[-1]: wheel.read(name).decode() for name in files if '.dist-info/' in name}
            modes = {name: wheel.getinfo(name).external_attr >> 16 & 0o111 for name in files}
        self.assertIn('scuttle/py.typed', files)
        self.says_what_it_is(names[0], texts)
        if names[0].endswith('x86_64.whl'):
            self.assertEqual(sorted(name for name, mode in modes.items() if mode), [
                'scuttle/tree/release/scuttle', 'scuttle/tree/scuttle', 'scuttle/tree/tools/far', 'scuttle/tree/tools/watch'])

    def says_what_it_is(self, name, texts):
        """Its metadata, as an index wants them; no licence is made up."""
        with open(os.path.join(ROOT, 'README.md'), encoding='utf-8') as readme:
            head, _, text = texts['METADATA'].partition('\n\n')
            self.assertEqual(text, readme.read())
        self.assertIn('\nClassifier: Typing :: Typed\n', head)
        self.assertIn('\nDescription-Content-Type: text/markdown', head)
        self.assertNotIn('icense', head)
        self.assertIn('Version: %s\n' % scuttle.__version__, head)
        self.assertIn(name.rpartition('-')[2][:-len('.whl')], ('manylinux_2_34_x86_64', 'any'))
        self.assertIn('\nTag: py3-none-%s\n' % name.rpartition('-')[2][:-len('.whl')], texts['WHEEL'])
        self.assertEqual(set(re.findall('^([a-z-]+) = ', texts['entry_points.txt'], re.MULTILINE)), {'scuttle'} | {'scuttle-' + c for c in COMMANDS})

    def test_a_system_with_another_library_gets_no_executable(self):
        sys.path.insert(0, PACKAGE)
        import scuttle_build
        for said in ('glibc 2.33', 'musl 1.2', None, ValueError('CS_GNU_LIBC_VERSION')):
            how = {'side_effect': said} if isinstance(said, Exception) else {'return_value': said}
            with unittest.mock.patch('os.confstr', **how):
                name = scuttle_build.build_wheel('.')
            self.assertTrue(name.endswith('-any.whl'), said)
            with zipfile.ZipFile(name) as wheel:
                self.assertNotIn('scuttle/tree/release/scuttle', wheel.namelist())
        with zipfile.ZipFile(name) as wheel:
            wheel.extractall('site')
        number, said = said_by([sys.executable, '-m', 'scuttle', 'solve', 'a', 'b', 'c'], PYTHONPATH='site', SCUTTLE='')
        self.assertEqual((number, said), (69, 'scuttle: this package came without an executable, which is for x86-64 Linux with glibc 2.34 or later\n'))


class Commands(InFolder):
    def test_each_has_a_script_and_its_three_names(self):
        for name in set(COMMANDS) - set(BROUGHT):
            script = os.path.join(ROOT, 'tools', name)
            self.assertEqual(said_by([script])[1][:len('usage: tools/%s ' % name)], 'usage: tools/%s ' % name)
            self.assertTrue(self.command(name, '--help')[1].startswith(name + ': '))
            self.assertIn('usage: python -m scuttle ' + name, self.process(name)[2])
            with open(script) as file:
                self.assertEqual(len(file.read().split('\n')), 5)

    def test_of_no_name(self):
        self.assertEqual(self.command()[0], 64)
        self.assertEqual(self.command('none')[0], 64)
        self.assertEqual(self.command('--help')[0], 0)

    def test_a_script_by_a_link_and_from_elsewhere(self):
        os.symlink(os.path.join(ROOT, 'tools', 'plan'), 'plan')
        self.assertEqual(said_by(['./plan'] + SITES)[1].split('\n')[0], '2 best compromises')

    def test_old_scripts_find_the_module_in_tools(self):
        self.write('old.py', '''import sys
sys.path.insert(0, %r)
from scuttle import Model, no
import formats
m = Model(strict=False)
m.cost('pay', 3, no('a'))
print(m.solve().plans[0].taken, formats.read_list(%r).complete, len(m.numbers), len(m.rows))
''' % (os.path.join(ROOT, 'tools'), SITES[1]))
        self.assertEqual(said_by([sys.executable, '-B', 'old.py'], PYTHONPATH=''), (0, "['a'] True 1 0\n"))


if __name__ == '__main__':
    unittest.main()
