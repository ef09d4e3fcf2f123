"""What each test of the package stands on: the package of this tree, the executable, and a folder of its own."""
import contextlib
import io
import os
import subprocess
import sys
import tempfile
import unittest

HERE = os.path.dirname(os.path.abspath(__file__))
ROOT = os.path.dirname(os.path.dirname(HERE))
PACKAGE = os.path.join(ROOT, 'python')
EXAMPLES = os.path.join(ROOT, 'examples')
# The gate names the executable that it has built; else it is the released one.
PROGRAM = os.path.abspath(os.environ.setdefault('SCUTTLE', os.path.join(ROOT, 'release', 'scuttle')))
os.environ['SCUTTLE'] = PROGRAM
sys.path.insert(0, PACKAGE)
sys.dont_write_bytecode = True


class InFolder(unittest.TestCase):
    """A test that runs in an empty folder."""

    def setUp(self):
        before = os.getcwd()
        made = tempfile.TemporaryDirectory()
        self.addCleanup(made.cleanup)
        self.addCleanup(os.chdir, before)
        os.chdir(made.name)

    def write(self, name, text):
        with open(name, 'w', encoding='utf-8', newline='') as out:
            out.write(text)
        return name

    def read(self, name):
        with open(name, encoding='utf-8', newline='') as file:
            return file.read()

    def command(self, *words):
        """Runs a command in this process: the number, and what is said on both streams."""
        from scuttle.__main__ import main
        said, warned = io.StringIO(), io.StringIO()
        with contextlib.redirect_stdout(said), contextlib.redirect_stderr(warned):
            number = main(list(words))
        return number, said.getvalue(), warned.getvalue()

    def process(self, *words, **more):
        """Runs `python -m scuttle` as a process of its own: the same."""
        environment = dict(os.environ, PYTHONPATH=PACKAGE, PYTHONDONTWRITEBYTECODE='1', **more)
        ran = subprocess.run([sys.executable, '-m', 'scuttle'] + list(words), stdout=subprocess.PIPE, stderr=subprocess.PIPE,
                             env=environment, timeout=120)
        return ran.returncode, ran.stdout.decode(errors='replace'), ran.stderr.decode(errors='replace')
