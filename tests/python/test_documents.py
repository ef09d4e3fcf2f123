"""The examples in docstrings and in the documents run, and say what stands there."""
import contextlib
import doctest
import importlib
import io
import os
import pkgutil
import re
import sys
import textwrap
import unittest
import warnings

from setting import EXAMPLES, ROOT, InFolder

import scuttle


def modules():
    return [importlib.import_module('scuttle.' + found.name) for found in pkgutil.iter_modules(scuttle.__path__)] + [scuttle]


class Documents(InFolder):
    def test_examples_of_docstrings(self):
        tried = 0
        for module in modules():
            with self.subTest(module.__name__):
                with warnings.catch_warnings():
                    # Rows that are only shown there are added to no model.
                    warnings.simplefilter('ignore', scuttle.NotAdded)
                    failed, count = doctest.testmod(module)
                tried += count
                self.assertEqual(failed, 0)
        self.assertGreater(tried, 100)

    def test_each_public_thing_has_a_docstring(self):
        # The second checker's functions are named as the rules of docs/PROOF_RULES.md, which says what each does.
        for module in [module for module in modules() if not module.__name__.startswith('scuttle.recheck')]:
            for name, thing in vars(module).items():
                is_own = getattr(thing, '__module__', '') == module.__name__ and callable(thing)
                if is_own and not name.startswith('_'):
                    with self.subTest('%s.%s' % (module.__name__, name)):
                        self.assertTrue((thing.__doc__ or '').strip())

    def test_calls_of_say_it_so(self):
        """Each line of its table makes the row that stands beside it."""
        with open(os.path.join(ROOT, 'docs', 'SAY_IT_SO.md'), encoding='utf-8') as file:
            rows = [[cell.strip() for cell in re.split(r'(?<!\\)\|', line)[1:-1]] for line in file if line.startswith('| ')]
        pairs = [(cells[1], cells[2]) for cells in rows if len(cells) == 3 and cells[2].startswith('`')]
        self.assertGreater(len(pairs), 11)
        for statement, call in pairs:
            with self.subTest(call):
                m = scuttle.Model()
                names = {name: getattr(scuttle, name) for name in scuttle.__all__}
                a, b, c = (m.option(name) for name in 'abc')
                for piece in re.findall('`([^`]*)`', call):
                    exec(piece, dict(names, m=m, a=a, b=b, c=c))
                text = m.text()
                for wanted in re.findall('`([^`]*;)`', statement):
                    self.assertIn(plain(wanted), plain(text))

    def test_python_of_the_examples(self):
        """The Python that README and the page of the examples show runs as it stands there."""
        for page in (os.path.join(ROOT, 'README.md'), os.path.join(EXAMPLES, 'README.md')):
            with open(page, encoding='utf-8') as file:
                pieces = re.findall(r'```python\n(.*?)```', file.read(), re.DOTALL)
            self.assertGreater(len(pieces), 0)
            for piece in pieces:
                said = io.StringIO()
                with self.subTest(page), contextlib.redirect_stdout(said):
                    exec(textwrap.dedent(piece), {})
                self.assertIn('best compromises', said.getvalue())

    def test_the_kept_model_of_the_nurses(self):
        """It is what their script writes."""
        sys.path.insert(0, EXAMPLES)
        import nurses
        with open(os.path.join(EXAMPLES, 'nurses.opb'), encoding='utf-8') as file:
            self.assertEqual(file.read(), nurses.model().text())


def plain(text):
    """A text without blanks and the signs and ones that may be left out."""
    return re.sub(r'(?<![0-9x])1(?=~?x)', '', re.sub(r'\s|\+', '', text))


if __name__ == '__main__':
    unittest.main()
