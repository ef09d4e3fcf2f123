"""docs/check finds a crate of crates.txt that ARCHITECTURE's picture lacks, or shows too low."""
import importlib.machinery
import importlib.util
import os
import re
import unittest

from setting import ROOT


def levels_faults(page):
    """What docs/check says of the picture in such a page."""
    loader = importlib.machinery.SourceFileLoader('page_checker', os.path.join(ROOT, 'docs', 'check'))
    checker = importlib.util.module_from_spec(importlib.util.spec_from_loader('page_checker', loader))
    loader.exec_module(checker)
    checker.check_levels(page)
    return checker.found


class Levels(unittest.TestCase):
    def setUp(self):
        with open(os.path.join(ROOT, 'docs', 'ARCHITECTURE.md'), encoding='utf-8') as file:
            self.page = file.read()

    def test_the_picture_is_right(self):
        self.assertEqual(levels_faults(self.page), [])

    def test_a_crate_that_is_missing(self):
        for crate in ('portfolio', 'scuttle_cli', 'cdcl_laws'):
            with self.subTest(crate):
                page = re.sub(r'(?m)^((?: ?\d+)? .*)\b%s\b' % crate, r'\1', self.page, count=1)
                self.assertIn('docs/ARCHITECTURE.md:1: %s is not in the picture' % crate, levels_faults(page))

    def test_a_crate_that_stands_too_low(self):
        page = self.page.replace('portfolio\n', '\n', 1).replace(' 2  front_set', ' 2  front_set  portfolio', 1)
        first, *others = levels_faults(page)
        self.assertTrue(first.startswith('docs/ARCHITECTURE.md:1: portfolio does not stand above '), first)
        self.assertEqual(others, [])


if __name__ == '__main__':
    unittest.main()
