"""Plans of parts that somebody else has written: what can't be one is refused in words, and no file is touched."""
import json
import os
import unittest

from parts_by_hand import SHOPS, Parts

from scuttle.errors import Malformed
from scuttle.parts import DEEPEST, PLAN, Split


class PlansOfOthers(Parts):
    def setUp(self):
        super().setUp()
        self.split = self.unsolved_slabs()
        self.plan = json.loads(self.read('parts/' + PLAN))

    def refused(self, text):
        self.write('parts/' + PLAN, text)
        before = sorted(os.listdir('parts'))
        for words in (('join', 'in.opb', 'parts', 'all.list', 'all.log'), ('spread', 'in.opb', 'all.list', 'all.log', '--folder', 'parts')):
            number, said, warned = self.command(*words)
            self.assertEqual((number, said), (65, ''), warned)
            self.assertRegex(warned, '^[a-z]+: .*split.json:1: this is no plan of parts')
        self.assertEqual((sorted(os.listdir('parts')), sorted(os.listdir('.'))), (before, ['in.opb', 'parts']))

    def with_tree(self, tree):
        return json.dumps(dict(self.plan, tree=tree))

    def test_names(self):
        for name in ('..', '.', '', 'a/b', 'a\0b', 'a\nb', '-rf', '$(shell touch mine)', 'a b', 'a%', 'x' * 101, 3, ['part-1'], 'part-1;ls'):
            with self.subTest(name=name):
                self.refused(self.with_tree({'name': name}))

    def test_a_name_twice(self):
        self.refused(self.with_tree({'children': [{'name': 'part-1', 'where': []}, {'name': 'part-1', 'where': []}]}))

    def test_deep_ones(self):
        self.refused('[' * 200000)
        self.refused('{"format": "scuttle split 1", "cost": 1, "tree": ' + '{"children": [' * 5000 + ']}' * 5000 + '}')

        def nested(depth):
            tree = {'name': 'part-1'}
            for _ in range(depth):
                tree = {'children': [dict(tree, where=[])]}
            return self.with_tree(tree)
        self.refused(nested(DEEPEST + 1))
        self.write('parts/' + PLAN, nested(DEEPEST))
        split = Split.load(self.split.source, 'parts')
        split.save()
        self.assertEqual([node.name for node, _ in split.parts()], ['part-1'])

    def test_numbers(self):
        text = json.dumps(self.plan)
        for wrong in ('1e400', '-1e400', 'NaN', '3', '-1', '"one"', 'null', '1' + '0' * 5000):
            with self.subTest(wrong[:9]):
                self.refused(text.replace('"cost": 1', '"cost": ' + wrong))
        for number, bound in (('1', '1e400'), ('1e400', '2'), ('9', '2'), ('0', '2'), ('1', '0')):
            tree = '{"children": [{"name": "part-1", "where": [["cost", %s, %s, "below"]]}]}' % (number, bound)
            self.refused(self.with_tree('a tree').replace('"a tree"', tree))

    def test_other_shapes(self):
        for tree in ([], None, 3, 'part-1', {}, {'children': 3}, {'children': [3]}, {'children': [{'name': 'part-1'}]}, {'model': 3},
                     {'model': ['0'] * 5}, {'model': '01'}, {'children': [{'name': 'part-1', 'where': [['cost']]}]},
                     {'children': [{'name': 'part-1', 'where': [['sum', 1, 2, 'below']]}]}):
            with self.subTest(tree=tree):
                self.refused(self.with_tree(tree))
        for text in ('', '[]', 'null', '{}', '\udcff'.encode('utf-8', 'surrogateescape').decode('latin-1'), '{"format": 1}'):
            self.write('parts/' + PLAN, text)
            with self.assertRaises(Malformed):
                Split.load(self.split.source, 'parts')


if __name__ == '__main__':
    unittest.main()
