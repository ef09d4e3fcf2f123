"""Two small instances, cut by hand and solved part by part."""
import os
import subprocess

from setting import PROGRAM, InFolder

from scuttle.lists import read_list
from scuttle.parts import Source, Split, Test
from scuttle.split import make_split, named, tree

# Shops and a depot: two costs, of which one is to be large; a coefficient below 0, and one variable twice, with both its literals.
SHOPS = ('* x1 the shop\n* max 2 joy\nmin: 4 x1 -3 x2 +2 ~x3 +1 x3 +5 x4 ;\nmax: 2 x1 +3 ~x2 +1 x4 -2 x5 ;\n'
         'x1 +1 x2 +1 x3 >= 1 ;\n2 x2 +1 x4 +1 x5 = 2 ;\n-1 x1 -1 x5 >= -1 ;\n')
CLAUSES = 'h 1 2 0\nh 3 -3 5 0\no1 3 1 0\no1 2 2 3 0\no1 5 0\no2 4 -1 -2 0\no2 1 -1 0\no2 2 4 4 0\n'


def costs_of(path):
    return [entry.costs for entry in read_list(path).entries]


class Parts(InFolder):
    def solve(self, split, *words, names=None):
        for node, _ in split.parts():
            if names is None or node.name in names:
                paths = [split.path(node.name, ending) for ending in ('.opb', '.list', '.log')]
                subprocess.run([PROGRAM, 'solve'] + paths + list(words), check=True, stdout=subprocess.PIPE)

    def unsolved_slabs(self, text=SHOPS, name='in.opb', bounds=(2, 5), cost=1):
        """Slabs of a cost."""
        source = Source.of_file(self.write(name, text))
        os.mkdir('parts')
        split = Split(source, 'parts', named(tree([Test('cost', cost, bound) for bound in bounds])), cost)
        split.save()
        return split

    def slabs(self, text=SHOPS, name='in.opb', bounds=(2, 5), cost=1, *words):
        """Slabs of a cost, solved."""
        split = self.unsolved_slabs(text, name, bounds, cost)
        self.solve(split, *words)
        return split

    def cubes(self, text, variables, name='in.opb'):
        """The values of these variables, solved."""
        self.write(name, text)
        split = make_split(name, 'parts', 2 ** len(variables), by=variables)
        self.solve(split)
        return split

    def is_front(self, listed, logged, name='in.opb'):
        """What `check` accepts, and whose costs are those of one run."""
        subprocess.run([PROGRAM, 'solve', name, 'one.list', 'one.log'], check=True, stdout=subprocess.PIPE)
        self.assertEqual(costs_of(listed), costs_of('one.list'))
        said = subprocess.run([PROGRAM, 'check', name, listed, logged], stdout=subprocess.PIPE, stderr=subprocess.STDOUT).stdout
        self.assertEqual(said, b'accepted\n')

    def lines(self, path):
        return self.read(path).split('\n')
