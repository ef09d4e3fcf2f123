"""A problem cut into parts: a tree of problems, each with conditions that say of a sum that it reaches a bound, or that it doesn't.

A folder holds a part as `NAME.opb`, and once it is solved `NAME.list` and `NAME.log`. `split.json` says how they were cut.
"""
import hashlib
import json
import os
import re
from typing import Any, Dict, Iterable, Iterator, List, NamedTuple, Optional, Sequence, Tuple

from .errors import Malformed
from .files import Line, write_text
from .instances import Instance, Names, Term, instance_of, is_clauses, names_of, sum_at
from .kinds import mind_packed
from .statements import as_statements, cost_row, count_rows, row_text, text_of_statements, with_clauses_normal

PLAN = 'split.json'
FORMAT = 'scuttle split 1'
# The largest sum of magnitudes of a row: docs/FORMATS.md.
LARGEST = 2 ** 63 - 1
# What a part may be called: its name stands in names of files, in a Makefile, and in commands.
NAME = re.compile('[A-Za-z0-9_][A-Za-z0-9_.-]{0,99}')
# A tree isn't deeper: each cut of a part makes it deeper by one, and Python goes down some hundred levels.
DEEPEST = 200


class Test(NamedTuple):
    """Whether a sum reaches a bound: the terms of a cost row (kind `cost`, numbered from 1), or one variable (kind `variable`, bound 1).

    >>> Test('cost', 1, 40).bound
    40
    """

    kind: str
    number: int
    bound: int


class Condition(NamedTuple):
    """A test with its answer.

    >>> Condition(Test('variable', 3, 1), True).reached
    True
    """

    test: Test
    reached: bool


class Node:
    """A problem of the tree: a part with its name; or cut into others, each with the conditions that are added; or one in which a known model,
    a digit 1 or 0 for each variable of the normal form, is as good in each cost as any other. A part may be cut later: then its own proof
    does, or those of the others.

    No solution of a problem is missing in all that it is cut into. The parts may overlap.

    >>> Node('part-1').children
    []
    """

    def __init__(self, name: Optional[str] = None, model: Optional[str] = None) -> None:
        self.name, self.model = name, model
        self.children = []  # type: List[Tuple[Tuple[Condition, ...], Node]]

    def cut(self, test: Test, below: 'Node', reached: 'Node') -> 'Node':
        """Cuts it by a test: the node itself."""
        self.children = [((Condition(test, False),), below), ((Condition(test, True),), reached)]
        return self

    def walk(self, path: Tuple[Condition, ...] = ()) -> 'Iterator[Tuple[Node, Tuple[Condition, ...]]]':
        """Every problem with its conditions, the upper ones first."""
        yield self, path
        for conditions, child in self.children:
            yield from child.walk(narrowed(path + conditions))


def narrowed(path: Iterable[Condition]) -> Tuple[Condition, ...]:
    """The conditions that count, in order: of two bounds of one sum in one direction the narrower.

    >>> [c.test.bound for c in narrowed([Condition(Test('cost', 1, 5), True), Condition(Test('cost', 1, 8), True)])]
    [8]
    """
    found = {}  # type: Dict[Tuple[str, int, bool], Condition]
    for condition in sorted(path, key=lambda c: c.test.bound if c.reached else -c.test.bound):
        found[condition.test.kind, condition.test.number, condition.reached] = condition
    return tuple(sorted(found.values()))


class Source:
    """The instance whose parts these are: its file's name, its digest, and its normal form as statements.

    >>> Source('a.opb', b'min: 3 x1 ;\\nx1 >= 1 ;\\n').rows
    1
    """

    def __init__(self, path: str, data: bytes) -> None:
        self.path, self.digest = path, hashlib.sha256(data).hexdigest()
        lines = [Line(k, line.rstrip('\r')) for k, line in enumerate(data.decode('utf-8', 'replace').split('\n'), 1)]
        self.instance = instance_of(path, lines)  # type: Instance
        self.names = names_of(path, lines)  # type: Names
        self.statements = as_statements(with_clauses_normal(self.instance) if is_clauses(path) else self.instance)
        self.rows, self.variables = count_rows(self.statements), self.statements.variables
        self.costs = [cost_row(objective) for objective in self.statements.objectives]
        # No row of one variable has a larger coefficient.
        self.unlike = max((sum(abs(weight) for weight, _ in row.terms) for row in self.statements.rows
                           if len({abs(literal) for _, literal in row.terms}) == 1), default=0)

    @classmethod
    def of_file(cls, path: str) -> 'Source':
        """Reads the file once."""
        with open(path, 'rb') as file:
            data = file.read()
        mind_packed(path, data)
        return cls(path, data)

    def terms(self, test: Test) -> Sequence[Term]:
        """The sum of a test, with positive coefficients. Each variable has another coefficient, and none that a row of one variable has, so
        that no two that are fixed are alike in a part: what is alike there is so in the whole problem."""
        return self.costs[test.number - 1].terms if test.kind == 'cost' else [(self.unlike + test.number, test.number)]

    def most(self, test: Test) -> int:
        """What the coefficients of a test's sum sum to."""
        return sum(weight for weight, _ in self.terms(test))

    def value(self, cost: int, model: Sequence[int]) -> int:
        """The sum of a cost row's terms at a model of the normal form."""
        return sum_at(self.costs[cost - 1].terms, model)

    def row_of(self, condition: Condition) -> str:
        """A condition as a statement."""
        bound = condition.test.bound
        return row_text(self.terms(condition.test), *(('>=', bound) if condition.reached else ('<=', bound - 1)))

    def words_of(self, condition: Condition) -> str:
        """A condition in words, in the sense of the problem."""
        test = condition.test
        if test.kind == 'variable':
            return '%sx%d' % ('' if condition.reached else '~', test.number)
        is_max = self.instance.objectives[test.number - 1].sense == 'max'
        bound = test.bound - (not condition.reached) + self.costs[test.number - 1].offset
        return 'cost %d %s %d' % (test.number, '<=' if is_max == condition.reached else '>=', -bound if is_max else bound)


class Split:
    """The parts of an instance in a folder.

    >>> Split(Source('a.opb', b'min: 3 x1 ;\\n'), 'parts', Node('part-1')).parts()[0][0].name
    'part-1'
    """

    def __init__(self, source: Source, folder: str, root: Node, cost: int = 0) -> None:
        """Cut by the range of a cost, from 1, or, where it is 0, by variables."""
        self.source, self.folder, self.root, self.cost = source, folder, root, cost

    def parts(self) -> List[Tuple[Node, Tuple[Condition, ...]]]:
        """The problems that are parts, with their conditions."""
        return [(node, path) for node, path in self.root.walk() if node.name is not None]

    def path(self, name: str, ending: str) -> str:
        """A file of a part."""
        return os.path.join(self.folder, name + ending)

    def is_solved(self, name: str) -> bool:
        """Whether a part's list is there and whole: it is written after the log."""
        try:
            with open(self.path(name, '.list'), 'rb') as file:
                return file.read(11) == b's COMPLETE '
        except FileNotFoundError:
            return False

    def tests(self) -> List[Test]:
        """All tests of the tree, in a fixed order."""
        return sorted({c.test for node, _ in self.root.walk() for conditions, _ in node.children for c in conditions})

    def proving(self) -> List[Tuple[Node, Tuple[Condition, ...]]]:
        """The parts whose logs make the proof, whether they are solved yet or not, and the problems that a known model closes."""
        found, left = [], [(self.root, ())]  # type: List[Tuple[Node, Tuple[Condition, ...]]], List[Tuple[Node, Tuple[Condition, ...]]]
        while left:
            node, path = left.pop()
            if self.proves(node):
                found.append((node, path))
            else:
                left += [(child, narrowed(path + conditions)) for conditions, child in reversed(node.children)]
        return found

    def proves(self, node: Node) -> bool:
        """Whether it is a problem's own log, or model, that counts, and not what it is cut into."""
        return not node.children or node.name is not None and self.is_solved(node.name)

    def unsolved(self) -> List[str]:
        """The parts that have no list yet, where those that they are cut into don't stand for them."""
        return [node.name for node, _ in self.proving() if node.name is not None and not self.is_solved(node.name)]

    def save(self) -> None:
        """Writes the parts that aren't there yet, and then the plan, so that a plan's parts are there."""
        text = None
        for node, path in self.parts():
            target = self.path(str(node.name), '.opb')
            if not os.path.exists(target):
                text = text or text_of_statements(self.source.statements, self.source.names)
                words = ', '.join(map(self.source.words_of, path)) or 'all of it'
                head = '* %s of %s: %s\n' % (node.name, os.path.basename(self.source.path).encode('ascii', 'replace').decode(), words)
                write_text(target, head + text + ''.join(self.source.row_of(condition) + '\n' for condition in path))
        plan = {'format': FORMAT, 'sha256': self.source.digest, 'cost': self.cost, 'tree': _as_json(self.root)}
        write_text(os.path.join(self.folder, PLAN), json.dumps(plan, indent=1) + '\n')

    @classmethod
    def load(cls, source: Source, folder: str) -> 'Split':
        """The parts that a folder has; `Malformed` where they are those of another instance, or there is no plan of them."""
        path = os.path.join(folder, PLAN)
        try:
            with open(path, encoding='utf-8') as file:
                plan = json.load(file)
            if plan['format'] != FORMAT:
                raise Malformed(path, 1, 'this is no plan of parts that this version knows')
            # What another instance's plan names needn't be there in this one.
            if plan['sha256'] != source.digest:
                raise Malformed(path, 1, 'these are parts of another instance than %s, or of it before it was changed' % source.path)
            split = cls(source, folder, _node_of(plan['tree'], source), int(plan['cost']))
            names = [node.name for node, _ in split.parts()]
            if len(set(names)) < len(names) or not 0 <= split.cost <= len(source.costs):
                raise ValueError(plan['cost'])
            return split
        except (ValueError, LookupError, TypeError, AttributeError, OverflowError, RecursionError):
            raise Malformed(path, 1, 'this is no plan of parts') from None


def _as_json(node: Node) -> Dict[str, Any]:
    fields = {name: value for name, value in (('name', node.name), ('model', node.model)) if value is not None}  # type: Dict[str, Any]
    if node.children:
        fields['children'] = [dict(_as_json(child), where=[[*c.test, 'reached' if c.reached else 'below'] for c in conditions])
                              for conditions, child in node.children]
    return fields


def _node_of(fields: Dict[str, Any], source: Source, depth: int = 0) -> Node:
    """A problem of the tree; `ValueError` where a number isn't one of the instance, a name isn't that of a part, or the tree is too deep."""
    name, model = fields.get('name'), fields.get('model')
    if name is not None and not (isinstance(name, str) and NAME.fullmatch(name)) or depth > DEEPEST:
        raise ValueError(name)
    if model is not None and not (isinstance(model, str) and len(model) == source.variables and set(model) <= set('01')):
        raise ValueError(model)
    node = Node(name, model)
    for child in fields.get('children', []):
        conditions = [Condition(_test_of(words, source), words[3] == 'reached') for words in child['where']]
        node.children.append((narrowed(conditions), _node_of(child, source, depth + 1)))
    if not node.children and name is None and model is None:
        raise ValueError('nothing shows that this has no solution')
    return node


def _test_of(words: Sequence[Any], source: Source) -> Test:
    test = Test(str(words[0]), int(words[1]), int(words[2]))
    most = {'cost': len(source.costs), 'variable': source.variables}[test.kind]
    if not 1 <= test.number <= most or test.bound < 1:
        raise ValueError(test)
    return test
