"""split: a folder of parts of an instance, to be solved apart.

usage: tools/split IN FOLDER [--parts K] [--cost N] [--by VARIABLES] [--probe SECONDS]

Writes FOLDER, which isn't there yet or is empty, with one instance a part, a Makefile (`make -j8` solves all parts that
aren't solved yet) and commands.txt, a line a part, to be run in FOLDER by GNU parallel, Slurm array jobs or whatever runs
commands. tools/join then makes one list and one log of them. Of two costs or more the parts are what some models leave that quick
runs find, at even steps of the range of cost N, or of the cost whose range is widest; where there are fewer than two costs, or
with --by, the parts are cubes: the values of a few variables (x3,x7, or 3,7).
--parts K       about so many parts, up to 4096; four for each processor of this machine where it is left out
--probe SECONDS how long each quick run may take; 10 where it is left out
The program that runs is the value of SCUTTLE, or else this one. Other words for `solve`: make OPTIONS=--boost, and the
variable OPTIONS with commands.txt; not --harden, whose logs can't be joined.
Ends with 64 where the words are wrong, 65 where IN isn't an instance, or is too large, 69 without an executable, 74 where a
file can't be read or written.
"""
import heapq
import itertools
import os
import re
import shlex
import sys
import tempfile
from typing import Dict, List, Optional, Sequence, Tuple

from .commands import run_command, usage
from .errors import CannotTake, ScuttleError
from .files import write_text
from .part_runs import cut_name
from .parts import LARGEST, Condition, Node, Source, Split, Test, narrowed
from .ranges import NoModels, Quick, busiest_variables, find_models, find_range
from .running import find_program, run

# More parts than processors even the work out: the longest part is about a quarter of a processor's share then.
PARTS_PER_PROCESSOR = 4
# More parts than this make more work than they spread.
MOST_PARTS = 4096
# How long each quick run may take, which finds a model with a small cost. Seconds.
PROBE, LONGEST_PROBE = 10.0, 10 ** 6
REFUSED = 11
MAKEFILE, COMMANDS = 'Makefile', 'commands.txt'


def make_split(path: str, folder: str, parts: int, cost: Optional[int] = None, by: Optional[Sequence[int]] = None,
               probe: float = PROBE, program: Optional[str] = None, jobs: Optional[int] = None) -> Split:
    """Cuts an instance into about so many parts and writes their folder: by the range of a cost, from 1, or the values of some variables. Each
    of the quick runs, so many at a time, may take so many seconds. `Failed` where the program doesn't take the instance, `CannotTake` where
    a cost's weights are too large for a row.
    """
    source = Source.of_file(path)
    judge(path, program)
    if by is None and len(source.costs) > 1:
        split = _by_range(source, folder, parts, cost, Quick(probe, jobs or processors(), program))
    else:
        split = Split(source, folder, _cubes(list(by or busiest_variables(source)), parts))
    os.makedirs(folder, exist_ok=True)
    split.save()
    write_runners(split, program)
    return split


def judge(path: str, program: Optional[str]) -> None:
    """Has the program read an instance: `Failed` where it doesn't take it."""
    with tempfile.TemporaryDirectory(prefix='scuttle-') as folder:
        paths = [os.path.join(folder, name) for name in ('empty.list', 'empty.log')]
        for empty in paths:
            # An empty text is no list, so that nothing is judged after the instance.
            write_text(empty, '')
        run(program, ['check', path] + paths, (REFUSED,))


def _by_range(source: Source, folder: str, parts: int, cost: Optional[int], quick: Quick) -> Split:
    _refuse_too_large(source)
    try:
        found = find_range(source, cost, quick)
    except NoModels:
        return Split(source, folder, Node('part-1'))
    width = found.high + 1 - found.low
    bounds = sorted({found.low + width * k // parts for k in range(1, parts)} - {0, found.low})
    root = by_models(source, found.cost, find_models(source, found.cost, bounds, quick), parts)
    return Split(source, folder, named(root), found.cost)


def _refuse_too_large(source: Source) -> None:
    """`CannotTake` where a row that bounds a cost could pass the limit of a row."""
    for k, row in enumerate(source.costs, 1):
        if 2 * row.most > LARGEST:
            raise CannotTake(source.path, 'the weights of cost %d are too large for a row that bounds it: use --by' % k)


Values = Tuple[int, ...]


def by_models(source: Source, cost: int, models: Sequence[Sequence[int]], parts: int) -> Node:
    """The problems, about so many, that known models leave: each is better than some of them in one cost each. What a model makes worthless
    is closed by it. No problem has a lower bound of a cost, which would give it best solutions of its own that the whole doesn't have; of more
    than two costs they overlap.

    A problem is cut by the middle one, by this cost, of the models that are in it, the one with the most of them first.
    """
    costs = range(1, len(source.costs) + 1)
    known = sorted({tuple(source.value(k, model) for k in costs): tuple(model) for model in models}.items(), key=lambda m: m[0][cost - 1])
    root, order = Node(), itertools.count()
    waiting = [(-len(known), next(order), root, known)]
    while waiting and len(waiting) < parts and waiting[0][0]:
        _, _, node, inside = heapq.heappop(waiting)
        middle = inside[len(inside) // 2]
        cut_by_model(node, *middle)
        for conditions, child in node.children[:-1]:
            test = conditions[0].test
            within = [model for model in inside if model[0][test.number - 1] < test.bound]
            heapq.heappush(waiting, (-len(within), next(order), child, within))
    return root


def cut_by_model(node: Node, values: Values, model: Sequence[int]) -> None:
    """Cuts a problem into those that are better than a known model in one cost, of which it has these values, and what the model closes. Of
    costs of 0 there is nothing better."""
    tests = [Test('cost', k, value) for k, value in enumerate(values, 1) if value]
    node.children = [((Condition(test, False),), Node()) for test in tests]
    digits = ''.join('1' if literal > 0 else '0' for literal in model)
    node.children.append((narrowed(Condition(test, True) for test in tests), Node(model=digits)))


def tree(tests: Sequence[Test]) -> Node:
    """Tests of one sum, with rising bounds, as a tree that is as low as can be."""
    if not tests:
        return Node()
    middle = len(tests) // 2
    return Node().cut(tests[middle], tree(tests[:middle]), tree(tests[middle + 1:]))


def _cubes(variables: Sequence[int], parts: int) -> Node:
    """So many cubes, or fewer where there aren't enough variables; problems on one level are cut by one variable."""
    root = Node()
    level, count = [root], 1
    for variable in variables:
        cut = level[:parts - count]
        for node in cut:
            node.cut(Test('variable', variable, 1), Node(), Node())
        count += len(cut)
        level = [child for node in cut for _, child in node.children]
        if count == parts:
            break
    return named(root)


def named(root: Node) -> Node:
    """Names the leaves in their order."""
    leaves = [node for node, _ in root.walk() if not node.children and node.model is None]
    for number, node in enumerate(leaves, 1):
        node.name = 'part-%0*d' % (len(str(len(leaves))), number)
    return root


def cut_again(split: Split, node: Node, path: Sequence[Condition], models: Sequence[Sequence[int]] = ()) -> bool:
    """Cuts a part by one of its models so far, where there are costs and models; else by a variable that no condition has yet. Whether it
    can be cut."""
    if node.children:
        return False
    source, taken = split.source, {c.test.number for c in path if c.test.kind == 'variable'}
    variable = next((v for v in busiest_variables(source) if v not in taken), None)
    if split.cost and models:
        middle = sorted(models, key=lambda model: source.value(split.cost, model))[len(models) // 2]
        cut_by_model(node, tuple(source.value(k, middle) for k in range(1, len(source.costs) + 1)), middle)
    elif variable is not None:
        node.cut(Test('variable', variable, 1), Node(), Node())
    for number, (_, child) in enumerate(node.children, 1):
        child.name = None if child.model else cut_name(str(node.name), number)
    return bool(node.children)


def write_runners(split: Split, program: Optional[str]) -> None:
    """Writes the Makefile and commands.txt: a part's list gets its name when it is whole."""
    program = find_program(program)
    names = [str(node.name) for node, _ in split.parts() if not node.children]
    makefile = ['# make -j8 solves the parts that are not solved yet; another program: make SCUTTLE=/where/it/is',
                'SCUTTLE ?= %s' % program.replace('$', '$$').replace('#', '\\#'), 'OPTIONS ?=', '',
                'all: %s' % ' '.join(name + '.list' for name in names), '',
                '%.list: %.opb', '\t"$(SCUTTLE)" solve $< $*.unfinished $*.log $(OPTIONS) && mv $*.unfinished $@', '', '.PHONY: all']
    write_text(os.path.join(split.folder, MAKEFILE), '\n'.join(makefile) + '\n')
    command = '"${SCUTTLE:-%s}"' % re.sub(r'(["$`\\])', r'\\\1', program)
    lines = ['%s solve %s.opb %s.unfinished %s.log $OPTIONS && mv %s.unfinished %s.list\n' % ((command,) + (shlex.quote(name),) * 5)
             for name in names]
    write_text(os.path.join(split.folder, COMMANDS), ''.join(lines))


def variables_of(word: str, source_variables: int) -> Optional[List[int]]:
    """The variables that a word names; None where it names none, or one twice or that isn't there."""
    if not re.fullmatch('x?[0-9]{1,9}(,x?[0-9]{1,9})*', word):
        return None
    variables = [int(each.lstrip('x')) for each in word.split(',')]
    return variables if len(set(variables)) == len(variables) and all(1 <= v <= source_variables for v in variables) else None


def options_of(words: List[str], names: Sequence[str]) -> Optional[Dict[str, str]]:
    """Takes the options with their values out of the words; None where one has none, or stands twice, or isn't one of the names."""
    found = {}  # type: Dict[str, str]
    while True:
        at = next((k for k, word in enumerate(words) if word.startswith('--')), None)
        if at is None:
            return found
        if words[at] not in names or words[at] in found or at + 1 == len(words):
            return None
        found[words[at]] = words[at + 1]
        del words[at:at + 2]


def number_of(word: Optional[str], least: int, most: int) -> Optional[int]:
    """The number that an option says, None where it isn't there; `ValueError` where it isn't between two."""
    if word is None:
        return None
    if not re.fullmatch('[0-9]{1,9}', word) or not least <= int(word) <= most:
        raise ValueError(word)
    return int(word)


def cuttable(source: Source) -> int:
    """How many costs there are by whose range the instance can be cut: none, where there are fewer than two."""
    return len(source.costs) if len(source.costs) > 1 else 0


def processors() -> int:
    """How many processors this process may use."""
    return len(os.sched_getaffinity(0)) if hasattr(os, 'sched_getaffinity') else os.cpu_count() or 1


def _body(arguments: List[str]) -> int:
    words = list(arguments)
    found = options_of(words, ('--parts', '--cost', '--by', '--probe'))
    if found is None or len(words) != 2 or '--by' in found and '--cost' in found:
        return usage(str(__doc__))
    source = Source.of_file(words[0])
    by = variables_of(found['--by'], source.instance.variables) if '--by' in found else None
    try:
        parts = number_of(found.get('--parts'), 1, MOST_PARTS) or (2 ** len(by) if by else PARTS_PER_PROCESSOR * processors())
        cost = number_of(found.get('--cost'), 1, cuttable(source))
        probe = number_of(found.get('--probe'), 1, LONGEST_PROBE) or PROBE
    except ValueError as fault:
        print("split: '%s' is no such number" % fault, file=sys.stderr)
        return usage(str(__doc__))
    if '--by' in found and by is None:
        print("split: '%s' names no different variables of %s, as x3,x7 does" % (found['--by'], words[0]), file=sys.stderr)
        return usage(str(__doc__))
    if os.path.exists(words[1]) and (not os.path.isdir(words[1]) or os.listdir(words[1])):
        raise ScuttleError('%s is there already, and not empty' % words[1])
    split = make_split(words[0], words[1], parts, cost, by, probe)
    print('%d parts' % len(split.parts()))
    return 0


def main(arguments: List[str]) -> int:
    """Runs the command."""
    return run_command(str(__doc__), _body, arguments)
