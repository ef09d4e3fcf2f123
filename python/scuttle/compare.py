"""compare: what has changed between two lists, as after a change of numbers.

usage: tools/compare LIST LIST [IN]

Prints the cost vectors that stand in both lists, those that only the first has and those that only the second has;
of those that only the first has what is now at least as good in each cost, where there is such a one. The instance IN
says which costs are maximised; without it all are taken as minimised.
Ends with 0 where both lists have the same vectors, 1 where they differ, 64 where the words are wrong, 65 where a file
is no list or the lists have different numbers of costs, 74 where one can't be read.
"""
from typing import List, Sequence

from .commands import run_command, usage
from .dominance import as_good, senses_of
from .errors import Malformed
from .instances import Costs, read_instance
from .lists import fits, read_list


def _print_group(title: str, vectors: Sequence[Costs], others: Sequence[Costs], senses: Sequence[str]) -> None:
    print('%s: %d' % (title, len(vectors)))
    for vector, found in zip(vectors, as_good(senses, vectors, others)):
        # The lowest bit that is set is the first of those that are as good.
        beside = '   (now at least as good: %s)' % _shown(others[(found & -found).bit_length() - 1]) if found else ''
        print('  %s%s' % (_shown(vector), beside))


def _shown(vector: Costs) -> str:
    return ' '.join(str(cost) for cost in vector) or 'no costs'


def _body(arguments: List[str]) -> int:
    if len(arguments) not in (2, 3):
        return usage(str(__doc__))
    listings = [read_list(path) for path in arguments[:2]]
    old, new = [[entry.costs for entry in listing.entries] for listing in listings]
    if old and new and len(old[0]) != len(new[0]):
        raise Malformed(arguments[1], 2, 'it has %d costs, and the other list %d' % (len(new[0]), len(old[0])))
    instance = read_instance(arguments[2]) if len(arguments) == 3 else None
    for path, listing in zip(arguments, listings):
        if instance:
            fits(path, listing, instance)
        if not listing.complete:
            print('INCOMPLETE: %s; a better plan may be missing there' % path)
    senses = senses_of(instance, len((old + new + [()])[0]))
    kept = set(old) & set(new)
    _print_group('in both', [vector for vector in old if vector in kept], [], senses)
    _print_group('only in ' + arguments[0], [vector for vector in old if vector not in kept], new, senses)
    _print_group('only in ' + arguments[1], [vector for vector in new if vector not in kept], [], senses)
    return 0 if set(old) == set(new) else 1


def main(arguments: List[str]) -> int:
    """Runs the command."""
    return run_command(str(__doc__), _body, arguments)
