"""choices: shows what is left to choose among the plans of each compromise, in the words of the instance's own comments.

usage: tools/choices IN LIST MODELS [N]

IN is the instance, LIST its list, and MODELS the plans of each entry, as `scuttle models IN LIST K BASE` writes them to
BASE.models. N is the number of one entry, from 1 (all, where it is left out). Of each entry: its costs, whether these
plans are all, what each of them takes, and what each takes besides. Names are those of tools/plan.
Ends with 64 where the words are wrong, 65 where a file isn't what it should be, 74 where one can't be read.
"""
import re
import sys
from typing import List, Sequence

from .commands import BAD_INPUT, USAGE, run_command, usage
from .files import printable
from .instances import name_of_objective, name_of_variable, read_named
from .lists import Choice, fits, read_list, read_models


def count_of(choice: Choice) -> str:
    """How many plans there are, in words.

    >>> count_of(Choice(True, [[1], [-1]]))
    '2 plans, and no other'
    """
    count = len(choice.models)
    plans = '1 plan' if count == 1 else '%d plans' % count
    return plans + (', and no other' if choice.all else '; there may be more')


def _print_choice(number: int, costs: str, choice: Choice, variables: Sequence[str]) -> None:
    print('\n%d. %s' % (number, costs))
    print('   ' + count_of(choice))
    taken = [{k for k, literal in enumerate(model) if literal > 0} for model in choice.models]
    shared = set.intersection(*taken) if taken else set()
    if len(taken) > 1 and shared:
        print('   each takes')
        for k in sorted(shared):
            print('      ' + variables[k])
    for at, plan in enumerate(taken, 1):
        besides = [variables[k] for k in sorted(plan - (shared if len(taken) > 1 else set()))]
        print('   plan %d: %s' % (at, ', '.join(besides) if besides else 'nothing else' if len(taken) > 1 else 'nothing'))


def _body(arguments: List[str]) -> int:
    if len(arguments) not in (3, 4) or any(word.startswith('--') for word in arguments):
        return usage(str(__doc__))
    instance, names = read_named(arguments[0])
    listing = read_list(arguments[1])
    fits(arguments[1], listing, instance)
    choices = read_models(arguments[2], instance.variables)
    if len(choices) != len(listing.entries):
        print('choices: %s has %d entries, and %s %d' % (arguments[2], len(choices), arguments[1], len(listing.entries)), file=sys.stderr)
        return BAD_INPUT
    numbers = list(range(1, len(choices) + 1))
    if len(arguments) == 4:
        if not re.fullmatch('[0-9]{1,19}', arguments[3]) or int(arguments[3]) not in numbers:
            print('choices: the list has the entries 1 to %d' % len(choices), file=sys.stderr)
            return USAGE
        numbers = [int(arguments[3])]
    objectives = [printable(name_of_objective(names, k)) for k in range(1, len(instance.objectives) + 1)]
    variables = [printable(name_of_variable(names, k)) for k in range(1, instance.variables + 1)]
    for number in numbers:
        costs = '; '.join('%s: %d' % pair for pair in zip(objectives, listing.entries[number - 1].costs))
        _print_choice(number, costs, choices[number - 1], variables)
    return 0


def main(arguments: List[str]) -> int:
    """Runs the command."""
    return run_command(str(__doc__), _body, arguments)
