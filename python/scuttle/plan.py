"""plan: shows the plans of a list in the words of the instance's own comments.

usage: tools/plan IN LIST [N] [--csv | --json]

IN is the instance, LIST its list, N the number of one entry, from 1 (all, where it is left out). A comment of its
own line names a variable, `* x5 fibre Cob-Dun` (in a file of clauses `c x5 ..`), or an objective,
`* min 1 cost, thousands a year` or `* max 2 profit`; what has no name keeps its number. A plan is the variables that
are true. The costs are those of the list: of a maximised objective larger ones are better.
--csv prints a row for each entry, with a column for each cost and 1 or 0 for each variable; --json an object. A name in
the table that a spreadsheet would take for a formula has a quote before it.
Ends with 64 where the words are wrong, 65 where a file isn't what it should be, 74 where one can't be read.
"""
import csv
import json
import re
import sys
from typing import Callable, Dict, List, Optional, Sequence, Tuple

from .commands import USAGE, run_command, usage
from .files import cell_of, printable
from .instances import name_of_objective, name_of_variable, read_named
from .lists import Entry, Listing, fits, read_list, title_of

Numbered = List[Tuple[int, Entry]]
Print = Callable[[Listing, Numbered, List[str], List[str]], None]


def _wanted(listing: Listing, words: Sequence[str]) -> Optional[Numbered]:
    """The entries that are asked for, with their numbers; None where there is no such one."""
    numbered = list(enumerate(listing.entries, 1))
    if not words:
        return numbered
    if len(words) > 1 or not re.fullmatch('[0-9]{1,19}', words[0]) or not 1 <= int(words[0]) <= len(numbered):
        return None
    return [numbered[int(words[0]) - 1]]


def _print_text(listing: Listing, entries: Numbered, objectives: List[str], variables: List[str]) -> None:
    print(title_of(listing.complete, len(listing.entries)))
    for number, entry in entries:
        print('\n%d. %s' % (number, '; '.join('%s: %d' % pair for pair in zip(objectives, entry.costs))))
        for name, literal in zip(variables, entry.model):
            if literal > 0:
                print('   ' + name)


def _print_csv(listing: Listing, entries: Numbered, objectives: List[str], variables: List[str]) -> None:
    out = csv.writer(sys.stdout, lineterminator='\n')
    out.writerow(['entry', 'complete'] + [cell_of(name) for name in objectives + variables])
    for number, entry in entries:
        values = [int(literal > 0) for literal in entry.model]
        out.writerow([number, 'yes' if listing.complete else 'no'] + list(entry.costs) + values)


def _print_json(listing: Listing, entries: Numbered, objectives: List[str], variables: List[str]) -> None:
    plans = [{'entry': number,
              'costs': [{'objective': name, 'cost': cost} for name, cost in zip(objectives, entry.costs)],
              'plan': [name for name, literal in zip(variables, entry.model) if literal > 0]} for number, entry in entries]
    print(json.dumps({'complete': listing.complete, 'entries': plans}, ensure_ascii=False, indent=2))


def _body(arguments: List[str]) -> int:
    show = {'--csv': _print_csv, '--json': _print_json}  # type: Dict[str, Print]
    forms = [word for word in arguments if word in show]
    words = [word for word in arguments if word not in show]
    if len(words) not in (2, 3) or len(forms) > 1 or any(word.startswith('--') for word in words):
        return usage(str(__doc__))
    instance, names = read_named(words[0])
    listing = read_list(words[1])
    fits(words[1], listing, instance)
    entries = _wanted(listing, words[2:])
    if entries is None:
        print('plan: the list has the entries 1 to %d' % len(listing.entries), file=sys.stderr)
        return USAGE
    objectives = [printable(name_of_objective(names, k)) for k in range(1, len(instance.objectives) + 1)]
    variables = [printable(name_of_variable(names, k)) for k in range(1, instance.variables + 1)]
    print_entries = show[forms[0]] if forms else _print_text
    print_entries(listing, entries, objectives, variables)
    return 0


def main(arguments: List[str]) -> int:
    """Runs the command."""
    return run_command(str(__doc__), _body, arguments)
