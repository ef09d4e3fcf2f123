#!/usr/bin/env python3
"""A second checker of models: judges a list, the models of its entries and their logs as `check-models` does, and says the same words.

It stands on recheck.py beside it, and goes by docs/FORMATS.md, docs/PROOF_RULES.md and the conditions of `check-models` in
docs/ANSWERS.md.

usage: recheck_models.py IN LIST K BASE      the models are in BASE.models, the log of entry n in BASE.n.log

It ends as recheck.py does.
"""
import re
import sys
from typing import Iterable, List, NamedTuple, Optional, Sequence, Set, Tuple

if __package__:
    from . import recheck
else:
    import recheck  # type: ignore[import,no-redef]

MOST = 1048576    # models of an entry that may be asked for


class Served(NamedTuple):
    """An entry's models, and whether they are said to be all that serve it."""
    are_all: bool
    models: List[List[int]]


def bounded_problem(instance: recheck.Instance, costs: Sequence[int], models: Iterable[Sequence[int]]) -> recheck.Problem:
    """The rows of the normal form, each cost at least as good as the given one, and a clause that shuts out each of the models."""
    problem = recheck.normal_form_of_instance(instance)
    limits = [recheck.normal_form([(-c, literal) for literal, c in row.terms.items()], row.offset - most)
              for row, most in zip(problem.costs, instance.problem_vector(costs))]
    shut_out = [recheck.clause([-literal for literal in model]) for model in models]
    return recheck.Problem(problem.variables, problem.rows + limits + shut_out, [])


def models_entry(number: int, why: str) -> recheck.Wrong:
    return recheck.Wrong(11, 'models entry %d: %s' % (number, why))


def read_models(text: str) -> List[Served]:
    """The models of each entry; the entry at which the text goes wrong is raised."""
    lines = recheck.whole_lines(text)
    head = re.fullmatch('s MODELS (0|[1-9][0-9]*)', lines[0]) if lines else None
    if not head:
        raise models_entry(0, 'Syntax')
    served: List[Served] = []
    place = 1
    while len(served) < recheck.value(head[1]):
        found = re.fullmatch('e (ALL|FIRST) (0|[1-9][0-9]*)', lines[place]) if place < len(lines) else None
        count = recheck.value(found[2]) if found else 0
        models = [recheck.read_model(line) for line in lines[place + 1:place + 1 + count]]
        if not found or len(models) < count or None in models:
            raise models_entry(len(served) + 1, 'Syntax')
        served.append(Served(found[1] == 'ALL', [model for model in models if model is not None]))
        place += 1 + count
    if place < len(lines):
        raise models_entry(len(served) + 1, 'Syntax')
    return served


def check_served(instance: recheck.Instance, costs: Sequence[int], served: Served, most: int, number: int) -> None:
    """The conditions on the models of one entry."""
    if len(served.models) >= most if served.are_all else len(served.models) != most:
        raise models_entry(number, 'Count')
    vector, seen = instance.problem_vector(costs), set()  # type: List[int], Set[Tuple[int, ...]]
    for model in served.models:
        if not instance.is_model(model):
            raise models_entry(number, 'NotModel')
        if not recheck.is_below(instance.problem_vector(instance.costs(model)), vector):
            raise models_entry(number, 'Costs')
        if tuple(model) in seen:
            raise models_entry(number, 'Repeated')
        seen.add(tuple(model))


def check_models(instance: recheck.Instance, listed: str, most: int, base: str) -> None:
    """Takes models that serve the entries of a list, so many or all there are, as logs show; else the first fault is raised."""
    entries = recheck.check_list(instance, listed)
    all_served = read_models(recheck.read_file(base + '.models'))
    if len(all_served) != len(entries):
        raise models_entry(0, 'Count')
    for number, ((costs, _), served) in enumerate(zip(entries, all_served), 1):
        check_served(instance, costs, served, most, number)
        if served.are_all:
            problem = bounded_problem(instance, costs, served.models)
            try:
                with open('%s.%d.log' % (base, number), 'rb') as log:
                    recheck.check_log(problem, [], log)
            except recheck.Wrong as wrong:
                raise models_entry(number, wrong.args[1]) from None


def check_files(words: Sequence[str]) -> None:
    """Takes the files that IN, LIST, K and BASE name; what is wrong first is raised."""
    usage = recheck.Wrong(64, 'usage')
    if len(words) != 4 or not words[0].endswith(recheck.ENDINGS) or words[0] == words[1]:
        raise usage
    instance, listed, most, base = words
    if not recheck.DIGITS.fullmatch(most) or not 1 <= recheck.value(most) <= MOST:
        raise usage
    if instance.startswith(base + '.') or listed.startswith(base + '.'):
        raise usage
    check_models(recheck.read_instance(instance), recheck.read_file(listed), recheck.value(most), base)


def main(arguments: Optional[Sequence[str]] = None) -> int:
    return recheck.say(*recheck.answer(check_files, sys.argv[1:] if arguments is None else arguments))


if __name__ == '__main__':
    sys.exit(main())
