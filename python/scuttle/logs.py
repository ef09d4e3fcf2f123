"""Reads of a log what tools need: its first line, and the models of its `sol` lines. docs/FORMATS.md has the format."""
import re
from typing import Dict, List

from .errors import Malformed
from .instances import Costs, Instance, costs_of
from .kinds import HEAD, mind_packed


def is_log_head(line: str) -> bool:
    """Whether a line is the first of a log, in either version.

    >>> is_log_head('scuttle proof version 2 rows 14')
    True
    """
    return re.fullmatch(r'scuttle proof version (1|2 rows [0-9]+)', line) is not None


def model_of(line: str, variables: int) -> List[int]:
    """The literals of a log's `sol` line, as those of a list's `v` line: the instance's own variables come first.

    >>> model_of('sol x1 ~x2 x3 : x2 : 2 0', 2)
    [1, -2]
    """
    words = line.split(' : ')[0].split()[1:variables + 1]
    return [int(word[2:]) * -1 if word.startswith('~') else int(word[1:]) for word in words]


def model_at(path: str, number: int, line: str, variables: int) -> List[int]:
    """The same; `Malformed` where it is no model of so many variables.

    >>> model_at('a.log', 2, 'sol x1 : x1 : 0', 1)
    [1]
    """
    try:
        model = model_of(line, variables)
    except ValueError:
        raise Malformed(path, number, 'here stands no `sol` line') from None
    if len(model) != variables or any(abs(literal) != at for at, literal in enumerate(model, 1)):
        raise Malformed(path, number, 'this model is of another instance')
    return model


def models_of(path: str, instance: Instance) -> Dict[Costs, List[int]]:
    """The models that a log has so far, by their costs; of equal ones the first. A line that has no end yet is left out.

    >>> from scuttle.instances import Objective
    >>> with open('a.log', 'w') as out:
    ...     _ = out.write('scuttle proof version 1\\nsol x1 : x1 : 0\\nsol ~x')
    >>> models_of('a.log', Instance(1, [Objective('min', [(3, 1)], [])], []))
    {(3,): [1]}
    """
    models = {}  # type: Dict[Costs, List[int]]
    # Logs may have gigabytes, and few lines of them count here: only these are made text.
    with open(path, 'rb') as file:
        mind_packed(path, file.peek(HEAD))
        for number, line in enumerate(file, 1):
            if not line.endswith(b'\n'):
                break
            if number == 1 and not is_log_head(line[:-1].decode('ascii', 'replace')):
                raise Malformed(path, 1, 'this is no log: the first line of one begins with `scuttle proof version`')
            if line.startswith(b'sol '):
                model = model_at(path, number, line.decode('ascii', 'replace'), instance.variables)
                models.setdefault(costs_of(instance, model), model)
    return models
