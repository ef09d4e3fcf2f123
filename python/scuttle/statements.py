"""An instance as linear statements alone, with the rows and variables of its normal form, in their order: docs/PROOF_RULES.md.

A file of clauses becomes one of statements whose logs fit it: ids and variables are the same.
"""
from typing import Dict, List, NamedTuple, Sequence

from .instances import Instance, Names, Objective, Row, Term


class CostRow(NamedTuple):
    """An objective's cost row, which is to be small: positive coefficients on literals of rising variables, and the offset.

    >>> CostRow([(3, 1)], 0).most
    3
    """

    terms: List[Term]
    offset: int

    @property
    def most(self) -> int:
        """The largest value of the terms' sum that can be written, if not reached."""
        return sum(weight for weight, _ in self.terms)


def as_statements(instance: Instance) -> Instance:
    """The same problem without soft clauses: each that needs one gets a relaxation variable, a row and a term. What an empty soft clause
    adds to a cost is left out: costs are those of the instance itself, and a constant doesn't matter to a log.

    >>> as_statements(Instance(2, [Objective('min', [], [(3, [1, 2]), (4, [-1]), (5, [])])], [])).objectives
    [Objective(sense='min', terms=[(3, 3), (4, 1)], softs=[])]
    """
    variables, rows, objectives = instance.variables, list(instance.rows), []
    for objective in instance.objectives:
        terms = list(objective.terms)
        for weight, clause in objective.softs:
            literals = list(dict.fromkeys(clause))
            if not weight or not literals or _is_always_true(literals):
                continue
            if len(literals) == 1:
                terms.append((weight, -literals[0]))
                continue
            variables += 1
            rows.append(Row([(1, literal) for literal in literals + [variables]], '>=', 1, 0))
            terms.append((weight, variables))
        objectives.append(Objective(objective.sense, terms, []))
    return Instance(variables, objectives, rows)


def with_clauses_normal(instance: Instance) -> Instance:
    """An instance of clauses in which each clause that holds both literals of a variable is a row that is `>= 0` in its normal form.

    >>> with_clauses_normal(Instance(2, [], [Row([(1, 1), (1, -1), (1, 2)], '>=', 1, 1)])).rows[0].terms
    [(1, 1), (1, -1)]
    """
    rows = []
    for row in instance.rows:
        literals = {literal for _, literal in row.terms}
        both = [literal for _, literal in row.terms if literal > 0 and -literal in literals]
        rows.append(row._replace(terms=[(1, both[0]), (1, -both[0])]) if both else row)
    return instance._replace(rows=rows)


def count_rows(instance: Instance) -> int:
    """The number of rows of the normal form of statements: `=` gives two.

    >>> count_rows(Instance(1, [], [Row([(1, 1)], '=', 1, 1)]))
    2
    """
    return sum(2 if row.relation == '=' else 1 for row in instance.rows)


def cost_row(objective: Objective) -> CostRow:
    """The cost row of an objective without soft clauses.

    >>> cost_row(Objective('max', [(3, 1), (2, -1), (4, -2), (5, 3), (-5, 3)], []))
    CostRow(terms=[(1, -1), (4, 2)], offset=-7)
    """
    sign = 1 if objective.sense == 'min' else -1
    sums, offset = {}, 0  # type: Dict[int, int], int
    for weight, literal in objective.terms:
        # c·~x = c - c·x
        sums[abs(literal)] = sums.get(abs(literal), 0) + (sign * weight if literal > 0 else -sign * weight)
        offset += sign * weight if literal < 0 else 0
    offset += sum(weight for weight in sums.values() if weight < 0)
    return CostRow([(abs(weight), variable if weight > 0 else -variable) for variable, weight in sorted(sums.items()) if weight], offset)


def objective_text(objective: Objective) -> str:
    """An objective as a statement.

    >>> objective_text(Objective('max', [(3, 1), (-2, -2)], []))
    'max: +3 x1 -2 ~x2 ;'
    """
    return ' '.join(['%s:' % objective.sense] + _words(objective.terms) + [';'])


def row_text(terms: Sequence[Term], relation: str, bound: int) -> str:
    """A row as a statement.

    >>> row_text([(1, 1), (2, -3)], '<=', 2)
    '+1 x1 +2 ~x3 <= 2 ;'
    """
    return ' '.join(_words(terms) + [relation, str(bound), ';'])


def text_of_statements(instance: Instance, names: Names) -> str:
    """The text of an instance without soft clauses; its variables are as many as it says.

    >>> print(text_of_statements(Instance(3, [Objective('min', [(3, 1)], [])], [Row([(1, 1)], '>=', 1, 1)]), Names({1: 'shop'}, {})), end='')
    * x1 shop
    min: +3 x1 +0 x3 ;
    +1 x1 >= 1 ;
    """
    objectives, rows = list(instance.objectives), list(instance.rows)
    last = max((abs(literal) for part in objectives + rows for _, literal in part.terms), default=0)
    if last < instance.variables:
        # The number of variables is the largest index that occurs.
        more = [(0, instance.variables)]
        if objectives:
            objectives[0] = objectives[0]._replace(terms=objectives[0].terms + more)
        else:
            rows[0] = rows[0]._replace(terms=rows[0].terms + more)
    lines = ['* x%d %s' % pair for pair in sorted(names.variables.items()) if pair[0] <= instance.variables]
    lines += ['* %s %d %s' % (objectives[k - 1].sense, k, name) for k, name in sorted(names.objectives.items()) if k <= len(objectives)]
    lines += [objective_text(objective) for objective in objectives] + [row_text(*row[:3]) for row in rows]
    return ''.join(line + '\n' for line in lines)


def _is_always_true(literals: Sequence[int]) -> bool:
    return not {-literal for literal in literals}.isdisjoint(literals)


def _words(terms: Sequence[Term]) -> List[str]:
    return ['%+d %sx%d' % (weight, '~' if literal < 0 else '', abs(literal)) for weight, literal in terms]
