#!/usr/bin/env python3
"""A second checker: judges a list and a log as `check` does, and says the same words.

It goes by docs/FORMATS.md and docs/PROOF_RULES.md, and was written without a look at the program's source or definitions. It is to be
read: one function a rule, named as those pages name it; docs/RECHECK.md says which function is which part of them.

usage: recheck.py IN LIST LOG      IN ends in .mcnf, .opb or .mopb; the three names differ

It ends with 0, or with 11 for a list or a log, 65 or 66 for IN, 64 for these words, 74 for a file that can't be read.
"""
import contextlib
import os
import re
import sys
from typing import Callable, Dict, Iterable, Iterator, List, NamedTuple, Optional, Sequence, Set, Tuple, Union

# Limits, as the two pages have them.
FILE_BYTES = 2**32 - 1
NUMBER = 2**63 - 1       # any number of an instance, the sum of an objective's weights or of a row's magnitudes, an id, a variable of a log
VARIABLE = 2**24         # a variable's index in an instance
OBJECTIVES = 64
SIZE = 2**100            # of a constraint: its coefficients and its degree
SUBSTITUTED = 2**99      # the size of a constraint that is substituted into
FACTOR = 2**127 - 1      # of a multiplication or a division
ROWS = 2**34             # what a header of version 2 may name
GOAL_OBJECTIVE = 2**32 - 1
PIECE = 1024             # ids of one piece of `del` and `reduce` in version 2
WIDE_DIGITS = 40         # a number of more digits is above every limit; it isn't made, since Python refuses to read very long ones
DIGITS, PLAIN, SIGNED = re.compile('[0-9]+'), re.compile('0|[1-9][0-9]*'), re.compile('0|-?[1-9][0-9]*')
OPTION = re.compile('-.|.*[\udc80-\udcff]', re.DOTALL)    # and what is no text, which is no name either
ENDINGS = ('.mcnf', '.opb', '.mopb')
LITERAL = re.compile('(~?)x([1-9][0-9]*)')


class Wrong(Exception):
    """The number with which the program ends, and what is warned of."""


class Refused(Exception):
    """Why a text or a line is refused, as it is printed; who knows the place adds it."""


def refuse(condition: object, why: str) -> None:
    """Refuses where the condition holds."""
    if condition:
        raise Refused(why)


def value(digits: str) -> int:
    """The number that digits spell, or one that is above every limit."""
    digits = digits.lstrip('0') or '0'
    return int(digits if len(digits) <= WIDE_DIGITS else '1' + '0' * WIDE_DIGITS)


# Instances. A literal is a number: 3 where variable 3 is true, -3 where it is false.

Terms = List[Tuple[int, int]]    # coefficients with their literals


class Objective(NamedTuple):
    """A sum of the weights of false soft clauses, each a weight and literals, and of terms."""
    maximised: bool
    softs: List[Tuple[int, List[int]]]
    terms: Terms


class Instance:
    """What a file of either format spells."""

    def __init__(self) -> None:
        self.variables = 0
        self.clauses: List[List[int]] = []
        self.linear: List[Tuple[Terms, int]] = []    # sums that are at least a bound
        self.objectives: List[Objective] = []

    def is_model(self, model: Sequence[int]) -> bool:
        """Whether literals of the variables from 1 on, in order, make every clause true and every row hold."""
        true = set(model)
        return (len(model) == self.variables and not any(true.isdisjoint(literals) for literals in self.clauses)
                and all(sum(c for c, literal in terms if literal in true) >= bound for terms, bound in self.linear))

    def costs(self, model: Sequence[int]) -> List[int]:
        """One number for each objective; of a maximised one the sum itself."""
        true = set(model)
        return [sum(weight for weight, literals in objective.softs if true.isdisjoint(literals))
                + sum(c for c, literal in objective.terms if literal in true) for objective in self.objectives]

    def problem_vector(self, costs: Sequence[int]) -> List[int]:
        """The same costs, where a maximised objective's number has its sign changed: each is to be small."""
        return [-cost if objective.maximised else cost for cost, objective in zip(costs, self.objectives)]


def at_line(line: int, refused: Refused) -> Wrong:
    """A fault of an instance file: a mistake, or a limit."""
    return Wrong(66 if str(refused).startswith('too large') else 65, 'line %d: %s' % (line, refused))


def number_of(digits: str) -> int:
    refuse(value(digits) > NUMBER, 'NumberTooWide')
    return value(digits)


def variable_of(digits: str) -> int:
    refuse(number_of(digits) > VARIABLE, 'too large: Vars')
    return value(digits)


# Instance files: MCNF

def read_mcnf(text: str) -> Instance:
    """The instance that the text spells; its first fault is raised."""
    instance, sums = Instance(), [0] * OBJECTIVES
    for number, line in enumerate(text.split('\n'), 1):
        words = [word for word in re.split('[ \t]', line[:-1] if line.endswith('\r') else line) if word]
        try:
            if words and words[0] == 'h':
                instance.clauses.append(read_clause(instance, words[1:]))
            elif words and not words[0].startswith('c'):
                read_soft(instance, words, sums)
        except Refused as refused:
            raise at_line(number, refused) from None
    return instance


def read_soft(instance: Instance, words: List[str], sums: List[int]) -> None:
    """A line of a soft clause; `sums` has each objective's sum of weights."""
    refuse(words[0][0] != 'o' or not DIGITS.fullmatch(words[0][1:]), 'UnknownLine')
    index = number_of(words[0][1:])
    refuse(index == 0, 'ObjectiveIndex')
    refuse(index > OBJECTIVES, 'too large: Objectives')
    refuse(len(words) < 2 or not DIGITS.fullmatch(words[1]), 'WeightExpected')
    weight = number_of(words[1])
    sums[index - 1] += weight
    refuse(sums[index - 1] > NUMBER, 'too large: Weights')
    while len(instance.objectives) < index:
        instance.objectives.append(Objective(False, [], []))
    instance.objectives[index - 1].softs.append((weight, read_clause(instance, words[2:])))


def read_clause(instance: Instance, words: List[str]) -> List[int]:
    """The literals up to the terminator, with which the line ends."""
    literals: List[int] = []
    for place, word in enumerate(words):
        digits = word[word.startswith('-'):]
        refuse(not DIGITS.fullmatch(digits) or (digits != word and value(digits) == 0), 'LiteralExpected')
        if value(digits) == 0:
            refuse(place + 1 < len(words), 'TextAfterZero')
            return literals
        variable = variable_of(digits)
        instance.variables = max(instance.variables, variable)
        literals.append(variable if digits == word else -variable)
    raise Refused('ZeroMissing')


# Instance files: OPB with several objectives

TOKEN = re.compile(r'(?P<blank>[ \t\r]+)|(?P<digits>[0-9]+)|(?P<literal>~?x0*[1-9][0-9]*)|(?P<objective>min:|max:)'
                   r'|(?P<relation>>=|<=|=)|(?P<sign>[+-])|(?P<semicolon>;)|(?P<begun>[x~])|(?P<other>.)', re.DOTALL)
TERM_BEGINS = ('sign', 'digits', 'literal', 'begun')


def opb_tokens(text: str) -> Iterator[Tuple[str, str, int]]:
    """Of each token of a line that is no comment its kind (`begun` where `x` or `~` begins no literal), text and line; then the end."""
    for line, content in enumerate(text.split('\n'), 1):
        if not content.lstrip(' \t\r').startswith('*'):
            for found in TOKEN.finditer(content):
                if found.lastgroup != 'blank':
                    yield str(found.lastgroup), found.group(), line
    while True:
        yield 'end', '', line


class OpbReader:
    """Reads statements. `kind`, `text` and `line` are those of the token that is judged next, and so of that at which a fault is."""

    def __init__(self, text: str) -> None:
        self.tokens = opb_tokens(text)
        self.kind, self.text, self.line = next(self.tokens)
        self.instance = Instance()
        self.magnitudes = 0

    def take(self, kind: str, fault: str) -> str:
        """The text of the next token, which has to be of a kind."""
        refuse(self.kind != kind, fault)
        text, (self.kind, self.text, self.line) = self.text, next(self.tokens)
        return text

    def read(self) -> Instance:
        """The instance that the text spells; its first fault is raised."""
        try:
            while self.kind != 'end':
                self.magnitudes = 0
                if self.kind == 'objective':
                    self.read_objective()
                else:
                    refuse(self.kind not in TERM_BEGINS + ('relation',), 'UnknownLine')
                    self.read_constraint()
        except Refused as refused:
            raise at_line(self.line, refused) from None
        return self.instance

    def read_objective(self) -> None:
        refuse(self.instance.linear, 'ObjectiveAfterConstraint')
        refuse(len(self.instance.objectives) == OBJECTIVES, 'too large: Objectives')
        maximised = self.take('objective', '') == 'max:'
        self.instance.objectives.append(Objective(maximised, [], self.read_terms('too large: Weights')))
        self.take('semicolon', 'SemicolonMissing')

    def read_constraint(self) -> None:
        terms = self.read_terms('too large: Row')
        relation, negated = self.take('relation', 'RelationExpected'), self.is_negated()
        refuse(self.kind != 'digits', 'BoundExpected')
        bound = self.read_magnitude('too large: Row') * (-1 if negated else 1)
        self.take('semicolon', 'SemicolonMissing')
        if relation != '<=':
            self.instance.linear.append((terms, bound))
        if relation != '>=':
            self.instance.linear.append(([(-c, literal) for c, literal in terms], -bound))

    def read_terms(self, limit: str) -> Terms:
        terms: Terms = []
        while self.kind in TERM_BEGINS:
            refuse(terms and self.kind in ('literal', 'begun'), 'Product')
            terms.append(self.read_term(limit))
        return terms

    def read_term(self, limit: str) -> Tuple[int, int]:
        negated, has_digits = self.is_negated(), self.kind == 'digits'
        magnitude = self.read_magnitude(limit) if has_digits else 1
        refuse(self.kind != 'literal', 'TermExpected')
        variable = variable_of(self.text.lstrip('~x'))
        if not has_digits:
            self.count(magnitude, limit)
        self.instance.variables = max(self.instance.variables, variable)
        return -magnitude if negated else magnitude, -variable if self.take('literal', '').startswith('~') else variable

    def is_negated(self) -> bool:
        """Takes a sign, if there is one."""
        return self.kind == 'sign' and self.take('sign', '') == '-'

    def read_magnitude(self, limit: str) -> int:
        self.count(number_of(self.text), limit)
        return value(self.take('digits', ''))

    def count(self, magnitude: int, limit: str) -> None:
        """A coefficient or a bound counts in the sum of magnitudes of its statement."""
        self.magnitudes += magnitude
        refuse(self.magnitudes > NUMBER, limit)


# Constraints

Witness = Dict[int, Union[bool, int]]    # what stands for some variables: false, true, or a literal


class Constraint(NamedTuple):
    """The coefficients, by their literals, sum to at least the degree: `2 x1 1 ~x3 >= 2` is `({1: 2, -3: 1}, 2)`."""
    terms: Dict[int, int]
    degree: int

    def total(self) -> int:
        return sum(self.terms.values())

    def size(self) -> int:
        return self.total() + self.degree

    def slack(self, true: Set[int]) -> int:
        """The coefficients of the literals that aren't false, minus the degree; of an assignment, what the sum is above the degree."""
        return sum(c for literal, c in self.terms.items() if -literal not in true) - self.degree

    def negation(self) -> 'Constraint':
        """The constraint that holds exactly where this one doesn't."""
        degree = max(0, self.total() - self.degree + 1)
        refuse(self.total() + degree > SIZE, 'Overflow')
        return Constraint({-literal: c for literal, c in self.terms.items()}, degree)

    def covers(self, other: 'Constraint') -> bool:
        """Whether at every assignment the sum is above the other's by at most what the degree is above the other's."""
        most = sum(max(self.terms.get(literal, 0) - other.terms.get(literal, 0) for literal in (variable, -variable))
                   for variable in {abs(literal) for literal in [*self.terms, *other.terms]})
        return most <= self.degree - other.degree

    def restriction(self, true: Set[int]) -> 'Constraint':
        """The constraint with some literals true."""
        left = {literal: c for literal, c in self.terms.items() if literal not in true and -literal not in true}
        return Constraint(left, max(0, self.degree - sum(c for literal, c in self.terms.items() if literal in true)))

    def substitution(self, witness: Witness) -> 'Constraint':
        """The constraint under a witness."""
        refuse(self.size() > SUBSTITUTED, 'Overflow')
        terms, constant = replaced(self.terms, witness)
        return normal_form(terms, self.degree - constant)

    def add(self, other: 'Constraint') -> 'Constraint':
        """The sum; `c·x + d·~x` leaves the difference and lowers the degree by the smaller."""
        refuse(self.size() + other.size() > SIZE, 'Overflow')
        terms, degree = dict(self.terms), self.degree + other.degree
        for literal, coefficient in other.terms.items():
            against = terms.pop(-literal, 0)
            degree -= min(against, coefficient)
            if coefficient > against:
                terms[literal] = terms.get(literal, 0) + coefficient - against
            elif against > coefficient:
                terms[-literal] = against - coefficient
        return Constraint(terms, max(0, degree))

    def multiply(self, factor: int) -> 'Constraint':
        refuse(factor < 1, 'BadFactor')
        refuse(self.size() * factor > SIZE, 'Overflow')
        return Constraint({literal: c * factor for literal, c in self.terms.items()}, self.degree * factor)

    def divide(self, divisor: int) -> 'Constraint':
        """Each coefficient and the degree divided and rounded up."""
        refuse(divisor < 1, 'BadFactor')
        return Constraint({literal: -(-c // divisor) for literal, c in self.terms.items()}, -(-self.degree // divisor))

    def saturate(self) -> 'Constraint':
        """Each coefficient is cut to the degree; at degree 0 no terms are left."""
        return Constraint({literal: min(c, self.degree) for literal, c in self.terms.items()} if self.degree else {}, self.degree)

    def weaken(self, variable: int) -> 'Constraint':
        """The variable's term goes, and the degree falls by its coefficient."""
        terms = {literal: c for literal, c in self.terms.items() if abs(literal) != variable}
        return Constraint(terms, max(0, self.degree - self.terms.get(variable, 0) - self.terms.get(-variable, 0)))


def replaced(terms: Dict[int, int], witness: Witness) -> Tuple[Terms, int]:
    """Terms with each literal replaced by its image, and the sum of the coefficients whose literal has become true."""
    left, constant = [], 0
    for literal, coefficient in terms.items():
        image = witness.get(abs(literal), abs(literal))
        if not isinstance(image, bool):
            left.append((coefficient, image if literal > 0 else -image))
        elif image == (literal > 0):
            constant += coefficient
    return left, constant


def clause(literals: Iterable[int]) -> Constraint:
    return Constraint({literal: 1 for literal in literals}, 1)


def merged(terms: Terms) -> Tuple[Dict[int, int], int]:
    """A sum as one of positive coefficients on literals of distinct variables, and the constant by which the given sum is above it."""
    sums: Dict[int, int] = {}
    for coefficient, literal in terms:
        sums[abs(literal)] = sums.get(abs(literal), 0) + (coefficient if literal > 0 else -coefficient)
    constant = sum(c for c, literal in terms if literal < 0) + sum(c for c in sums.values() if c < 0)
    return {variable if c > 0 else -variable: abs(c) for variable, c in sums.items() if c}, constant


def normal_form(terms: Terms, degree: int) -> Constraint:
    """A sum of any coefficients on any literals, that is to be at least some degree."""
    left, constant = merged(terms)
    return Constraint(left, max(0, degree - constant))


# The normal form of an instance

class CostRow(NamedTuple):
    """Coefficients by literals, and what is added to their sum, which is to be small."""
    terms: Dict[int, int]
    offset: int

    def cost(self, true: Set[int]) -> int:
        return self.offset + sum(c for literal, c in self.terms.items() if literal in true)

    def fall(self, witness: Witness) -> Tuple[Terms, int]:
        """The terms minus these under a witness, and what this sum has to reach so that the cost doesn't rise."""
        images, constant = replaced(self.terms, witness)
        return [(c, literal) for literal, c in self.terms.items()] + [(-c, literal) for c, literal in images], constant


class Problem(NamedTuple):
    """Rows and costs over the variables of an instance, and one for each soft clause that needs one."""
    variables: int
    rows: List[Constraint]
    costs: List[CostRow]


def normal_form_of_instance(instance: Instance) -> Problem:
    """Hard clauses, statements, and soft clauses that need a relaxation variable, in that order; then the costs."""
    rows = [Constraint({}, 0) if is_tautology(literals) else clause(literals) for literals in instance.clauses]
    rows += [normal_form(terms, bound) for terms, bound in instance.linear]
    variables, costs = instance.variables, []
    for objective in instance.objectives:
        terms, offset = [(-c if objective.maximised else c, literal) for c, literal in objective.terms], 0
        for weight, literals in objective.softs:
            if weight == 0 or is_tautology(literals):
                continue
            if not literals:
                offset += weight
            elif len(set(literals)) == 1:
                terms.append((weight, -literals[0]))
            else:
                variables += 1
                rows.append(clause(literals + [variables]))
                terms.append((weight, variables))
        left, constant = merged(terms)
        costs.append(CostRow(left, offset + constant))
    return Problem(variables, rows, costs)


def is_tautology(literals: List[int]) -> bool:
    return not {-literal for literal in literals}.isdisjoint(literals)


# The list

Entry = Tuple[List[int], List[int]]    # the costs, and the literals of the model


def list_entry(number: int, why: str) -> Wrong:
    return Wrong(11, 'list entry %d: %s' % (number, why))


def read_costs(line: str) -> Optional[List[int]]:
    """The numbers of an `o` line, or None for another line."""
    first, *words = line.split(' ')
    if first != 'o' or not all(SIGNED.fullmatch(word) and value(word.lstrip('-')) <= NUMBER for word in words):
        return None
    return [int(word) for word in words]


def read_model(line: str) -> Optional[List[int]]:
    """The literals of a `v` line, which are those of the variables from 1 on in order, or None for another line."""
    words = line.split(' ')
    if len(words) < 2 or words[0] != 'v' or words[-1] != '0':
        return None
    return [int(word) for word in words[1:-1]] if all(word in (str(k), '-%d' % k) for k, word in enumerate(words[1:-1], 1)) else None


def whole_lines(text: str) -> List[str]:
    """The lines of a text, which all end with a line feed; what doesn't stands as a line that is none of any text."""
    lines = text.split('\n')
    return lines[:-1] + ['\n'] * bool(lines[-1])


def read_list(text: str) -> Tuple[bool, List[Entry]]:
    """Whether a list claims to be complete, and its entries; the entry at which the text goes wrong is raised."""
    lines, entries = whole_lines(text), []  # type: List[str], List[Entry]
    head = re.fullmatch('s (COMPLETE|INCOMPLETE) (0|[1-9][0-9]*)', lines[0]) if lines else None
    if not head:
        raise list_entry(0, 'Syntax')
    while len(entries) < value(head[2]):
        pair = lines[1 + 2 * len(entries):3 + 2 * len(entries)]
        costs, model = (read_costs(pair[0]), read_model(pair[1])) if len(pair) == 2 else (None, None)
        if costs is None or model is None:
            raise list_entry(len(entries) + 1, 'Syntax')
        entries.append((costs, model))
    if len(lines) > 1 + 2 * len(entries):
        raise list_entry(len(entries) + 1, 'Syntax')
    return head[1] == 'COMPLETE', entries


def is_below(costs: Sequence[int], others: Sequence[int]) -> bool:
    """Whether each number is at most the other's."""
    return all(cost <= other for cost, other in zip(costs, others))


def check_list(instance: Instance, text: str) -> List[Entry]:
    """The entries of a list of models with their costs, in rising order, none comparable to another; the first fault is raised."""
    complete, entries = read_list(text)
    if not complete:
        raise list_entry(0, 'NotComplete')
    vectors: List[List[int]] = []
    for number, (costs, model) in enumerate(entries, 1):
        if not instance.is_model(model):
            raise list_entry(number, 'NotModel')
        if costs != instance.costs(model):
            raise list_entry(number, 'Costs')
        if number > 1 and costs <= entries[number - 2][0]:
            raise list_entry(number, 'Order')
        vector = instance.problem_vector(costs)
        if any(is_below(vector, before) or is_below(before, vector) for before in vectors):
            raise list_entry(number, 'Comparable')
        vectors.append(vector)
    return entries


# The text of a log

LogToken = Tuple[str, int]       # ('id', 3), ('literal', -2), ('~', 0), ('!', 0), ('+', 0), ('*', 2), ('d', 2), ('s', 0), ('w', 5)
Goal = Tuple[str, int]           # ('', 3) for an id, ('c', 0), ('o', 2), ('s', 0): these are in the order of goals
Proofs = Dict[Goal, Tuple[str, Sequence[LogToken]]]    # `rup` and hints, or `pol` and tokens
OPERATORS = ('*', 'd', 'w')      # of the number or the variable before them
PARTS = {'pol': 1, 'rup': 2, 'learn': 2, 'def': 2, 'red': 2, 'dom': 2, 'sol': 3, 'del': 1, 'reduce': 1, 'end': 1}    # `red` may have more
MADE = {'def': 2, 'del': 0, 'reduce': 0, 'end': 0}    # how many ids a line makes; each other one makes one


class Line(NamedTuple):
    """A line of a log: its first word, the variables that are written in it, and what lines of its kind hold."""
    kind: str
    variables: Sequence[int]
    constraint: Constraint = Constraint({}, 0)
    tokens: Sequence[LogToken] = ()                              # of `pol`, and the hints of `rup` and `learn`
    variable: int = 0                                            # that `def` defines
    witness: Witness = {}
    proofs: Proofs = {}
    model: Sequence[int] = ()
    cut: Sequence[int] = ()
    ids: Sequence[int] = ()                                      # of `sol`, `del`, `reduce` and `end`


def require(condition: object) -> None:
    """A text that isn't so is that of no line."""
    refuse(not condition, 'Syntax')


def rise(numbers: Sequence[int]) -> bool:
    return all(a < b for a, b in zip(numbers, numbers[1:]))


def number_in(word: str, least: int, most: int) -> int:
    require(PLAIN.fullmatch(word) and least <= value(word) <= most)
    return int(word)


def literal_in(word: str) -> int:
    require(LITERAL.fullmatch(word))
    variable = number_in(word.lstrip('~x'), 1, NUMBER)
    return -variable if word[0] == '~' else variable


def variable_in(word: str) -> int:
    require(literal_in(word) > 0)
    return literal_in(word)


def constraint_in(words: Sequence[str]) -> Constraint:
    """Coefficients from 1 with literals of rising variables, `>=` and a degree."""
    require(len(words) >= 2 and len(words) % 2 == 0 and words[-2] == '>=')
    literals = [literal_in(word) for word in words[1:-2:2]]
    require(rise([abs(literal) for literal in literals]))
    coefficients = [number_in(word, 1, SIZE) for word in words[0:-2:2]]
    constraint = Constraint(dict(zip(literals, coefficients)), number_in(words[-1], 0, SIZE))
    require(constraint.size() <= SIZE)
    return constraint


def witness_in(words: Sequence[str]) -> Witness:
    """Rising variables with their images."""
    require(len(words) % 2 == 0)
    variables = [variable_in(word) for word in words[0::2]]
    require(rise(variables))
    return {variable: word == '1' if word in ('0', '1') else literal_in(word) for variable, word in zip(variables, words[1::2])}


def parts_of(words: List[str]) -> List[List[str]]:
    """Words, cut at each `:`."""
    ends = [place for place, word in enumerate(words) if word == ':'] + [len(words)]
    return [words[begin:end] for begin, end in zip([0] + [end + 1 for end in ends], ends)]


class Spelling:
    """How ids are spelled: by digits in version 1; in version 2 those that lines have made are counted back from the next id."""

    def __init__(self, header: str) -> None:
        found = re.fullmatch('scuttle proof version (1|2 rows (0|[1-9][0-9]*))', header)
        if not found:
            raise Refused('Syntax')
        self.rows = number_in(found[2], 0, ROWS) if found[2] else None
        self.next_id = (self.rows or 0) + 1

    def line_in(self, text: str) -> Line:
        """The line of a text without its line feed."""
        kind, *words = text.split(' ')
        parts = parts_of(words)
        require(kind in PARTS and (len(parts) == PARTS[kind] or kind in ('red', 'dom') and len(parts) > PARTS[kind]))
        require(kind not in ('def', 'end') or len(parts[0]) == 1)
        line = Line(kind, [])
        if kind == 'pol':
            line = line._replace(tokens=self.tokens_in(parts[0]))
        elif kind in ('rup', 'learn'):
            line = line._replace(constraint=constraint_in(parts[0]), tokens=self.hints_in(parts[1]))
        elif kind == 'def':
            line = line._replace(variable=variable_in(parts[0][0]), constraint=constraint_in(parts[1]))
        elif kind in ('red', 'dom'):
            line = line._replace(constraint=constraint_in(parts[0]), witness=witness_in(parts[1]), proofs=self.proofs_in(parts[2:]))
        elif kind == 'sol':
            model, cut = ([literal_in(word) for word in part] for part in parts[:2])
            require(rise([abs(literal) for literal in cut]))
            line = line._replace(model=model, cut=cut, ids=[self.id_in(word) for word in parts[2]])
        else:
            line = line._replace(ids=[self.id_in(parts[0][0])] if kind == 'end' else self.rising_ids_in(parts[0]))
        self.next_id += MADE.get(kind, 1)
        return line._replace(variables=[int(digits) for digits in re.findall('x([0-9]+)', text)])

    def proofs_in(self, parts: Sequence[List[str]]) -> Proofs:
        """Goals in their order, each with its proof."""
        proofs: Proofs = {}
        for words in parts:
            require(len(words) >= 2 and words[1] in ('rup', 'pol'))
            goal = self.goal_in(words[0])
            require(not proofs or max(proofs) < goal)
            proofs[goal] = words[1], self.hints_in(words[2:]) if words[1] == 'rup' else self.tokens_in(words[2:])
        return proofs

    def rising_ids_in(self, words: Sequence[str]) -> List[int]:
        """Rising ids, one at least; in version 2 each piece of three ids or more as `first..last`."""
        pieces: List[Tuple[int, int]] = []
        for word in words:
            first, dots, last = word.partition('..') if self.rows is not None else (word, '', '')
            pieces.append((self.id_in(first), self.id_in(last if dots else first)))
            require(pieces[-1][1] - pieces[-1][0] in range(2 if dots else 0, PIECE))
        ids = [number for first_id, last_id in pieces for number in range(first_id, last_id + 1)]
        require(ids and rise(ids) and (self.rows is None or pieces == pieces_of(ids)))
        return ids

    def id_in(self, word: str) -> int:
        if self.rows is not None and word.startswith('-'):
            return self.next_id - number_in(word[1:], 1, self.next_id - self.rows - 1)
        number = number_in(word, 0, NUMBER)
        require(self.rows is None or not self.rows < number < self.next_id)
        return number

    def goal_in(self, word: str) -> Goal:
        if word in ('c', 's'):
            return word, 0
        return ('o', number_in(word[1:], 1, GOAL_OBJECTIVE)) if word.startswith('o') else ('', self.id_in(word))

    def hints_in(self, words: Sequence[str]) -> List[LogToken]:
        return [(word, 0) if word in ('~', '!') else ('id', self.id_in(word)) for word in words]

    def tokens_in(self, words: Sequence[str]) -> List[LogToken]:
        """Tokens, one at least; a word belongs to the `*`, `d` or `w` that follows it."""
        tokens: List[LogToken] = []
        for before, word, after in zip(['', *words], words, [*words[1:], '']):
            if word in OPERATORS:
                require(before and before not in OPERATORS)
            elif after in OPERATORS:
                tokens.append((after, variable_in(word) if after == 'w' else number_in(word, 0, FACTOR)))
            elif word in ('~', '!', '+', 's'):
                tokens.append((word, 0))
            else:
                tokens.append(('literal', literal_in(word)) if 'x' in word else ('id', self.id_in(word)))
        require(tokens)
        return tokens


def pieces_of(ids: Sequence[int]) -> List[Tuple[int, int]]:
    """The first and the last id of each piece of version 2, into which runs are cut from the left; short pieces stand singly."""
    pieces: List[Tuple[int, int]] = []
    for number in ids:
        if pieces and number == pieces[-1][1] + 1 and number - pieces[-1][0] < PIECE:
            pieces[-1] = pieces[-1][0], number
        else:
            pieces.append((number, number))
    return [single for first, last in pieces for single in ([(first, last)] if last > first + 1 else [(k, k) for k in range(first, last + 1)])]


# Derivations: tokens, and propagation that follows hints

Lines = Dict[int, Constraint]
Given = Dict[str, Constraint]    # what `~` and `!` name, where they name something


def named(token: LogToken, lines: Lines, given: Given) -> Constraint:
    """The line or the given constraint that a hint or a token names."""
    kind, number = token
    found = lines.get(number) if kind == 'id' else given.get(kind)
    if found is None:
        raise Refused('NoSuchId %d' % number)
    return found


def evaluate(tokens: Sequence[LogToken], lines: Lines, given: Given) -> Constraint:
    """The value of a list of tokens: the one constraint that is left on the stack."""
    stack: List[Constraint] = []
    rules = {'*': Constraint.multiply, 'd': Constraint.divide, 'w': Constraint.weaken}
    for token in tokens:
        kind, number = token
        if kind in ('id', '~', '!'):
            stack.append(named(token, lines, given))
        elif kind == 'literal':
            stack.append(Constraint({number: 1}, 0))
        else:
            refuse(len(stack) < (2 if kind == '+' else 1), 'Stack')
            top = stack.pop()
            stack.append(stack.pop().add(top) if kind == '+' else top.saturate() if kind == 's' else rules[kind](top, number))
    refuse(len(stack) != 1, 'Stack')
    return stack[0]


def propagate(constraint: Constraint, true: Set[int]) -> bool:
    """Makes each literal true that the constraint forces; whether there is a conflict instead, a negative slack."""
    slack = constraint.slack(true)
    true.update([literal for literal, c in constraint.terms.items() if c > slack and -literal not in true] if slack >= 0 else [])
    return slack < 0


def conflicts(first: Constraint, hints: Sequence[LogToken], lines: Lines, given: Given) -> bool:
    """Whether propagating a constraint, and then what each hint names, leads to a conflict."""
    true: Set[int] = set()
    return propagate(first, true) or any(propagate(named(hint, lines, given), true) for hint in hints)


# States and lines

class State:
    """What a proof over a problem has reached: live constraints by their ids, and the costs that were logged."""

    def __init__(self, problem: Problem) -> None:
        self.problem = problem
        self.variables = problem.variables
        self.live: Lines = {}
        self.holding: Dict[int, Set[int]] = {}    # of each variable, the ids of the live constraints that hold it
        self.next_id = 1
        self.logged: List[List[int]] = []
        self.ended = False
        for row in problem.rows:
            self.add_live(row)

    def add_live(self, constraint: Constraint) -> None:
        self.live[self.next_id] = constraint
        for literal in constraint.terms:
            self.holding.setdefault(abs(literal), set()).add(self.next_id)
        self.next_id += 1

    def step(self, line: Line) -> None:
        """The next state; where the line isn't legal the first condition that fails is raised."""
        refuse(self.ended, 'AfterEnd')
        if line.kind not in ('def', 'sol'):
            self.require_variables(line.variables)
        RULES[line.kind](self, line)

    def require_variables(self, variables: Iterable[int]) -> None:
        for variable in variables:
            refuse(variable > self.variables, 'VarRange %d' % variable)

    def pol(self, line: Line) -> None:
        self.add_live(evaluate(line.tokens, self.live, {}))

    def rup(self, line: Line) -> None:
        negated = line.constraint.negation()
        refuse(not conflicts(negated, line.tokens, self.live, {'~': negated}), 'RupOpen')
        self.add_live(line.constraint)

    def learn(self, line: Line) -> None:
        refuse(line.constraint != clause(line.constraint.terms), 'NotClause')
        self.rup(line)

    def define(self, line: Line) -> None:
        """Def: the variable implies that the sum reaches its degree, and its negation that the sum doesn't."""
        new, (terms, degree) = line.variable, line.constraint
        refuse(new != self.variables + 1, 'NotFresh %d' % new)
        self.require_variables([abs(literal) for literal in terms])
        against = max(0, line.constraint.total() - degree + 1)
        reached = Constraint({**terms, **({-new: degree} if degree else {})}, degree)
        missed = Constraint({**{-literal: c for literal, c in terms.items()}, **({new: against} if against else {})}, against)
        refuse(reached.size() > SIZE or missed.size() > SIZE, 'Overflow')
        self.variables = new
        self.add_live(reached)
        self.add_live(missed)

    def substitute(self, line: Line) -> None:
        """Red and Dom: each goal is closed, or proved."""
        denied = line.constraint.negation()
        for goal, required in self.goals(line):
            if required.degree > 0:
                self.prove(goal, required, denied, line.proofs.get(goal))
        self.add_live(line.constraint)

    def goals(self, line: Line) -> Iterator[Tuple[Goal, Constraint]]:
        """The goals of a substitution in their order, each with what has to hold."""
        for number in sorted({number for variable in line.witness for number in self.holding.get(variable, ())}):
            if line.kind == 'red' or number <= len(self.problem.rows):
                yield ('', number), self.live[number].substitution(line.witness)
        if line.kind == 'red':
            yield ('c', 0), line.constraint.substitution(line.witness)
        falls = [row.fall(line.witness) for row in self.problem.costs]
        for number, (terms, degree) in enumerate(falls, 1):
            yield ('o', number), normal_form(terms, degree)
        if line.kind == 'dom':
            yield ('s', 0), normal_form([term for terms, _ in falls for term in terms], 1 + sum(degree for _, degree in falls))

    def prove(self, goal: Goal, required: Constraint, denied: Constraint, proof: Optional[Tuple[str, Sequence[LogToken]]]) -> None:
        """Derives a conflict from the live lines, the goal's negation and that of the line's constraint."""
        spelled = goal[0] if goal[0] in ('c', 's') else '%s%d' % goal
        if proof is None:
            raise Refused('GoalMissing ' + spelled)
        rule, tokens = proof
        negated = required.negation()
        if rule == 'rup':
            proved = conflicts(negated, tokens, self.live, {'~': negated, '!': denied})
        else:
            derived = evaluate(tokens, self.live, {'~': negated, '!': denied})
            proved = derived.total() < derived.degree
        refuse(not proved, 'GoalOpen ' + spelled)

    def sol(self, line: Line) -> None:
        """Logs a model, and cuts off what its costs are below."""
        rows, costs, count = self.problem.rows, self.problem.costs, self.problem.variables
        for place in range(1, max(count, len(line.model)) + 1):
            refuse(place > count or place > len(line.model) or abs(line.model[place - 1]) != place, 'VarRange %d' % place)
        true, outside = set(line.model), {-literal for literal in line.cut}
        for number, constraint in enumerate(rows, 1):
            refuse(constraint.slack(true) < 0, 'SolRow %d' % number)
        self.require_variables([abs(literal) for literal in line.cut])
        for number, row in enumerate(costs, 1):
            refuse(number > len(line.ids), 'CutOpen %d' % number)
            bound = named(('id', line.ids[number - 1]), self.live, {}) if line.ids[number - 1] else Constraint({}, 0)
            least = Constraint(row.terms, row.cost(true) - row.offset)
            refuse(not bound.restriction(outside).covers(least.restriction(outside)), 'CutOpen %d' % number)
        refuse(len(line.ids) > len(costs), 'CutOpen %d' % (len(costs) + 1))
        self.add_live(clause(line.cut))
        self.logged.append([row.cost(true) for row in costs])

    def delete(self, line: Line) -> None:
        """Del and Reduce: lines that are no rows are live no longer."""
        for number in line.ids:
            refuse(number <= len(self.problem.rows) or number not in self.live, 'NoSuchId %d' % number)
        for number in line.ids:
            for literal in self.live.pop(number).terms:
                self.holding[abs(literal)].discard(number)

    def end(self, line: Line) -> None:
        contradiction = named(('id', line.ids[0]), self.live, {})
        refuse(contradiction.terms or contradiction.degree < 1, 'NotContradiction %d' % line.ids[0])
        self.ended = True


RULES: Dict[str, Callable[[State, Line], None]] = {
    'pol': State.pol, 'rup': State.rup, 'learn': State.learn, 'def': State.define, 'red': State.substitute, 'dom': State.substitute,
    'sol': State.sol, 'del': State.delete, 'reduce': State.delete, 'end': State.end}


# Acceptance

def check_log(problem: Problem, vectors: Sequence[Sequence[int]], log: Iterable[bytes]) -> None:
    """Takes a log whose lines are legal and end, and whose logged costs have one of the vectors below them; else the first fault is raised."""
    state, spelling, number = State(problem), None, 0
    for number, raw in enumerate(log, 1):
        try:
            require(raw.endswith(b'\n'))
            if spelling is None:
                spelling = Spelling(raw[:-1].decode('latin-1'))
                continue
            line = spelling.line_in(raw[:-1].decode('latin-1'))
            state.step(line)
            uncovered = line.kind == 'sol' and not any(is_below(vector, state.logged[-1]) for vector in vectors)
            refuse(uncovered, 'Uncovered %d' % len(state.logged))
        except Refused as refused:
            raise Wrong(11, 'log line %d: %s' % (number, refused)) from None
    if not state.ended:
        raise Wrong(11, 'log line %d: %s' % (number + 1, 'NoEnd' if number else 'Syntax'))


# Files and words

def read_file(name: str) -> str:
    """The bytes of a file, each as a character."""
    if os.path.getsize(name) > FILE_BYTES:
        raise Wrong(66, 'line 0: too large: Bytes')
    with open(name, 'rb') as file:
        return file.read().decode('latin-1')


def read_instance(name: str) -> Instance:
    text = read_file(name)
    return read_mcnf(text) if name.endswith('.mcnf') else OpbReader(text).read()


def answer(work: Callable[[Sequence[str]], None], words: Sequence[str]) -> Tuple[int, str]:
    """`accepted` where the work takes what the words name, else what is wrong; and the number with which the program ends."""
    try:
        if any(OPTION.match(word) for word in words):
            raise Wrong(64, 'usage')
        work(words)
        return 0, 'accepted'
    except Wrong as wrong:
        return wrong.args[0], wrong.args[1]
    except OSError:
        return 74, 'file fault'


def say(number: int, words: str) -> int:
    """Says or warns of an answer; the number with which the program ends."""
    with contextlib.suppress(OSError):
        print('scuttle: ' + words if number else words, file=sys.stderr if number else sys.stdout, flush=True)
        return number
    return number or say(74, 'file fault')


def check_files(words: Sequence[str]) -> None:
    """Takes files IN, LIST and LOG that show that the list is the front's; what is wrong first is raised."""
    if len(words) != 3 or len(set(words)) < 3 or not words[0].endswith(ENDINGS):
        raise Wrong(64, 'usage')
    instance = read_instance(words[0])
    vectors = [instance.problem_vector(costs) for costs, _ in check_list(instance, read_file(words[1]))]
    with open(words[2], 'rb') as log:
        check_log(normal_form_of_instance(instance), vectors, log)


def main(arguments: Optional[Sequence[str]] = None) -> int:
    return say(*answer(check_files, sys.argv[1:] if arguments is None else arguments))


if __name__ == '__main__':
    sys.exit(main())
