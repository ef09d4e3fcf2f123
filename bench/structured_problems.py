"""Problems with much structure, in clauses: two machines that count the same events by different circuits, step by step; adders and multipliers
that should be equal; inputs that show a fault of a circuit; decision rules that explain samples. Each is made from a seed, the same on every
machine and by every Python.

usage: bench/structured --instances FOLDER     writes them all
"""
from typing import Callable, Dict, List, Tuple

from alike_problems import Numbers, Problem

Word = List[int]


class Circuit(Problem):
    """Gates, each a variable with the clauses that tell its value (Tseitin 1968)."""

    def __init__(self, costs: int) -> None:
        super().__init__(costs)
        self.true = self.new()
        self.clause(self.true)

    def both(self, one: int, other: int) -> int:
        gate = self.new()
        self.clause(-gate, one)
        self.clause(-gate, other)
        self.clause(gate, -one, -other)
        return gate

    def either(self, one: int, other: int) -> int:
        return -self.both(-one, -other)

    def unlike(self, one: int, other: int) -> int:
        gate = self.new()
        self.clause(-gate, one, other)
        self.clause(-gate, -one, -other)
        self.clause(gate, -one, other)
        self.clause(gate, one, -other)
        return gate

    def chosen(self, choice: int, one: int, other: int) -> int:
        """The one where the choice is true, else the other."""
        gate = self.new()
        self.clause(-choice, -one, gate)
        self.clause(-choice, one, -gate)
        self.clause(choice, -other, gate)
        self.clause(choice, other, -gate)
        return gate

    def added(self, one: int, other: int, carry: int) -> Tuple[int, int]:
        """Sum and carry of three bits."""
        differ = self.unlike(one, other)
        return self.unlike(differ, carry), self.either(self.both(one, other), self.both(differ, carry))

    def ripple_sum(self, one: Word, other: Word, carry: int) -> Tuple[Word, int]:
        """The sum, bit after bit from the lowest, and its carry."""
        bits = []
        for x, y in zip(one, other):
            bit, carry = self.added(x, y, carry)
            bits.append(bit)
        return bits, carry

    def select_sum(self, one: Word, other: Word, carry: int, block: int) -> Tuple[Word, int]:
        """The same by blocks, each added for both carries, of which one is chosen."""
        bits: Word = []
        for at in range(0, len(one), block):
            x, y = one[at:at + block], other[at:at + block]
            without, carry_without = self.ripple_sum(x, y, -self.true)
            with_one, carry_with = self.ripple_sum(x, y, self.true)
            bits += [self.chosen(carry, p, q) for p, q in zip(with_one, without)]
            carry = self.chosen(carry, carry_with, carry_without)
        return bits, carry

    def product(self, one: Word, other: Word) -> Word:
        """The product by rows of adders."""
        sums: Word = [-self.true] * len(one)
        bits: Word = []
        for y in other:
            row, carry = self.ripple_sum(sums, [self.both(x, y) for x in one], -self.true)
            bits.append(row[0])
            sums = row[1:] + [carry]
        return bits + sums

    def some_differ(self, one: Word, other: Word) -> None:
        self.clause(*[self.unlike(x, y) for x, y in zip(one, other)])


def counters(bits: int, depth: int) -> Problem:
    """A binary counter and a Gray counter of the same events, so many steps long: is there a run after which they differ? There is none."""
    made = Circuit(0)
    low = -made.true
    binary, gray = [low] * bits, [low] * bits
    for _ in range(depth):
        event = [made.new(), made.new()] + [low] * (bits - 2)
        binary, _carry = made.ripple_sum(binary, event, low)
        plain, _carry = made.select_sum(of_gray(made, gray), event, low, 3)
        gray = [made.unlike(plain[at], plain[at + 1]) if at + 1 < bits else plain[at] for at in range(bits)]
    made.some_differ(of_gray(made, gray), binary)
    return made


def of_gray(made: Circuit, gray: Word) -> Word:
    """The binary number of a Gray code."""
    bits, last = list(gray), -made.true
    for at in reversed(range(len(gray))):
        last = made.unlike(last, gray[at])
        bits[at] = last
    return bits


def adders(bits: int, block: int) -> Problem:
    """Two adders of different design: are there numbers with unlike sums? There are none."""
    made = Circuit(0)
    one, other = made.some(bits), made.some(bits)
    plain, carry = made.ripple_sum(one, other, -made.true)
    selected, other_carry = made.select_sum(one, other, -made.true, block)
    made.some_differ(plain + [carry], selected + [other_carry])
    return made


def multipliers(bits: int) -> Problem:
    """Is a product another one if its factors change places? It isn't."""
    made = Circuit(0)
    one, other = made.some(bits), made.some(bits)
    made.some_differ(made.product(one, other), made.product(other, one))
    return made


def test_patterns(bits: int, seed: int) -> Problem:
    """Inputs for which a multiplier with one wrong gate differs from the right one; costs: ones of each factor, weighted ones of the outputs."""
    numbers = Numbers(seed)
    made = Circuit(3)
    one, other = made.some(bits), made.some(bits)
    right = made.product(one, other)
    wrong_row, wrong_bit = numbers.within(1, bits - 1), numbers.below(bits)
    sums: Word = [-made.true] * bits
    outputs: Word = []
    for at, y in enumerate(other):
        row, carry = [], -made.true
        for bit, (s, x) in enumerate(zip(sums, one)):
            product = made.both(x, y)
            differ = made.unlike(s, product)
            row.append(made.either(differ, carry) if (at, bit) == (wrong_row, wrong_bit) else made.unlike(differ, carry))
            carry = made.either(made.both(s, product), made.both(differ, carry))
        outputs.append(row[0])
        sums = row[1:] + [carry]
    made.some_differ(right, outputs + sums)
    for x in one:
        made.cost(0, 1, x)
    for y in other:
        made.cost(1, numbers.within(1, 3), y)
    for bit in right:
        made.cost(2, numbers.within(1, 3), bit)
    return made


def decision_rules(features: int, samples: int, rules: int, seed: int) -> Problem:
    """So many rules, each a conjunction of features, one of which holds in each positive sample; costs: literals used, negative samples in which
    one holds."""
    numbers = Numbers(seed)
    made = Problem(2)
    table = [[numbers.chance(500) for _ in range(features)] for _ in range(samples)]
    positive = [(row[0] and row[1] or row[2] and row[3]) != numbers.chance(120) for row in table]
    wants = [[(made.new(), made.new()) for _ in range(features)] for _ in range(rules)]
    for rule in wants:
        for held, denied in rule:
            made.clause(-held, -denied)
            made.cost(0, 1, held)
            made.cost(0, 1, denied)
    for row, is_positive in zip(table, positive):
        holds = []
        for rule in wants:
            against = [denied if value else held for (held, denied), value in zip(rule, row)]
            hold = made.new()
            for literal in against:
                made.clause(-hold, -literal)
            made.clause(hold, *against)
            holds.append(hold)
        if is_positive:
            made.clause(*holds)
        else:
            wrong = made.new()
            made.cost(1, 1, wrong)
            for hold in holds:
                made.clause(-hold, wrong)
    return made


PROBLEMS: Dict[str, Callable[[], Problem]] = {
    'counters-8-12': lambda: counters(8, 12),
    'counters-9-20': lambda: counters(9, 20),
    'counters-10-30': lambda: counters(10, 30),
    'adders-256': lambda: adders(256, 8),
    'adders-768': lambda: adders(768, 16),
    'multipliers-6': lambda: multipliers(6),
    'multipliers-7': lambda: multipliers(7),
    'patterns-6': lambda: test_patterns(6, 1),
    'patterns-8': lambda: test_patterns(8, 1),
    'rules-40': lambda: decision_rules(12, 40, 2, 8),
    'rules-50': lambda: decision_rules(13, 50, 2, 8),
}
