"""Problems with things that are alike: equal items, parallel links, frequencies, machines, people, pigeons and holes. Each is made from a
seed, the same on every machine and by every Python.

usage: bench/alike --instances FOLDER     writes them all
"""
import itertools
from typing import Callable, Dict, List, Sequence, Tuple

Terms = List[Tuple[int, int]]
WORD = 2 ** 64 - 1


class Numbers:
    """Numbers by splitmix64."""

    def __init__(self, seed: int) -> None:
        self.state = (seed * 0x9E3779B97F4A7C15 + 0x1234567) & WORD
        for _ in range(4):
            self.next()

    def next(self) -> int:
        self.state = (self.state + 0x9E3779B97F4A7C15) & WORD
        mixed = self.state
        mixed = ((mixed ^ (mixed >> 30)) * 0xBF58476D1CE4E5B9) & WORD
        mixed = ((mixed ^ (mixed >> 27)) * 0x94D049BB133111EB) & WORD
        return mixed ^ (mixed >> 31)

    def below(self, bound: int) -> int:
        return (self.next() >> 11) % bound

    def within(self, least: int, most: int) -> int:
        """One of least..most, both included."""
        return least + self.below(most - least + 1)

    def chance(self, permille: int) -> bool:
        return self.below(1000) < permille


class Problem:
    """Variables from 1, costs, and rows: a sum, how it is compared, a bound. A negative literal is a negated variable."""

    def __init__(self, costs: int) -> None:
        self.variables = 0
        self.costs: List[Terms] = [[] for _ in range(costs)]
        self.rows: List[Tuple[Terms, str, int]] = []

    def new(self) -> int:
        self.variables += 1
        return self.variables

    def some(self, count: int) -> List[int]:
        return [self.new() for _ in range(count)]

    def cost(self, objective: int, weight: int, literal: int) -> None:
        self.costs[objective].append((weight, literal))

    def at_least(self, terms: Terms, bound: int) -> None:
        self.rows.append((terms, '>=', bound))

    def at_most(self, terms: Terms, bound: int) -> None:
        self.rows.append((terms, '<=', bound))

    def equal(self, terms: Terms, bound: int) -> None:
        self.rows.append((terms, '=', bound))

    def clause(self, *literals: int) -> None:
        self.at_least(each(literals), 1)

    def falling(self, variables: Sequence[int]) -> None:
        """None of them without the one before it."""
        for one, other in zip(variables, variables[1:]):
            self.clause(one, -other)

    def text(self) -> str:
        lines = ['* #variable= %d #constraint= %d' % (self.variables, len(self.rows))]
        lines += ['min: %s;' % spelled(terms) for terms in self.costs]
        lines += ['%s%s %d ;' % (spelled(terms), sign, bound) for terms, sign, bound in self.rows]
        return '\n'.join(lines) + '\n'


def each(literals: Sequence[int], factor: int = 1) -> Terms:
    return [(factor, literal) for literal in literals]


def spelled(terms: Terms) -> str:
    return ''.join('%+d %sx%d ' % (weight, '~' if literal < 0 else '', abs(literal)) for weight, literal in terms)


def items(numbers: Numbers, kinds: int, copies: int, costs: int) -> Problem:
    """A knapsack: kinds of items, each several times."""
    made, weights = Problem(costs), []
    for _ in range(kinds):
        weight, values = numbers.within(3, 12), [numbers.within(1, 9) for _ in range(costs)]
        for item in made.some(copies):
            weights.append((weight, item))
            for objective, value in enumerate(values):
                made.cost(objective, value, -item)
    made.at_most(weights, sum(weight for weight, _ in weights) // 2)
    return made


def pairs_of(numbers: Numbers, nodes: int, extra: int) -> List[Tuple[int, int]]:
    """A ring of nodes, and some pairs besides."""
    pairs = [(node, (node + 1) % nodes) for node in range(nodes)]
    while len(pairs) < nodes + extra:
        one, other = numbers.below(nodes), numbers.below(nodes)
        if one != other and (one, other) not in pairs and (other, one) not in pairs:
            pairs.append((one, other))
    return pairs


def links(numbers: Numbers, nodes: int, parallel: int, extra: int) -> Problem:
    """A network of equal parallel links: what leaves some nodes together has a capacity. Money; latency."""
    made, pairs = Problem(2), pairs_of(numbers, nodes, extra)
    kinds = [(numbers.within(2, 9), numbers.within(1, 9), numbers.within(2, 5)) for _ in pairs]
    places = [made.some(parallel) for _ in pairs]
    needs = [numbers.within(2, 5) for _ in range(nodes)]
    for cut in range(1, 2 ** (nodes - 1)):
        inside = {node for node in range(nodes) if cut >> node & 1}
        if len(inside) > 3 and not numbers.chance(200):
            continue
        wanted = [needs[node] for node in inside]
        need = sum(wanted) if len(inside) <= 2 else max(wanted) + numbers.within(1, 5)
        across = [(kind[2], link) for pair, kind, row in zip(pairs, kinds, places)
                  if (pair[0] in inside) != (pair[1] in inside) for link in row]
        made.at_least(across, min(need, sum(capacity for capacity, _ in across)))
    for kind, row in zip(kinds, places):
        for link in row:
            made.cost(0, kind[0], link)
            made.cost(1, kind[1], link)
    return made


def colours(numbers: Numbers, nodes: int, count: int, apart: int, near: int) -> Problem:
    """Frequencies: neighbours have different ones, and near nodes with the same one cost. Frequencies used; interference."""
    made = Problem(2)
    places = [made.some(count) for _ in range(nodes)]
    used = made.some(count)
    for row in places:
        made.equal(each(row), 1)
    for node, row in enumerate(places):
        for place, colour in zip(row, used):
            made.clause(-place, colour)
        for other in places[:node]:
            if numbers.chance(apart):
                for one, two in zip(row, other):
                    made.clause(-one, -two)
            elif numbers.chance(near):
                same = made.new()
                made.cost(1, numbers.within(1, 4), same)
                for one, two in zip(row, other):
                    made.clause(-one, -two, same)
    for colour in used:
        made.cost(0, 1, colour)
    return made


def machines(numbers: Numbers, jobs: int, count: int, room: int, kinds: int = 0) -> Problem:
    """Jobs, of some kinds or each another, on equal machines. Money, for machines and for jobs given away; jobs given away."""
    made = Problem(2)
    used = made.some(count)
    drawn = [(numbers.within(2, 9), numbers.within(2, 6), numbers.within(1, 3)) for _ in range(kinds or jobs)]
    sizes = [drawn[job % len(drawn)] for job in range(jobs)]
    if kinds:
        sizes.sort()
    places = [made.some(count) for _ in range(jobs)]
    away = made.some(jobs)
    for row, left in zip(places, away):
        made.equal(each(row + [left]), 1)
    for machine, runs in enumerate(used):
        made.at_most([(size[0], row[machine]) for size, row in zip(sizes, places)] + [(-room, runs)], 0)
    for runs in used:
        made.cost(0, 7, runs)
    for size, left in zip(sizes, away):
        made.cost(0, size[1], left)
        made.cost(1, size[2], left)
    return made


DAYS, SHIFTS, MOST, PAID = 7, 2, 5, 4


def one_week(made: Problem, shifts: List[List[int]]) -> None:
    """What binds one person: one shift a day, none in the morning after a night, a day off."""
    for day, row in enumerate(shifts):
        made.at_most(each(row), 1)
        if day + 1 < DAYS:
            made.clause(-row[-1], -shifts[day + 1][0])
    made.at_most(each(list(itertools.chain(*shifts))), MOST)
    for day in range(DAYS - 5):
        made.at_most(each(list(itertools.chain(*shifts[day:day + 6]))), 5)


def wanted_people(numbers: Numbers, made: Problem, week: List[List[List[int]]], groups: int, people: int, demand: int) -> None:
    """So many people for each shift, or a cost; and some of one group."""
    for day in range(DAYS):
        for shift in range(SHIFTS):
            need = demand * groups + numbers.chance(400)
            missing = made.some(2)
            made.at_least(each([person[day][shift] for person in week] + missing), need)
            made.falling(missing)
            made.cost(1, numbers.within(1, 3), missing[0])
            made.cost(1, numbers.within(4, 6), missing[1])
            group = numbers.below(groups) * people
            made.at_least(each([person[day][shift] for person in week[group:group + people]]), 1 + numbers.chance(300))


def most_and_least_nights(made: Problem, week: List[List[List[int]]]) -> None:
    """The third cost: how far apart the numbers of nights are."""
    top, low = made.some(MOST), made.some(MOST)
    made.falling(top)
    made.falling(low)
    for person in week:
        nights = [row[-1] for row in person]
        made.at_least(each(top) + each(nights, -1), 0)
        made.at_least(each(nights) + each(low, -1), 0)
    for one in top:
        made.cost(2, 1, one)
    for one in low:
        made.cost(2, 1, -one)


def roster(numbers: Numbers, groups: int, people: int, demand: int, fair: bool) -> Problem:
    """A week of groups of people with equal skills and wages. Overtime; shifts without people; and, if fair, the spread of nights."""
    made = Problem(3 if fair else 2)
    week = [[made.some(SHIFTS) for _ in range(DAYS)] for _ in range(groups * people)]
    for person in week:
        one_week(made, person)
    wanted_people(numbers, made, week, groups, people, demand)
    wages = [numbers.within(1, 3) for _ in range(groups)]
    for number, person in enumerate(week):
        over = made.some(MOST - PAID)
        made.falling(over)
        made.at_most(each(list(itertools.chain(*person))) + each(over, -1), PAID)
        for more, one in enumerate(over):
            made.cost(0, wages[number // people] + more, one)
    if fair:
        most_and_least_nights(made, week)
    return made


def pigeons(holes: int) -> Problem:
    """One pigeon more than there are holes: clauses that no assignment keeps."""
    made = Problem(0)
    places = [made.some(holes) for _ in range(holes + 1)]
    for row in places:
        made.clause(*row)
    for hole in range(holes):
        for one, other in itertools.combinations(places, 2):
            made.clause(-one[hole], -other[hole])
    return made


Maker = Callable[[], Problem]
PROBLEMS: Dict[str, Maker] = {
    'kn12-21': lambda: items(Numbers(21), kinds=10, copies=6, costs=2),
    'kn8o3-21': lambda: items(Numbers(21), kinds=8, copies=4, costs=3),
    'kn8o3-22': lambda: items(Numbers(22), kinds=8, copies=4, costs=3),
    'li9-11': lambda: links(Numbers(11), nodes=8, parallel=3, extra=7),
    'li10-21': lambda: links(Numbers(21), nodes=9, parallel=3, extra=8),
    'co30-21': lambda: colours(Numbers(21), nodes=30, count=8, apart=350, near=150),
    'co34-21': lambda: colours(Numbers(21), nodes=34, count=7, apart=220, near=150),
    'ma24-21': lambda: jobs_on_machines(21, kinds=0),
    'ma24-22': lambda: jobs_on_machines(22, kinds=0),
    'ma24k-21': lambda: jobs_on_machines(21, kinds=6),
    'roA-31': lambda: roster(Numbers(31), groups=2, people=4, demand=2, fair=True),
    'roB-31': lambda: roster(Numbers(31), groups=1, people=9, demand=4, fair=True),
    'roB-32': lambda: roster(Numbers(32), groups=1, people=9, demand=4, fair=True),
    'roC-31': lambda: roster(Numbers(31), groups=2, people=5, demand=2, fair=False),
    'pigeons-8': lambda: pigeons(8),
    'pigeons-12': lambda: pigeons(12),
}

MACHINE_SEEDS = range(21, 41)


def jobs_on_machines(seed: int, kinds: int) -> Problem:
    """24 jobs on seven machines; of six kinds there is less room."""
    return machines(Numbers(seed), jobs=24, count=7, room=22 if kinds else 25, kinds=kinds)


def machine_problems() -> Dict[str, Maker]:
    """One of each seed with unlike jobs, and one with jobs of six kinds."""
    made: Dict[str, Maker] = {}
    for name, kinds in (('ma24', 0), ('ma24k', 6)):
        for seed in MACHINE_SEEDS:
            made['%s-%d' % (name, seed)] = lambda seed=seed, kinds=kinds: jobs_on_machines(seed, kinds)
    return made
