"""The problems of tests/joined: small ones of each family of bench/, two examples, budgets and depots; and how each is solved."""
import os
from typing import Callable, List, NamedTuple, Optional, Sequence

from alike_problems import Numbers, Problem, colours, each, items, links, machines, pigeons
from alike_problems import roster as alike_roster
from planned_problems import assignment, covering, facilities, knapsack, nurses, overlaps, projects, roster, skills, towns
from service_problems import (cables, crews, investments, jobs, lines, places, portfolio, release, sensors, servers, tasks, timetable,
                              tournament, way)

EXAMPLES = os.path.join(os.path.dirname(os.path.abspath(__file__)), '..', '..', 'examples')
LOWER, TURNS, TURNS_OF_ALL = '--search lower-bounding', '--search turns --turns 12', '--search turns --turns 132'
BIOPTSAT, NEWER = '--search bioptsat', '--log-version 2'


class Case(NamedTuple):
    """A problem, about how many parts it is cut into, the words with which it and they are solved, and further words for the whole. With some
    variables the parts are their values, as where there is one compromise alone."""

    name: str
    make: Callable[[], str]
    parts: int
    words: str = ''
    whole: str = ''
    by: Optional[Sequence[int]] = None


def budgets(count: int, rows: int, costs: int, seed: int) -> Problem:
    """Choices within budgets of half of what all would take. Costs: by turns what is missed and what is chosen."""
    numbers, made = Numbers(seed), Problem(costs)
    chosen = made.some(count)
    for objective in range(costs):
        for one in chosen:
            made.cost(objective, numbers.within(1, 40), one if objective % 2 else -one)
    for _ in range(rows):
        prices = [(numbers.within(3, 60), one) for one in chosen]
        made.at_most(prices, sum(price for price, _ in prices) // 2)
    return made


def depots(customers: int, count: int, seed: int) -> Problem:
    """Each customer is served by one depot; a depot has one of three sizes, or isn't built. Costs: rent, ways by demand."""
    numbers, made = Numbers(seed), Problem(2)
    where, homes = places(numbers, count), places(numbers, customers)
    sizes = [made.some(3) for _ in where]
    serves = [made.some(count) for _ in homes]
    demands = [numbers.within(2, 9) for _ in homes]
    for at, built in enumerate(sizes):
        made.at_most(each(built), 1)
        made.at_most([(demand, row[at]) for demand, row in zip(demands, serves)]
                     + [(-room, size) for room, size in zip((12, 22, 36), built)], 0)
        for rent, size in zip((22, 34, 48), built):
            made.cost(0, rent, size)
    for home, demand, row in zip(homes, demands, serves):
        made.equal(each(row), 1)
        for place, one in zip(where, row):
            made.cost(1, demand * way(home, place) // 10, one)
    return made


def example(name: str) -> Callable[[], str]:
    """The text of an example."""
    def read() -> str:
        with open(os.path.join(EXAMPLES, name + '.opb'), encoding='utf-8') as file:
            return file.read()
    return read


def of(make: Callable[..., Problem], *sizes: int) -> Callable[[], str]:
    """The text of a problem that is made by these sizes and a seed."""
    return lambda: make(*sizes).text()


def of_alike(make: Callable[..., Problem], seed: int, *sizes: int) -> Callable[[], str]:
    """The same of things that are alike."""
    return lambda: make(Numbers(seed), *sizes).text()


CASES: List[Case] = [
    Case('network_region', example('network_region'), 4),
    Case('roofs', example('roofs'), 3, NEWER),
    Case('budgets-24', of(budgets, 24, 3, 1, 1), 3),
    Case('budgets-16', of(budgets, 16, 2, 2, 1), 4),
    Case('budgets-12', of(budgets, 12, 2, 3, 1), 3, NEWER),
    Case('depots-10', of(depots, 10, 3, 3), 4),
    Case('depots-8', of(depots, 8, 3, 2), 3, BIOPTSAT),
    Case('roster', of(roster, 8, 1, 2, 1), 3),
    Case('nurses', of(nurses, 5, 1, 1), 4, LOWER, by=(1, 8)),
    Case('skills', of(skills, 6, 5, 2, 2, 3), 4),
    Case('towns', of(towns, 6, 1), 4, NEWER),
    Case('facilities', of(facilities, 6, 10, 2), 3),
    Case('projects', of(projects, 20, 3), 6),
    Case('knapsack', of(knapsack, 20, 1), 5),
    Case('assignment', of(assignment, 4, 1), 3, BIOPTSAT + ' ' + NEWER),
    Case('covering', of(covering, 8, 12, 1), 3, TURNS_OF_ALL),
    Case('overlaps', of(overlaps, 14, 6, 3, 1), 4),
    Case('timetable', of(timetable, 7, 2, 3, 4, 1), 4, LOWER, by=(1, 2)),
    Case('tournament', of(tournament, 4, 1), 3, TURNS, by=(1, 4)),
    Case('crews', of(crews, 6, 20, 1), 3, LOWER),
    Case('jobs', of(jobs, 4, 2, 10, 1), 3, LOWER),
    Case('servers', of(servers, 8, 4, 1), 3, TURNS),
    Case('tasks', of(tasks, 3, 10, 1), 3),
    Case('investments', of(investments, 10, 3, 1), 4, NEWER),
    Case('release', of(release, 10, 10, 1), 3, '--boost'),
    Case('sensors', of(sensors, 8, 16, 4, 1), 3, '--boost ' + NEWER, '--harden'),
    Case('lines', of(lines, 6, 3, 3), 2),
    Case('cables', of(cables, 3, 3, 1), 2, TURNS_OF_ALL),
    Case('portfolio', of(portfolio, 12, 1), 3),
    Case('items', of_alike(items, 21, 5, 3, 2), 3),
    Case('links', of_alike(links, 11, 5, 2, 2), 2, LOWER),
    Case('colours', of_alike(colours, 23, 8, 4, 300, 350), 4, BIOPTSAT, by=(1, 6)),
    Case('machines', of_alike(machines, 21, 12, 4, 22), 3),
    Case('people', of_alike(alike_roster, 31, 1, 4, 1, 0), 2, TURNS),
    Case('pigeons', of(pigeons, 8), 4, LOWER),
]
