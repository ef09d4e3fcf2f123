"""Problems as planners model them, with rows that count: rosters of people and of nurses, rosters with skills each day, towns with links,
facilities, projects within budgets, knapsacks, assignments, coverings, and sums that overlap. Each is made from a seed, the same on every
machine and by every Python.

usage: bench/planned --instances FOLDER     writes them all
"""
import math
from typing import Callable, Dict, List, Sequence

from alike_problems import Numbers, Problem, Terms, each

EARLY, LATE = 0, 1


def sampled(numbers: Numbers, choices: Sequence[int], count: int) -> List[int]:
    """So many of the choices, each once."""
    left = list(choices)
    for at in range(len(left) - 1, 0, -1):
        other = numbers.below(at + 1)
        left[at], left[other] = left[other], left[at]
    return left[:count]


def shifts_of(made: Problem, people: int, days: int, shifts: int) -> List[List[List[int]]]:
    """Of each person, each day and each shift, whether the person works then: one shift a day at most."""
    works = [[made.some(shifts) for _ in range(days)] for _ in range(people)]
    for person in works:
        for day in person:
            made.at_most(each(day), 1)
    return works


def roster(people: int, weeks: int, costs: int, seed: int) -> Problem:
    """Two shifts a day, at least one skilled person in each; five days a week and five in a row at most, none early after a late one. Costs: pay,
    wishes, and weekends on which somebody works."""
    numbers, made, days = Numbers(seed), Problem(costs), 7 * weeks
    works = shifts_of(made, people, days, 2)
    skilled = [person for person in works if numbers.chance(350)] or works[:1]
    for day in range(days):
        for shift, share in ((EARLY, 3), (LATE, 2)):
            need = max(1, people * share // 10 - (day % 7 > 4))
            made.at_least(each([person[day][shift] for person in works]), need)
            made.clause(*[person[day][shift] for person in skilled])
    for person in works:
        for day in range(days - 1):
            made.clause(-person[day][LATE], -person[day + 1][EARLY])
        for day in range(days - 5):
            made.at_most(each(sum(person[day:day + 6], [])), 5)
        for week in range(weeks):
            made.at_most(each(sum(person[7 * week:7 * week + 7], [])), 5)
        pay = numbers.within(2, 9)
        for day in person:
            wish = numbers.within(1, 3) if numbers.chance(120) else 0
            for shift in day:
                made.cost(0, pay, shift)
                if wish:
                    made.cost(1, wish, shift)
    if costs > 2:
        count_weekends(made, works, weeks)
    return made


def count_weekends(made: Problem, works: List[List[List[int]]], weeks: int) -> None:
    """The third cost: for each person, the weekends on which they work."""
    for person in works:
        for week in range(weeks):
            weekend = made.new()
            for shift in person[7 * week + 5] + person[7 * week + 6]:
                made.clause(-shift, weekend)
            made.cost(2, 1, weekend)


def nurses(people: int, weeks: int, seed: int) -> Problem:
    """Three shifts a day, none before its rest; an agency fills gaps. Costs: the agency, wishes, the heaviest load of nights."""
    numbers, made, days = Numbers(seed), Problem(3), 7 * weeks
    works = shifts_of(made, people, days, 3)
    for day in range(days):
        for shift, share in enumerate((3, 3, 2)):
            agency = made.some(2)
            made.falling(agency)
            made.at_least(each([person[day][shift] for person in works] + agency), people * share // 15)
            for person in agency:
                made.cost(0, 1, person)
    heaviest = made.some(2 * weeks)
    made.falling(heaviest)
    for person in works:
        for day, after in zip(person, person[1:]):
            for shift in (1, 2):
                for early in range(shift):
                    made.clause(-day[shift], -after[early])
        for week in range(weeks):
            made.at_most(each(sum(person[7 * week:7 * week + 7], [])), 5)
        made.at_most(each([day[2] for day in person]) + each(heaviest, -1), 2 * weeks)
        for day in person:
            if numbers.chance(150):
                made.cost(1, numbers.within(1, 3), day[numbers.below(3)])
    for step in heaviest:
        made.cost(2, 1, step)
    return made


def skills(people: int, days: int, shifts: int, kinds: int, seed: int) -> Problem:
    """Each shift needs two people and one of each skill; five days of seven at most, none early after a late one. Costs: pay, wishes."""
    numbers, made = Numbers(seed), Problem(2)
    works = shifts_of(made, people, days, shifts)
    has = [[numbers.chance(400) for _ in range(kinds)] for _ in range(people)]
    for kind in range(kinds):
        for person in sampled(numbers, range(people), 3):
            has[person][kind] = True
    for day in range(days):
        for shift in range(shifts):
            made.at_least(each([person[day][shift] for person in works]), 2)
            for kind in range(kinds):
                made.clause(*[person[day][shift] for person, skill in zip(works, has) if skill[kind]])
    for person in works:
        for day, after in zip(person, person[1:]):
            made.clause(-day[-1], -after[0])
        for day in range(max(1, days - 6)):
            made.at_most(each(sum(person[day:day + 7], [])), 5)
        pay = numbers.within(18, 40)
        for day in person:
            for shift in day:
                made.cost(0, pay + 4 * (shift == day[-1]), shift)
                if numbers.chance(300):
                    made.cost(1, numbers.within(1, 3), shift)
    return made


def towns(count: int, seed: int) -> Problem:
    """Each town wants two links, by fibre or by radio, out of those to its four nearest and from whom it is near. Costs: money, outages."""
    numbers, made = Numbers(seed), Problem(2)
    places = [(numbers.below(100), numbers.below(100)) for _ in range(count)]

    def length(one: int, other: int) -> int:
        (left, top), (right, bottom) = places[one], places[other]
        return math.isqrt((left - right) ** 2 + (top - bottom) ** 2)

    pairs = set()
    for town in range(count):
        others = sorted((other for other in range(count) if other != town), key=lambda other: (length(town, other), other))
        pairs.update((min(town, other), max(town, other)) for other in others[:4])
    links: List[List[int]] = [[] for _ in range(count)]
    for one, other in sorted(pairs):
        fibre, radio = made.some(2)
        made.at_most(each([fibre, radio]), 1)
        made.cost(0, (3 * length(one, other) + 10) // 10, fibre)
        made.cost(0, (length(one, other) + 8) // 10, radio)
        made.cost(1, 1, fibre)
        made.cost(1, 2 + length(one, other) // 10, radio)
        for town in (one, other):
            links[town] += [fibre, radio]
    for chosen in links:
        made.at_least(each(chosen), 2)
    return made


def facilities(sites: int, clients: int, seed: int) -> Problem:
    """Each client is served by one of the five sites nearest to it, if that is open and large enough. Costs: ways, openings."""
    numbers, made, near = Numbers(seed), Problem(2), 5
    places = [(numbers.below(100), numbers.below(100)) for _ in range(sites)]
    homes = [(numbers.below(100), numbers.below(100)) for _ in range(clients)]
    is_open = made.some(sites)
    demands = [numbers.within(1, 9) for _ in range(clients)]
    loads: List[Terms] = [[] for _ in range(sites)]
    for home, demand in zip(homes, demands):
        ways = sorted((abs(place[0] - home[0]) + abs(place[1] - home[1]), site) for site, place in enumerate(places))[:near]
        serves = made.some(near)
        for serve, (way, site) in zip(serves, ways):
            made.clause(-serve, is_open[site])
            made.cost(0, 1 + way // 5, serve)
            loads[site].append((demand, serve))
        made.equal(each(serves), 1)
    room = max(9, sum(demands) * 5 // (2 * sites))
    for site, load in zip(is_open, loads):
        made.at_most(load + [(-room, site)], 0)
        made.cost(1, numbers.within(10, 30), site)
    return made


def projects(count: int, seed: int) -> Problem:
    """A third of the projects within three budgets; some need another one, some exclude one. Costs: value that is missed, risk."""
    numbers, made = Numbers(seed), Problem(2)
    chosen = made.some(count)
    loads: List[Terms] = [[], [], []]
    made.equal(each(chosen), count // 3)
    for at, project in enumerate(chosen):
        if at > 10 and numbers.chance(250):
            made.clause(-project, chosen[numbers.below(at)])
        other = chosen[numbers.below(count)]
        if numbers.chance(80) and other != project:
            made.clause(-project, -other)
        made.cost(0, numbers.within(5, 60), -project)
        made.cost(1, numbers.within(1, 9), project)
        for load, (least, most) in zip(loads, ((10, 90), (1, 20), (1, 12))):
            load.append((numbers.within(least, most), project))
    for load, budget in zip(loads, (1800, 360, 230)):
        made.at_most(load, budget * count // 120)
    return made


def knapsack(items: int, seed: int) -> Problem:
    """Half of the weight of all items is room for some. Costs: two values that are missed."""
    numbers, made = Numbers(seed), Problem(2)
    taken = made.some(items)
    for objective in range(2):
        for item in taken:
            made.cost(objective, numbers.within(1, 40), -item)
    weights = [(numbers.within(1, 40), item) for item in taken]
    made.at_most(weights, sum(weight for weight, _ in weights) // 2)
    return made


def assignment(size: int, seed: int) -> Problem:
    """Each of so many does one thing, and each thing is done by one. Two costs."""
    numbers, made = Numbers(seed), Problem(2)
    does = [made.some(size) for _ in range(size)]
    for at in range(size):
        made.equal(each(does[at]), 1)
        made.equal(each([row[at] for row in does]), 1)
    for objective in range(2):
        for row in does:
            for one in row:
                made.cost(objective, numbers.within(1, 20), one)
    return made


def covering(elements: int, sets: int, seed: int) -> Problem:
    """Each element is in four to ten sets, one of which is taken. Two costs."""
    numbers, made = Numbers(seed), Problem(2)
    taken = made.some(sets)
    for _ in range(elements):
        made.clause(*sorted(sampled(numbers, taken, numbers.within(4, 10))))
    for objective in range(2):
        for one in taken:
            made.cost(objective, numbers.within(1, 50), one)
    return made


def overlaps(variables: int, rows: int, costs: int, seed: int) -> Problem:
    """Of eight variables at least three, over and over."""
    numbers, made = Numbers(seed), Problem(costs)
    chosen = made.some(variables)
    for _ in range(rows):
        made.at_least(each(sorted(sampled(numbers, chosen, 8))), 3)
    for objective in range(costs):
        for one in chosen:
            made.cost(objective, numbers.within(1, 12), one)
    return made


PROBLEMS: Dict[str, Callable[[], Problem]] = {
    'roster-12-2': lambda: roster(12, 2, 2, 31),
    'roster-20-4': lambda: roster(20, 4, 2, 1),
    'roster-20-4-three': lambda: roster(20, 4, 3, 1),
    'nurses-15-2': lambda: nurses(15, 2, 4),
    'nurses-15-4': lambda: nurses(15, 4, 4),
    'skills-12-14': lambda: skills(12, 14, 2, 3, 2),
    'skills-20-14': lambda: skills(20, 14, 3, 3, 3),
    'skills-24-21': lambda: skills(24, 21, 3, 3, 5),
    'skills-40-28': lambda: skills(40, 28, 3, 4, 4),
    'towns-30': lambda: towns(30, 1),
    'towns-50': lambda: towns(50, 1),
    'towns-80': lambda: towns(80, 1),
    'facilities-10-36': lambda: facilities(10, 36, 1),
    'facilities-16-60': lambda: facilities(16, 60, 1),
    'projects-60': lambda: projects(60, 11),
    'projects-120': lambda: projects(120, 11),
    'knapsack-50': lambda: knapsack(50, 1),
    'knapsack-100': lambda: knapsack(100, 1),
    'knapsack-200': lambda: knapsack(200, 1),
    'assignment-20': lambda: assignment(20, 1),
    'assignment-40': lambda: assignment(40, 1),
    'covering-100': lambda: covering(60, 100, 1),
    'covering-200': lambda: covering(100, 200, 1),
    'covering-300': lambda: covering(150, 300, 1),
    'overlaps-80': lambda: overlaps(80, 50, 2, 5),
    'overlaps-120': lambda: overlaps(120, 80, 2, 6),
    'overlaps-40-three': lambda: overlaps(40, 25, 3, 8),
}
