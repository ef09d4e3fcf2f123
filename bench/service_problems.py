"""Problems of those who plan services: timetables, tournaments, crews, jobs on machines, servers, tasks, investments by year, releases of
software, sensors, cables, and portfolios. Each is made from a seed, the same on every machine and by every Python.

usage: bench/services --instances FOLDER     writes them all
"""
from typing import Callable, Dict, List, Sequence, Tuple

from alike_problems import Numbers, Problem, Terms, each
from planned_problems import sampled

Place = Tuple[int, int]
Link = Tuple[int, int]


def way(one: Place, other: Place) -> int:
    """Between two places, along streets."""
    return abs(one[0] - other[0]) + abs(one[1] - other[1])


def places(numbers: Numbers, count: int) -> List[Place]:
    return [(numbers.below(100), numbers.below(100)) for _ in range(count)]


def timetable(courses: int, days: int, hours: int, groups: int, seed: int) -> Problem:
    """Each course has an hour of the week, four at once at most; groups of students attend some of them, one at a time. Costs: dislikes of
    hours, days on which groups come."""
    numbers, made, week = Numbers(seed), Problem(2), days * hours
    held = [made.some(week) for _ in range(courses)]
    for course in held:
        made.equal(each(course), 1)
        for hour in course:
            if numbers.chance(400):
                made.cost(0, numbers.within(1, 5), hour)
    for hour in range(week):
        made.at_most(each([course[hour] for course in held]), 4)
    for _ in range(groups):
        attended = sampled(numbers, range(courses), max(3, 2 * courses // groups))
        for hour in range(week):
            made.at_most(each([held[course][hour] for course in attended]), 1)
        for day in range(days):
            comes = made.new()
            made.cost(1, 1, comes)
            for course in attended:
                for hour in held[course][day * hours:day * hours + hours]:
                    made.clause(-hour, comes)
    return made


def tournament(teams: int, seed: int) -> Problem:
    """Each meets each once, one at home. Costs: times that a team stays at home, or away, twice running; dislikes of rounds."""
    numbers, made, rounds = Numbers(seed), Problem(2), teams - 1
    home = [made.some(rounds) for _ in range(teams)]
    plays: List[List[List[int]]] = [[[] for _ in range(rounds)] for _ in range(teams)]
    for one in range(teams):
        for other in range(one + 1, teams):
            meet = made.some(rounds)
            made.equal(each(meet), 1)
            for at, match in enumerate(meet):
                made.clause(-match, home[one][at], home[other][at])
                made.clause(-match, -home[one][at], -home[other][at])
                plays[one][at].append(match)
                plays[other][at].append(match)
                if numbers.chance(300):
                    made.cost(1, numbers.within(1, 4), match)
    for team, matches in zip(home, plays):
        for match in matches:
            made.equal(each(match), 1)
        for first, second in zip(team, team[1:]):
            again = made.new()
            made.clause(again, first, second)
            made.clause(again, -first, -second)
            made.cost(0, 1, again)
    return made


def crews(flights: int, pairings: int, seed: int) -> Problem:
    """Each flight is in one of the pairings that are flown: those of one flight, which are dear, and some of two to six. Costs: money,
    nights away."""
    numbers, made = Numbers(seed), Problem(2)
    flown: List[List[int]] = [[] for _ in range(flights)]
    for at in range(pairings):
        pairing = made.new()
        legs = [at] if at < flights else sampled(numbers, range(flights), numbers.within(2, 6))
        made.cost(0, 90 if at < flights else numbers.within(20, 60) + 10 * len(legs), pairing)
        made.cost(1, numbers.within(0, 9), pairing)
        for leg in legs:
            flown[leg].append(pairing)
    for choices in flown:
        made.equal(each(choices), 1)
    return made


def jobs(count: int, machines: int, end: int, seed: int) -> Problem:
    """Each job has its machine, which does one at a time, and takes two to five hours. Costs: lateness by weight, power, which is dear in three
    hours of eight."""
    numbers, made = Numbers(seed), Problem(2)
    busy: List[List[List[int]]] = [[[] for _ in range(end)] for _ in range(machines)]
    for job in range(count):
        takes, weight, power = numbers.within(2, 5), numbers.within(1, 5), numbers.within(1, 6)
        due = numbers.within(takes, end)
        starts = made.some(end - takes + 1)
        made.equal(each(starts), 1)
        for begin, start in enumerate(starts):
            hours = range(begin, begin + takes)
            for hour in hours:
                busy[job % machines][hour].append(start)
            if begin + takes > due:
                made.cost(0, weight * (begin + takes - due), start)
            made.cost(1, power * sum(3 if hour % 8 in (3, 4, 5) else 1 for hour in hours), start)
    for machine in busy:
        for hour in machine:
            made.at_most(each(hour), 1)
    return made


def servers(services: int, count: int, seed: int) -> Problem:
    """Each service runs on a server that is switched on and has room. Costs: power, moves away from where services are now."""
    numbers, made = Numbers(seed), Problem(2)
    runs = [made.some(count) for _ in range(services)]
    is_on = made.some(count)
    sizes = [numbers.within(5, 40) for _ in range(services)]
    for at, server in enumerate(is_on):
        room = numbers.within(90, 140)
        made.at_most([(size, row[at]) for size, row in zip(sizes, runs)] + [(-room, server)], 0)
        made.cost(0, numbers.within(20, 60), server)
    for size, row in zip(sizes, runs):
        made.equal(each(row), 1)
        now = numbers.below(count)
        for at, there in enumerate(row):
            if at != now:
                made.cost(1, 1 + size // 8, there)
    return made


def tasks(agents: int, count: int, seed: int) -> Problem:
    """Each task is done by one agent, within the hours that each has. Costs: money, dislikes."""
    numbers, made = Numbers(seed), Problem(2)
    loads: List[Terms] = [[] for _ in range(agents)]
    for _ in range(count):
        does = made.some(agents)
        made.equal(each(does), 1)
        for load, done in zip(loads, does):
            load.append((numbers.within(5, 25), done))
            made.cost(0, numbers.within(10, 50), done)
            made.cost(1, numbers.within(1, 20), done)
    for load in loads:
        made.at_most(load, 12 * count // agents)
    return made


def investments(count: int, years: int, seed: int) -> Problem:
    """Each is made in one year or not at all, some not before another one, within the same budget each year. Costs: value that is missed,
    which is the more the later; risk."""
    numbers, made = Numbers(seed), Problem(2)
    chosen = [made.some(years) for _ in range(count)]
    prices = [numbers.within(10, 90) for _ in range(count)]
    for year in range(years):
        made.at_most([(price, row[year]) for price, row in zip(prices, chosen)], sum(prices) // (2 * years))
    for at, row in enumerate(chosen):
        value, risk = numbers.within(5, 40), numbers.within(1, 9)
        made.at_most(each(row), 1)
        for year, made_then in enumerate(row):
            made.cost(0, value * (years - year), -made_then)
            made.cost(1, risk, made_then)
        if at > 3 and numbers.chance(300):
            before = chosen[numbers.below(at)]
            for year in range(years):
                made.at_least(each(before[:year + 1]) + [(-1, row[year])], 0)
    return made


def release(features: int, customers: int, seed: int) -> Problem:
    """A customer is content with all features that he asks for; some features need another one. Costs: work, customers who aren't."""
    numbers, made = Numbers(seed), Problem(2)
    built = made.some(features)
    for at, feature in enumerate(built):
        made.cost(0, numbers.within(2, 30), feature)
        if at > 5 and numbers.chance(400):
            made.clause(-feature, built[numbers.below(at)])
    for _ in range(customers):
        content = made.new()
        for feature in sampled(numbers, built, numbers.within(1, 5)):
            made.clause(-content, feature)
        made.cost(1, numbers.within(1, 30), -content)
    return made


def sensors(sites: int, spots: int, most: int, seed: int) -> Problem:
    """So many sensors at most; a spot is seen from the sites near it. Costs: money, spots that aren't seen, by weight."""
    numbers, made = Numbers(seed), Problem(2)
    built, where = made.some(sites), places(numbers, sites)
    for sensor in built:
        made.cost(0, numbers.within(5, 30), sensor)
    made.at_most(each(built), most)
    for spot in places(numbers, spots):
        near = [sensor for sensor, site in zip(built, where) if way(site, spot) < 28]
        if near:
            seen = made.new()
            made.clause(-seen, *near)
            made.cost(1, numbers.within(1, 20), -seen)
    return made


def flow(made: Problem, nodes: int, links: Dict[Link, int], source: int, sink: int) -> Dict[Link, int]:
    """A path from one node to another over links that are built: of each link both ways."""
    ways: Dict[Link, int] = {}
    for (one, other), built in links.items():
        ways[one, other], ways[other, one] = made.some(2)
        made.at_most([(1, ways[one, other]), (1, ways[other, one]), (-1, built)], 0)
    for node in range(nodes):
        out: Terms = [(1, taken) for (one, _), taken in ways.items() if one == node]
        into: Terms = [(-1, taken) for (_, other), taken in ways.items() if other == node]
        made.equal(out + into, (node == source) - (node == sink))
    return ways


def lines(stops: int, demands: int, seed: int) -> Problem:
    """Each demand goes one way over links between neighbours, of which each carries nine. Costs: links, ways by weight."""
    numbers, made = Numbers(seed), Problem(2)
    where, pairs = places(numbers, stops), set()
    for one in range(stops):
        near = sorted((way(where[one], where[other]), other) for other in range(stops) if other != one)
        pairs.update((min(one, other), max(one, other)) for _, other in near[:3])
    links = {pair: made.new() for pair in sorted(pairs)}
    loads: Dict[Link, Terms] = {pair: [] for pair in links}
    for (one, other), built in links.items():
        made.cost(0, 5 + way(where[one], where[other]) // 3, built)
    for _ in range(demands):
        source, sink = sampled(numbers, range(stops), 2)
        weight = numbers.within(1, 5)
        for (one, other), taken in flow(made, stops, links, source, sink).items():
            made.cost(1, weight * (1 + way(where[one], where[other]) // 10), taken)
            loads[min(one, other), max(one, other)].append((weight, taken))
    for load in loads.values():
        made.at_most(load, 9)
    return made


def cables(width: int, ends: int, seed: int) -> Problem:
    """So many places on a square grid are joined to one of them. Two costs of each link."""
    numbers, made = Numbers(seed), Problem(2)
    nodes = width * width
    pairs: Sequence[Link] = [(node, node + 1) for node in range(nodes) if (node + 1) % width] + \
        [(node, node + width) for node in range(nodes - width)]
    links = {pair: made.new() for pair in pairs}
    for built in links.values():
        made.cost(0, numbers.within(1, 9), built)
        made.cost(1, numbers.within(1, 9), built)
    centre, *others = sampled(numbers, range(nodes), ends + 1)
    for other in others:
        flow(made, nodes, links, centre, other)
    return made


def portfolio(count: int, seed: int) -> Problem:
    """A quarter of the shares, of each branch two at most. Costs: gain that is missed, risk, fees."""
    numbers, made = Numbers(seed), Problem(3)
    held = made.some(count)
    made.equal(each(held), count // 4)
    for share in held:
        made.cost(0, numbers.within(1, 60), -share)
        made.cost(1, numbers.within(1, 30), share)
        made.cost(2, numbers.within(1, 12), share)
    for _ in range(count // 5):
        made.at_most(each(sampled(numbers, held, 6)), 2)
    return made


PROBLEMS: Dict[str, Callable[[], Problem]] = {
    'timetable-20': lambda: timetable(20, 3, 4, 6, 1),
    'timetable-40': lambda: timetable(40, 5, 4, 10, 1),
    'tournament-6': lambda: tournament(6, 1),
    'tournament-8': lambda: tournament(8, 1),
    'crews-20': lambda: crews(20, 150, 1),
    'crews-40': lambda: crews(40, 300, 1),
    'jobs-12': lambda: jobs(12, 3, 24, 1),
    'jobs-24': lambda: jobs(24, 4, 36, 1),
    'servers-15': lambda: servers(15, 6, 1),
    'servers-40': lambda: servers(40, 12, 2),
    'tasks-20': lambda: tasks(5, 20, 1),
    'tasks-40': lambda: tasks(8, 40, 1),
    'investments-20': lambda: investments(20, 4, 1),
    'investments-40': lambda: investments(40, 5, 1),
    'release-40': lambda: release(40, 60, 1),
    'release-80': lambda: release(80, 150, 1),
    'sensors-30': lambda: sensors(30, 100, 10, 1),
    'sensors-60': lambda: sensors(60, 200, 15, 1),
    'lines-12': lambda: lines(12, 6, 1),
    'lines-20': lambda: lines(20, 6, 1),
    'cables-5': lambda: cables(5, 5, 1),
    'cables-7': lambda: cables(7, 7, 1),
    'portfolio-40': lambda: portfolio(40, 1),
    'portfolio-80': lambda: portfolio(80, 1),
}
