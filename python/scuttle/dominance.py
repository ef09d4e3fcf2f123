"""Which vectors are as good as others, by an index in place of each with each."""
from typing import Iterator, List, Optional, Sequence

from .instances import Costs, Instance

# How many vectors are asked about at once: each keeps a bit for each of the others meanwhile, so of 100,000 others this many take 50 MB.
AT_ONCE = 4096


def senses_of(instance: Optional[Instance], count: int) -> List[str]:
    """The senses of so many objectives: all are minimised where no instance says it.

    >>> senses_of(None, 2)
    ['min', 'min']
    """
    return [o.sense for o in instance.objectives] if instance else ['min'] * count


def is_as_good(senses: Sequence[str], u: Costs, v: Costs) -> bool:
    """Whether each number of u is as good as that of v.

    >>> is_as_good(['min', 'max'], (1, 5), (2, 5))
    True
    """
    return all(a <= b if sense == 'min' else a >= b for sense, a, b in zip(senses, u, v))


def as_good(senses: Sequence[str], asked: Sequence[Costs], others: Sequence[Costs]) -> Iterator[int]:
    """For each vector that is asked about a number whose bit k is set where the k-th of the others, from 0, is as good in each cost.

    Each cost is gone through once, with both sides sorted by it.

    >>> list(as_good(['min', 'max'], [(2, 2), (0, 9)], [(1, 2), (2, 3), (3, 9)]))
    [3, 0]
    """
    for start in range(0, len(asked), AT_ONCE):
        part = asked[start:start + AT_ONCE]
        found = [(1 << len(others)) - 1] * len(part)
        for k, sense in enumerate(senses):
            sign = 1 if sense == 'min' else -1
            rising, mask, at = sorted(range(len(others)), key=lambda i: sign * others[i][k]), 0, 0
            for i in sorted(range(len(part)), key=lambda i: sign * part[i][k]):
                while at < len(rising) and sign * others[rising[at]][k] <= sign * part[i][k]:
                    mask |= 1 << rising[at]
                    at += 1
                found[i] &= mask
        yield from found


def best_of(vectors: Sequence[Costs], senses: Sequence[str]) -> List[Costs]:
    """Those of different vectors that no other is as good as in each number, in rising order.

    >>> best_of([(3, 1), (1, 4), (3, 2)], ['min', 'min'])
    [(1, 4), (3, 1)]
    """
    rising = sorted(vectors)
    return [vector for k, (vector, found) in enumerate(zip(rising, as_good(senses, rising, rising))) if found == 1 << k]
