"""Fronts that pages are tried with, made from a seed."""
import random

import setting  # noqa: F401

from scuttle import Front, Labels, Plan

# The senses of so many costs.
SENSES = [('min', 'min', 'max', 'min', 'max', 'min', 'min', 'max')[:costs] for costs in range(9)]
DAYS = ('Mon', 'Tue', 'Wed', 'Thu', 'Fri')


def front_of_costs(count, senses, seed=1, start=0, names=None, options=None, complete=True, accepted=True, listed=None):
    """So many compromises of which none is as good as another in each cost, with options taken by chance. Of one cost each has the same."""
    chance = random.Random(seed)
    options = options or [(name, day) for name in ('Ann', 'Ben', 'Cas', 'Dan') for day in DAYS]
    labels = Labels(names or ['cost %d' % k for k in range(1, len(senses) + 1)], list(senses), options)
    vectors = sorted({vector_of(chance, senses, start, max(1000, 50 * count)) for _ in range(3 * count)})
    # Some options are always taken, and some never.
    shares = [chance.choice((0, 0.3, 0.5, 1)) for _ in options]
    plans = [Plan(number, vector, [k if chance.random() < share else -k for k, share in enumerate(shares, 1)], labels)
             for number, vector in enumerate(vectors[:count], 1)]
    return Front(complete, accepted, plans, labels, listed=listed)


def vector_of(chance, senses, start, size):
    """A point of a sphere around the worst of all: no two of them are one as good as the other in each cost, up to rounding."""
    if len(senses) < 2:
        return (start,) * len(senses)
    place = [chance.random() + 0.01 for _ in senses]
    length = sum(part * part for part in place) ** 0.5
    gains = [int(size * part / length) for part in place]
    return tuple(start + (gain if sense == 'max' else size - gain) for gain, sense in zip(gains, senses))


def strange():
    """Names that a page could stumble over."""
    names = ['<script>alert(1)</script>', 'a & "b" \'c\'', 'שלום עולם', '👩‍👩‍👧 &amp;', '</script><b>x', '\u202eright to left', 'bad \x01 one',
             'v' * 80]
    return front_of_costs(12, SENSES[8], start=10 ** 25, names=names, options=names + ['</script> %d' % k for k in range(9)])
