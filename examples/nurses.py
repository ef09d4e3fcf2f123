#!/usr/bin/env python3
"""A roster of 15 nurses over four weeks: its model, and its front, or as much of it as is found in a minute.

usage: examples/nurses.py [FOLDER [SECONDS]]

Early, late and night shifts want so many nurses each day; nobody works two shifts a day, or rests less than 11 hours, or works more than
five days in a row, or has more than nine nights and shifts at weekends; each works three to five shifts a week. An agency fills a gap for
money, and wishes are met where that goes. These are two costs, and no number says how much one of them is worth in the other.

In FOLDER (nurses, if it is left out) stay model.opb, which is nurses.opb here, model.list, model.log, and front.html, a page of the front.
"""
import os
import sys

sys.path.insert(0, os.path.join(os.path.dirname(os.path.realpath(__file__)), '..', 'python'))

from scuttle import Model, at_most  # noqa: E402

# Who works, and how many weeks.
NURSES = ['Ann', 'Ben', 'Cas', 'Dan', 'Eva', 'Fay', 'Gus', 'Hal', 'Ida', 'Jon', 'Kim', 'Lea', 'Max', 'Nia', 'Oli']
WEEKS = 4
DAYS = range(1, 7 * WEEKS + 1)
# How many nurses a shift wants, and what one of the agency costs there, in hundreds.
NEED = {'early': 3, 'late': 3, 'night': 2}
AGENCY = {'early': 3, 'late': 3, 'night': 5}


def is_weekend(day):
    return day % 7 in (6, 0)


def need_of(day, shift):
    return NEED[shift] - (1 if is_weekend(day) and shift == 'early' else 0)


def wishes_of(place):
    """The days on which the nurse of this place wants to be free, made up by a rule: two weekends, and two days besides."""
    weekends = [7 * ((place + k) % WEEKS) + day for k in range(2) for day in (6, 7)]
    return weekends + [1 + (5 * place + 9 * k) % len(DAYS) for k in range(2)]


def model():
    """The model, and nothing else."""
    m = Model()
    work = m.options(NURSES, DAYS, NEED)

    for nurse in NURSES:
        at = {day: {shift: work[nurse, day, shift] for shift in NEED} for day in DAYS}
        for day in DAYS:
            m.add(at_most(1, at[day].values()), note='one shift a day')
            if day + 1 in DAYS:
                m.add(at_most(1, at[day]['late'], at[day + 1]['early']), note='11 hours of rest')
                m.add(at_most(1, at[day]['night'], at[day + 1]['early'], at[day + 1]['late']), note='11 hours of rest')
        for first in DAYS[:-5]:
            m.add(sum(option for day in range(first, first + 6) for option in at[day].values()) <= 5, note='five days in a row')
        for first in DAYS[::7]:
            week = sum(option for day in range(first, first + 7) for option in at[day].values())
            m.add(week >= 3, week <= 5, note='three to five shifts a week')
        m.add(sum(option for day in DAYS for shift, option in at[day].items() if shift == 'night' or is_weekend(day)) <= 9,
              note='nights and weekends')

    agency = m.options(['agency'], DAYS, NEED)
    for day in DAYS:
        for shift in NEED:
            m.add(sum(work[nurse, day, shift] for nurse in NURSES) + agency['agency', day, shift] >= need_of(day, shift), note='enough nurses')

    m.minimise('agency, hundreds', sum(AGENCY[shift] * option for (_, _, shift), option in agency.items()))
    m.minimise('wishes that are not met', sum(work[nurse, day, shift] for place, nurse in enumerate(NURSES)
                                              for day in wishes_of(place) for shift in NEED))
    return m


def main(arguments):
    folder, seconds = (arguments + ['nurses', '60'][len(arguments):])[:2]
    front = model().solve(seconds=float(seconds), folder=folder, on_plan=lambda plan: print(plan.costs, flush=True))
    print(front.title())
    if front.plans:
        print(front.knee())
    front.to_html(os.path.join(folder, 'front.html'), title='Nurses, four weeks')


if __name__ == '__main__':
    main(sys.argv[1:])
