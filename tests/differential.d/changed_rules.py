"""Changed rules of the second checker: a differential test that doesn't notice one of them says little."""
import os
import sys
import time

import program as programs

RULES = os.path.join(os.path.dirname(os.path.abspath(__file__)), 'changed_rules.txt')


class Mistake(Exception):
    """A changed rule that isn't written as it should be."""


def rules():
    """Each changed rule: what it is, the lines that are there, and those that come in their place."""
    found = []
    with open(RULES, encoding='utf-8') as file:
        for line in file.read().splitlines():
            if line.startswith('# '):
                found.append((line[2:], [], []))
            elif line and found:
                found[-1][1 if line[0] == '-' else 2].append(line[1:])
    return found


def changed(source, name, old, new):
    """The text with a change, whose old lines stand in it once."""
    old_text, new_text = ''.join(line + '\n' for line in old), ''.join(line + '\n' for line in new)
    if source.count('\n' + old_text) != 1:
        raise Mistake('these lines have to stand in recheck.py once: ' + name)
    return source.replace('\n' + old_text, '\n' + new_text)


def run(checker, program, test, seed, seconds):
    """Prints which changed rules are noticed within so many seconds, and which aren't; whether all are."""
    lived = 0
    for name, old, new in rules():
        second = programs.Second(checker, lambda source: changed(source, name, old, new))
        began, tried = time.monotonic(), test(program, second, None)
        try:
            tried.run(seed, sys.maxsize, seconds)
        except Exception:    # lines are made by the rules too, and a changed rule may fail there
            tried.differences += 1
        lived += not tried.differences
        cases = sum(tried.counts.groups.values())
        outcome = 'noticed' if tried.differences else 'LIVED'
        print('%s after %d cases, %.1f seconds: %s' % (outcome, cases, time.monotonic() - began, name), flush=True)
    print('differential: %d of %d changed rules are noticed' % (len(rules()) - lived, len(rules())))
    return not lived
