"""What a differential test has to reach: each answer, and each kind of line as one that is legal. It counts how often each was.

What no text reaches is left out: 2^61 lines (LogLong), and a file of 2^62 bytes. A goal whose negation is too large doesn't come
either: what may be substituted into is at most half as large.
"""
import collections

KINDS = ('pol', 'rup', 'learn', 'def', 'red', 'dom', 'sol', 'del', 'reduce', 'end')
WHY = {
    'pol': ('VarRange', 'NoSuchId', 'Stack', 'BadFactor', 'Overflow'),
    'rup': ('VarRange', 'Overflow', 'NoSuchId', 'RupOpen'),
    'learn': ('VarRange', 'NotClause', 'NoSuchId', 'RupOpen'),
    'def': ('NotFresh', 'VarRange', 'Overflow'),
    'red': ('VarRange', 'Overflow', 'GoalMissing', 'GoalOpen', 'NoSuchId', 'Stack', 'BadFactor'),
    'dom': ('VarRange', 'Overflow', 'GoalMissing', 'GoalOpen', 'NoSuchId', 'Stack', 'BadFactor'),
    'sol': ('VarRange', 'SolRow', 'NoSuchId', 'CutOpen', 'Uncovered'),
    'del': ('NoSuchId',), 'reduce': ('NoSuchId',), 'end': ('NoSuchId', 'NotContradiction')}
MISTAKES = {
    'mcnf': ('UnknownLine', 'ObjectiveIndex', 'WeightExpected', 'LiteralExpected', 'ZeroMissing', 'TextAfterZero', 'NumberTooWide',
             'too large: Vars', 'too large: Weights', 'too large: Objectives'),
    'opb': ('UnknownLine', 'TermExpected', 'RelationExpected', 'BoundExpected', 'SemicolonMissing', 'Product', 'ObjectiveAfterConstraint',
            'NumberTooWide', 'too large: Vars', 'too large: Weights', 'too large: Row', 'too large: Objectives')}
LIST_WHY = ('Syntax', 'NotComplete', 'NotModel', 'Costs', 'Order', 'Comparable')
MODELS_WHY = ('Syntax', 'Count', 'NotModel', 'Costs', 'Repeated', 'log line')
GOALS = ('id', 'c', 'o', 's')    # as they are counted


def required():
    """The names of all that has to be reached."""
    names = ['%s: %s' % (kind, why) for kind in KINDS for why in WHY[kind] + ('Syntax', 'AfterEnd')]
    names += ['%s is legal, version %d' % (kind, version) for kind in KINDS for version in (1, 2)]
    names += ['%s %s' % (why, goal) for why in ('GoalMissing', 'GoalOpen') for goal in GOALS]
    names += ['%s: %s' % (form, mistake) for form in MISTAKES for mistake in MISTAKES[form]]
    names += ['list: ' + why for why in LIST_WHY] + ['models: ' + why for why in MODELS_WHY]
    return names + ['log: NoEnd', 'log: no header', 'check: accepted', 'check-models: accepted']


class Counts:
    """How often what was reached, and how many cases of each group there were."""

    def __init__(self):
        self.reached, self.groups = collections.Counter(), collections.Counter()

    def add(self, group, case, answer):
        """Takes one case and the program's answer."""
        self.groups[group] += 1
        words = case.words
        first, _, rest = answer[1].partition(': ')
        if answer == (0, 'accepted'):
            self.reached[words[0] + ': accepted'] += 1
        if first.startswith('line '):
            self.reached['%s: %s' % ('mcnf' if words[1].endswith('.mcnf') else 'opb', rest)] += 1
        elif first.startswith('list entry'):
            self.reached['list: ' + rest] += 1
        elif first.startswith('models entry'):
            self.reached['models: ' + ('log line' if rest.startswith('log line') else rest)] += 1
        if words[0] == 'check' and (answer[0] == 0 or first.startswith('log line')):
            self.add_log(case.text(3), int(first.split(' ')[2]) if answer[0] else None, rest)

    def add_log(self, log, refused, why):
        """The lines of a log up to the one that is refused, whose number is given, or to the end."""
        lines = log.split('\n')
        version = 2 if lines[0].startswith('scuttle proof version 2') else 1
        legal = lines[1:-1] if refused is None else lines[1:refused - 1]
        for text in legal:
            self.reached['%s is legal, version %d' % (text.split(' ')[0], version)] += 1
        if refused == 1:
            self.reached['log: no header'] += 1
        elif why == 'NoEnd':
            self.reached['log: NoEnd'] += 1
        elif refused:
            kind, name = lines[refused - 1].split(' ')[0], why.split(' ')
            self.reached['%s: %s' % (kind if kind in KINDS else 'no kind', name[0])] += 1
            if name[0] in ('GoalMissing', 'GoalOpen'):
                self.reached['%s %s' % (name[0], name[1][0] if name[1][0] in 'cos' else 'id')] += 1

    def missing(self):
        """What wasn't reached."""
        return [name for name in required() if not self.reached[name]]

    def merge(self, other):
        self.reached.update(other.reached)
        self.groups.update(other.groups)
