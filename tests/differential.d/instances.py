"""Random instances of both formats, as texts: what they say, and how it is written."""

# How often what comes: (weight, what).
WEIGHTS = ((10, 'small'), (2, 'zero'), (1, 'middle'), (1, 'huge'))
SHAPES = ((10, 'plain'), (2, 'empty'), (2, 'single'), (2, 'repeated'), (1, 'opposite'))
RELATIONS = ((3, '>='), (3, '<='), (2, '='))
BLANKS = ((8, ' '), (1, '  '), (1, '\t'), (1, ' \t '))
ENDS = ((12, '\n'), (1, '\r\n'), (1, '\n\n'), (1, ' \n'))
# Numbers of variables: few, so that all assignments are soon tried.
VARIABLES = (0, 1, 1) + (2, 3, 4, 5) * 5 + (6, 6, 7, 8)
HUGE = 2**63 - 1


def pick(random, table):
    """One of a table's things, by their weights."""
    return random.choices([what for _, what in table], [weight for weight, _ in table])[0]


class Maker:
    """Makes instances. A huge weight is made once for each sum, so that sums are at most `HUGE`."""

    def __init__(self, random):
        self.random = random

    def weight(self, allow_huge):
        kind = pick(self.random, WEIGHTS)
        if kind == 'huge' and allow_huge:
            return self.random.choice((2**62, 2**61 + 5, HUGE - 10**6))
        return 0 if kind == 'zero' else self.random.randint(1, 9) if kind == 'small' else self.random.randint(10, 9999)

    def sums(self, count):
        """Weights of one sum, of which one may be huge, so that all are at most `HUGE`."""
        huge = self.random.randrange(count) if count and self.random.random() < .06 else None
        return [self.weight(True) if place == huge else self.weight(False) for place in range(count)]

    def literal(self, variables):
        return self.random.choice((-1, 1)) * self.random.randint(1, variables)

    def clause(self, variables):
        shape = pick(self.random, SHAPES)
        if shape == 'empty' or variables == 0:
            return []
        first = self.literal(variables)
        literals = [first] if shape == 'single' else [self.literal(variables) for _ in range(self.random.randint(1, 4))]
        return literals + {'repeated': [literals[0]], 'opposite': [-literals[0]]}.get(shape, [])

    def number(self, number):
        """Digits of a number, sometimes with leading zeros."""
        return '0' * (self.random.random() < .03) + str(number)

    def mcnf(self, variables):
        """A text of the format MCNF."""
        lines = []
        for _ in range(self.random.randint(0, max(4, variables))):
            literals = self.clause(variables)
            lines.append(['h'] + [self.signed(l) for l in (literals or self.clause(variables))] + [self.number(0)])
        for index in range(1, self.random.choice((0, 1, 1, 2, 2, 2, 3, 3, 4)) + 1):
            for weight in self.sums(self.random.randint(0, 4)):
                literals = [self.signed(l) for l in self.clause(variables)]
                lines.append(['o' + self.number(index), self.number(weight)] + literals + [self.number(0)])
        if self.random.random() < .3:
            self.random.shuffle(lines)
        if self.random.random() < .3:
            lines.insert(self.random.randint(0, len(lines)), ['c'] + ['any'] * self.random.randint(0, 2))
        return ''.join(self.line(words) for words in lines)

    def signed(self, literal):
        return '-' * (literal < 0) + self.number(abs(literal))

    def line(self, words):
        """Words with blanks between them, and sometimes around them."""
        around = pick(self.random, BLANKS) if self.random.random() < .05 else ''
        return around + ''.join(word + pick(self.random, BLANKS) for word in words[:-1]) + words[-1] + pick(self.random, ENDS)

    def term(self, magnitude, literal, is_first):
        """A term's tokens; its sign and digits are left out where they may be."""
        words = [self.random.choice(('+', '+', '-'))]
        if not is_first or magnitude != 1 or self.random.random() < .5:
            words.append(self.number(magnitude))
        elif words == ['+'] and self.random.random() < .5:
            words = []
        return words + ['~' * (literal < 0) + 'x' + self.number(abs(literal))]

    def terms(self, variables):
        if variables == 0 or self.random.random() < .06:
            return []
        terms = [(weight, self.literal(variables)) for weight in self.sums(self.random.randint(1, 4))]
        return [word for place, (weight, literal) in enumerate(terms) for word in self.term(weight, literal, place == 0)]

    def bound(self):
        sign = self.random.choice(([], [], [], ['-'], ['+']))
        return sign + [self.number(self.random.choice((0, 1, 1, 2, 3, 5, 20)))]

    def opb(self, variables):
        """A text of the format OPB."""
        statements = [[self.random.choice(('min:', 'min:', 'max:'))] + self.terms(variables) + [';']
                      for _ in range(self.random.choice((0, 1, 1, 2, 2, 2, 3, 3)))]
        for _ in range(self.random.randint(0, max(3, variables // 2))):
            statements.append(self.terms(variables) + [pick(self.random, RELATIONS)] + self.bound() + [';'])
        text = ''
        for words in statements:
            if self.random.random() < .1:
                text += '* any text ;\n'
            text += ''.join(word + ('' if self.may_join(word, after) else self.random.choice(' \t\n\r') if self.random.random() < .1 else ' ')
                            for word, after in zip(words, words[1:] + ['']))
            text += self.random.choice(('\n', '\n', ' ', '\r\n', '\n* a comment\n'))
        return text

    def may_join(self, word, after):
        """Whether two tokens stay two where nothing is between them, and nothing is put there."""
        return self.random.random() < .1 and not (word[-1].isdigit() and after[:1].isdigit()) and not after[:1] == '='

    def instance(self):
        """The name of a file, and its text."""
        variables = self.random.choice(VARIABLES)
        if self.random.random() < .5:
            return 'a.mcnf', self.mcnf(variables)
        return self.random.choice(('a.opb', 'a.opb', 'a.mopb')), self.opb(variables)

    def short(self, kind):
        """A text of one line or one statement."""
        variables = self.random.randint(1, 3)
        if kind == 'mcnf':
            words = self.random.choice((['h'], ['o1', str(self.weight(False))]))
            return self.line(words + [self.signed(l) for l in self.clause(variables)] + ['0'])
        objective = [self.random.choice(('min:', 'max:'))] + self.terms(variables) + [';']
        constraint = self.terms(variables) + [pick(self.random, RELATIONS)] + self.bound() + [';']
        return ' '.join(self.random.choice((objective, constraint, objective + constraint)))
