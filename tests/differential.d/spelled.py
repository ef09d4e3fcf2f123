"""Lines of a log as texts, of either version."""


def literal(number):
    return '~x%d' % -number if number < 0 else 'x%d' % number


def constraint(terms, degree):
    """A constraint given by coefficients of literals, in rising order of the variables."""
    return ' '.join(['%d %s' % (terms[l], literal(l)) for l in sorted(terms, key=abs)] + ['>= %d' % degree])


class Speller:
    """Spells lines whose ids are plain numbers, in version 1, or over so many rows in version 2."""

    def __init__(self, recheck, rows=None):
        self.recheck, self.rows, self.next_id = recheck, rows, 1 if rows is None else rows + 1

    def header(self):
        return 'scuttle proof version 1\n' if self.rows is None else 'scuttle proof version 2 rows %d\n' % self.rows

    def id(self, number):
        made = self.rows is not None and self.rows < number < self.next_id
        return '-%d' % (self.next_id - number) if made else str(number)

    def ids(self, numbers):
        """The words of rising ids; runs are cut into pieces of at most 1,024, of which those of three or more stand as two ids."""
        if self.rows is None:
            return [str(number) for number in numbers]
        words, run = [], []
        for number in list(numbers) + [None]:
            if run and (number != run[-1] + 1 if number is not None else True) or len(run) == 1024:
                words += ['%s..%s' % (self.id(run[0]), self.id(run[-1]))] if len(run) > 2 else [self.id(n) for n in run]
                run = []
            run.append(number)
        return words

    def token(self, token):
        kind, number = token
        if kind == 'id':
            return self.id(number)
        if kind == 'literal':
            return literal(number)
        if kind == 'w':
            return 'x%d w' % number
        return '%d %s' % (number, kind) if kind in ('*', 'd') else kind

    def goal(self, goal):
        kind, number = goal
        return self.id(number) if kind == '' else '%s%d' % goal if kind == 'o' else kind

    def words(self, line):
        """The words of a line that the second checker has read."""
        shown = [constraint(line.constraint.terms, line.constraint.degree)]
        tokens = [self.token(token) for token in line.tokens]
        if line.kind == 'pol':
            return tokens
        if line.kind in ('rup', 'learn'):
            return shown + [':'] + tokens
        if line.kind == 'def':
            return ['x%d' % line.variable, ':'] + shown
        if line.kind in ('red', 'dom'):
            return shown + [':'] + self.images(line.witness) + self.proofs(line.proofs)
        if line.kind == 'sol':
            return [literal(l) for l in line.model] + [':'] + [literal(l) for l in line.cut] + [':'] + [self.id(n) for n in line.ids]
        return [self.id(line.ids[0])] if line.kind == 'end' else self.ids(line.ids)

    def images(self, witness):
        return [word for variable, image in witness.items()
                for word in ('x%d' % variable, str(int(image)) if isinstance(image, bool) else literal(image))]

    def proofs(self, proofs):
        return [word for goal, (rule, tokens) in proofs.items()
                for word in [':', self.goal(goal), rule] + [self.token(token) for token in tokens]]

    def text(self, line):
        """The line's text; the next one is spelled as after it."""
        text = ' '.join([line.kind] + self.words(line)) + '\n'
        self.next_id += self.recheck.MADE.get(line.kind, 1)
        return text


def log_of(recheck, lines, rows=None):
    """The text of a log."""
    speller = Speller(recheck, rows)
    return speller.header() + ''.join(speller.text(line) for line in lines)
