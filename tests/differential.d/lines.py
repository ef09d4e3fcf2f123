"""Random logs, line by line after the state that the lines before have reached: lines that are legal, or miss a condition.

A recipe makes the text of one line in version 1. `RECIPES` says how often each is taken.
"""
import itertools

import instances
import mutations
import spelled

SIZE, SUBSTITUTED = 2**100, 2**99
RECIPES = (
    (8, 'pol_derived'), (3, 'pol_of_any_tokens'), (2, 'pol_at_the_limit'), (2, 'pol_of_two_at_the_limit'),
    (8, 'rup_of_weaker'), (5, 'rup_of_any'), (2, 'rup_at_the_limit'), (3, 'rup_of_nothing'), (5, 'learn_of_weaker'), (3, 'learn_of_any'),
    (5, 'def_of_any'), (2, 'def_at_the_limit'), (5, 'def_of_costs'),
    (14, 'red_of_line'), (12, 'red_of_any'), (12, 'dom_of_any'), (2, 'red_at_the_limit'), (9, 'sol_of_model'), (1, 'sol_of_any'),
    (3, 'del_of_any'), (3, 'reduce_of_any'), (4, 'end_of_any'))
# Proofs that mostly prove nothing.
PROOFS = ('rup', 'rup ~', 'rup 99 ~', 'rup 0', 'rup ! 99', 'pol ~ x1 +', 'pol x9 w', 'pol + +', 'pol 0', 'pol ~ 99 +', 'pol ~ 0 *',
          'pol ~ 0 d', 'pol ~ ~')
MODELS = 2**9    # so many assignments of a problem are tried for models


class LogMaker:
    """Makes a log over the normal form of an instance."""

    def __init__(self, random, recheck, instance):
        self.random, self.recheck = random, recheck
        self.problem = recheck.normal_form_of_instance(instance)
        self.state = recheck.State(self.problem)
        self.spelling = recheck.Spelling('scuttle proof version 1')
        self.lines, self.last = [], ''      # lines that are legal, and the text of one that is none or isn't
        self.outputs = {}                   # of each objective, values with the variable and the line of "the cost is at least that"
        self.models = None

    def make(self):
        """The text of a log, in either version."""
        for _ in range(self.random.randint(1, 9)):
            name = instances.pick(self.random, RECIPES)
            self.take(getattr(self, name)())
            if self.last:
                break
        if not self.last and self.random.random() < .5:
            self.take(self.end_of_any())
        if self.state.ended and self.random.random() < .6:
            self.last = self.last or getattr(self, instances.pick(self.random, RECIPES))()
        return self.text()

    def text(self):
        rows = self.random.choice((None, None, len(self.problem.rows), len(self.problem.rows), 0, 1, 3, 2**34, 2**34 + 1))
        speller = spelled.Speller(self.recheck, rows)
        text = speller.header() + ''.join(speller.text(line) for line in self.lines)
        try:
            return text + speller.text(self.spelling.line_in(self.last)) if self.last else text
        except self.recheck.Refused:
            return text + self.last + '\n'

    def take(self, text):
        """Adds a line, where it is legal; another ends the log, mostly, or is left out."""
        if self.random.random() < .18:
            text = mutations.by_word(self.random, text, 'log', ())
        try:
            line = self.spelling.line_in(text)
            self.state.step(line)
            self.lines.append(line)
        except self.recheck.Refused:
            if self.random.random() < .6:
                self.last = text

    # What lines are made of

    def any_id(self):
        if self.random.random() < .04:
            return self.random.choice((0, self.state.next_id, self.state.next_id - 1, self.state.next_id + 5, 2**63 - 1))
        return self.random.choice(list(self.state.live)) if self.state.live else 1

    def variable(self):
        return self.state.variables + 1 if self.random.random() < .02 else self.random.randint(1, max(1, self.state.variables))

    def literal(self):
        return self.random.choice((-1, 1)) * self.variable()

    def literals(self, most):
        """Literals of different variables, rising."""
        chosen = {abs(l): l for l in (self.literal() for _ in range(self.random.randint(0, most)))}
        return [chosen[variable] for variable in sorted(chosen)]

    def sum(self):
        """Coefficients by literals, and a degree that their sum may reach, or just not."""
        terms = {l: self.random.choice((1, 1, 1, 2, 3, 5)) for l in self.literals(4)}
        return terms, self.random.randint(0, sum(terms.values()) + 1)

    def hints(self):
        """All live lines in any order, or some."""
        ids = list(self.state.live)[-40:]
        self.random.shuffle(ids)
        hints = [str(number) for number in ids]
        if self.random.random() < .3:
            hints = hints[:self.random.randint(0, len(hints))]
        if self.random.random() < .25:
            hint = self.random.choice(('~', '!', '0', str(self.any_id()), str(self.state.next_id)))
            hints.insert(0 if self.random.random() < .5 else self.random.randint(0, len(hints)), hint)
        return hints

    # Pol

    def pol_derived(self):
        words, height = [str(self.any_id())], 1
        for _ in range(self.random.randint(0, 6)):
            words += self.random.choice((
                [str(self.any_id()), '+'], [str(self.any_id()), str(self.random.randint(1, 4)), '*', '+'], [spelled.literal(self.literal()), '+'],
                [str(self.random.randint(1, 5)), '*'], [str(self.random.randint(1, 5)), 'd'], ['s'], ['x%d' % self.variable(), 'w']))
        return ' '.join(['pol'] + words)

    def pol_of_any_tokens(self):
        tokens = ('+', 's', '0 *', '0 d', '2 *', '3 d', '~', '!', str(self.any_id()), str(self.any_id()), spelled.literal(self.literal()),
                  'x%d w' % self.variable())
        first = [str(self.any_id())] if self.random.random() < .6 else []
        return ' '.join(['pol'] + first + [self.random.choice(tokens) for _ in range(self.random.randint(1, 5))])

    def pol_at_the_limit(self):
        """A line whose size times a factor is the largest, or one more; or one that may just be substituted into."""
        number = self.any_id()
        size = self.state.live[number].size() if number in self.state.live else 1
        if self.random.random() < .5:
            near = self.random.choice((SUBSTITUTED, SUBSTITUTED + 1, SUBSTITUTED - 1, SIZE, SIZE, SIZE + 1))
            return 'pol %s %d *' % (spelled.literal(self.literal()), near)
        return 'pol %d %d *' % (number, SIZE // max(1, size) + self.random.choice((0, 0, 1)))

    def pol_of_two_at_the_limit(self):
        size = self.random.randint(1, SIZE)
        rest = SIZE - size + self.random.choice((0, 0, 1))
        return 'pol %s %d * %s %d * +' % (spelled.literal(self.literal()), size, spelled.literal(self.literal()), rest)

    # Rup and Learn

    def weaker(self):
        """A live line, mostly weakened."""
        line = self.state.live.get(self.any_id())
        terms, degree = (dict(line.terms), line.degree) if line else ({}, 1)
        for l in self.literals(2):
            if -l not in terms and l not in terms:
                terms[l] = 1
        return terms, max(0, degree - self.random.choice((0, 0, 1, -1)))

    def hinted(self, kind, terms, degree):
        return ' '.join([kind, spelled.constraint(terms, degree), ':'] + self.hints())

    def rup_of_weaker(self):
        return self.hinted('rup', *self.weaker())

    def rup_of_any(self):
        return self.hinted('rup', *self.sum())

    def rup_of_nothing(self):
        return self.hinted('rup', {}, self.random.choice((0, 1, 1, 1)))

    def rup_at_the_limit(self):
        """A constraint whose negation has the largest size, or a little more."""
        degree = self.random.randint(0, 4)
        terms = {self.literal(): (SIZE + degree - 1) // 2 + self.random.choice((0, 0, 1))}
        return self.hinted(self.random.choice(('rup', 'learn')), terms, degree)

    def learn_of_weaker(self):
        terms, degree = self.weaker()
        return self.hinted('learn', {l: 1 for l in terms}, 1 if self.random.random() < .9 else degree)

    def learn_of_any(self):
        return self.hinted('learn', {l: 1 for l in self.literals(3)}, 1)

    # Def

    def new_variable(self):
        return self.state.variables + (1 if self.random.random() < .95 else self.random.choice((0, 2, -1)))

    def def_of_any(self):
        return 'def x%d : %s' % (max(1, self.new_variable()), spelled.constraint(*self.sum()))

    def def_at_the_limit(self):
        """A definition one of whose lines has the largest size, or a little more."""
        if self.random.random() < .5:
            degree = self.random.randint(0, 5)
            terms = {self.literal(): (SIZE + 2 * degree - 2) // 3 + self.random.choice((0, 0, 1))}
        else:
            weight = self.random.randint(1, 9)
            terms, degree = {self.literal(): weight}, (SIZE - weight) // 2 + self.random.choice((0, 0, 1))
        return 'def x%d : %s' % (max(1, self.new_variable()), spelled.constraint(terms, degree))

    def def_of_costs(self):
        """A variable for "the cost is at least that"."""
        if not self.problem.costs:
            return self.def_of_any()
        objective = self.random.randrange(len(self.problem.costs))
        terms = self.problem.costs[objective].terms
        degree = self.random.randint(0, sum(terms.values()) + 1)
        self.outputs.setdefault(objective, []).append((degree, self.state.variables + 1, self.state.next_id))
        return 'def x%d : %s' % (self.state.variables + 1, spelled.constraint(terms, degree))

    # Red and Dom

    def witness(self, literals):
        """Images of variables: mostly such that the literals become true."""
        images = {}
        for l in literals:
            if self.random.random() < .8:
                images[abs(l)] = str(int(l > 0))
        for _ in range(self.random.choice((0, 0, 1, 1, 2))):
            images[self.variable()] = self.random.choice(('0', '1', spelled.literal(self.literal()), spelled.literal(self.literal())))
        if literals and self.random.random() < .15:
            one, other = abs(literals[0]), self.variable()
            images.update({one: 'x%d' % other, other: 'x%d' % one})
        return [word for variable in sorted(images) for word in ('x%d' % variable, images[variable])]

    def substitution(self, kind, terms, degree):
        """The line, with proofs of the goals that need one; sometimes one is left out, or changed, or one too many."""
        text = ' '.join([kind, spelled.constraint(terms, degree), ':'] + self.witness(list(terms)))
        proofs = {}
        try:
            line = self.spelling.line_in(text)
            denied = line.constraint.negation()
            for goal, required in self.state.goals(line):
                if required.degree > 0 and self.random.random() < .95:
                    proofs[goal] = self.proof(goal, required, denied)
        except self.recheck.Refused:
            pass
        if proofs and self.random.random() < .1:
            proofs[self.random.choice(sorted(proofs))] = self.random.choice(PROOFS)
        if self.random.random() < .15:
            extra = self.random.choice((('', self.any_id()), ('c', 0), ('o', self.random.randint(1, 4)), ('s', 0)))
            proofs[extra] = self.random.choice(PROOFS)
        order = sorted(proofs)
        speller = spelled.Speller(self.recheck)
        return text + ''.join(' : %s %s' % (speller.goal(goal), proofs[goal]) for goal in order)

    def proof(self, goal, required, denied):
        """A proof of a goal, where one of some is found; else any of them."""
        negated, ids = required.negation(), list(self.state.live)[-12:]
        self.random.shuffle(ids)
        all_hints = [('id', number) for number in ids]
        goal_only, both, denied_first = [('~', 0)], [('~', 0), ('!', 0)], [('!', 0)] + all_hints
        proofs = [('rup', goal_only), ('rup', both), ('rup', denied_first), ('rup', denied_first + goal_only + all_hints),
                  ('pol', both + [('+', 0)]), ('pol', goal_only), ('pol', both), ('pol', goal_only + [('*', 0)]),
                  ('pol', goal_only + [('w', self.variable()), ('s', 0), ('!', 0), ('+', 0)])]
        proofs += [('pol', [('id', number), ('~', 0), ('+', 0)]) for number in ids[:3] + ([goal[1]] if goal[0] == '' else [])]
        self.random.shuffle(proofs)
        if self.random.random() < .93:
            proofs.sort(key=lambda proof: not self.proves(proof, negated, denied))
        rule, tokens = proofs[0]
        return ' '.join([rule] + [spelled.Speller(self.recheck).token(token) for token in tokens])

    def proves(self, proof, negated, denied):
        rule, tokens = proof
        given = {'~': negated, '!': denied}
        try:
            if rule == 'rup':
                return self.recheck.conflicts(negated, tokens, self.state.live, given)
            derived = self.recheck.evaluate(tokens, self.state.live, given)
            return derived.total() < derived.degree
        except self.recheck.Refused:
            return False

    def any_goal(self):
        if self.random.random() < .3:
            return self.sum()
        return {l: 1 for l in self.literals(3) or [self.literal()]}, 1

    def red_of_any(self):
        return self.substitution('red', *self.any_goal())

    def dom_of_any(self):
        return self.substitution('dom', *self.any_goal())

    def red_of_line(self):
        """The constraint of a live line, mostly one of the last, as it is or a little more: legal exactly where the line says as much."""
        ids = list(self.state.live)
        if not ids:
            return self.red_of_any()
        number = self.random.choice(ids[-3:] if self.random.random() < .8 else ids)
        terms, degree = self.state.live[number]
        shown = spelled.constraint(terms, degree + (self.random.random() < .3))
        return 'red %s : : c pol ~ %d +' % (shown, number)

    def red_at_the_limit(self):
        """A constraint that may just be substituted into, or whose negation may just be made."""
        degree = self.random.randint(0, 3)
        weight = self.random.choice((SUBSTITUTED - degree, SUBSTITUTED - degree + 1, (SIZE + degree - 1) // 2, (SIZE + degree - 1) // 2 + 1))
        return self.substitution(self.random.choice(('red', 'dom')), {self.literal(): weight}, degree)

    # Sol

    def problem_models(self):
        """Models of the problem, by trying assignments."""
        if self.models is None:
            signs = itertools.islice(itertools.product((-1, 1), repeat=self.problem.variables), MODELS)
            assignments = [[sign * k for k, sign in enumerate(row, 1)] for row in signs]
            self.models = [model for model in assignments if all(row.slack(set(model)) >= 0 for row in self.problem.rows)]
        return self.models

    def sol_of_model(self):
        """A model with a cut by which its costs are bounded: by outputs of objectives, or by the terms that are true."""
        models = self.problem_models()
        model = self.random.choice(models) if models else []
        true, cut, ids = set(model), set(), []
        for objective, row in enumerate(self.problem.costs):
            cost = sum(c for l, c in row.terms.items() if l in true)
            outputs = [output for output in self.outputs.get(objective, []) if output[0] >= cost - (self.random.random() < .1)]
            if outputs and self.random.random() < .8:
                _, variable, line = self.random.choice(outputs)
                cut.add(-variable)
                ids.append(line)
            else:
                cut.update(-l for l in row.terms if l in true)
                ids.append(self.random.choice((self.any_id(), self.state.next_id)) if self.random.random() < .15 else 0)
        if self.random.random() < .05:
            ids.append(0)
        if cut and self.random.random() < .1:
            cut.discard(self.random.choice(sorted(cut)))
        if self.random.random() < .1:
            cut.add(self.literal())
        return self.sol(model, sorted({abs(l): l for l in cut}.values(), key=abs), ids)

    def sol(self, model, cut, ids):
        return ' '.join(['sol'] + [spelled.literal(l) for l in model] + [':'] + [spelled.literal(l) for l in cut] + [':'] + [str(k) for k in ids])

    def sol_of_any(self):
        model = [self.random.choice((-1, 1)) * k for k in range(1, self.problem.variables + 1)]
        return self.sol(model, self.literals(3), [0] * len(self.problem.costs))

    # Del, Reduce and End

    def ids_of_any(self):
        ids = {number for number in self.state.live if number > len(self.problem.rows) and self.random.random() < .5}
        if not ids or self.random.random() < .1:
            ids.add(self.any_id())
        return ' '.join(str(number) for number in sorted(ids))

    def del_of_any(self):
        return 'del ' + self.ids_of_any()

    def reduce_of_any(self):
        return 'reduce ' + self.ids_of_any()

    def end_of_any(self):
        ends = [number for number, line in self.state.live.items() if not line.terms and line.degree > 0]
        return 'end %d' % (self.random.choice(ends) if ends and self.random.random() < .9 else self.any_id())
