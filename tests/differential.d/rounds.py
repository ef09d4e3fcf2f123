"""Rounds of cases: each makes an instance and what belongs to it, and mutates that. `SHARES` says how many cases of what there are."""
import enumeration
import instances
import judges
import lines
import mutations
import program as programs
import spelled

# Of each group, how many cases a round has on average.
SHARES = {'instance': 14, 'list': 9, 'line': 34, 'log': 28, 'front': 1, 'solve': 1, 'upgrade': 1, 'elaborate': 1.5, 'trim': 1, 'models': .5,
          'check-models': 3, 'pieces': 1}
SEARCHES = ((), ('--search', 'lower-bounding'), ('--search', 'p-minimal'), ('--search', 'turns', '--turns', '12'),
            ('--search', 'turns', '--turns', '21'))
TWO_OBJECTIVES = (('--search', 'bioptsat'), ('--search', 'turns', '--turns', '123'), ('--search', 'turns', '--turns', '3'))
HEADER = 'scuttle proof version 1\n'
# A line of each kind, to stand after an end.
LINES = ('pol 1\n', 'rup >= 0 :\n', 'learn >= 1 :\n', 'def x9 : >= 0\n', 'red >= 0 :\n', 'dom >= 0 :\n', 'sol : :\n', 'del 1\n',
         'reduce 1\n', 'end 1\n')
OTHERS = 40    # texts that are kept to be spliced with


class Rounds:
    """Makes cases and has them judged; `take_difference` is given each that differs."""

    def __init__(self, random, judge, counts, take_difference):
        self.random, self.judge, self.counts, self.take_difference = random, judge, counts, take_difference
        self.recheck = judge.recheck
        self.maker = instances.Maker(random)
        self.others = {'instance': {}, 'log': [], 'list': []}
        self.checks = []    # that wait to be judged together, each with its group

    def try_check(self, group, name, text, listed, log):
        """Puts off a case of `check`."""
        self.checks.append((group, judges.Case(['check', name, 'a.list', 'a.log'], {name: text, 'a.list': listed, 'a.log': log})))

    def judge_checks(self):
        """Has the cases judged that were put off."""
        checks, self.checks = self.checks, []
        for (group, case), (answer, wrong) in zip(checks, self.judge.judge_checks([case for _, case in checks])):
            self.take(group, case, answer, wrong)

    def try_case(self, group, words, files):
        """The answer of a case."""
        case = judges.Case(words, files)
        answer, wrong = self.judge.judge(case)
        self.take(group, case, answer, wrong)
        return answer

    def take(self, group, case, answer, wrong):
        self.counts.add(group, case, answer)
        if wrong:
            self.take_difference(case, answer, wrong)

    def times(self, group):
        """How many cases of a group come in this round."""
        share = SHARES[group]
        return int(share) + (self.random.random() < share - int(share))

    def remember(self, kind, text):
        """Keeps a text that others are spliced with."""
        kept = self.others[kind]
        if len(kept) < OTHERS:
            kept.append(text)
        else:
            kept[self.random.randrange(OTHERS)] = text

    def round(self):
        """One instance, its list, its logs, and what is made of them."""
        self.try_all(*self.maker.instance())
        self.judge_checks()

    def try_all(self, name, text):
        for _ in range(self.times('instance')):
            self.try_instance(name, text)
        try:
            instance = self.judge.second.instance(name, text)
        except self.recheck.Wrong:
            self.try_check('instance', name, text, 's COMPLETE 0\n', HEADER)
            return
        models = enumeration.models_of(instance)
        front = enumeration.front_of(instance, models)
        listed = enumeration.list_text(front)
        self.remember('list', listed)
        for _ in range(self.times('list')):
            self.try_list(name, text, instance, models, listed)
        for _ in range(self.times('line')):
            self.try_lines(name, text, instance, models, listed)
        self.try_commands(name, text, instance, listed)

    def try_instance(self, name, text):
        """A text that mostly has a mistake, with a list and a log that have one too."""
        kind = 'mcnf' if name == 'a.mcnf' else 'opb'
        kept = list(self.others['instance'].setdefault(kind, []))
        kept.append(text)
        self.others['instance'][kind] = kept[-OTHERS:]
        is_at_limit = self.random.random() < .3
        text = self.limit_text(kind) if is_at_limit else self.random.choice((text, text, self.maker.short(kind), self.maker.short(kind), ''))
        for _ in range(self.random.choice((0, 0, 1) if is_at_limit else (1, 1, 2))):
            text = mutations.mutated(self.random, text, kind, kept)
        self.try_check('instance', name, text, 's COMPLETE 0\n', HEADER)

    def limit_text(self, kind):
        """A text at a limit, or just past it."""
        past = self.random.choice((0, 0, 1))
        first = self.random.randint(0, 2**63 - 1)
        second = 2**63 - 1 - first + past
        if kind == 'mcnf':
            index = self.random.choice((1, 2, 64))
            return self.random.choice((
                'o%d %d 1 0\no%d %d -2 0\n' % (index, first, index, second), 'o%d 0 1 0\n' % (64 + past), 'o%d 0 0\n' % (1 - past),
                'h %d 0\n' % (2**24 + past),
                'o1 %d 0\n' % (2**63 - 1 + past), 'h %d 0\n' % (2**63 - 1 + past)))
        return self.random.choice((
            'min: %d x1 -%d x2 ;\n' % (first, second), '%d x1 -%d x2 >= 0 ;' % (first, second), '%d x1 <= -%d ;\n' % (first, second),
            'min: x1 %d x2 ;' % (2**63 - 2 + past), '%d x1 x2 = 1 ;' % (2**63 - 2 + past), 'min: ;\n' * (64 + past),
            'max: ; min: x1 ;\n' * 32 + 'min: ;' * past, 'x%d >= 0 ;' % (2**24 + past),
            'x1 >= %d ;' % (2**63 - 2 + past), 'x%d >= 1 ;' % (2**63 - 1 + past), 'x1 >= 1 ; max: ;', 'max: ;' * 64 + ' x1 >= 1 ; max: ;'))

    def other_list(self, instance, models, listed):
        """Another list of models, with right costs mostly."""
        entries = [(list(costs), list(model)) for costs, model in self.random.sample(models, min(len(models), self.random.randint(0, 3)))]
        if self.random.random() < .6:
            entries.sort()
        if entries and self.random.random() < .4:
            costs, model = self.random.choice(entries)
            place = self.random.randrange(len(model)) if model else None
            if place is not None:
                model[place] = -model[place]
        return enumeration.list_text(entries, self.random.choice(('COMPLETE',) * 9 + ('INCOMPLETE',)))

    def try_list(self, name, text, instance, models, listed):
        other = self.other_list(instance, models, listed) if self.random.random() < .5 else listed
        if other == listed or self.random.random() < .4:
            other = mutations.mutated(self.random, other, 'list', self.others['list'])
        self.try_check('list', name, text, other, HEADER)

    def try_lines(self, name, text, instance, models, listed):
        """A log of random lines, over the front's list or another one."""
        if self.random.random() < .25:
            model = [self.random.choice(models)] if models and self.random.random() < .7 else []
            listed = enumeration.list_text([(list(costs), one) for costs, one in model])
        log = lines.LogMaker(self.random, self.recheck, instance).make()
        self.remember('log', log)
        self.try_check('line', name, text, listed, log)

    def options(self, instance):
        """Options of `solve` that the instance takes."""
        words = list(self.random.choice(SEARCHES + (TWO_OBJECTIVES if len(instance.objectives) == 2 else ())))
        words += [word for word in ('--harden', '--boost') if self.random.random() < .4]
        words += ['--log-version', self.random.choice('12')] if self.random.random() < .5 else []
        return words + (['--learn', self.random.choice(('1', '2', '5'))] if self.random.random() < .1 else [])

    def try_commands(self, name, text, instance, listed):
        """Runs of the other commands, and mutated logs of `solve`."""
        if self.times('front'):
            self.try_case('front', ['front', name, 'f.list'], {name: text})
        solved = self.try_case('solve', ['solve', name, 'b.list', 'b.log'] + self.options(instance), {name: text})
        if solved[0] != 0:
            return
        log, own_list = programs.read('b.log'), programs.read('b.list')
        self.remember('log', log)
        logs = [log] + self.rewritten(name, text, own_list, log)
        for _ in range(self.times('log')):
            old = self.random.choice(logs)
            is_ended = self.random.random() < .06
            mutated = old + self.random.choice(LINES) if is_ended else mutations.mutated(self.random, old, 'log', self.others['log'])
            self.try_check('log', name, text, own_list, mutated)
        for _ in range(self.times('models')):
            self.try_models(name, text, own_list, instance)
        for _ in range(self.times('pieces')):
            self.try_pieces(name, text, instance, own_list)

    def without_hints(self, log):
        """A log in which some lines have no hints."""
        rows = log.split('\n')
        return '\n'.join(row.split(' : ')[0] + ' :' if row.startswith(('rup', 'learn')) and ' : ' in row and self.random.random() < .5 else row
                         for row in rows)

    def rewritten(self, name, text, listed, log):
        """The log upgraded, elaborated and trimmed, with others tried besides; the new logs are accepted, so all are to be mutated."""
        new_logs = []
        for command, group in (('upgrade', 'upgrade'), ('elaborate', 'elaborate'), ('trim', 'trim')):
            for _ in range(self.times(group)):
                words = [command, name] + (['a.list'] if command == 'trim' else []) + ['a.log', 'n.log']
                old = self.random.choice([log] + new_logs + self.others['log'][-5:])
                old = self.without_hints(old) if command == 'elaborate' and self.random.random() < .7 else old
                old = mutations.mutated(self.random, old, 'log', self.others['log']) if self.random.random() < .4 else old
                answer = self.try_case(group, words, {name: text, 'a.list': listed, 'a.log': old, 'n.log': 'what was there'})
                if answer[0] == 0:
                    new_logs.append(programs.read('n.log'))
        return new_logs

    def try_models(self, name, text, listed, instance):
        """Models for the list's entries, and these and their logs mutated."""
        most = self.random.choice((1, 2, 3, 100))
        files = {name: text, 'a.list': listed}
        if self.try_case('models', ['models', name, 'a.list', str(most), 'm'], files)[0] != 0:
            return
        files['m.models'] = programs.read('m.models')
        for number in range(1, files['m.models'].count('e ') + 1):
            try:
                files['m.%d.log' % number] = programs.read('m.%d.log' % number)
            except OSError:
                files['m.%d.log' % number] = ''
        for _ in range(self.times('check-models') * 2):
            mutated = dict(files)
            of = self.random.choice([key for key in files if key.startswith('m.')] + ['m.models', 'm.models'])
            if self.random.random() < .8:
                mutated[of] = mutations.mutated(self.random, files[of], 'models' if of == 'm.models' else 'log', [files[of]])
            if of == 'm.models' and self.random.random() < .6:
                mutated[of] = self.with_other_model(files[of], instance)
            asked = self.random.choice((most, most, most, most + 1))
            self.try_case('check-models', ['check-models', name, 'a.list', str(asked), 'm'], mutated)

    def with_other_model(self, text, instance):
        """A text of models in which another stands in place of one: any that is there, any model, or any assignment."""
        rows = text.split('\n')
        places = [place for place, row in enumerate(rows) if row.startswith('v')]
        if not places:
            return text
        models = [model for _, model in enumeration.models_of(instance)]
        any_signs = [self.random.choice((-1, 1)) * k for k in range(1, instance.variables + 1)]
        other = self.random.choice((self.random.choice(models), any_signs, any_signs))
        given = ' '.join(['v'] + [str(l) for l in other] + ['0'])
        rows[self.random.choice(places)] = self.random.choice((rows[self.random.choice(places)], given, given))
        return '\n'.join(rows)

    def try_pieces(self, name, text, instance, listed):
        """A log with runs of ids that are deleted, sometimes in more than one piece."""
        count = self.random.randint(1020, 2100) if self.random.random() < .02 else self.random.randint(1, 9)
        rows = len(self.recheck.normal_form_of_instance(instance).rows)
        kept = set(self.random.sample(range(count), min(count - 1, self.random.choice((0, 0, 1, 2)))))
        ids = [rows + 1 + place for place in range(count) if place not in kept]
        kind = self.random.choice(('del', 'reduce'))
        log = spelled.log_of(self.recheck, [self.recheck.Spelling('scuttle proof version 1').line_in('rup >= 0 :')] * count
                             + [self.recheck.Line(kind, [], ids=ids)], self.random.choice((rows, rows, 0, None)))
        if self.random.random() < .7:
            first, _, last = log[:-1].rpartition('\n')
            log = first + '\n' + mutations.by_word(self.random, last, 'log', ()) + '\n'
        self.try_check('pieces', name, text, listed, log)
