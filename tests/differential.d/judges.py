"""What the program and the second checker, or enumeration, say of one run: a judge for each command.

A judge runs the program on the files of a case and gives the answer, and what is wrong with it or None.
"""
import traceback

import enumeration
import program as programs
import spelled

ENUMERATED = 12    # variables of an instance whose assignments are all tried


class Case:
    """The words of a run, and the files that are there before, as texts in which each character is a byte."""

    def __init__(self, words, files):
        self.words, self.files = words, files

    def write(self):
        for name, text in self.files.items():
            programs.write(name, text)

    def text(self, place):
        """The text of the file that a word names."""
        return self.files[self.words[place]]


class Judge:
    """The judges over one program and one second checker."""

    def __init__(self, program, second):
        self.program, self.second, self.recheck = program, second, second.recheck

    def judge(self, case):
        """The answer, and what is wrong with it or None."""
        case.write()
        answer = self.program.run(case.words)
        try:
            return answer, getattr(self, 'judge_' + case.words[0].replace('-', '_'))(case, answer)
        except Exception:    # the files may be what none of the judges expects
            return answer, 'what it has written can\'t be judged: ' + traceback.format_exc()

    def judge_checks(self, cases):
        """The same of many checks: the program answers while the second checker does."""
        self.program.begin_checks(cases)
        wanted = [self.second.check(case.words[1], case.text(1), case.text(2), case.text(3)) for case in cases]
        answers = self.program.end_checks()
        if len(answers) != len(cases):
            return [self.judge(case) for case in cases]
        return [(answer, self.compared(answer, second)) for answer, second in zip(answers, wanted)]

    def compared(self, answer, wanted):
        return None if answer == wanted else 'the program says %r, the second checker %r' % (answer, wanted)

    def instance(self, case):
        return self.second.instance(case.words[1], case.text(1))

    def read_fault(self, case, limit=None):
        """What is wrong with IN, as it is answered, or None."""
        try:
            instance = self.instance(case)
            return (66, 'line 0: too large: Vars') if limit is not None and instance.variables > limit else None
        except self.recheck.Wrong as wrong:
            return wrong.args

    def judge_check(self, case, answer):
        return self.compared(answer, self.second.check(case.words[1], case.text(1), case.text(2), case.text(3)))

    def judge_check_models(self, case, answer):
        return self.compared(answer, self.second.check_models(case.words[1:]))

    def list_difference(self, instance, listed):
        """What is wrong with a list that is said to be the front's."""
        found = self.second.answer(lambda: self.recheck.check_list(instance, listed))
        if found[0] != 0:
            return 'the second checker says of the list: %s' % found[1]
        if instance.variables > ENUMERATED:
            return None
        front = enumeration.front_of(instance, enumeration.models_of(instance))
        costs = [costs for costs, _ in self.recheck.read_list(listed)[1]]
        return None if costs == [costs for costs, _ in front] else 'the list has %r, by enumeration %r' % (costs, [costs for costs, _ in front])

    def judge_front(self, case, answer):
        fault = self.read_fault(case, 20)
        if fault or answer[0] != 0:
            return self.compared(answer, fault)
        instance, listed = self.instance(case), programs.read(case.words[2])
        count = len(self.recheck.read_list(listed)[1])
        return self.compared(answer, (0, 'complete %d' % count)) or self.list_difference(instance, listed)

    def judge_solve(self, case, answer):
        fault = self.read_fault(case)
        if fault or answer[0] != 0:
            return self.judge_incomplete(case, answer) if answer[0] == 10 else self.compared(answer, fault)
        instance, listed, log = self.instance(case), programs.read(case.words[2]), programs.read(case.words[3])
        count = len(self.recheck.read_list(listed)[1])
        return (self.compared(answer, (0, 'complete %d' % count)) or self.list_difference(instance, listed)
                or self.compared((0, 'accepted'), self.second.check(case.words[1], case.text(1), listed, log)))

    def judge_incomplete(self, case, answer):
        """A list that makes no claim holds models with their costs, none comparable, and the lines of the log are legal."""
        listed, log = programs.read(case.words[2]), programs.read(case.words[3])
        entries = self.second.answer(lambda: self.recheck.check_list(self.instance(case), listed.replace('INCOMPLETE', 'COMPLETE', 1)))
        _, words, _ = self.elaborated(self.recheck.normal_form_of_instance(self.instance(case)), log)
        learned = sum(line.startswith('learn ') for line in log.split('\n'))
        count = len(self.recheck.read_list(listed)[1])
        return (self.compared(answer, (10, 'incomplete %d after %d' % (count, learned))) or self.compared((0, 'accepted'), entries)
                or self.compared('done', words))

    def read_lines(self, log):
        """The lines of a log up to the first that is none, and what is answered of that one, or None."""
        lines, spelling = [], None
        for number, text in enumerate(self.recheck.whole_lines(log) or ['\n'], 1):
            try:
                if spelling is None:
                    spelling = self.recheck.Spelling(text)
                else:
                    lines.append(spelling.line_in(text))
            except self.recheck.Refused as refused:
                return lines, 'log line %d: %s' % (number, refused)
        return lines, None

    def judge_upgrade(self, case, answer):
        fault = self.read_fault(case)
        if fault:
            return self.compared(answer, fault)
        rows = len(self.recheck.normal_form_of_instance(self.instance(case)).rows)
        lines, refused = self.read_lines(case.text(2))
        wanted = spelled.log_of(self.recheck, lines, rows)
        return (self.compared(answer, (11, refused) if refused else (0, 'done'))
                or (None if programs.read(case.words[3]) == wanted else 'the new log is %r, wanted %r' % (programs.read(case.words[3]), wanted)))

    def elaborated(self, problem, log):
        """The number, the words, and the lines that are loosely legal, by propagation over all live lines."""
        lines, refused = self.read_lines(log)
        state = self.recheck.State(problem)
        for place, line in enumerate(lines):
            try:
                state.step(self.hinted(state, line))
            except self.recheck.Refused as why:
                return 11, 'log line %d: %s' % (place + 2, why), lines[:place]
        return (11, refused, lines) if refused else (0, 'done', lines)

    def hinted(self, state, line):
        """A line with hints that lead to a conflict, where it has none and there are some."""
        if line.kind not in ('rup', 'learn') or line.tokens:
            return line
        try:
            negated = line.constraint.negation()
        except self.recheck.Refused:
            return line
        lines = [(('~', 0), negated)] + [(('id', number), constraint) for number, constraint in state.live.items()]
        true, hints, before = set(), [], -1
        while len(true) > before:
            before = len(true)
            for hint, constraint in lines:
                count = len(true)
                is_over = self.recheck.propagate(constraint, true)
                if is_over or len(true) > count:
                    hints.append(hint)
                if is_over:
                    return line._replace(tokens=hints)
        return line

    def judge_elaborate(self, case, answer):
        fault = self.read_fault(case)
        if fault:
            return self.compared(answer, fault)
        problem = self.recheck.normal_form_of_instance(self.instance(case))
        number, words, lines = self.elaborated(problem, case.text(2))
        return self.compared(answer, (number, words)) or self.new_lines_difference(problem, lines, programs.read(case.words[3]))

    def new_lines_difference(self, problem, lines, log):
        """What is wrong with a log that is to hold these lines, with hints where they had none, each legal."""
        new_lines, refused = self.read_lines(log)
        if refused or log != spelled.log_of(self.recheck, new_lines):
            return 'the new log is no text of version 1'
        if len(new_lines) != len(lines):
            return 'the new log has %d lines, wanted %d' % (len(new_lines), len(lines))
        state = self.recheck.State(problem)
        for place, (line, new_line) in enumerate(zip(lines, new_lines)):
            may_differ = line.kind in ('rup', 'learn') and not line.tokens
            if line != (new_line._replace(tokens=line.tokens) if may_differ else new_line):
                return 'line %d of the new log is another' % (place + 2)
            try:
                state.step(new_line)
            except self.recheck.Refused as why:
                return 'line %d of the new log: %s' % (place + 2, why)
        return None

    def judge_trim(self, case, answer):
        wanted = self.second.check(case.words[1], case.text(1), case.text(2), case.text(3))
        if wanted[0] != 0 or answer[0] != 0:
            return self.compared(answer, wanted)
        new_log = programs.read(case.words[4])
        lines, new_lines = self.read_lines(case.text(3))[0], self.read_lines(new_log)[0]
        rest = iter((line.kind, line.constraint, line.witness, line.model, line.cut) for line in lines)
        if not all((line.kind, line.constraint, line.witness, line.model, line.cut) in rest for line in new_lines):
            return 'the lines of the new log are none of the old one in their order'
        return (self.compared(answer, (0, 'trimmed %d of %d' % (len(new_lines), len(lines))))
                or self.compared(new_log, spelled.log_of(self.recheck, new_lines))
                or self.compared((0, 'accepted'), self.second.check(case.words[1], case.text(1), case.text(2), new_log)))

    def judge_models(self, case, answer):
        fault = self.read_fault(case) or self.second.answer(lambda: self.recheck.check_list(self.instance(case), case.text(2)))
        if fault[0] != 0 or answer[0] != 0:
            return self.compared(answer, fault)
        instance, most = self.instance(case), int(case.words[3])
        entries = self.recheck.read_list(case.text(2))[1]
        served = self.second.models.read_models(programs.read(case.words[4] + '.models'))
        wrong = self.compared(answer, (0, 'models %d' % len(entries))) or self.compared((0, 'accepted'), self.second.check_models(case.words[1:]))
        models = enumeration.models_of(instance) if instance.variables <= ENUMERATED else []
        for (costs, _), one in zip(entries, served if models else []):
            serving = [model for others, model in models if enumeration.weakly_dominates(instance, others, costs)]
            if one.are_all != (len(serving) < most) or len(one.models) != min(most, len(serving)) or not all(m in serving for m in one.models):
                wrong = wrong or 'of costs %r are given %r, by enumeration %r' % (costs, one.models, serving)
        return wrong
