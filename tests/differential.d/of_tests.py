"""The cases of tests/, through the second checker: what `check` and `check-models` answer there is what it says; and what the other
commands do is judged by it."""
import importlib.machinery
import importlib.util
import os
import subprocess
import sys

import judges
import program as programs

# How many files each command reads, which its first words name.
READS = {'check': 3, 'check-models': 2, 'front': 1, 'solve': 1, 'upgrade': 2, 'elaborate': 2, 'trim': 3, 'models': 2}
BY_ITSELF = (0, 74)    # cases that end so are few: their words are given to the script, too
LARGE = 1 << 20    # a file of so many zero bytes isn't held as a text


def cases_of(folder):
    """Each case of tests/, with its name; those that need another outside than files (pipes, closed streams, less memory) are left out."""
    loader = importlib.machinery.SourceFileLoader('run', os.path.join(folder, 'run'))
    runner = importlib.util.module_from_spec(importlib.util.spec_from_loader('run', loader))
    loader.exec_module(runner)
    for name in runner.case_files():
        with open(os.path.join(folder, name), encoding='utf-8') as file:
            for row, case in runner.cases_of(file.read()):
                streams = case.full or case.closed or case.pipes or case.open_pipes
                if not (streams or case.links or case.forbidden or case.room or case.largest is not None):
                    yield name + row, case


def judged(judge, case):
    """Whether a case concerns the second checker, and what is wrong with it or None."""
    words = [word.decode('utf-8', 'surrogateescape') for word in case.words]
    wanted = case.number, (case.said or case.warned).decode('latin-1').rstrip('\n').replace('scuttle: ', '', 1)
    if not words or words[0] not in READS:
        return False, None
    if words[0] in ('check', 'check-models'):
        module = judge.recheck if words[0] == 'check' else judge.second.models
        return True, judge.compared(wanted, judge.recheck.answer(module.check_files, words[1:]))
    files = {name: text.decode('latin-1') for name, text in case.files.items()}
    files.update((name, '\0' * count) for name, count in case.zeros.items() if count < LARGE)
    if case.number in (64, 74) or not all(name in files for name in words[1:1 + READS[words[0]]]):
        return False, None
    answer, wrong = judge.judge(judges.Case(words, files))
    return True, wrong or (None if answer == wanted else 'the program says %r, wanted %r' % (answer, wanted))


def script_difference(checker, case):
    """What is wrong with what the second checker's file says and warns where it is run by itself, or None."""
    name = 'recheck.py' if case.words[0] == b'check' else 'recheck_models.py'
    done = subprocess.run([sys.executable, os.path.join(checker, name)] + case.words[1:], stdout=subprocess.PIPE, stderr=subprocess.PIPE)
    found, wanted = (done.returncode, done.stdout, done.stderr), (case.number, case.said, case.warned)
    return None if found == wanted else '%s ends with %r, wanted %r' % (name, found, wanted)


def run(folder, program, second):
    """Prints each case that differs, and how many there were; whether none did."""
    judge, passed, failed = judges.Judge(program, second), {}, 0
    for name, case in cases_of(folder):
        prepare(program, case)
        concerned, wrong = judged(judge, case)
        if concerned and case.number in BY_ITSELF and case.words[0] in (b'check', b'check-models'):
            wrong = wrong or script_difference(second.folder, case)
        if wrong:
            failed += 1
            print('%s: %s' % (name, wrong))
        elif concerned:
            passed[name.split(os.sep)[0]] = passed.get(name.split(os.sep)[0], 0) + 1
    print('cases of tests/: ' + ', '.join('%d %s' % (passed[group], group) for group in sorted(passed)))
    print('differential: %d passed, %d failed' % (sum(passed.values()), failed))
    return passed and not failed


def prepare(program, case):
    """A new folder with the files of a case."""
    program.renew()
    for name in case.folders:
        os.makedirs(name)
    for name, text in case.files.items():
        programs.write(name, text.decode('latin-1'))
    for name, count in case.zeros.items():
        with open(name, 'wb') as file:
            file.truncate(count)
