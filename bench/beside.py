"""Families of problems solved by one or more programs, one run at a time, and the table of what each run took."""
import os
import resource
import signal
import subprocess
import sys
import tempfile
from typing import Callable, Dict, List, NamedTuple, Optional, Sequence, Tuple

import pages
from alike_problems import Problem

LIMIT = 20


class Family(NamedTuple):
    """Problems by their names, the command that solves them, and the kind of line that is counted beside learned clauses."""

    command: str
    problems: Dict[str, Callable[[], Problem]]
    counted: str


class Mistake(Exception):
    """A run that says what it shouldn't."""


class Program(NamedTuple):
    """An executable, and what it is called in the table."""

    name: str
    path: str


class Run(NamedTuple):
    """What a `solve` that ended took and left."""

    seconds: float
    log: int
    learned: int
    counted: int
    front: List[Tuple[int, ...]]


class Request(NamedTuple):
    """The words of the command line."""

    family: Family
    programs: List[Program]
    limit: int
    only: str
    write: bool


def program_of(word: str) -> Program:
    name, path = word.split('=', 1) if '=' in word else (os.path.basename(word), word)
    return Program(name, os.path.abspath(path))


def spent(words: Sequence[str], limit: int) -> Tuple[float, int, str]:
    """The processor seconds of a run, the number with which it ends, and what it says. The limit sends SIGXCPU, and a second later SIGKILL."""
    def limited() -> None:
        resource.setrlimit(resource.RLIMIT_CPU, (limit, limit + 1))
    before = resource.getrusage(resource.RUSAGE_CHILDREN)
    ran = subprocess.run(words, stdin=subprocess.DEVNULL, stdout=subprocess.PIPE, stderr=subprocess.STDOUT, preexec_fn=limited)
    after = resource.getrusage(resource.RUSAGE_CHILDREN)
    return after.ru_utime - before.ru_utime + after.ru_stime - before.ru_stime, ran.returncode, ran.stdout.decode(errors='replace').strip()


def front_of(path: str) -> List[Tuple[int, ...]]:
    with open(path, encoding='ascii') as file:
        return sorted(tuple(map(int, line.split()[1:])) for line in file if line.startswith('o'))


def count_lines(path: str, kind: str) -> Tuple[int, int]:
    """How many lines of a log are learned clauses, and how many are of this kind. A line without a witness, which has `: :`, puts nothing in
    order: it follows from others."""
    learned = counted = 0
    with open(path, 'rb') as file:
        for line in file:
            learned += line.startswith(b'learn ')
            counted += line.startswith(kind.encode() + b' ') and b': :' not in line
    return learned, counted


def run(program: Program, folder: str, limit: int, kind: str) -> Optional[Run]:
    """Solves the instance of a folder and checks the log; nothing where the limit ended it."""
    path, listing, log = (os.path.join(folder, name) for name in ('a.opb', 'a.list', 'a.log'))
    for name in (listing, log):
        if os.path.exists(name):
            os.remove(name)
    seconds, number, said = spent([program.path, 'solve', path, listing, log], limit)
    if number == -signal.SIGXCPU or (number == -signal.SIGKILL and seconds >= limit):
        return None
    if number or not said.startswith('complete'):
        raise Mistake('%s: solve ends with %d: %s' % (program.name, number, said))
    _, number, said = spent([program.path, 'check', path, listing, log], 10 * limit)
    if number or not said.startswith('accepted'):
        raise Mistake('%s: check ends with %d: %s' % (program.name, number, said))
    return Run(seconds, os.path.getsize(log), *count_lines(log, kind), front_of(listing))


def shown(took: Optional[Run], limit: int) -> List[str]:
    """The cells of one program."""
    if took is None:
        return ['over %d' % limit, '', '']
    return ['%.2f' % took.seconds, pages.bytes_text(took.log), format(took.learned, ',')]


def row_of(name: str, request: Request) -> Tuple[List[str], List[bool]]:
    """The row of a problem, and which programs have ended."""
    made = request.family.problems[name]()
    with tempfile.TemporaryDirectory() as folder:
        with open(os.path.join(folder, 'a.opb'), 'w', encoding='ascii') as file:
            file.write(made.text())
        runs = [run(program, folder, request.limit, request.family.counted) for program in request.programs]
    fronts = [took.front for took in runs if took]
    if any(front != fronts[0] for front in fronts):
        raise Mistake('the fronts differ: %s' % fronts)
    cells = [name, str(made.variables), format(len(made.rows), ','), str(len(made.costs)), str(len(fronts[0])) if fronts else '']
    last = runs[-1]
    row = cells + [cell for took in runs for cell in shown(took, request.limit)] + [format(last.counted, ',') if last else '']
    return row, [took is not None for took in runs]


def head_of(programs: List[Program], counted: str) -> List[str]:
    head = ['Problem', 'Variables', 'Rows', 'Costs', 'Compromises']
    for program in programs:
        before = program.name + ': ' if len(programs) > 1 else ''
        head += [before + '`solve`, s', 'log', 'learned']
    return head + ['`%s` lines' % counted]


def request_of(words: List[str], family: Family) -> Optional[Request]:
    """What the words ask for, if they are right."""
    programs, limit, only, write = [], LIMIT, '', False
    left = iter(words)
    for word in left:
        if word == '--limit':
            number = next(left, '')
            if not number.isdecimal() or not int(number):
                return None
            limit = int(number)
        elif word == '--only':
            only = next(left, '')
        elif word == '--write':
            write = True
        elif word.startswith('-'):
            return None
        else:
            programs.append(program_of(word))
    right = programs and any(only in name for name in family.problems) and not (write and only)
    return Request(family, programs, limit, only, write) if right else None


def write_instances(family: Family, folder: str) -> int:
    os.makedirs(folder, exist_ok=True)
    for name, make in family.problems.items():
        with open(os.path.join(folder, name + '.opb'), 'w', encoding='ascii') as file:
            file.write(make().text())
    return 0


def compare(request: Request) -> int:
    rows, failed = [], 0
    ended = [0] * len(request.programs)
    for name in request.family.problems:
        if request.only not in name:
            continue
        try:
            row, have_ended = row_of(name, request)
            rows.append(row)
            ended = [count + has_ended for count, has_ended in zip(ended, have_ended)]
            print('  '.join(row), file=sys.stderr, flush=True)
        except Mistake as mistake:
            failed += 1
            print('%s: %s: %s' % (request.family.command, name, mistake), file=sys.stderr, flush=True)
    for program, count in zip(request.programs, ended):
        print('%s: %s has ended %d of %d' % (request.family.command, program.name, count, len(rows)), file=sys.stderr, flush=True)
    text = pages.table(head_of(request.programs, request.family.counted), rows)
    print(text)
    if request.write and not failed:
        pages.put('bench/' + request.family.command, text)
    return 1 if failed else 0


def main(words: List[str], family: Family) -> int:
    """Does what the words of a command of this family ask for; the number with which it ends."""
    if len(words) == 2 and words[0] == '--instances':
        return write_instances(family, words[1])
    request = request_of(words, family)
    if request is None:
        print('usage: bench/%s PROGRAM.. [--limit S] [--only WORD] [--write]\n       bench/%s --instances FOLDER'
              % (family.command, family.command), file=sys.stderr)
        return 2
    for program in request.programs:
        if not os.access(program.path, os.X_OK):
            print('%s: %s is no program' % (family.command, program.path), file=sys.stderr)
            return 2
    return compare(request)
