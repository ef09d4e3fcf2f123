"""from-wcnf: makes an instance from weighted clauses, as programs for MaxSAT read them.

usage: tools/from-wcnf IN.wcnf [MORE.wcnf ..] OUT.mcnf

Each file has the soft clauses of one cost, and all have the same hard ones. A file begins with `p wcnf VARS CLAUSES TOP`, and a clause
whose weight is TOP or more is hard; or it has no such line, and a hard clause begins with `h`. A cost is called as its file is.
Comments `c x5 fibre Cob-Dun` of the first file name variables. Weights are whole.
Ends with 64 where the words are wrong, 65 where a file can't be taken, 74 where one can't be read or written.
"""
import os
from typing import Dict, List, NamedTuple, Optional, Tuple

from .commands import run_command, usage
from .errors import Malformed
from .files import is_whole, printable, read_lines, whole_of, write_text
from .instances import Soft, names_of
from .kinds import mind_ending

Clause = Tuple[int, ...]


class Weighted(NamedTuple):
    """What a file says: hard clauses, soft ones, and the names of variables.

    >>> Weighted([(1, 2)], [(3, [-1])], {}).hard
    [(1, 2)]
    """

    hard: List[Clause]
    soft: List[Soft]
    names: Dict[int, str]


def read_wcnf(path: str) -> Weighted:
    """What a file says. `Malformed` names the first line that can't be taken.

    >>> with open('a.wcnf', 'w') as out:
    ...     _ = out.write('p wcnf 2 2 9\\n9 1 2 0\\n3 -1 0\\n')
    >>> read_wcnf('a.wcnf')
    Weighted(hard=[(1, 2)], soft=[(3, [-1])], names={})
    """
    lines = read_lines(path)
    mind_ending(path, 'from-wcnf')
    found, top = Weighted([], [], names_of('names.mcnf', lines).variables), None  # type: Weighted, Optional[int]
    for number, text in lines:
        words = text.split()
        if not words or words[0].startswith('c'):
            continue
        if words[0] == 'p':
            if words[1:2] != ['wcnf'] or len(words) != 5 or found.hard or found.soft:
                raise Malformed(path, number, 'a file of weighted clauses begins with `p wcnf VARS CLAUSES TOP`, or has no such line')
            top = whole_of(path, number, words[4])
            continue
        literals = words[1:]
        if (words[0] != 'h' and not is_whole(words[0])) or literals[-1:] != ['0'] or '0' in literals[:-1] or not all(map(is_whole, literals)):
            raise Malformed(path, number, 'here stands `h` or a weight, then literals, and 0')
        clause = [whole_of(path, number, word) for word in literals[:-1]]
        weight = None if words[0] == 'h' else whole_of(path, number, words[0])
        if weight is None or (top is not None and weight >= top):
            found.hard.append(tuple(clause))
        elif weight < 0:
            raise Malformed(path, number, 'a weight is 0 or more')
        else:
            found.soft.append((weight, clause))
    return found


def _mcnf_text(paths: List[str]) -> str:
    """The instance of some files, with a cost for each."""
    files = [read_wcnf(path) for path in paths]
    hard = [sorted(tuple(sorted(clause)) for clause in file.hard) for file in files]
    for path, clauses in zip(paths, hard):
        if clauses != hard[0]:
            raise Malformed(path, 1, 'its hard clauses aren\'t those of %s' % paths[0])
    lines = ['c x%d %s' % pair for pair in sorted(files[0].names.items())]
    lines += ['c min %d %s' % (k, ' '.join(printable(os.path.splitext(os.path.basename(path))[0]).split())) for k, path in enumerate(paths, 1)]
    lines += [' '.join(['h'] + [str(literal) for literal in clause] + ['0']) for clause in files[0].hard]
    for k, file in enumerate(files, 1):
        # A cost of no soft clause has a line all the same, so that it counts.
        softs = file.soft or [(0, [])]
        lines += [' '.join(['o%d' % k, str(weight)] + [str(literal) for literal in clause] + ['0']) for weight, clause in softs]
    return '\n'.join(lines) + '\n'


def _body(arguments: List[str]) -> int:
    if len(arguments) < 2 or not arguments[-1].endswith('.mcnf') or any(word.startswith('--') for word in arguments):
        return usage(str(__doc__))
    write_text(arguments[-1], _mcnf_text(arguments[:-1]))
    return 0


def main(arguments: List[str]) -> int:
    """Runs the command."""
    return run_command(str(__doc__), _body, arguments)
