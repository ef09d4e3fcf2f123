"""describe: says what stands in a log.

usage: tools/describe LOG

It prints the log's version, how many lines of each kind there are, how many ids they make, the highest variable, how many solutions are
logged, and whether the log ends. Nothing of it is judged: `scuttle check` does that. A log that is still written may be described.
Ends with 64 where the words are wrong, 65 where LOG is no log, 74 where it can't be read.
"""
import re
from typing import Dict, List, NamedTuple

from .commands import run_command, usage
from .errors import Malformed
from .files import printable
from .kinds import HEAD, mind_packed
from .logs import is_log_head

# The kinds of lines, and how many ids a line of each makes; docs/FORMATS.md has both.
IDS = {'pol': 1, 'rup': 1, 'learn': 1, 'def': 2, 'red': 1, 'dom': 1, 'sol': 1, 'del': 0, 'reduce': 0, 'end': 0}
VARIABLE = re.compile(rb'x([0-9]+)')


class Description(NamedTuple):
    """What stands in a log: its first line, how many lines of each kind it has, and the highest variable that they name."""

    head: str
    kinds: Dict[str, int]
    variable: int
    is_cut: bool

    def ids(self) -> int:
        """How many ids the lines make.

        >>> Description('scuttle proof version 1', {'def': 1, 'del': 3, 'rup': 2}, 4, False).ids()
        4
        """
        return sum(IDS[kind] * count for kind, count in self.kinds.items())


def describe(path: str) -> Description:
    """Reads a log once, a line at a time; a last line without an end is left out.

    >>> with open('a.log', 'w') as out:
    ...     _ = out.write('scuttle proof version 1\\ndef x4 : 1 x1 1 x2 >= 1\\nend 7\\nru')
    >>> describe('a.log').kinds, describe('a.log').variable, describe('a.log').is_cut
    ({'def': 1, 'end': 1}, 4, True)
    """
    head, kinds, variable, is_cut = '', {}, 0, False  # type: str, Dict[str, int], int, bool
    # Logs may have gigabytes: of a line only its first word is made text.
    with open(path, 'rb') as file:
        mind_packed(path, file.peek(HEAD))
        for number, line in enumerate(file, 1):
            if not line.endswith(b'\n'):
                is_cut = True
                break
            if number == 1:
                head = line[:-1].decode('ascii', 'replace')
                continue
            kind = line[:-1].split(b' ', 1)[0].decode('ascii', 'replace')
            if kind not in IDS:
                raise Malformed(path, number, 'there is no line of the kind ' + printable(kind))
            kinds[kind] = kinds.get(kind, 0) + 1
            variable = max([variable] + [int(found) for found in VARIABLE.findall(line)])
    if not is_log_head(head):
        raise Malformed(path, 1, 'this is no log: the first line of one begins with `scuttle proof version`')
    return Description(head, kinds, variable, is_cut)


def lines_of(found: Description) -> List[str]:
    """What is printed of a log.

    >>> print('\\n'.join(lines_of(Description('scuttle proof version 2 rows 3', {'sol': 2, 'end': 1}, 5, False))))
    version    2 rows 3
    sol        2
    end        1
    lines      3
    ids        2
    variables  5
    solutions  2
    ends       yes
    """
    rows = [('version', found.head.split('version ')[1])]
    rows += [(kind, str(found.kinds[kind])) for kind in IDS if kind in found.kinds]
    rows += [('lines', str(sum(found.kinds.values()))), ('ids', str(found.ids())), ('variables', str(found.variable)),
             ('solutions', str(found.kinds.get('sol', 0))), ('ends', 'yes' if 'end' in found.kinds else 'no')]
    if found.is_cut:
        rows.append(('last line', 'without an end, left out'))
    return ['%-10s %s' % row for row in rows]


def main(arguments: List[str]) -> int:
    """Describes the log that the only word names."""
    return run_command(str(__doc__), _described, arguments)


def _described(arguments: List[str]) -> int:
    if len(arguments) != 1:
        return usage(str(__doc__))
    print('\n'.join(lines_of(describe(arguments[0]))))
    return 0
