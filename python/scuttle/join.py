"""join: one list and one log of an instance from those of its parts.

usage: tools/join IN FOLDER LIST LOG [--log-version V]

FOLDER has the parts of IN as tools/split wrote them, solved: LIST gets every best compromise of IN, and LOG the proof, which
`check` then judges; it needs no trust in whoever solved the parts, or where. LIST and LOG are written where it accepts them,
and else stay as they were. --log-version 2 writes LOG in version 2; the parts' logs may be in either.
Ends with 0 where `check` accepts, 10 where parts aren't solved yet, 11 where `check` refuses, 64 where the words are wrong,
65 where a file isn't what it should be (a part is named by its file), 69 without an executable, 74 where a file can't be read or written.
"""
import os
import sys
import tempfile
from typing import Dict, List, NamedTuple, Optional, Sequence

from .commands import run_command, usage
from .dominance import best_of
from .errors import CannotTake, Failed, Malformed
from .files import write_text
from .instances import Costs, costs_of, sum_at
from .joined_log import JoinedLog, Span
from .lists import Entry, Listing, read_list, text_of
from .parts import Condition, Source, Split
from .running import run

ACCEPTED, UNSOLVED, REFUSED = 0, 10, 11


class Joined(NamedTuple):
    """What came of joining: the parts that aren't solved yet; else how many entries the list has, and what `check` refused, if it did.

    >>> Joined([], 3, None).refused is None
    True
    """

    unsolved: List[str]
    entries: int
    refused: Optional[str]


def join(split: Split, listed: str, logged: str, version: int = 1, program: Optional[str] = None) -> Joined:
    """Joins the parts' lists and logs, has `check` judge what comes out, and writes it where it is accepted.

    `Malformed` names a part's file that isn't one of this split's; nothing is written then.
    """
    unsolved = split.unsolved()
    if unsolved:
        return Joined(unsolved, 0, None)
    text = text_of(_joined_list(split))
    folder = os.path.dirname(os.path.realpath(logged))
    for path in (listed, logged):
        if os.path.exists(path) and not os.path.isfile(path):
            raise CannotTake(path, 'is no plain file')
    handle, beside = tempfile.mkstemp(prefix='.scuttle-', dir=folder)
    try:
        with os.fdopen(handle, 'w', encoding='ascii', newline='\n') as out:
            log = JoinedLog(out, split, version)
            log.put('end ' + log.spell(log.add_node(split.root)), 0)
        refused = _refusal(split, text, beside, log.spans, program)
        if refused is None:
            write_text(listed, text)
            _give_rights(beside)
            os.replace(beside, os.path.realpath(logged))
        return Joined([], text.count('\no '), refused)
    finally:
        if os.path.exists(beside):
            os.unlink(beside)


def _joined_list(split: Split) -> Listing:
    """The best of the parts' models, by what they cost in the instance itself."""
    source, models = split.source, {}  # type: Source, Dict[Costs, List[int]]
    for node, path in split.proving():
        if node.model is not None:
            model = [k if digit == '1' else -k for k, digit in enumerate(node.model[:source.instance.variables], 1)]
            models.setdefault(costs_of(source.instance, model), model)
            continue
        listed = split.path(str(node.name), '.list')
        for at, entry in enumerate(read_list(listed).entries):
            if len(entry.model) != source.variables or not all(_holds(source, condition, entry.model) for condition in path):
                raise Malformed(listed, 2 * at + 3, 'this model is of another problem than the part')
            model = entry.model[:source.instance.variables]
            models.setdefault(costs_of(source.instance, model), model)
    best = best_of(list(models), [objective.sense for objective in source.instance.objectives])
    return Listing(True, [Entry(costs, models[costs]) for costs in best])


def _holds(source: Source, condition: Condition, model: Sequence[int]) -> bool:
    return (sum_at(source.terms(condition.test), model) >= condition.test.bound) == condition.reached


def _refusal(split: Split, text: str, log: str, spans: Sequence[Span], program: Optional[str]) -> Optional[str]:
    """What `check` says against the joined list and log, with the part's line that it is about; None where it accepts them."""
    with tempfile.TemporaryDirectory(prefix='scuttle-') as folder:
        listed = os.path.join(folder, 'joined.list')
        write_text(listed, text)
        try:
            run(program, ['check', split.source.path, listed, log], (ACCEPTED,))
        except Failed as fault:
            if fault.number != REFUSED:
                raise
            return fault.warning + _place(split, spans, fault.warning)
    return None


def _place(split: Split, spans: Sequence[Span], warning: str) -> str:
    """Which line of which part a refused line of the joined log comes from."""
    words = warning.split('log line ')[1:]
    digits = words[0].split(':')[0] if words else ''
    for span in spans:
        if digits.isdigit() and span.first <= int(digits) < span.end:
            return ' (that is line %d of %s)' % (int(digits) - span.first + 2, split.path(span.name, '.log'))
    return ''


def _give_rights(path: str) -> None:
    """A file that was made for its owner alone gets the rights that a new one has."""
    mask = os.umask(0)
    os.umask(mask)
    os.chmod(path, 0o666 & ~mask)


def _body(arguments: List[str]) -> int:
    words, version = list(arguments), 1
    if '--log-version' in words:
        at = words.index('--log-version')
        if words[at + 1:at + 2] not in (['1'], ['2']):
            return usage(str(__doc__))
        version = int(words[at + 1])
        del words[at:at + 2]
    if len(words) != 4 or any(word.startswith('--') for word in words) or len({os.path.realpath(word) for word in words}) < 4:
        return usage(str(__doc__))
    split = Split.load(Source.of_file(words[0]), words[1])
    return say('join', join(split, words[2], words[3], version), split)


def say(command: str, joined: Joined, split: Split) -> int:
    """Says what came of joining: the number with which the command ends."""
    if joined.unsolved:
        print('%s: not solved yet in %s: %s' % (command, split.folder, ' '.join(joined.unsolved)), file=sys.stderr)
        return UNSOLVED
    if joined.refused is not None:
        print('%s: check refuses the joined log: %s' % (command, joined.refused), file=sys.stderr)
        return REFUSED
    print('complete %d\naccepted' % joined.entries)
    return ACCEPTED


def main(arguments: List[str]) -> int:
    """Runs the command."""
    return run_command(str(__doc__), _body, arguments)
