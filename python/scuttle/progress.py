"""What a log tells of a search so far: its models, the best of them, how many clauses were learned, and whether it has ended.

A log is read once from its beginning, in large pieces, and only its `sol` lines are looked at singly: a log of 2 GB takes seconds.
"""
import os
import re
from operator import le
from typing import Any, Dict, Iterable, Iterator, List, Optional, Sequence, Tuple

from . import formats
from .kinds import mind_packed

# What is read at once: it fits a processor's cache, so that bytes are searched as fast as they are read.
PIECE = 1 << 20
# Longer than any first line of a log may be: where no line has ended by then, the file is no log.
LONGEST_HEAD = 64
MODEL = re.compile(rb'\nsol [^\n]*')

Costs = Tuple[int, ...]


class Log:
    """A log that is read while it grows. The line that has no end yet waits for the next piece."""

    def __init__(self, path: str) -> None:
        self.path, self.size, self.learned = path, 0, 0
        self.has_head = self.has_ended = False
        # What no line has ended yet, with a line feed in front as before every line: so one search finds what begins a line.
        self.rest: List[bytes] = [b'\n']

    def take(self, piece: bytes, counting: bool) -> List[str]:
        """Takes the next bytes, answers the `sol` lines that end in them, and counts, where that is wanted, the clauses that were
        learned. Raises `formats.Malformed` where the first line isn't a log's."""
        self.size += len(piece)
        self.rest.append(piece)
        if b'\n' not in piece and (self.has_head or self.size < LONGEST_HEAD):
            return []
        text = b''.join(self.rest)
        if not self.has_head:
            self.check_head(text[1:])
        end = text.rfind(b'\n')
        self.rest = [text[end:]]
        if counting:
            self.learned += text.count(b'\nlearn ', 0, end)
        self.has_ended = text.startswith(b'\nend ', max(text.rfind(b'\n', 0, end), 0))
        return [line[1:].decode('ascii', 'replace') for line in MODEL.findall(text, 0, end)]

    def check_head(self, text: bytes) -> None:
        """Raises where a log can't begin with the first line of a text."""
        mind_packed(self.path, text)
        if not formats.is_log_head(text.split(b'\n', 1)[0].decode('ascii', 'replace')):
            raise formats.Malformed(self.path, 1, 'this is no log: the first line of one begins with `scuttle proof version`')
        self.has_head = True


def pieces_of(path: str, at: int) -> Iterator[bytes]:
    """What a file has from this place on. Raises `OSError` where it can't be read."""
    with open(path, 'rb', buffering=0) as file:
        file.seek(at)
        piece = file.read(PIECE)
        while piece:
            yield piece
            piece = file.read(PIECE)


def models_of(path: str, instance: Any) -> Dict[Costs, List[int]]:
    """The models of a log, by their costs; of equal ones the first. Raises `formats.Malformed` where it is no log, or one of another
    instance, and `OSError` where it can't be read."""
    models: Dict[Costs, List[int]] = {}
    log = Log(path)
    for piece in pieces_of(path, 0):
        for line in log.take(piece, counting=False):
            model = model_of(line, path, instance)
            models.setdefault(formats.costs_of(instance, model), model)
    return models


def model_of(line: str, path: str, instance: Any) -> List[int]:
    """The model of a `sol` line of the log in this file. Raises `formats.Malformed` where it is one of another instance."""
    model = formats.model_of(line, instance.variables)
    if [abs(literal) for literal in model] != list(range(1, instance.variables + 1)):
        number = next(number for number, text in formats.lines_of(path) if text == line)
        raise formats.Malformed(path, number, 'this model is of another instance')
    return model


def best_of(vectors: Iterable[Costs], senses: Sequence[str]) -> List[Costs]:
    """Those that no other is as good as in each number, in rising order. With up to two numbers in each, one that is kept has only to be
    compared with the last; with more, the time is the square of how many are kept."""
    turned = sorted(tuple(a if sense == 'min' else -a for sense, a in zip(senses, vector)) for vector in set(vectors))
    kept: List[Costs] = []
    for vector in turned:
        if not any(all(map(le, other, vector)) for other in (kept[-1:] if len(senses) <= 2 else kept)):
            kept.append(vector)
    return sorted(tuple(a if sense == 'min' else -a for sense, a in zip(senses, vector)) for vector in kept)


def stamp_of(path: str) -> str:
    """What tells whether a file was written since: its number and the time of its last change, as `stat -L -c '%i %.9Z'` prints them;
    empty where there is none."""
    try:
        found = os.stat(path)
    except OSError:
        return ''
    return '%d %d.%09d' % (found.st_ino, found.st_ctime_ns // 10**9, found.st_ctime_ns % 10**9)


def better_of(best: Optional[Costs], costs: Costs, senses: Sequence[str]) -> Costs:
    """The better of two numbers for each cost."""
    if best is None:
        return costs
    return tuple(min(a, b) if sense == 'min' else max(a, b) for sense, a, b in zip(senses, best, costs))
