"""A small set of rows that can't hold together, found by solving parts of a model (deletion by halves; compare Chinneck 2008)."""
import os
import tempfile
import time
from typing import List, Optional, Sequence

from .lists import read_list
from .running import judge_seconds, run_until

# The most rows that are named: more are no explanation.
MOST_ROWS = 20


def conflict_of(rows: Sequence[str], seconds: float, program: Optional[str] = None) -> List[int]:
    """The places of a few rows that no plan satisfies together, from 0; none where the time was too short to find few.

    Each of them is needed, where the time was long enough.

    >>> conflict_of(['x1 >= 1 ;', 'x2 >= 1 ;', '~x1 >= 1 ;'], 60)
    [0, 2]
    """
    judge_seconds(seconds)
    end = time.monotonic() + seconds
    with tempfile.TemporaryDirectory(prefix='scuttle-') as folder:
        kept = list(range(len(rows)))
        size = len(kept)
        while size > 1 or not kept:
            if not kept:
                break
            size = (size + 1) // 2
            kept = _without_parts(rows, kept, size, end, program, folder)
            if size == 1:
                break
        can_be_few = 0 < len(kept) <= MOST_ROWS
        return kept if can_be_few and _cannot_hold([rows[k] for k in kept], end + seconds, program, folder) else []


def _without_parts(rows: Sequence[str], kept: List[int], size: int, end: float, program: Optional[str], folder: str) -> List[int]:
    """What is left after each part of this size is dropped that isn't needed."""
    at = 0
    while at < len(kept) and time.monotonic() < end:
        rest = kept[:at] + kept[at + size:]
        if _cannot_hold([rows[k] for k in rest], end, program, folder):
            kept = rest
        else:
            at += size
    return kept


def _cannot_hold(rows: Sequence[str], end: float, program: Optional[str], folder: str) -> bool:
    """Whether it was found in time that no plan satisfies these rows."""
    paths = [os.path.join(folder, 'part.' + ending) for ending in ('opb', 'list', 'log')]
    with open(paths[0], 'w', encoding='ascii') as out:
        out.write('\n'.join(rows) + '\n')
    number = run_until(program, ['solve'] + paths, max(0.0, end - time.monotonic()), lambda: None, (0,))
    return number == 0 and not read_list(paths[1]).entries
