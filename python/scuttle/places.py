"""Where a caller of the package stands: the file and the line of a script."""
import functools
import os
import sys

HERE = os.path.dirname(os.path.abspath(__file__))


@functools.lru_cache(maxsize=None)
def _is_own(path: str) -> bool:
    return os.path.dirname(os.path.abspath(path)) == HERE


def caller_place() -> str:
    """The nearest place outside of this package from which it was called; none, where Python can't say it.

    >>> caller_place()  # doctest: +ELLIPSIS
    '..., line ...'
    """
    frame = sys._getframe() if hasattr(sys, '_getframe') else None
    while frame is not None and _is_own(frame.f_code.co_filename):
        frame = frame.f_back
    return '%s, line %d' % (frame.f_code.co_filename, frame.f_lineno) if frame is not None else ''
