"""Lines in and files out: what every reader and writer of a format needs."""
import io
import os
import re
import sys
import tempfile
from typing import List, NamedTuple

from .errors import Malformed
from .kinds import HEAD, mind_packed

# No number of the three formats has more digits than this, leading zeros left out. It keeps a wrong file from costing
# time that grows with the square of a number's length.
MOST_DIGITS = 40


class Line(NamedTuple):
    """A line of a file: its number, from 1, and its text without the line feed."""

    number: int
    text: str


def read_lines(path: str) -> List[Line]:
    """The lines of a file, read once, so that it may be a pipe. `Malformed` where it is packed, or a workbook.

    >>> with open('a.txt', 'w') as out:
    ...     _ = out.write('one\\ntwo')
    >>> read_lines('a.txt')
    [Line(number=1, text='one'), Line(number=2, text='two')]
    """
    with open(path, 'rb') as read:
        mind_packed(path, read.peek(HEAD))
        file = io.TextIOWrapper(read, encoding='utf-8', errors='replace', newline='\n')
        return [Line(number, text.rstrip('\r\n')) for number, text in enumerate(file, 1)]


def is_whole(word: str) -> bool:
    """Whether a word is a whole number of decimal digits, with a `-` or without. Other scripts' digits are none.

    >>> is_whole('-12'), is_whole('+3'), is_whole('٣'), is_whole('²')
    (True, False, False, False)
    """
    return re.fullmatch(r'-?[0-9]+', word) is not None


def whole_of(path: str, line: int, word: str) -> int:
    """The number that a word is; `Malformed` where it is none, or longer than any number of the formats.

    >>> whole_of('a.list', 2, '-12')
    -12
    """
    if not is_whole(word):
        raise Malformed(path, line, "'%s' is no whole number" % word[:MOST_DIGITS])
    if len(word) > MOST_DIGITS and len(word.lstrip('-').lstrip('0')) > MOST_DIGITS:
        raise Malformed(path, line, 'a number of %d digits is too large' % len(word.lstrip('-')))
    return int(word)


def printable(text: str) -> str:
    """A text without what XML and terminals can't show: control characters, halves of pairs, and the two that are no characters.

    >>> printable('a\\x01b\\x7f')
    'ab'
    """
    return re.sub('[\x00-\x08\x0b-\x1f\x7f-\x9f\ud800-\udfff\ufffe\uffff]', '', text)


def cell_of(text: str) -> str:
    """A name as a cell of a table: what a spreadsheet would take for a formula gets a quote before it.

    >>> cell_of('=1+1'), cell_of('price')
    ("'=1+1", 'price')
    """
    return "'" + text if text.startswith(('=', '+', '-', '@')) else text


def write_text(path: str, text: str) -> None:
    """Writes a file, whole or not at all: beside it first, and then under its name. A pipe or a device is written to.

    An `OSError` names the file. What stood there before is then as it was.

    >>> write_text('a.txt', 'one\\n')
    >>> read_lines('a.txt')
    [Line(number=1, text='one')]
    """
    target = os.path.realpath(path)
    folder = os.path.dirname(target)
    is_plain = os.path.isfile(target) or not os.path.exists(target)
    try:
        if is_plain and os.access(folder, os.W_OK):
            _write_beside(target, folder, text)
        else:
            with open(target, 'w', encoding='utf-8', newline='\n') as out:
                out.write(text)
    except OSError as fault:
        raise type(fault)(fault.errno, fault.strerror, path) from None


def _write_beside(target: str, folder: str, text: str) -> None:
    if os.path.exists(target) and not os.access(target, os.W_OK):
        raise PermissionError(13, 'Permission denied', target)
    handle, beside = tempfile.mkstemp(prefix='.scuttle-', dir=folder)
    try:
        with os.fdopen(handle, 'w', encoding='utf-8', newline='\n') as out:
            out.write(text)
        os.chmod(beside, _mode_of(target))
        os.replace(beside, target)
    except BaseException:
        os.unlink(beside)
        raise


def _mode_of(target: str) -> int:
    """The rights that a file has, or that a new one gets."""
    if os.path.exists(target):
        return os.stat(target).st_mode & 0o7777
    mask = os.umask(0)
    os.umask(mask)
    return 0o666 & ~mask


def be_printable() -> None:
    """Lets the standard streams write what the terminal can't show as an escape, in place of failing."""
    for stream in (sys.stdout, sys.stderr):
        reconfigure = getattr(stream, 'reconfigure', None)
        if reconfigure is not None:
            reconfigure(errors='backslashreplace')
