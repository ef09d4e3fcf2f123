"""Names of options: what may be one, how it stands in a file, and which known name a misspelt one is near to."""
import datetime
import difflib
import enum
import operator
import unicodedata
from typing import Any, Iterable, Optional, SupportsIndex, Tuple, Union

from .errors import BadName

# A name as it is kept: words, or a tuple of words and numbers, as ('Ann', 'Mon') or ('Ann', 3).
Name = Union[str, Tuple[Union[str, int], ...]]
# What a name may be made of.
Part = Union[str, SupportsIndex, datetime.date, datetime.time, enum.Enum]


def part_of(part: Any) -> Union[str, int]:
    """A part of a name as words or a number: of a date its text, of a member of an enumeration its name, of a number of any package an `int`.
    `BadName` says which type can't be one.

    >>> part_of(datetime.date(2026, 12, 1)), part_of(3)
    ('2026-12-01', 3)
    >>> part_of(1.5)
    Traceback (most recent call last):
    ...
    scuttle.errors.BadName: a name is made of words, whole numbers, dates and members of enumerations, and 1.5 is a float
    """
    if type(part) is str or type(part) is int:
        return part
    if isinstance(part, enum.Enum):
        return part.name
    if isinstance(part, str):
        return str(part)
    # A date that is missing isn't even equal to itself.
    if _is_date(part) and part == part:
        return str(part)
    try:
        if not isinstance(part, bool):
            return int(operator.index(part))
    except TypeError:
        pass
    raise BadName('a name is made of words, whole numbers, dates and members of enumerations, and %s is a %s' % (
        ascii(part), type(part).__name__))


def _is_date(part: Any) -> bool:
    return isinstance(part, (datetime.date, datetime.time)) or (type(part).__module__, type(part).__name__) == ('numpy', 'datetime64')


def name_of(given: Any) -> Name:
    """A name as it is kept.

    >>> name_of(('Ann', datetime.date(2026, 12, 1))), name_of('shop')
    (('Ann', '2026-12-01'), 'shop')
    """
    if isinstance(given, tuple):
        return tuple(part_of(part) for part in given)
    part = part_of(given)
    if isinstance(part, int):
        raise BadName('a number alone is no name of an option, but may be a part of one, as (\'day\', %d)' % part)
    return part


def text_of_name(name: Any) -> str:
    """A name as it stands in a file: the words of a tuple with blanks between them. `BadName` where it can't stand in a comment line.

    >>> text_of_name(('Ann', 3))
    'Ann 3'
    """
    kept = name_of(name)
    text = ' '.join(map(str, kept)) if isinstance(kept, tuple) else kept
    if text.isprintable() and text and '  ' not in text and text[0] != ' ' != text[-1]:
        return text
    # Marks of direction and joiners of emoji aren't called printable, and are welcome.
    if not text or text != ' '.join(text.split()) or any(unicodedata.category(letter) in ('Cc', 'Cs') for letter in text):
        raise BadName("a name is printable words on one line with one blank between them, and this isn't: %s" % (ascii(name),))
    return text


def near(text: str, known: Iterable[str]) -> Optional[str]:
    """The known text that one is nearest to, if any is near.

    >>> near('Ben Mno', ['Ann Mon', 'Ben Mon']), near('Zoe', ['Ann Mon'])
    ('Ben Mon', None)
    """
    found = difflib.get_close_matches(text, list(known), 1)
    return found[0] if found else None
