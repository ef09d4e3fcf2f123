"""The errors of this package: one class for each kind, all of them `ScuttleError`.

What the operating system refuses stays an `OSError`, which names the file. Those of several arguments say how they are made anew, so that
another process can send them.
"""
from typing import Tuple, Type


class ScuttleError(Exception):
    """Any error of this package.

    >>> issubclass(Malformed, ScuttleError) and issubclass(Failed, ScuttleError)
    True
    """


class Malformed(ScuttleError):
    """A file that isn't what it should be: its name, the first line that is wrong, from 1, and what is wrong.

    >>> print(Malformed('a.list', 3, 'here stands no `v` line of an entry'))
    a.list:3: here stands no `v` line of an entry
    """

    def __init__(self, path: str, line: int, what: str) -> None:
        super().__init__('%s:%d: %s' % (path, line, what))
        self.path, self.line, self.what = path, line, what

    def __reduce__(self) -> 'Tuple[Type[Malformed], Tuple[str, int, str]]':
        return type(self), (self.path, self.line, self.what)


class CannotTake(ScuttleError):
    """A file that is right, and says what can't be said in the format that it is to be written in.

    >>> print(CannotTake('a.opb', 'its row 3 is no clause'))
    a.opb: its row 3 is no clause
    """

    def __init__(self, path: str, what: str) -> None:
        super().__init__('%s: %s' % (path, what))
        self.path, self.what = path, what

    def __reduce__(self) -> 'Tuple[Type[CannotTake], Tuple[str, str]]':
        return type(self), (self.path, self.what)


class ModelError(ScuttleError, ValueError):
    """Something that a model can't take, and how to say it.

    >>> issubclass(BadName, ModelError) and issubclass(NotWhole, ModelError)
    True
    """


class NotWhole(ModelError):
    """A number with a fraction, where whole numbers are needed.

    >>> from scuttle import Model
    >>> Model().cost('pay', 24.9, 'Ann')
    Traceback (most recent call last):
    ...
    scuttle.errors.NotWhole: 24.9 is a float, and numbers of a model are whole: multiply it and all that it is compared or added with by \
10, 100, .. and use int(round(..)), or write whole numbers of a smaller unit
    """


class BadName(ModelError):
    """A name that can't stand in a comment line of the written file.

    >>> from scuttle import Model
    >>> Model().option('Ann\\nmin: x1 ;')
    Traceback (most recent call last):
    ...
    scuttle.errors.BadName: a name is printable words on one line with one blank between them, and this isn't: 'Ann\\nmin: x1 ;'
    """


class UnknownName(ModelError):
    """A name in a row or a cost that no option of the model has.

    >>> from scuttle import Model, exactly
    >>> m = Model(); _ = m.options(['Ann', 'Ben'], ['Mon'])
    >>> m.add(exactly(1, 'Ann Mon', 'Ben Mno'))
    >>> m.text()  # doctest: +ELLIPSIS
    Traceback (most recent call last):
    ...
    scuttle.errors.UnknownName: no option(..) or options(..) has made 'Ben Mno' (..., line 1): is 'Ben Mon' meant? Model(strict=False) makes an \
option of every new name
    """


class NotAdded(UserWarning):
    """A row that was made and never added to a model: it says nothing there.

    >>> issubclass(NotAdded, Warning)
    True
    """


class Failed(ScuttleError):
    """A run of the program that ended with a number that stands for no answer: the number and its warning.

    >>> print(Failed(65, 'scuttle: line 3: NumberTooWide'))
    the program ended with 65: scuttle: line 3: NumberTooWide
    """

    def __init__(self, number: int, warning: str) -> None:
        super().__init__('the program ended with %d: %s' % (number, warning))
        self.number, self.warning = number, warning

    def __reduce__(self) -> 'Tuple[Type[Failed], Tuple[int, str]]':
        return type(self), (self.number, self.warning)


class NoProgram(ScuttleError):
    """There is no executable that runs on this system.

    >>> from scuttle import Model
    >>> Model().solve(program='/there/is/none')
    Traceback (most recent call last):
    ...
    scuttle.errors.NoProgram: there is no executable /there/is/none
    """
