"""Finds the executable and runs it: to its end, or until a time is up, with a look at the log while it grows."""
import os
import signal
import subprocess
import tempfile
import time
from numbers import Real
from typing import Callable, IO, List, Optional, Sequence

from .errors import Failed, ModelError, NoProgram

# The package may be reached by a link.
HERE = os.path.dirname(os.path.realpath(__file__))
# Where the executable stands in an installed package, and where in a clone.
PLACES = (os.path.join(HERE, 'tree', 'release', 'scuttle'), os.path.join(HERE, '..', '..', 'scuttle'))
# The launcher, beside which its parts stand: in an installed package, and in a clone or an installed tree. Where it finds the executable.
LAUNCHERS = (os.path.join(HERE, 'tree', 'scuttle'), os.path.join(HERE, '..', '..', 'scuttle'))
# How often a run is looked at; how long a stopped one may take to end, which may write what it has; and how much of a log is read at once.
# Seconds, bytes.
PAUSE, PATIENCE, PIECE = 0.05, 20.0, 1 << 24
# What stops a run from outside: Ctrl-C, a request, and the system's lack of memory or patience.
STOPPED = (signal.SIGINT, signal.SIGTERM, signal.SIGKILL)
DOES_NOT_RUN = "the executable %s doesn't run on this system (it is for x86-64 Linux with glibc 2.34 or later): %s"


def find_program(program: Optional[str] = None) -> str:
    """The executable: the one that is named, or that the variable SCUTTLE names, or that of this package, or of the clone around it.

    >>> find_program('/bin/sh')
    '/bin/sh'
    """
    named = program or os.environ.get('SCUTTLE')
    places = (named,) if named else PLACES
    for place in places:
        if os.path.isfile(place):
            return os.path.abspath(place)
    raise NoProgram('there is no executable %s' % (named or ', '.join(os.path.normpath(place) for place in PLACES)))


def find_launcher() -> str:
    """The launcher `scuttle`, which says what is wrong, ends a search in time, and lists what there is so far; `NoProgram` where this package
    came without an executable.

    >>> os.path.basename(find_launcher())
    'scuttle'
    """
    for place in LAUNCHERS:
        beside = [os.path.join(os.path.dirname(place), 'release', name) for name in ('scuttle', 'program')]
        if os.path.isfile(place) and any(map(os.path.isfile, beside)):
            return os.path.normpath(place)
    raise NoProgram('this package came without an executable, which is for x86-64 Linux with glibc 2.34 or later')


def judge_seconds(seconds: object) -> None:
    """`ModelError` where it is no time.

    >>> judge_seconds('5')
    Traceback (most recent call last):
    ...
    scuttle.errors.ModelError: seconds are a number from 0, or None for no limit, and this is a str: '5'
    """
    is_number = isinstance(seconds, Real) and not isinstance(seconds, bool)
    if seconds is not None and not (is_number and float(seconds) >= 0):  # type: ignore[arg-type]
        raise ModelError('seconds are a number from 0, or None for no limit, and this is a %s: %r' % (type(seconds).__name__, seconds))


def run(program: Optional[str], words: Sequence[str], wanted: Sequence[int]) -> int:
    """Runs the program to its end: the number with which it ends, which is one of the wanted; else `Failed`, or `KeyboardInterrupt` where
    it was stopped from outside.

    >>> run('/bin/true', [], (0,))
    0
    """
    number = run_until(program, words, None, lambda: None, wanted)
    if number is None:
        raise KeyboardInterrupt
    return number


def run_until(program: Optional[str], words: Sequence[str], seconds: Optional[float], look: Callable[[], object],
              wanted: Sequence[int]) -> Optional[int]:
    """The same, but for so many seconds at most: then it is stopped, and None is answered. `look` is called again and again meanwhile,
    and once more at the end; what it raises stops the run, and is raised. A run that is stopped from outside, as by Ctrl-C, is None too.

    >>> print(run_until('/bin/sleep', ['9'], 0.1, lambda: None, (0,)))
    None
    """
    judge_seconds(seconds)
    found = find_program(program)
    with tempfile.TemporaryFile() as warned:
        process = _start(found, words, warned)
        try:
            ended = _wait(process, seconds, look)
        finally:
            _stop(process)
        look()
        if process.returncode not in wanted and (not ended or -process.returncode in STOPPED):
            return None
        warned.seek(0)
        warning = warned.read().decode(errors='replace').strip()
    if process.returncode not in wanted:
        if 'GLIBC' in warning or process.returncode in (126, 127):
            raise NoProgram(DOES_NOT_RUN % (found, warning))
        raise Failed(process.returncode, warning)
    return process.returncode


def _start(program: str, words: Sequence[str], warned: IO[bytes]) -> 'subprocess.Popen[bytes]':
    """Starts it. It stays in our group, so that what stops the group stops it too."""
    try:
        return subprocess.Popen([program] + list(words), stdin=subprocess.DEVNULL, stdout=subprocess.DEVNULL, stderr=warned)
    except OSError as fault:
        raise NoProgram(DOES_NOT_RUN % (program, fault.strerror)) from None


def _wait(process: 'subprocess.Popen[bytes]', seconds: Optional[float], look: Callable[[], object]) -> bool:
    """Whether it ended by itself within the time."""
    end = None if seconds is None else time.monotonic() + seconds
    while True:
        try:
            process.wait(PAUSE if end is None else max(0.0, min(PAUSE, end - time.monotonic())))
            return True
        except subprocess.TimeoutExpired:
            pass
        look()
        if end is not None and time.monotonic() >= end:
            return False


def _stop(process: 'subprocess.Popen[bytes]') -> None:
    """Ends a run that we started."""
    for number in (signal.SIGTERM, signal.SIGKILL):
        if process.poll() is not None:
            return
        process.send_signal(number)
        try:
            process.wait(PATIENCE)
        except subprocess.TimeoutExpired:
            pass


class Follower:
    """The `sol` lines of a log as it grows.

    >>> with open('a.log', 'w') as out:
    ...     _ = out.write('scuttle proof version 1\\nsol x1 : x1 : 0\\nsol ~x')
    >>> Follower('a.log').lines()
    ['sol x1 : x1 : 0']
    """

    def __init__(self, path: str) -> None:
        self._path, self._at, self._rest = path, 0, b''

    def lines(self) -> List[str]:
        """Those that are whole since the last call."""
        found = []  # type: List[str]
        if not os.path.exists(self._path):
            return found
        with open(self._path, 'rb') as file:
            file.seek(self._at)
            while True:
                piece = file.read(PIECE)
                if not piece:
                    return found
                self._at += len(piece)
                lines = (self._rest + piece).split(b'\n')
                self._rest = lines.pop()
                found += [line.decode('ascii', 'replace') for line in lines if line.startswith(b'sol ')]
