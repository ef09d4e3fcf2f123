"""watch: follows the log of a search while it grows.

usage: tools/watch LOG [IN] [--idle SECONDS] [--line] [--unlike STAMP]

Prints a line for each model that the search finds: the seconds since watching began, the number of models so far, and
the learned clauses so far and a second; with the instance IN also the model's costs, and the best of each cost so far.
Waits for LOG where it isn't there yet, begins anew where it is begun anew, and ends with the log's `end` line, with
Ctrl-C, or, with --idle, where the log hasn't grown for so many seconds.
With --line it shows, on standard error, one line with the same numbers and the bytes of LOG, which is rewritten where that is a
terminal; elsewhere it is a line every ten seconds. It then ends with SIGTERM too, or with who started it. With --unlike a LOG
of this stamp is an older one, which is waited out: STAMP is what `stat -L -c '%i %.9Z' LOG` has printed.
Ends with 0 after the `end` line, 1 where the log has none, 64 where the words are wrong, 65 where a file isn't what it
should be, 74 where IN can't be read.
"""
import os
import signal
import sys
import time
from typing import Any, Dict, Iterator, List, Optional, Union

from . import formats, progress

# How long it waits where nothing is new: short for an eye that waits, and no work for the machine.
PAUSE = 0.2
# Between two lines where no terminal shows them: a night's search leaves some thousand lines.
SECONDS_A_LINE = 10.0


class Watch:
    """What was seen of a log so far."""

    def __init__(self, path: str, instance: Any) -> None:
        self.path, self.instance, self.began = path, instance, time.monotonic()
        self.log = progress.Log(path)
        self.models = 0
        self.costs: Optional[progress.Costs] = None
        self.best: Optional[progress.Costs] = None

    def see(self, piece: bytes) -> Iterator[None]:
        """Takes the next bytes of the log, and answers once for each model in them, when it is the last that was seen."""
        for line in self.log.take(piece, counting=True):
            self.models += 1
            if self.instance is not None:
                model = progress.model_of(line, self.path, self.instance)
                self.costs = formats.costs_of(self.instance, model)
                self.best = progress.better_of(self.best, self.costs, formats.senses_of(self.instance, 0))
            yield

    def has_ended(self) -> bool:
        return self.log.has_ended

    def seconds(self) -> float:
        return time.monotonic() - self.began

    def rate(self) -> float:
        """The clauses that were learned in a second."""
        return self.log.learned / max(self.seconds(), PAUSE)


def shown(costs: progress.Costs) -> str:
    """Costs as a line of a list has them.

    >>> shown((3, 1))
    '3 1'
    """
    return ' '.join(str(cost) for cost in costs) or 'no costs'


def bytes_shown(size: int) -> str:
    """A size in the unit in which it has up to three digits before the point."""
    number, unit = float(size), 'B'
    for larger in ('kB', 'MB', 'GB', 'TB'):
        if number < 1000:
            break
        number, unit = number / 1000, larger
    return '%d B' % size if unit == 'B' else '%.1f %s' % (number, unit)


class Lines:
    """Prints a line for each model, and one at the end."""

    def model(self, watch: Watch) -> None:
        self.print(watch, 'model')

    def pause(self, watch: Watch) -> None:
        """Nothing is new."""

    def end(self, watch: Watch) -> None:
        self.print(watch, 'the log has ended; models' if watch.has_ended() else 'the log has no end; models')

    def print(self, watch: Watch, words: str) -> None:
        text = '%8.1f s  %s %d, %d learned (%d a second)' % (
            watch.seconds(), words, watch.models, watch.log.learned, watch.rate())
        if words == 'model' and watch.costs is not None and watch.best is not None:
            text += ': %s   best so far: %s' % (shown(watch.costs), shown(watch.best))
        print(text, flush=True)


class OneLine:
    """Shows one line on standard error: rewritten on a terminal, else a new one every ten seconds."""

    def __init__(self) -> None:
        self.is_terminal = sys.stderr.isatty()
        self.last = 0.0

    def model(self, watch: Watch) -> None:
        """It is shown with the next pause."""

    def pause(self, watch: Watch) -> None:
        if self.is_terminal:
            # A line that is as wide as the terminal would go on in the next; one that tells no width has 80 columns.
            columns = os.get_terminal_size(2).columns or 80
            self.show('\r%s\x1b[K' % self.text(watch)[:columns - 1])
        elif watch.seconds() - self.last >= SECONDS_A_LINE:
            self.last = watch.seconds()
            self.show(self.text(watch) + '\n')

    def end(self, watch: Watch) -> None:
        self.last = -SECONDS_A_LINE
        self.pause(watch)
        if self.is_terminal:
            self.show('\n')

    def text(self, watch: Watch) -> str:
        best = '' if watch.best is None else ', best of each cost ' + shown(watch.best)
        return '%.1f s  %d models%s, %d learned a second, log %s' % (
            watch.seconds(), watch.models, best, watch.rate(), bytes_shown(watch.log.size))

    def show(self, text: str) -> None:
        sys.stderr.write(text)
        sys.stderr.flush()


def grown(path: str, watch: Watch, unlike: str) -> Optional[bool]:
    """Whether a log has grown; None where it was begun anew."""
    if unlike and progress.stamp_of(path) == unlike:
        return False
    size = os.path.getsize(path) if os.path.exists(path) else 0
    return None if size < watch.log.size else size > watch.log.size


def follow(path: str, instance: Any, options: Dict[str, str]) -> int:
    """Follows a log until it ends, has been idle for long, or who started this is gone; 0 where it has ended."""
    watch, parent = Watch(path, instance), os.getppid()
    shower: Union[Lines, OneLine] = OneLine() if '--line' in options else Lines()
    idle, last = int(options['--idle']) if '--idle' in options else None, time.monotonic()
    try:
        while not watch.has_ended() and (idle is None or time.monotonic() - last < idle) and (
                '--line' not in options or os.getppid() == parent):
            news = grown(path, watch, options.get('--unlike', ''))
            if news is None:
                watch = Watch(path, instance)
            elif news:
                last = time.monotonic()
                for _ in watch.see(next(progress.pieces_of(path, watch.log.size), b'')):
                    shower.model(watch)
            shower.pause(watch)
            if not news:
                time.sleep(PAUSE)
    except KeyboardInterrupt:
        pass
    shower.end(watch)
    return 0 if watch.has_ended() else 1


def parsed(words: List[str]) -> Optional[Dict[str, str]]:
    """Takes the options out of the words, with their values; None where one is wrong."""
    options: Dict[str, str] = {}
    for name, has_value in (('--idle', True), ('--unlike', True), ('--line', False)):
        if name in words[:len(words) - has_value]:
            at = words.index(name)
            options[name] = words[at + 1] if has_value else ''
            del words[at:at + 1 + has_value]
    is_wrong = any(word.startswith('--') for word in words) or not options.get('--idle', '1').isdigit()
    return None if is_wrong else options


def _stop(number: int, _frame: Any) -> None:
    # Who sends it sends it until this has ended.
    signal.signal(number, signal.SIG_IGN)
    raise KeyboardInterrupt


def _body(arguments: List[str]) -> int:
    words = list(arguments)
    options = parsed(words)
    if options is None or len(words) not in (1, 2):
        return formats.usage(str(__doc__))
    if '--line' in options:
        signal.signal(signal.SIGTERM, _stop)
    try:
        return follow(words[0], formats.read_instance(words[1]) if len(words) == 2 else None, options)
    except KeyboardInterrupt:
        return 1
    except formats.Malformed:
        if '--line' not in options:
            raise
        # It stands beside the program, which says so itself.
        return formats.BAD_INPUT


def main(arguments: List[str]) -> int:
    """Runs the command."""
    return formats.run_command(str(__doc__), _body, arguments)
