"""The texts, pictures and pages of a front, as files or as they are."""
import csv
import html
import importlib
import io
import json
import os
from typing import Any, List, Optional, Sequence, Union, overload

from . import picture
from .files import cell_of, printable, write_text
from .names import text_of_name
from .plans import Labels, More, Plan

# The most plans that a notebook shows at once: more are a file's matter.
SHOWN = 100
# The name of a file.
Path = Union[str, 'os.PathLike[str]']


def kept(text: str, path: Optional[Path]) -> Optional[str]:
    """Writes a text, whole or not at all, where a file is named; else it is the answer.

    >>> kept('one', None), kept('one', 'a.txt')
    ('one', None)
    """
    if path is None:
        return text
    write_text(os.fspath(path), text)
    return None


class Texts:
    """What a front is written from."""

    complete: bool
    accepted: Optional[bool]
    plans: List[Plan]
    labels: Labels
    listed: int
    conflict: List[str]
    choices: List[Optional[More]]

    def title(self) -> str:
        """How many plans there are, and whether one may be missing."""
        raise NotImplementedError

    def knee(self) -> Plan:
        """The plan nearest to the ideal."""
        raise NotImplementedError

    @overload
    def to_json(self, path: None = None) -> str: ...

    @overload
    def to_json(self, path: Path) -> None: ...

    def to_json(self, path: Optional[Path] = None) -> Optional[str]:
        """All of it as one JSON object; the same front gives the same text. With a path the file is written, and nothing is answered, as
        pandas has it; without one the text is the answer. So it is of `to_csv`, `to_svg` and `to_html` too.

        `complete`, `accepted` (true, false, or null where `check` wasn't asked), `title`, `listed` (of how many these are), `conflict`,
        `objectives` with `name` and `sense`, `options` with `name`, `parts` where a tuple gave it, and `helping`, `plans` with `number`, `costs`
        in the order of the objectives and `taken`, the places of options from 0, also of those that only help; `knee`, the place of that
        plan, or null; `more`, for each plan null or `all`, `accepted` and `plans`, each as `taken`.

        >>> from scuttle import Model
        >>> m = Model(); red, box = m.option('red'), m.option('box')
        >>> m.minimise('pay', 5 * red + 2 * box); m.maximise('joy', 3 * red + 2 * box)
        >>> front = m.solve()
        >>> json.loads(front.to_json())['plans'][1]
        {'number': 2, 'costs': [2, 2], 'taken': [1]}
        """
        knee = self.plans.index(self.knee()) if self.plans else None
        options = [dict({'name': text_of_name(name), 'helping': k in self.labels.helping},
                        **({'parts': list(name)} if isinstance(name, tuple) else {})) for k, name in enumerate(self.labels.options, 1)]
        whole = {'complete': self.complete, 'accepted': self.accepted, 'title': self.title(), 'listed': self.listed,
                 'conflict': self.conflict,
                 'objectives': [{'name': name, 'sense': sense} for name, sense in zip(self.labels.objectives, self.labels.senses)],
                 'options': options,
                 'plans': [{'number': plan.number, 'costs': list(plan.vector), 'taken': _places(plan)} for plan in self.plans],
                 'knee': knee,
                 'more': [more and {'all': more.all, 'accepted': more.accepted, 'plans': [_places(plan) for plan in more.plans]}
                          for more in self.choices]}
        return kept(json.dumps(whole, ensure_ascii=False, separators=(',', ':')), path)

    @overload
    def to_csv(self, path: None = None) -> str: ...

    @overload
    def to_csv(self, path: Path) -> None: ...

    def to_csv(self, path: Optional[Path] = None) -> Optional[str]:
        """A row for each plan, with a column for each cost and 1 or 0 for each option. Names that a spreadsheet would take for formulas
        get a quote before them.

        >>> from scuttle import Model
        >>> m = Model(); red, box = m.option('red'), m.option('box')
        >>> m.minimise('pay', 5 * red + 2 * box); m.maximise('joy', 3 * red + 2 * box)
        >>> front = m.solve()
        >>> front.to_csv().split('\\n')[:2]
        ['entry,complete,pay,joy,red,box', '1,yes,0,0,0,0']
        """
        text = io.StringIO()
        out = csv.writer(text, lineterminator='\n')
        shown = [k for k in range(len(self.labels.options)) if k + 1 not in self.labels.helping]
        out.writerow(['entry', 'complete'] + [cell_of(name) for name in self.labels.objectives]
                     + [cell_of(text_of_name(self.labels.options[k])) for k in shown])
        for plan in self.plans:
            out.writerow([plan.number, 'yes' if self.complete else 'no'] + list(plan.vector) + [int(plan.model[k] > 0) for k in shown])
        return kept(text.getvalue(), path)

    @overload
    def to_svg(self, path: None = None) -> str: ...

    @overload
    def to_svg(self, path: Path) -> None: ...

    def to_svg(self, path: Optional[Path] = None) -> Optional[str]:
        """The picture that `scuttle-picture` draws.

        >>> from scuttle import Model
        >>> m = Model(); red, box = m.option('red'), m.option('box')
        >>> m.minimise('pay', 5 * red + 2 * box); m.maximise('joy', 3 * red + 2 * box)
        >>> front = m.solve()
        >>> front.to_svg().count('<circle')
        4
        """
        drawn = picture.svg_of(self.title(), [(plan.number, plan.vector) for plan in self.plans],
                               picture.axis_names(self.labels.objectives, self.labels.senses), self.labels.senses)
        return kept(drawn, path)

    def _repr_html_(self) -> str:
        """What a notebook shows: the title and a table of the costs."""
        def cells(kind: str, words: Sequence[object]) -> str:
            return '<tr>%s</tr>' % ''.join('<%s>%s</%s>' % (kind, html.escape(printable(str(word))), kind) for word in words)
        head = ['plan'] + picture.axis_names(self.labels.objectives, self.labels.senses)
        rows = [cells('td', [plan.number] + list(plan.vector)) for plan in self.plans[:SHOWN]]
        left = '<p>and %d more</p>' % (len(self.plans) - SHOWN) if len(self.plans) > SHOWN else ''
        conflict = ''.join('<li>%s</li>' % html.escape(row) for row in self.conflict)
        return '<p><b>%s</b></p>%s<table><thead>%s</thead><tbody>%s</tbody></table>%s' % (
            html.escape(repr(self)[8:-1]), '<ul>%s</ul>' % conflict if conflict else '', cells('th', head), ''.join(rows), left)

    def to_dataframe(self) -> Any:
        """A pandas DataFrame of the costs by plan; wants pandas.

        >>> from scuttle import Model
        >>> m = Model(); red, box = m.option('red'), m.option('box')
        >>> m.minimise('pay', 5 * red + 2 * box); m.maximise('joy', 3 * red + 2 * box)
        >>> front = m.solve()
        >>> front.to_dataframe()['pay'].max()  # doctest: +SKIP
        7
        """
        pandas = importlib.import_module('pandas')
        return pandas.DataFrame([plan.costs for plan in self.plans], index=[plan.number for plan in self.plans],
                                columns=self.labels.objectives)

    def plot(self) -> Any:
        """Matplotlib axes with one cost against the other, or, where there aren't two, each plan's costs as a line; wants matplotlib.

        >>> from scuttle import Model
        >>> m = Model(); red, box = m.option('red'), m.option('box')
        >>> m.minimise('pay', 5 * red + 2 * box); m.maximise('joy', 3 * red + 2 * box)
        >>> front = m.solve()
        >>> front.plot().figure.savefig('front.png')  # doctest: +SKIP
        """
        axes = importlib.import_module('matplotlib.pyplot').subplots()[1]
        names = picture.axis_names(self.labels.objectives, self.labels.senses)
        if len(names) == 2:
            axes.plot(*zip(*[plan.vector for plan in self.plans]) if self.plans else ([], []), 'k.')
            axes.set_xlabel(names[0])
            axes.set_ylabel(names[1])
        else:
            for plan in self.plans:
                axes.plot(names, plan.vector, 'k.-', alpha=0.5)
        axes.set_title(self.title())
        return axes


def _places(plan: Plan) -> List[int]:
    return [literal - 1 for literal in plan.model if literal > 0]
