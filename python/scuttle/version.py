"""The version of the package: the newest heading of NEWS.md, which stands in the wheel, and at the top of a clone or of an installed tree."""
import os
import re

HERE = os.path.dirname(os.path.abspath(__file__))
PLACES = (os.path.join(HERE, 'tree', 'NEWS.md'), os.path.join(HERE, '..', '..', 'NEWS.md'))


def version_of(news: str) -> str:
    """The version that is the newest heading of a text of news.

    >>> version_of('# News\\n\\n## 0.21.0\\n\\n## 0.20.0\\n')
    '0.21.0'
    """
    heading = re.search(r'^## ([0-9][0-9.]*)', news, re.MULTILINE)
    if not heading:
        raise ValueError('NEWS.md has no heading with a version')
    return heading.group(1)


def _version() -> str:
    for path in PLACES:
        if os.path.exists(path):
            with open(path, encoding='utf-8') as file:
                return version_of(file.read())
    return 'unknown'


VERSION = _version()
