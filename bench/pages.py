"""Tables in Markdown, and where they stand in the pages."""
import os
import re
import sys
from typing import List

ROOT = os.path.join(os.path.dirname(os.path.realpath(__file__)), '..')
PAGES = ['README.md', 'docs/MEASURED.md']


def bytes_text(size: int) -> str:
    return '%d kB' % max(1, round(size / 1000)) if size < 100000 else '%.1f MB' % (size / 1e6)


def table(head: List[str], rows: List[List[str]]) -> str:
    lines = [head, ['---'] * len(head)] + rows
    return '\n'.join('| %s |' % ' | '.join(line) if line is not lines[1] else '|%s|' % '|'.join(line) for line in lines)


def put(name: str, text: str) -> None:
    """Puts a table in place of the one under the line <!-- NAME -->."""
    line = '<!-- %s -->\n' % name
    found = False
    for page in PAGES:
        path = os.path.join(ROOT, page)
        with open(path, encoding='utf-8') as file:
            old = file.read()
        if line in old:
            found = True
            new = re.sub(re.escape(line) + r'\n*(\|[^\n]*\n)*', lambda _: line + '\n' + text + '\n', old)
            with open(path, 'w', encoding='utf-8') as file:
                file.write(new)
    if not found:
        sys.exit('%s: no page has the line %s' % (os.path.basename(sys.argv[0]), line.strip()))
