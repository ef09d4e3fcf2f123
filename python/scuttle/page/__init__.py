"""page: makes one HTML file in which the compromises of a list are compared, narrowed down and shown as plans.

usage: tools/page IN LIST [MODELS] OUT.html [--log LOG]

IN is the instance, LIST its list, and MODELS further plans of each entry, as `scuttle models IN LIST K BASE` writes them to BASE.models.
With --log `check` is asked whether LOG proves the list, and the page says what it answered; else it says that it wasn't asked.
The page needs nothing besides itself, asks nothing of any network, and opens in a browser, also from a mail. The same files
give the same bytes. OUT.html is written whole or not at all. Names are those of tools/plan.
Ends with 11 where `check` doesn't accept, which the page says too, 64 where the words are wrong, 65 where a file isn't what it should be,
69 where `check` can't be run, 74 where a file can't be read or written.
"""
import base64
import hashlib
import html
import json
import os
import pkgutil
import re
import sys
from typing import Any, Dict, List, Optional

from ..commands import run_command, usage
from ..files import printable, write_text
from ..front import Front
from .data import data_of

# The parts of the script, in the order in which they stand in the page.
SCRIPTS = ('front.js', 'elements.js', 'picture.js', 'table.js', 'plan.js', 'page.js')
REFUSED = 11
# Comments that have lines of their own are for those who read the parts, and don't go into each page.
COMMENT = re.compile(r'^ */\*((?!\*/).)*\*/\n', re.MULTILINE | re.DOTALL)


def page_of(front: Front, title: str = '') -> str:
    """The page of a front, whole, under a title.

    >>> page_of(Front(True, True, []), 'a & b').count('<title>a &amp; b</title>')
    1
    """
    heading = html.escape(printable(title) or 'Best compromises')
    style, script = _part('page.css'), COMMENT.sub('', ''.join(_part(name) for name in SCRIPTS))
    parts = {'TITLE': heading, 'STYLE': style, 'SCRIPT': script, 'DATA': _text_in_page(data_of(front)), 'WITHOUT': front._repr_html_(),
             'POLICY': "default-src 'none'; img-src data:; base-uri 'none'; form-action 'none'; style-src %s; script-src %s" % (
                 _sum_of(style), _sum_of(script))}
    return re.sub('@@([A-Z]+)@@', lambda found: parts[found.group(1)], _part('page.html'))


def _part(name: str) -> str:
    """A file that stands beside this one, also where the package is in an archive."""
    return (pkgutil.get_data(__name__, name) or b'').decode('utf-8')


def _sum_of(text: str) -> str:
    """A text's checksum, as a policy names the only script and the only style that may stand in a page."""
    return "'sha256-%s'" % base64.b64encode(hashlib.sha256(text.encode('utf-8')).digest()).decode()


def _text_in_page(data: Dict[str, Any]) -> str:
    """JSON in which nothing ends the element that it stands in."""
    text = json.dumps(data, ensure_ascii=False, separators=(',', ':'))
    return text.replace('&', '\\u0026').replace('<', '\\u003c').replace('>', '\\u003e')


def _body(arguments: List[str]) -> int:
    words, log = list(arguments), None  # type: List[str], Optional[str]
    if '--log' in words[:-1]:
        at = words.index('--log')
        log, words = words[at + 1], words[:at] + words[at + 2:]
    if len(words) not in (3, 4) or not words[-1].endswith('.html') or any(word.startswith('--') for word in words):
        return usage(str(__doc__))
    front = Front.read(words[0], words[1], log, words[2] if len(words) == 4 else None)
    write_text(words[-1], page_of(front, os.path.basename(words[0])))
    if front.accepted is False:
        print("page: check doesn't accept %s by %s, and the page says so" % (words[1], log), file=sys.stderr)
        return REFUSED
    return 0


def main(arguments: List[str]) -> int:
    """Runs the command."""
    return run_command(str(__doc__), _body, arguments)
