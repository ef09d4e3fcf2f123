"""Files of other kinds than the one that is wanted: known by their first bytes or their names, with the word of what makes of them what is."""
import os
from typing import Optional

from .errors import Malformed

# The first bytes of a kind, and what is said of it.
PACKED = {b'\x1f\x8b': 'this is packed by gzip: `gzip -d` unpacks it', b'\xfd7zXZ\0': 'this is packed by xz: `xz -d` unpacks it',
          b'BZh': 'this is packed by bzip2: `bzip2 -d` unpacks it', b'\x28\xb5\x2f\xfd': 'this is packed by zstd: `zstd -d` unpacks it'}
# Workbooks of spreadsheets; the first two kinds are folders packed by zip, whose first member says which.
EXCEL = 'this is an Excel workbook: save it as CSV'
SHEETS = {b'PK\x03\x04': 'this is packed by zip: unpack it, or, if it is a workbook, save it as CSV', b'\xd0\xcf\x11\xe0': EXCEL}
OPEN_DOCUMENT = b'mimetypeapplication/vnd.oasis.opendocument'
# How much of a file says its kind.
HEAD = 100
# Endings of files that are no instances yet, the tool that makes one of them, and the ending of that.
TOOLS = {'.lp': ('from-lp', '.opb'), '.mps': ('from-mps', '.opb'), '.wcnf': ('from-wcnf', '.mcnf'), '.csv': ('from-csv', '.opb')}
INSTANCES = ('.opb', '.mopb', '.mcnf')


def packed_kind(path: str, head: bytes) -> Optional[str]:
    """What is said of a file whose first bytes are those of a packed one or of a workbook; None of any other.

    >>> packed_kind('a.opb', b'\\x1f\\x8b\\x08'), packed_kind('a.opb', b'min: x1 ;')
    ('this is packed by gzip: `gzip -d` unpacks it', None)
    """
    if head.startswith(b'PK\x03\x04') and path.lower().endswith(('.xlsx', '.xlsm')) or b'[Content_Types].xml' in head:
        return EXCEL
    if OPEN_DOCUMENT in head:
        return 'this is a workbook: save it as CSV'
    return next((said for kinds in (PACKED, SHEETS) for first, said in kinds.items() if head.startswith(first)), None)


def mind_packed(path: str, head: bytes) -> None:
    """`Malformed` where a file is packed, or a workbook."""
    said = packed_kind(path, head[:HEAD])
    if said:
        raise Malformed(path, 1, said)


def mind_ending(path: str, own: str = '') -> None:
    """`Malformed` where a file's name says that another tool than one's own takes it; without one an instance is wanted.

    >>> mind_ending('a.wcnf')
    Traceback (most recent call last):
    ...
    scuttle.errors.Malformed: a.wcnf:1: by its name this is no instance yet: the tool from-wcnf makes a .mcnf of it
    """
    ending = os.path.splitext(path)[1].lower()
    tool, made = TOOLS.get(ending, ('', ''))
    if tool and tool != own:
        raise Malformed(path, 1, 'by its name this is no instance yet: the tool %s makes a %s of it' % (tool, made) if not own else
                        'by its name this is for the tool %s' % tool)
    if own and ending in INSTANCES:
        raise Malformed(path, 1, 'by its name this is an instance already')
