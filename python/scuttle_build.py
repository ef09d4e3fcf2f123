"""Builds the package for pip: a wheel or a source archive, with nothing besides Python's own modules (PEP 517 and PEP 660).

The wheel takes along the launcher with its parts, and the released executable where it runs, on Linux on x86-64 with the glibc that it wants;
elsewhere the package reads, writes and shows, and solves by an executable that the variable SCUTTLE names. The version is the newest heading
of NEWS.md, the long text is README.md. The same tree gives the same wheel.
"""
import base64
import hashlib
import io
import os
import re
import sys
import sysconfig
import tarfile
import zipfile
from typing import Dict, List, Optional, Tuple

HERE = os.path.dirname(os.path.abspath(__file__))
ROOT = os.path.dirname(HERE)
EXECUTABLE = 'release/scuttle'
# The glibc that the executable wants, and what a system that has it calls a wheel for it (PEP 600).
GLIBC, PLATFORM = (2, 34), 'manylinux_2_34_x86_64'
LAUNCHER, TOOLS = 'scuttle', ('tools/watch', 'tools/far')
# The files that are run.
RUN = (EXECUTABLE, LAUNCHER) + TOOLS
# Where the launcher and its parts are in the package, placed as in a clone.
TREE = 'scuttle/tree/'
# The tools that the launcher runs look for the package in a folder `python` beside theirs: this stands there, and sends them on.
SENT_ON = b"""import os
__path__ = [os.path.join(os.path.dirname(os.path.abspath(__file__)), '..', '..', '..')]
"""
CLASSIFIERS = ('Environment :: Console', 'Intended Audience :: End Users/Desktop', 'Intended Audience :: Science/Research',
               'Operating System :: POSIX :: Linux', 'Programming Language :: Python :: 3', 'Programming Language :: Python :: 3 :: Only',
               'Topic :: Scientific/Engineering :: Mathematics', 'Typing :: Typed')
SUMMARY = 'Every best compromise of a 0-1 problem with several costs, with a proof that is checked'
# What a file in an archive gets as its time: archives have no earlier one, and a tree has none.
TIME = (1980, 1, 1, 0, 0, 0)

# A file of an archive: its bytes, and whether it may be run.
Files = Dict[str, Tuple[bytes, bool]]


def build_wheel(wheel_directory: str, config_settings: Optional[Dict[str, str]] = None, metadata_directory: Optional[str] = None) -> str:
    """Writes the wheel into the folder: its name."""
    files = {name: (_bytes_of('python', name), False) for name in _modules()}  # type: Files
    files.update((TREE + name, (_bytes_of(name), name in RUN)) for name in _launched())
    files[TREE + 'python/scuttle/__init__.py'] = (SENT_ON, False)
    has_executable = _has_glibc() and os.path.exists(os.path.join(ROOT, EXECUTABLE))
    if has_executable:
        files[TREE + EXECUTABLE] = (_bytes_of(EXECUTABLE), True)
    return _write_wheel(wheel_directory, files, PLATFORM if has_executable else 'any')


def build_editable(wheel_directory: str, config_settings: Optional[Dict[str, str]] = None, metadata_directory: Optional[str] = None) -> str:
    """The same for `pip install --editable`: the wheel only names this folder, and the clone's launcher is the executable."""
    return _write_wheel(wheel_directory, {'scuttle.pth': ((HERE + '\n').encode(), False)}, 'any')


def build_sdist(sdist_directory: str, config_settings: Optional[Dict[str, str]] = None) -> str:
    """Writes the source archive into the folder: its name. It has what a wheel is built from, placed as in a clone."""
    stem = 'scuttle-' + _version()
    names = ['pyproject.toml', 'README.md', EXECUTABLE, 'python/pyproject.toml', 'python/scuttle_build.py'] + _launched()
    names += ['python/' + name for name in _modules()]
    with tarfile.open(os.path.join(sdist_directory, stem + '.tar.gz'), 'w:gz', format=tarfile.PAX_FORMAT) as archive:
        for name, data in [('PKG-INFO', _metadata())] + [(name, _bytes_of(name)) for name in names]:
            entry = tarfile.TarInfo(stem + '/' + name)
            entry.size, entry.mode = len(data), 0o755 if name in RUN else 0o644
            archive.addfile(entry, io.BytesIO(data))
    return stem + '.tar.gz'


def _modules() -> List[str]:
    """The files of the package, by their places under python/: modules, and of the page also its parts."""
    return [folder + '/' + name for folder in ('scuttle', 'scuttle/page') for name in sorted(os.listdir(os.path.join(HERE, folder)))
            if name.endswith(('.py', '.typed', '.html', '.css', '.js'))]


def _launched() -> List[str]:
    """The launcher, and what it reads and runs."""
    names = [LAUNCHER, 'NEWS.md', 'docs/HELP.txt'] + list(TOOLS)
    return names + [folder + '/' + name for folder, ending in (('launcher', '.sh'), ('docs/help', '.txt'))
                    for name in sorted(os.listdir(os.path.join(ROOT, folder))) if name.endswith(ending)]


def _has_glibc() -> bool:
    """Whether the executable runs on this system."""
    try:
        words = (os.confstr('CS_GNU_LIBC_VERSION') or '').split()
    except (AttributeError, ValueError, OSError):
        # This is another library, or another system.
        return False
    if len(words) != 2 or words[0] != 'glibc' or sysconfig.get_platform() != 'linux-x86_64':
        return False
    return tuple(int(number) for number in words[1].split('.')[:2]) >= GLIBC


def _bytes_of(*parts: str) -> bytes:
    with open(os.path.join(ROOT, *parts), 'rb') as file:
        return file.read()


def _version() -> str:
    heading = re.search(r'^## ([0-9][0-9.]*)', _bytes_of('NEWS.md').decode(), re.MULTILINE)
    if not heading:
        raise ValueError('NEWS.md has no heading with a version')
    return heading.group(1)


def _metadata() -> bytes:
    """What is said of the package. It names no licence, since none is given."""
    head = ['Metadata-Version: 2.1', 'Name: scuttle', 'Version: ' + _version(), 'Summary: ' + SUMMARY,
            'Keywords: optimization,multi-objective,pareto,pseudo-boolean,0-1,proof', 'Requires-Python: >=3.8']
    head += ['Classifier: ' + classifier for classifier in CLASSIFIERS] + ['Description-Content-Type: text/markdown; charset=UTF-8']
    return '\n'.join(head).encode() + b'\n\n' + _bytes_of('README.md')


def _entry_points() -> bytes:
    sys.path.insert(0, HERE)
    from scuttle.__main__ import COMMANDS
    named = ''.join('scuttle-%s = scuttle.__main__:entry\n' % name for name in sorted(COMMANDS))
    return ('[console_scripts]\nscuttle = scuttle.__main__:scuttle\n' + named).encode()


def _write_wheel(folder: str, files: Files, platform: str) -> str:
    """Writes a wheel of these files, with what pip has to know of them (PEP 427)."""
    tag, info = 'py3-none-' + platform, 'scuttle-%s.dist-info/' % _version()
    purely = 'true' if platform == 'any' else 'false'
    files[info + 'METADATA'] = (_metadata(), False)
    files[info + 'WHEEL'] = (('Wheel-Version: 1.0\nGenerator: scuttle_build\nRoot-Is-Purelib: %s\nTag: %s\n' % (purely, tag)).encode(), False)
    files[info + 'entry_points.txt'] = (_entry_points(), False)
    record = ''.join('%s,sha256=%s,%d\n' % (name, _sum_of(data), len(data)) for name, (data, _) in files.items())
    files[info + 'RECORD'] = ((record + info + 'RECORD,,\n').encode(), False)
    wheel = 'scuttle-%s-%s.whl' % (_version(), tag)
    with zipfile.ZipFile(os.path.join(folder, wheel), 'w', zipfile.ZIP_DEFLATED) as archive:
        for name, (data, may_run) in files.items():
            entry = zipfile.ZipInfo(name, TIME)
            entry.external_attr = (0o100755 if may_run else 0o100644) << 16
            entry.compress_type = zipfile.ZIP_DEFLATED
            archive.writestr(entry, data)
    return wheel


def _sum_of(data: bytes) -> str:
    return base64.urlsafe_b64encode(hashlib.sha256(data).digest()).decode().rstrip('=')
