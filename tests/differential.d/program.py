"""The program, run in a folder in memory, and the second checker beside it, each with what it answers."""
import importlib.util
import io
import os
import re
import shlex
import shutil
import signal
import sys
import tempfile

SECONDS = 60            # that one run may take
MEMORY_FOLDER = '/dev/shm'    # files there cost least; else they are where temporary files are


class Program:
    """An executable. Its runs are in one folder, which `end` removes."""

    def __init__(self, path):
        self.path = os.path.abspath(path)
        self.folder = tempfile.mkdtemp(dir=MEMORY_FOLDER if os.access(MEMORY_FOLDER, os.W_OK) else None)
        os.chdir(self.folder)
        self.reader, self.writer = os.pipe()
        signal.signal(signal.SIGALRM, self.too_long)
        self.running = 0

    def too_long(self, *_):
        os.kill(self.running, signal.SIGKILL)

    def run(self, words):
        """The number with which a run ends, and its words: what it says, or what it warns of after its name."""
        nothing = (os.POSIX_SPAWN_OPEN, 0, os.devnull, os.O_RDONLY, 0)
        self.running = os.posix_spawn(self.path, [self.path] + words, {}, file_actions=[
            nothing, (os.POSIX_SPAWN_DUP2, self.writer, 1), (os.POSIX_SPAWN_DUP2, self.writer, 2)])
        signal.alarm(SECONDS)
        _, status = os.waitpid(self.running, 0)
        signal.alarm(0)
        # Each run puts out a line of less than a pipe holds; this byte is after it where it puts out nothing.
        os.write(self.writer, b'.')
        words = os.read(self.reader, 65536)[:-1].decode('latin-1')
        words = words[:-1] if words.endswith('\n') else words + ' without its end'
        return os.WEXITSTATUS(status) if os.WIFEXITED(status) else -os.WTERMSIG(status), words.replace('scuttle: ', '', 1)

    def begin_checks(self, cases):
        """Begins a `check` of each of some cases, all in one shell, since to begin a process costs more than a check. A text that several
        have is written once."""
        names, script = {}, []
        for case in cases:
            words = ['check']
            for name in case.words[1:]:
                key = case.files[name], name.rpartition('.')[2]
                if key not in names:
                    names[key] = 'b%d.%s' % (len(names), key[1])
                    write(names[key], key[0])
                words.append(names[key])
            script.append('%s; echo = $?\n' % ' '.join([shlex.quote(self.path)] + words))
        write('batch.sh', ''.join(script))
        out = (os.POSIX_SPAWN_OPEN, 1, 'batch.out', os.O_WRONLY | os.O_CREAT | os.O_TRUNC | os.O_APPEND, 0o600)
        self.running = os.posix_spawn('/bin/sh', ['sh', 'batch.sh'], {}, file_actions=[out, (os.POSIX_SPAWN_DUP2, 1, 2)])
        signal.alarm(SECONDS)

    def end_checks(self):
        """The answers of the checks that were begun; fewer where one of them took too long."""
        os.waitpid(self.running, 0)
        signal.alarm(0)
        answers = re.findall('(.*)\n= ([0-9]+)\n', read('batch.out'))
        return [(int(number), words.replace('scuttle: ', '', 1)) for words, number in answers]

    def renew(self):
        """Goes on in an empty folder."""
        shutil.rmtree(self.folder)
        os.mkdir(self.folder)
        os.chdir(self.folder)

    def end(self):
        os.chdir('/')
        shutil.rmtree(self.folder)


def write(name, text):
    """Writes the bytes of a text, in which each character is one."""
    with open(name, 'wb') as file:
        file.write(text.encode('latin-1'))


def read(name):
    with open(name, 'rb') as file:
        return file.read().decode('latin-1')


def module_of(name, source, path):
    """A module made from a text."""
    module = importlib.util.module_from_spec(importlib.util.spec_from_loader(name, loader=None))
    module.__file__ = path
    sys.modules[name] = module
    exec(compile(source, path, 'exec'), module.__dict__)
    return module


class Second:
    """The second checker, of which `change` may edit the text."""

    def __init__(self, folder, change=None):
        with open(os.path.join(folder, 'recheck.py'), encoding='utf-8') as file:
            source = file.read()
        self.recheck = module_of('recheck', change(source) if change else source, os.path.join(folder, 'recheck.py'))
        self.folder = folder
        self.last = None, None, None
        with open(os.path.join(folder, 'recheck_models.py'), encoding='utf-8') as file:
            self.models = module_of('recheck_models', file.read(), os.path.join(folder, 'recheck_models.py'))

    def instance(self, name, text):
        return self.recheck.read_mcnf(text) if name.endswith('.mcnf') else self.recheck.OpbReader(text).read()

    def answer(self, work):
        """The number and the words of what is done, as a program ends and says."""
        return self.guarded(lambda: self.recheck.answer(lambda words: work(), []))

    def guarded(self, work):
        """An answer; a failure of the second checker is one that no program gives."""
        try:
            return work()
        except Exception as failure:
            return None, 'it fails: %r' % failure

    def check(self, name, instance, listed, log):
        """What `check` answers to three texts."""
        return self.answer(lambda: self.judge(name, instance, listed, log))

    def judge(self, name, text, listed, log):
        """As `check_files`, over texts. The last instance is kept, since many lists and logs come with it."""
        if self.last[0] != (name, text):
            instance = self.instance(name, text)
            self.last = (name, text), instance, self.recheck.normal_form_of_instance(instance)
        _, instance, problem = self.last
        vectors = [instance.problem_vector(costs) for costs, _ in self.recheck.check_list(instance, listed)]
        self.recheck.check_log(problem, vectors, io.BytesIO(log.encode('latin-1')))

    def check_models(self, words):
        """What `check-models` answers to files."""
        return self.guarded(lambda: self.recheck.answer(self.models.check_files, words))
