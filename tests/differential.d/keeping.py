"""Differences, minimised and written down as cases of tests/."""
import os

import judges


def smaller(text):
    """Texts that lack some lines of a text, or some words of one line."""
    lines = text.split('\n')
    size = len(lines) // 2
    while size:
        for place in range(0, len(lines), size):
            yield '\n'.join(lines[:place] + lines[place + size:])
        size //= 2
    for place, line in enumerate(lines):
        words = line.split(' ')
        for at in range(len(words) if len(words) > 1 else 0):
            yield '\n'.join(lines[:place] + [' '.join(words[:at] + words[at + 1:])] + lines[place + 1:])


def minimised(case, differs, tries=2000):
    """A case with as few lines and words as still differ, by so many tries."""
    is_smaller = True
    while is_smaller:
        is_smaller = False
        for name in sorted(case.files):
            for text in smaller(case.files[name]):
                tries -= 1
                if tries <= 0:
                    return case
                other = judges.Case(case.words, {**case.files, name: text})
                if differs(other):
                    case, is_smaller = other, True
                    break
    return case


def escaped(text):
    """A file's text as a case has it: indented lines, bytes that are no plain characters as escapes."""
    plain = ''.join({'\\': '\\\\', '\t': '\\t', '\r': '\\r'}.get(c, c if c == '\n' or ' ' <= c <= '~' else '\\x%02x' % ord(c)) for c in text)
    lines = plain.split('\n')
    ends = '' if lines[-1] == '' else '    ' + lines[-1] + '\\\n'
    return ''.join('    %s\n' % line if line else '    \\n\\\n' for line in lines[:-1]) + ends


def case_text(case, answer, wrong):
    """The text of a case, with what the program answers."""
    number, words = answer
    parts = [wrong.replace('\n', ' '), 'run ' + ' '.join(case.words), 'ends %d' % number]
    parts.append('says\n    ' + words if number in (0, 10) else 'warns\n    scuttle: ' + words)
    return '\n\n'.join(parts + ['file %s\n%s' % (name, escaped(text)) for name, text in sorted(case.files.items())])


def keep(folder, case, answer, wrong):
    """Writes a case into a folder, under a number that is free; gives its path."""
    os.makedirs(folder, exist_ok=True)
    number = 1 + len(os.listdir(folder))
    path = os.path.join(folder, 'difference_%d.case' % number)
    with open(path, 'w', encoding='utf-8', newline='\n') as file:
        file.write(case_text(case, answer, wrong))
    return path
