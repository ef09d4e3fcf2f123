"""Changes of texts: by bytes, by words, by lines."""

# Words that come in place of others, or between them, by what is mutated.
MCNF_WORDS = ('h', 'o1', 'o2', 'o64', 'o65', 'o0', 'o', 'o00001', 'c', '0', '00', '-0', '1', '-1', '16777216', '16777217', '-16777217',
              '9223372036854775807', '9223372036854775808', 'o9223372036854775808', '-9223372036854775808', '+1', '1.5', '-', '--1', 'x1', '\x0b',
              '\x0c1', '\xa0', '\xb2', '0' * 50, '9' * 50, '9' * 5000)
OPB_WORDS = ('min:', 'max:', 'min', ':', ';', '>=', '<=', '=', '>', '<', '+', '-', '0', '1', '2', 'x1', '~x1', 'x0', '~x0', 'x', '~', '~~x1', 'X1',
             'x16777216', 'x16777217', '~x9223372036854775808', 'x00001', '9223372036854775807', '9223372036854775808', '* x', '\n*\n', '\n', '\r',
             '\r\n', '\x0b', '\xb2', '9' * 50, 'x' + '9' * 5000, '*', '>= 1 ;', '+1 x1 >= 1 ;', 'min: ;', 'max: x1 ;')
LIST_WORDS = ('s', 'o', 'v', 'COMPLETE', 'INCOMPLETE', '0', '1', '2', '3', '-1', '-0', '00', '+1', '', '9223372036854775807', '-9223372036854775807',
              '9223372036854775808', '-9223372036854775808', '-2', '18446744073709551616', '9' * 50, '\r')
LOG_WORDS = ('pol', 'rup', 'learn', 'def', 'red', 'dom', 'sol', 'del', 'reduce', 'end', ':', '>=', '~', '!', '+', '*', 'd', 's', 'w', 'c',
             'o1', 'o2', 'o3', 'o0', 'o4294967295', 'o4294967296', '0', '1', '2', '3', '4', '5', '6', '7', '8', '9', '-1', '-2', '-0', '01', '',
             'x1', '~x1', 'x2', '~x2', 'x3', '~x3', 'x0', 'x9', 'x9223372036854775807', 'x9223372036854775808', '9223372036854775807',
             '9223372036854775808', '1..3', '-3..-1', '-2..-1', '1..-1', '1267650600228229401496703205376', '1267650600228229401496703205377',
             '170141183460469231731687303715884105727', '170141183460469231731687303715884105728', '9' * 60, '+ +', '~ ~', '\r', '\t')
WORDS = {'mcnf': MCNF_WORDS, 'opb': OPB_WORDS, 'list': LIST_WORDS, 'log': LOG_WORDS, 'models': LIST_WORDS + ('e', 'ALL', 'FIRST', 'MODELS')}
BYTES = ' \n\r\t0123456789-+~xXhocvswde:;=<>*!.\x00\x0b\x0c\x7f\x80\x85\xa0\xff'


def mutated(random, text, kind, others=()):
    """A text with one to three changes; `others` are texts of its kind that it may be spliced with."""
    for _ in range(random.choice((1, 1, 1, 2, 3))):
        text = random.choice(CHANGES)(random, text, kind, others)
    return text


def by_byte(random, text, kind, others):
    place = random.randint(0, len(text))
    change = random.choice(('drop', 'put', 'replace', 'cut'))
    if change == 'cut':
        return text[:place] if random.random() < .3 else text[:place] + text[place + random.randint(1, 8):]
    put = '' if change == 'drop' else random.choice(BYTES)
    return text[:place] + put + text[place + (change != 'put'):]


def by_word(random, text, kind, others):
    """One word of one line is another, or is gone, or stands twice, or changes places with the next."""
    lines = text.split('\n')
    place = random.randrange(len(lines))
    words = lines[place].split(' ')
    at = random.randrange(len(words))
    change = random.choice(('replace', 'replace', 'replace', 'put', 'drop', 'double', 'swap', 'number', 'number', 'number', 'sign', 'other', 'piece'))
    if change == 'drop':
        del words[at]
    elif change in ('put', 'double'):
        words.insert(at, random.choice(WORDS[kind]) if change == 'put' else words[at])
    elif change == 'swap':
        words[at:at + 2] = words[at:at + 2][::-1]
    elif change == 'piece':
        words[at:at + 3] = other_pieces(random, words[at:at + 3])
    elif change == 'other':
        words[at] = random.choice(random.choice(lines).split(' '))
    else:
        words[at] = {'number': other_number, 'sign': other_sign}.get(change, lambda *_: random.choice(WORDS[kind]))(random, words[at])
    lines[place] = ' '.join(words)
    return '\n'.join(lines)


def other_number(random, word):
    """A word whose digits spell a number close by."""
    digits = word.lstrip('-~xo')
    if not digits.isdecimal() or len(digits) > 45:
        return word
    return word[:len(word) - len(digits)] + str(max(0, int(digits) + random.choice((-2, -1, -1, 1, 1, 2, 7))))


def other_pieces(random, words):
    """A piece of ids as single ones, or in two pieces; or some ids as one piece."""
    first, dots, last = words[0].partition('..')
    ends = [end.lstrip('-').isdecimal() and len(end) < 9 for end in (first, last if dots else words[-1])]
    if not all(ends):
        return words
    if not dots:
        return [first + '..' + words[-1]]
    ids = [str(number) for number in range(int(first), int(last) + 1)]
    if len(ids) < 9 and random.random() < .6:
        return ids + words[1:]
    middle = random.randint(0, len(ids))
    return [part[0] + '..' + part[-1] if len(part) > 2 else ' '.join(part) for part in (ids[:middle], ids[middle:]) if part] + words[1:]


def other_sign(random, word):
    """A literal's opposite, in any of the texts."""
    if word.startswith(('~', '-')):
        return word[1:]
    return ('~' if word.startswith('x') else '-') + word


def by_line(random, text, kind, others):
    """A line is gone, or stands twice, or changes places, or comes of another text."""
    lines = text.split('\n')
    at, to = random.randrange(len(lines)), random.randrange(len(lines))
    change = random.choice(('drop', 'double', 'swap', 'move', 'splice', 'insert', 'part'))
    if change == 'drop':
        del lines[at]
    elif change == 'double':
        lines.insert(to, lines[at])
    elif change == 'swap':
        lines[at], lines[to] = lines[to], lines[at]
    elif change == 'move':
        lines.insert(to, lines.pop(at))
    elif change == 'part':
        words = [word for word in lines[at].split(' ') if word != ':']
        if words:
            lines[at] = lines[at].replace(' ' + random.choice(words), '', 1)
    elif others:
        other = random.choice(others).split('\n')
        if change == 'insert':
            lines.insert(at, random.choice(other))
        else:
            lines = lines[:at] + other[random.randrange(len(other)):]
    return '\n'.join(lines)


CHANGES = (by_byte, by_word, by_word, by_word, by_line)
