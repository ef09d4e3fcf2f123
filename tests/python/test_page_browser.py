"""The page in a browser: what is seen after sliding, sorting, choosing and pinning is what Python reckons."""
import os
import shutil
import signal
import sys
import tempfile
import unittest

from browser import CHROMIUM, DRIVER, ELEMENT, Browser
from page_fronts import SENSES, front_of_costs, strange
from setting import EXAMPLES, InFolder

from scuttle import Front, Labels, More, Plan

BROWSER, FOLDER = None, None
# What a test asks of the page: a slider's value and the most it can have; the words of each row of a table; the middle of an element;
# and a click at a place of a picture.
SLIDER = 'const slider = document.getElementById(arguments[0]); return [slider.value, slider.max]'
CELLS = 'return Array.from(document.querySelectorAll(arguments[0])).map((row) => Array.from(row.children).map((e) => e.textContent))'
MIDDLE = """const box = document.querySelectorAll(arguments[0])[arguments[1]].getBoundingClientRect();
    return [box.left + box.width / 2, box.top + box.height / 2]"""
CLICK = """document.getElementById(arguments[0]).dispatchEvent(
    new MouseEvent('click', {clientX: arguments[1], clientY: arguments[2], bubbles: true}))"""


def setUpModule():
    global BROWSER, FOLDER
    if not CHROMIUM or not DRIVER:
        print('test_page_browser: left out, as chromium and chromedriver are not installed', file=sys.stderr)
        raise unittest.SkipTest('chromium and chromedriver are not installed')
    # Who stops the tests stops the browser too.
    signal.signal(signal.SIGTERM, signal.default_int_handler)
    FOLDER = tempfile.mkdtemp(prefix='scuttle-browser-')
    BROWSER = Browser(FOLDER)


def tearDownModule():
    if BROWSER:
        BROWSER.close()
        shutil.rmtree(FOLDER, ignore_errors=True)


def example(name):
    return Front.read(os.path.join(EXAMPLES, name), os.path.join(EXAMPLES, os.path.splitext(name)[0] + '.list'))


def texts(selector):
    """The words of elements, also of those that are out of sight."""
    return BROWSER.run('return Array.from(document.querySelectorAll(arguments[0])).map((e) => e.textContent)', selector)


def rows():
    """The rows of the table: for each the number of its plan, its costs, and its marks."""
    found = BROWSER.run('''return Array.from(document.querySelectorAll('#table tbody tr')).map((row) => [
        row.querySelector('button').lastChild.textContent, Array.from(row.querySelectorAll('td')).map((cell) => cell.firstChild.textContent),
        row.className])''')
    return [(int(number), tuple(map(int, costs)), marks.split()) for number, costs, marks in found]


def options_under(title):
    """The options of a list, by its title: as many as it says, and each line's words."""
    found = BROWSER.run('''const boxes = Array.from(document.querySelectorAll('.options'));
        const box = boxes.find((e) => e.querySelector('h3').textContent.startsWith(arguments[0]));
        return box ? [box.querySelector('h3').textContent, Array.from(box.querySelectorAll('li')).map((e) => [
          e.querySelector('b') ? e.querySelector('b').textContent : '',
          Array.from(e.querySelectorAll('bdi')).map((b) => b.textContent)])] : null''', title)
    if found is None:
        return None
    named = [' '.join((head, word)).strip() for head, words in found[1] for word in (words[1:] if head else words)]
    assert found[0] == '%s (%d)' % (title, len(named)), found
    return named


def words_of(names):
    return [' '.join(name) if isinstance(name, tuple) else name for name in names]


class InBrowser(InFolder):
    def show(self, front, title='a day', width=1280):
        """Opens a front's page. Whatever the test does, the console stays empty, and nothing but the page is asked for."""
        self.write('page.html', front.to_html(title=title))
        BROWSER.resize(width, 900)
        BROWSER.console(), BROWSER.requests()
        BROWSER.open('page.html')
        self.addCleanup(self.check_quiet, os.path.abspath('page.html'))

    def check_quiet(self, path):
        self.assertEqual(BROWSER.console(), [])
        self.assertLessEqual(set(BROWSER.requests()), {'file://' + path})

    def left_in_python(self, front):
        """The front of what the sliders' values leave."""
        def within(sense, limit):
            return lambda value: value <= limit if sense == 'min' else value >= limit
        limits = [int(text.split(' ')[-1]) for text in texts('#sliders .limit')]
        return front.where({name: within(sense, limit) for name, sense, limit in zip(front.labels.objectives, front.labels.senses, limits)})

    def check_left(self, front):
        """That the page shows what Python leaves: the count, the rows, the knee, and what is shared."""
        left = self.left_in_python(front)
        self.assertTrue(texts('#left')[0].startswith('%d of %d compromise' % (len(left), len(front))), texts('#left'))
        shown = rows()
        self.assertEqual([(number, costs) for number, costs, _ in shown], [(plan.number, plan.vector) for plan in left][:100])
        if len(left) <= 100:
            knees = [number for number, _, marks in shown if 'knee' in marks]
            self.assertEqual(knees, [left.knee().number] if len(left) and len(front) > 2 else [])
        if len(left):
            self.assertEqual(sorted(options_under('Each of them takes')), sorted(words_of(left.always())))
            self.assertEqual(sorted(options_under('None of them takes')), sorted(words_of(left.never())))
        return left


class Sliding(InBrowser):
    def test_drags(self):
        for front in (example('roster.opb'), example('roofs.opb'), front_of_costs(60, SENSES[3]), front_of_costs(40, SENSES[8])):
            self.show(front)
            self.assertEqual(len(self.check_left(front)), len(front))
            for k, to in ((0, 0.6), (1, 0.5), (0, 0.0)):
                before, most = [int(word) for word in BROWSER.run(SLIDER, 'slider-%d' % k)]
                BROWSER.drag('#slider-%d' % k, before / most, to)
                self.assertNotEqual(int(BROWSER.run(SLIDER, 'slider-%d' % k)[0]), before)
                left = self.check_left(front)
                self.assertLess(len(left), len(front))
            BROWSER.click('#reset')
            self.assertEqual(len(self.check_left(front)), len(front))

    def test_nothing_is_left(self):
        front = front_of_costs(30, SENSES[2])
        self.show(front)
        for k in (0, 1):
            BROWSER.keys('#slider-%d' % k, '\ue011')
        self.assertEqual(len(self.check_left(front)), 0)
        self.assertIn('no plan is within these limits', texts('#left')[0])
        self.assertEqual(texts('#shared-body'), ['Nothing is left.'])
        for wanted in ({'complete': False, 'accepted': None}, {'accepted': None}, {'listed': 40}):
            self.show(front_of_costs(30, SENSES[2], **wanted))
            for k in (0, 1):
                BROWSER.keys('#slider-%d' % k, '\ue011')
            self.assertEqual(texts('#left'), ['0 of 30 compromises are left.'])

    def test_five_thousand(self):
        front = front_of_costs(5000, SENSES[4])
        self.show(front)
        BROWSER.drag('#slider-1', 1.0, 0.7)
        BROWSER.keys('#slider-2', '\ue00e' * 3)
        left = self.check_left(front)
        self.assertTrue(100 < len(left) < 5000)
        BROWSER.click('#after')
        self.assertEqual([number for number, _, _ in rows()], [plan.number for plan in left][100:200])
        self.assertLess(BROWSER.run('return document.querySelectorAll("*").length'), 5000)


class Choosing(InBrowser):
    def test_sorting(self):
        front = front_of_costs(50, SENSES[3])
        self.show(front)
        for column in range(3):
            for backwards in (False, True):
                BROWSER.click('#table thead button', column + 1)
                sign = (1 if front.labels.senses[column] == 'min' else -1) * (-1 if backwards else 1)
                wanted = sorted(front, key=lambda plan: (sign * plan.vector[column], plan.number))
                self.assertEqual([number for number, _, _ in rows()], [plan.number for plan in wanted])
                sorts = BROWSER.run('return Array.from(document.querySelectorAll("#table thead th")).map((e) => e.getAttribute("aria-sort"))')
                self.assertEqual(sorts, ['none'] + [('ascending' if sign > 0 else 'descending') if k == column else 'none' for k in range(3)])

    def test_differences_to_the_chosen_plan(self):
        front = front_of_costs(20, SENSES[3], start=2 ** 60)
        self.show(front)
        BROWSER.click('#table tbody tr button', 4)
        chosen = front[4]
        self.assertEqual(texts('#plan-title')[0].split(' (')[0], 'Plan 5')
        for plan, cells in zip(front, BROWSER.run(CELLS, '#table tbody tr')):
            for cost, other, sense, cell in zip(plan.vector, chosen.vector, front.labels.senses, cells[1:]):
                by = cost - other
                better = 'better' if (by < 0) == (sense == 'min') else 'worse'
                difference = '' if plan is chosen else ' =' if by == 0 else ' %s%d %s' % ('+' if by > 0 else '\u2212', abs(by), better)
                self.assertEqual(cell, '%d%s' % (cost, difference))

    def test_pinning(self):
        for front in (example('roster.opb'), example('bicycles.mcnf'), front_of_costs(40, SENSES[4])):
            self.show(front)
            BROWSER.click('#table tbody tr button', 0)
            BROWSER.click('#pin')
            self.assertEqual([number for number, _, marks in rows() if 'pinned' in marks], [1])
            BROWSER.click('#next')
            BROWSER.click('#next')
            found = front.diff(0, 2)
            self.assertEqual(sorted(options_under('Only plan 3 takes')), sorted(words_of(found.only_second)))
            self.assertEqual(sorted(options_under('The pinned plan 1 takes instead')), sorted(words_of(found.only_first)))
            shown = texts('#plan-body .costs tbody td:nth-child(4)')
            self.assertEqual([int(text.split(' ')[0].replace('\u2212', '-').replace('=', '0')) for text in shown], list(found.costs.values()))
            self.assertEqual(len(texts('#plan-body ins')), len(found.only_second) if texts('table.grid') else 0)
            self.assertEqual(len(texts('#plan-body del')), len(found.only_first) if texts('table.grid') else 0)
            BROWSER.click('#previous')
            BROWSER.click('#previous')
            BROWSER.click('#pin')
            self.assertEqual([number for number, _, marks in rows() if 'pinned' in marks], [])

    def test_the_grid(self):
        front = example('roster.opb')
        self.show(front)
        BROWSER.click('#table tbody tr button', 1)
        heads = texts('table.grid thead th')
        self.assertEqual(heads, ['Mon', 'Tue', 'Wed', 'Thu', 'Fri'])
        found = BROWSER.run(CELLS, 'table.grid tbody tr')
        self.assertEqual([row[0] + ' ' + head for row in found for head, cell in zip(heads, row[1:]) if cell == 'taken: ●'], front[1].taken)

    def test_by_keys_alone(self):
        front = front_of_costs(30, SENSES[2])
        self.show(front)
        BROWSER.run('document.querySelector("#table tbody button[tabindex=\\"0\\"]").focus()')
        chosen = int(BROWSER.run('return document.activeElement.lastChild.textContent'))
        active = 'const at = document.activeElement; return at.closest("tr") ? Number(at.lastChild.textContent) : at.id'
        for key, wanted in (('\ue015', min(30, chosen + 1)), ('\ue013', chosen), ('\ue010', 30), ('\ue011', 1), ('\ue015', 2), ('\ue007', 2)):
            self.press(key)
            self.assertEqual(BROWSER.run(active), wanted)
        self.assertEqual(texts('#plan-title')[0].split(' (')[0], 'Plan 2')
        self.press('\ue004')
        self.assertEqual(BROWSER.run(active), 'beyond')
        BROWSER.keys('#slider-0', '\ue012')
        self.check_left(front)
        self.assertEqual(BROWSER.run('return document.activeElement.id'), 'slider-0')

    def press(self, key):
        steps = [{'type': kind, 'value': key} for kind in ('keyDown', 'keyUp')]
        BROWSER.call('POST', '/actions', {'actions': [{'type': 'key', 'id': 'keys', 'actions': steps}]})

    def test_by_a_click_in_the_pictures(self):
        front = example('roster.opb')
        self.show(front)
        for at in (5, 0):
            BROWSER.run(CLICK, 'stairs', *BROWSER.run(MIDDLE, '#stairs circle.in', at))
            self.assertEqual(texts('#plan-title')[0].split(' (')[0], 'Plan %d' % (at + 1))
        for k in (1, 0):
            # The best value of each axis stands above it.
            BROWSER.run(CLICK, 'axes', *BROWSER.run(MIDDLE, '#axes .end', 2 * k))
            best = front.best(front.labels.objectives[k])
            self.assertEqual(texts('#plan-title')[0].split(' (')[0], 'Plan %d' % best.number)

    def test_plans_of_the_same_costs(self):
        labels = Labels([], [], ['a', 'b', 'c'])
        plans = [Plan(1, (), model, labels) for model in ([1, -2, -3], [-1, 2, -3], [-1, -2, 3])]
        front = Front(True, True, plans[:1], labels)
        front.choices = [More(True, True, plans)]
        self.show(front)
        self.assertEqual((options_under('It takes'), options_under('Each of them takes')), (['a'], []))
        self.assertIn('3 plans have these costs, and no other, which check-models accepted.', texts('#plan-body .note'))
        BROWSER.click('#pin')
        BROWSER.keys('#which', '3')
        for title, wanted in (('It takes', 'c'), ('Only plan 1, 3 of 3 takes', 'c'), ('The pinned plan 1, 1 of 3 takes instead', 'a')):
            self.assertEqual(options_under(title), [wanted])


class Showing(InBrowser):
    def check_place(self):
        """Nothing is wider than the window."""
        self.assertLessEqual(*BROWSER.run('return [document.documentElement.scrollWidth, innerWidth]'))

    def test_each_number_of_costs_and_size(self):
        for costs in range(9):
            front = front_of_costs(1 if costs == 0 else 40, SENSES[costs])
            self.show(front)
            self.check_place()
            self.assertEqual(len(rows()), len(front))
            self.assertEqual(texts('#axes .name') != [], costs > 0)
            self.assertEqual(BROWSER.run('return document.getElementById("stairs").checkVisibility()'), costs == 2)
            BROWSER.resize(360, 700)
            self.check_place()
        for count in (1, 400, 5000):
            self.show(front_of_costs(count, SENSES[8]))
            self.check_place()
            self.assertEqual(texts('#status .title'), ['%d best compromise%s' % (count, '' if count == 1 else 's')])

    def test_names(self):
        front = strange()
        self.show(front, '<script>alert(2)</script>', width=1000)
        self.check_place()
        shown = [name.replace('\x01', '') for name in front.labels.objectives]
        self.assertEqual(texts('#table thead bdi'), ['plan'] + shown)
        self.assertEqual(texts('#sliders label bdi'), shown)
        self.assertEqual(BROWSER.run('return [document.title, document.scripts.length, document.querySelectorAll("b b, bdi *").length]'),
                         ['<script>alert(2)</script>', 2, 0])
        self.assertEqual([costs for _, costs, _ in rows()], [plan.vector for plan in front])
        BROWSER.click('#table tbody tr button', 3)
        self.assertEqual(options_under('It takes'), [name.replace('\x01', '') for name in front[3].taken])

    def test_nothing_satisfies_the_rows(self):
        front = Front(True, True, [], Labels(['pay'], ['min'], ['a']))
        front.conflict = ['a <= 0', 'a >= 1 </script>']
        self.show(front)
        self.assertEqual((texts('#status .title'), texts('#status li')), (['No plan keeps to all constraints'], front.conflict))
        self.assertFalse(BROWSER.run('return document.getElementById("main").checkVisibility()'))

    def test_what_may_not_be_the_front_is_marked_in_every_view(self):
        for wanted, word in (({'complete': False, 'accepted': None}, 'INCOMPLETE'), ({'accepted': False}, 'NOT ACCEPTED'), ({}, None),
                             ({'accepted': None}, None)):
            self.show(front_of_costs(12, SENSES[2], **wanted))
            marks = texts('h2 .mark')
            self.assertEqual(len(marks), len(texts('main section')) if word else 0)
            self.assertTrue(all(word in mark for mark in marks))
            said = ' '.join(texts('#status p'))
            self.assertEqual(('INCOMPLETE' in said, 'check accepted' in said, 'wasn\u2019t asked' in said),
                             (word == 'INCOMPLETE', wanted == {}, wanted == {'accepted': None}))

    def test_many_options(self):
        options = ['option %d of many' % k for k in range(100000)]
        front = front_of_costs(5, SENSES[2], options=options)
        self.show(front)
        self.check_place()
        self.assertLess(BROWSER.run('return document.querySelectorAll("*").length'), 2000)
        self.assertEqual(int(texts('#shared-body h3')[0].split('(')[1][:-1]), len(front.always()))
        self.assertEqual(int(texts('#shared-body h3')[1].split('(')[1][:-1]), len(front.never()))
        taken = front[int(texts('#plan-title')[0].split(' ')[1]) - 1].taken
        for shown in (60, 1060, 2060):
            self.assertEqual(texts('#plan-body .options li'), taken[:shown])
            self.assertTrue(texts('#plan-body .options .note')[0].startswith('and %d more ' % (len(taken) - shown)))
            BROWSER.click('#plan-body .options button')

    def test_roles_and_labels(self):
        self.show(front_of_costs(12, SENSES[3]))
        for selector, role in (('#sliders input', 'slider'), ('#table thead th', 'columnheader'), ('#table tbody th', 'rowheader'),
                               ('#table tbody td', 'cell'), ('section', 'region'), ('#axes', 'image'), ('button', 'button'), ('#left', 'status'),
                               ('main', 'main')):
            for element in BROWSER.find(selector)[:3]:
                found, label = [BROWSER.call('GET', '/element/%s/computed%s' % (element[ELEMENT], what)) for what in ('role', 'label')]
                self.assertEqual(found.replace('img', 'image'), role, selector)
                self.assertTrue(label or role in ('status', 'main', 'cell'), selector)
        for text in BROWSER.run('return Array.from(document.querySelectorAll("#sliders input")).map((e) => e.getAttribute("aria-valuetext"))'):
            self.assertRegex(text, '^at (most|least) [0-9]+$')
        self.assertEqual(BROWSER.run('return document.querySelectorAll("#table tbody button[tabindex=\\"0\\"]").length'), 1)

    def test_print(self):
        self.show(front_of_costs(12, SENSES[2], complete=False, accepted=None))
        self.assertEqual(BROWSER.printed()[:5], b'%PDF-')
        BROWSER.call('POST', '/goog/cdp/execute', {'cmd': 'Emulation.setEmulatedMedia', 'params': {'media': 'print'}})
        try:
            seen = 'return arguments[0].map((s) => document.querySelector(s).checkVisibility())'
            self.assertEqual(BROWSER.run(seen, ['#pin', '#slider-0', '#reset']), [False] * 3)
            self.assertEqual(BROWSER.run(seen, ['.limit', '#stairs', '#table table', '.mark', '#plan-body']), [True] * 5)
        finally:
            BROWSER.call('POST', '/goog/cdp/execute', {'cmd': 'Emulation.setEmulatedMedia', 'params': {'media': ''}})


if __name__ == '__main__':
    unittest.main()
