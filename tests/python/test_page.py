"""The page as Python makes it: what it knows, what stands in it, and the command."""
import ast
import doctest
import glob
import html.parser
import json
import os
import re
import sys
import unittest
import zipfile

from setting import EXAMPLES, PACKAGE, InFolder
from page_fronts import SENSES, front_of_costs, strange

from scuttle import Front, Labels, Model, More, Plan
from scuttle.page import SCRIPTS, data, grid, page_of
from scuttle.page.data import data_of
from scuttle.page.grid import grid_of

PARTS = os.path.join(PACKAGE, 'scuttle', 'page')
# The most that a page may have before its data. Bytes.
MOST = 60000


class Reader(html.parser.HTMLParser):
    """The elements of a page, with their attributes, and the text of each script and style."""

    def __init__(self, text):
        super().__init__(convert_charrefs=True)
        self.elements, self.texts = [], {}
        self.feed(text)

    def handle_starttag(self, tag, attrs):
        self.elements.append((tag, dict(attrs)))

    def handle_data(self, data):
        if self.elements:
            at = len(self.elements) - 1
            self.texts[at] = self.texts.get(at, '') + data

    def text_of(self, tag, **wanted):
        return [self.texts.get(at, '') for at, (name, attrs) in enumerate(self.elements) if name == tag and wanted.items() <= attrs.items()]


def data_in(page):
    return json.loads(Reader(page).text_of('script', type='application/json')[0])


def taken_in(data, distances):
    at, found = 0, []
    for step in distances:
        at += step
        found.append(data['options'][at])
    return found


class Data(unittest.TestCase):
    def test_each_cost_and_option_is_there(self):
        for senses in ((), ('min',), ('max',), ('min', 'max'), ('min', 'max', 'min', 'max', 'min', 'min', 'max', 'max')):
            front = front_of_costs(1 if len(senses) == 0 else 60, senses)
            data = data_of(front)
            self.assertEqual([(cost['name'], cost['sense']) for cost in data['costs']], list(zip(front.labels.objectives, senses)))
            for plan, entry in zip(front, data['entries']):
                costs = [int(cost['values'][rank]) for cost, rank in zip(data['costs'], entry['ranks'])]
                self.assertEqual((entry['number'], costs), (plan.number, list(plan.vector)))
                self.assertEqual(taken_in(data, entry['plans'][0]), [' '.join(name) for name in plan.taken])
            for cost in data['costs']:
                values = [int(value) for value in cost['values']]
                self.assertEqual(values, sorted(set(values), reverse=cost['sense'] == 'max'))

    def test_options_that_only_help_are_left_out(self):
        labels = Labels(['pay'], ['min'], ['a', 'step', 'b'], frozenset([2]))
        front = Front(True, True, [Plan(1, (1,), [1, 2, 3], labels)])
        front.choices = [More(True, True, [Plan(1, (1,), [1, -2, 3], labels), Plan(1, (1,), [-1, 2, 3], labels)])]
        data = data_of(front)
        self.assertEqual((data['options'], data['entries'][0]['plans'], data['entries'][0]['all']), (['a', 'b'], [[0, 1], [1]], True))

    def test_numbers_beyond_the_exact_ones_of_scripts(self):
        front = front_of_costs(3, ('min', 'min'), start=2 ** 53)
        self.assertEqual({value for cost in data_of(front)['costs'] for value in cost['values']}, {str(c) for p in front for c in p.vector})

    def test_grids(self):
        days = ['Mon', 'Tue', 'Wed']
        wanted = (['Ann', 'Ben'], days, [(row, column, '') for row in (0, 1) for column in (0, 1, 2)])
        self.assertEqual(grid_of([(name, day) for name in ('Ann', 'Ben') for day in days]), wanted)
        self.assertEqual(grid_of(['%s %s' % (name, day) for name in ('Ann', 'Ben') for day in days]), wanted)
        shifts = grid_of([(name, day, shift) for name in ('Ann', 'Ben') for day in (1, 2) for shift in ('early', 'late')])
        self.assertEqual((shifts.rows, shifts.columns), (['Ann', 'Ben'], ['1', '2']))
        self.assertEqual(shifts.places[:3], [(0, 0, 'early'), (0, 0, 'late'), (0, 1, 'early')])
        weeks = grid_of(['%s, week %d Mon' % (name, week) for name in ('Ann', 'Ben') for week in (1, 2)] + ['open the hall'])
        self.assertEqual((weeks.columns, weeks.places[-1]), (['week 1 Mon', 'week 2 Mon'], None))
        for names in ([], ['a'], ['a b'], ['a b', 'c d'], [('a', str(k)) for k in range(5)], ['steel frame', 'hub motor', 'rim brakes'],
                      [(str(row), str(column)) for row in range(200) for column in range(101)]):
            self.assertIsNone(grid_of(names))


def contrast(*colours):
    """How much two colours stand out against each other, from 1 to 21 (WCAG 2.1)."""
    def light(colour):
        parts = [int(colour[at:at + 2], 16) / 255 for at in (1, 3, 5)]
        linear = [part / 12.92 if part <= 0.03928 else ((part + 0.055) / 1.055) ** 2.4 for part in parts]
        return 0.2126 * linear[0] + 0.7152 * linear[1] + 0.0722 * linear[2]
    lights = sorted(map(light, colours))
    return (lights[1] + 0.05) / (lights[0] + 0.05)


class Page(InFolder):
    def test_one_file_of_well_formed_parts(self):
        for complete, accepted in ((True, True), (True, None), (True, False), (False, None)):
            page = page_of(front_of_costs(12, ('min', 'max', 'min'), complete=complete, accepted=accepted), 'a day')
            self.assertLess(len(page.encode()) - len(json.dumps(data_in(page), ensure_ascii=False).encode()), MOST)
            read = Reader(page)
            self.assertEqual(sorted(tag for tag, _ in read.elements if tag in ('script', 'style', 'title', 'main')),
                             ['main', 'script', 'script', 'style', 'title'])
            for tag, attrs in read.elements:
                self.assertFalse({'src', 'style', 'onclick', 'action', 'srcset'} & set(attrs), (tag, attrs))
                self.assertIn(attrs.get('href', 'data:,'), ('data:,',))
                if 'aria-labelledby' in attrs:
                    self.assertIn('id="%s"' % attrs['aria-labelledby'], page)
            self.assertEqual(set(re.findall(r'https?://[^\'"` )]*', page)), {'http://www.w3.org/2000/svg'})

    def test_the_same_front_gives_the_same_bytes(self):
        fronts = [front_of_costs(40, ('min', 'max'), seed=5) for _ in range(2)]
        self.assertEqual(page_of(fronts[0], 'x'), page_of(fronts[1], 'x'))
        self.assertEqual(fronts[0].to_html(title='x'), page_of(fronts[1], 'x'))

    def test_names_are_never_markup(self):
        front = strange()
        page = page_of(front, '</title><script>alert(1)</script>')
        self.assertEqual(page.count('<script'), 2)
        self.assertEqual(page.count('</script'), 2)
        self.assertEqual(len([1 for tag, _ in Reader(page).elements if tag == 'script']), 2)
        self.assertEqual([cost['name'] for cost in data_in(page)['costs']], [name.replace('\x01', '') for name in front.labels.objectives])
        page.encode('utf-8', 'strict')
        page_of(Front(True, True, [], Labels(['\ud800'], ['min'], ['\udfff @@DATA@@'])), '\ud83d').encode('utf-8', 'strict')

    def test_words_in_the_data_that_look_like_places_of_the_page(self):
        labels = Labels(['@@SCRIPT@@'], ['min'], ['@@DATA@@'])
        page = page_of(Front(True, True, [Plan(1, (1,), [1], labels)], labels), '@@STYLE@@')
        self.assertIn('<title>@@STYLE@@</title>', page)
        self.assertEqual(data_in(page)['options'], ['@@DATA@@'])

    def test_without_a_script_the_costs_are_there(self):
        page = page_of(front_of_costs(3, ('min',), names=['pay & more']))
        self.assertIn('pay &amp; more', re.search('<noscript>(.*)</noscript>', page, re.DOTALL).group(1))

    def test_parts(self):
        for path in glob.glob(os.path.join(PARTS, '*')):
            if path.endswith(('.py', '.js', '.css', '.html')):
                with open(path, encoding='utf-8') as file:
                    text = file.read()
                self.assertLess(text.count('\n'), 500, path)
                if path.endswith('.py'):
                    ast.parse(text, path, feature_version=(3, 8))
                for word in ('innerHTML', 'outerHTML', 'insertAdjacent', 'document.write', 'eval(', 'fetch(', 'XMLHttp', 'import '):
                    self.assertFalse(word in text and path.endswith('.js'), (path, word))
        self.assertEqual({name for name in os.listdir(PARTS) if name.endswith('.js')}, set(SCRIPTS))

    def test_colours_of_words_stand_out(self):
        with open(os.path.join(PARTS, 'page.css'), encoding='utf-8') as file:
            style = file.read()
        colours = dict(re.findall(r'--([a-z]+): (#[0-9a-f]{6})', style))
        words = [colours[name] for name in ('ink', 'soft', 'chosen', 'pinned', 'better', 'worse')]
        for behind in ('#ffffff', colours['pale'], '#eef1f4', '#fdf0df', '#e8eff9'):
            for word in words:
                self.assertGreater(contrast(word, behind), 4.5, (word, behind))

    def test_the_wheel_has_them(self):
        sys.path.insert(0, PACKAGE)
        import scuttle_build
        with zipfile.ZipFile(scuttle_build.build_wheel('.')) as wheel:
            found = set(wheel.namelist())
        self.assertTrue({'scuttle/page/' + name for name in ('__init__.py', 'page.html', 'page.css') + SCRIPTS} <= found)


class Command(InFolder):
    def example(self, name):
        return [os.path.join(EXAMPLES, name), os.path.join(EXAMPLES, os.path.splitext(name)[0] + '.list')]

    def test_over_each_example(self):
        for name in ('network.opb', 'bicycles.mcnf', 'grants.opb', 'roofs.opb', 'roster.opb', 'sites.mcnf', 'roster_six_weeks.opb'):
            self.assertEqual(self.command('page', *self.example(name) + ['out.html']), (0, '', ''))
            front = Front.read(*self.example(name))
            self.assertEqual(self.read('out.html'), front.to_html(title=name))
            data = data_in(self.read('out.html'))
            self.assertEqual((data['accepted'], len(data['entries'])), (None, len(front)))

    def test_with_models(self):
        with_models = self.example('grants.opb')
        from scuttle.running import run
        run(None, ['models'] + with_models + ['10', 'more'], (0,))
        self.assertEqual(self.command('page', *with_models + ['more.models', 'out.html']), (0, '', ''))
        data = data_in(self.read('out.html'))
        front = Front.read(*with_models, models='more.models')
        for entry, more in zip(data['entries'], front.choices):
            self.assertEqual({tuple(taken_in(data, plan)) for plan in entry['plans']}, {tuple(plan.taken) for plan in more.plans})
            self.assertEqual((entry['all'], entry['checked']), (more.all, None))

    def test_with_a_log(self):
        sites = self.example('sites.mcnf')
        self.assertEqual(self.command('page', *sites + ['out.html', '--log', os.path.join(EXAMPLES, 'sites.log')]), (0, '', ''))
        self.assertIs(data_in(self.read('out.html'))['accepted'], True)
        self.write('empty.log', '')
        number, said, warned = self.command('page', '--log', 'empty.log', *sites + ['out.html'])
        self.assertEqual((number, said), (11, ''))
        self.assertIn("check doesn't accept", warned)
        self.assertIs(data_in(self.read('out.html'))['accepted'], False)

    def test_a_solved_front(self):
        m = Model()
        m.exactly(1, 'red', 'blue')
        m.minimise('pay', 3 * m.option('red') + 2 * m.option('blue'))
        data = data_in(m.solve().to_html())
        self.assertEqual((data['accepted'], data['title'], taken_in(data, data['entries'][0]['plans'][0])), (True, '1 best compromise', ['blue']))

    def test_wrong_words_and_files(self):
        sites = self.example('sites.mcnf')
        for words in ([], sites, sites + ['out.svg'], sites + ['a', 'b', 'out.html'], sites + ['--loud', 'out.html'], sites + ['out.html', '--log']):
            self.assertEqual(self.command('page', *words)[0], 64)
        self.assertEqual(self.command('page', sites[0], 'none.list', 'out.html')[0], 74)
        self.assertEqual(self.command('page', sites[1], sites[0], 'out.html')[0], 65)
        self.assertEqual(self.command('page', *sites + [os.path.join(EXAMPLES, 'sites.log'), 'out.html'])[0], 65)
        self.assertEqual(self.command('page', *sites + ['no/folder/out.html'])[0], 74)
        self.assertEqual(os.listdir('.'), [])


class Documents(unittest.TestCase):
    def test_examples_of_docstrings(self):
        for module in (grid, data):
            failed, tried = doctest.testmod(module)
            self.assertEqual((failed, tried > 0), (0, True))


class Sizes(unittest.TestCase):
    def test_of_each_size_and_number_of_costs(self):
        for count in (0, 1, 40, 400):
            for costs in range(9):
                front = front_of_costs(min(count, 1) if not costs else count, SENSES[costs])
                self.assertEqual(len(data_in(page_of(front))['entries']), len(front))


if __name__ == '__main__':
    unittest.main()
