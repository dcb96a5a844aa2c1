"""Tests of heapmap. What a page shows is compared with the report itself, which is read here in another way."""

import base64
import contextlib
import glob
import io
import json
import os
import random
import re
import resource
import subprocess
import sys
import tempfile
import unittest
import xml.etree.ElementTree as ElementTree
from html.parser import HTMLParser
from importlib.machinery import SourceFileLoader
from importlib.util import module_from_spec, spec_from_loader

sys.dont_write_bytecode = True
HERE = os.path.dirname(os.path.abspath(__file__))
ROOT = os.path.dirname(os.path.dirname(HERE))
TOOL = os.path.join(HERE, 'heapmap')
SMALL = os.path.join(ROOT, 'tests', 'replay', 'top', 'two_blocks_from_top')
RECORDED = os.path.join(ROOT, 'tests', 'replay', 'recorded', 'sed')
SAMPLES = sorted(glob.glob(os.path.join(HERE, 'samples', '*.report')))
BUILT = os.path.join(ROOT, 'crates', 'ptmreplay', 'out', 'ptmreplay')

STAND_IN = '''#!%s
import sys
answer = %r.get(sys.stdin.buffer.read())
if answer is None or sys.argv[1:] != ["--mxfast", "0"]:
    sys.exit("another input")
sys.stdout.buffer.write(answer)
if %d:
    print("ptmreplay: no memory", file=sys.stderr)
sys.exit(%d)
'''


def tool():
    loader = SourceFileLoader('heapmap_tool', TOOL)
    module = module_from_spec(spec_from_loader('heapmap_tool', loader))
    loader.exec_module(module)
    return module


HEAPMAP = tool()


def is_report(path):
    """Whether a report stands in this file: it may be empty, for a run that ends with another status, or a summary."""
    with open(path) as file:
        return file.readline().startswith('ptmreport ')


def reports():
    """All reports of tests/replay, and the samples."""
    found = glob.glob(os.path.join(ROOT, 'tests', 'replay', '**', '*.report'), recursive=True)
    return sorted(f for f in found if is_report(f)) + SAMPLES


class Page(HTMLParser):
    """What stands in a page: its tables by id, row and key, its figures, its data, and what it refers to."""

    def __init__(self, text):
        super().__init__()
        self.tables, self.figures, self.outside, self.title = {}, [], [], ''
        self.folded, self.links, self.sections, self.small = None, [], [], []
        self.table = self.row = None
        self.within = ''
        self.raw = ''
        self.feed(text)
        self.close()
        self.data = json.loads(self.raw)

    def handle_starttag(self, tag, attributes):
        given = dict(attributes)
        if tag == 'table':
            self.table = self.tables.setdefault(given['id'], {})
        elif tag == 'tr' and 'data-row' in given:
            self.row = self.table.setdefault(given['data-row'], {})
            self.small += [given['data-row']] if 'data-small' in given else []
        elif tag == 'td' and 'data-of' in given:
            self.row.setdefault(given['data-of'], []).append(given['data-value'])
        elif tag == 'details' and given.get('class') == 'small':
            self.folded = len(self.figures)
        elif tag == 'figure':
            self.figures.append((given['data-arena'], int(given['data-bytes'])))
        self.links += [int(given['data-go'])] if 'data-go' in given else []
        self.within = 'data' if given.get('id') == 'data' else tag if tag in ('title', 'h2') else ''
        self.outside += [v for k, v in attributes if k in ('src', 'href', 'action') and v != 'data:,']

    def handle_endtag(self, tag):
        self.within = ''

    def handle_data(self, data):
        if self.within == 'data':
            self.raw += data
        elif self.within == 'title':
            self.title += data
        elif self.within == 'h2':
            self.sections.append(data)

    def value(self, row, key):
        return int(self.tables['arenas'][row][key][0])


def unpacked(strip):
    """The (address, size, place) of the entries of a strip."""
    raw = base64.b64decode(strip['packed'])
    at, end, out = 0, strip['start'], []

    def next_number():
        nonlocal at
        value = shift = 0
        while True:
            byte = raw[at]
            at += 1
            value |= (byte & 127) << shift
            shift += 7
            if byte < 128:
                return value

    for _ in range(strip['count']):
        start = end + 16 * next_number()
        size = 16 * next_number()
        place = ['live', 'cache', 'structure', 'tray', 'fast', 'bin', 'top', 'fence', 'header', 'lead'][raw[at]]
        at += 1
        numbers = {'live': 2, 'cache': 1, 'structure': 1, 'tray': 1, 'fast': 1, 'bin': 1}.get(place, 0)
        out.append((start, size, ' '.join([place] + [str(next_number()) for _ in range(numbers)])))
        end = start + size
    assert at == len(raw)
    return out


def said(text):
    """What a report says, by patterns over its lines: its statistics, arenas and chunks."""
    text = re.sub(r'-> stats\n(?:.*\n)*?max mmap bytes .*\n', '-> stats\n', text)
    stats = re.findall(r'^Arena (\d+):\nsystem bytes     = +(\d+)\nin use bytes     = +(\d+)$', text, re.M)
    arenas = re.findall(r'^arena (\d+) system (\d+) max (\d+) list (\d+) ', text, re.M)
    places, mapped = text[text.index('\narena 0 '):].split('\nmapped\n')
    return {
        'stats': {p: (int(s), int(u)) for p, s, u in stats}, 'arenas': arenas,
        'total': tuple(map(int, re.search(r'Total \(incl\. mmap\):\n.*= +(\d+)\n.*= +(\d+)$', text, re.M).groups())),
        'most': int(re.search(r'^max mmap bytes   = +(\d+)$', text, re.M).group(1)),
        'dials': int(re.search(r'^dials .* bytes (\d+)$', text, re.M).group(1)),
        'chunks': re.findall(r'^(0x\w{12}) (\d+) ([a-z].*)$', places, re.M),
        'mapped': re.findall(r'^(0x\w{12}) (\d+) lead (\d+) (.*)$', mapped, re.M),
        'records': len(re.findall(r'^\d+ [a-z].* -> ', text, re.M)),
    }


def area(path):
    """The area of the rectangles of a path."""
    return sum(abs(float(w) * float(h)) for w, h in re.findall(r'h(-?[\d.]+)v(-?[\d.]+)h', path))


class Tests(unittest.TestCase):
    def setUp(self):
        folder = tempfile.TemporaryDirectory()
        self.addCleanup(folder.cleanup)
        self.folder = folder.name
        self.page, self.svg = os.path.join(self.folder, 'heap.html'), os.path.join(self.folder, 'heap.svg')

    def run_inside(self, *words):
        """Runs the tool in this process: its status, and what it wrote on standard error."""
        error = io.StringIO()
        with contextlib.redirect_stderr(error):
            try:
                status = HEAPMAP.run(list(words))
            except SystemExit as end:
                status = end.code
        return status, error.getvalue()

    def run_outside(self, *words, **how):
        done = subprocess.run([sys.executable, TOOL] + list(words), stdout=subprocess.PIPE, stderr=subprocess.PIPE,
                              cwd=self.folder, **how)
        return done.returncode, done.stdout, done.stderr.decode()

    def write(self, name, content):
        path = os.path.join(self.folder, name)
        with open(path, 'wb') as file:
            file.write(content if isinstance(content, bytes) else content.encode())
        return path

    def read(self, path):
        with open(path, encoding='utf-8') as file:
            return file.read()

    def refused(self, result, words, status=1):
        self.assertEqual(result[0], status, result)
        self.assertRegex(result[-1], r'\Aheapmap: [^\n]+\n\Z')
        self.assertIn(words, result[-1])

    # ---- what a page shows is what the report says

    def test_totals_and_strips_of_every_report(self):
        self.assertGreater(len(reports()), 400)
        for path in reports():
            with self.subTest(os.path.relpath(path, ROOT)):
                self.assertEqual(self.run_inside('-o', self.page, '--svg', self.svg, path), (0, ''))
                told = said(self.read(path))
                text = self.read(self.page)
                self.check_page(Page(text), told)
                self.check_picture(told)

    def check_page(self, page, told):
        self.assertEqual(page.outside, [])
        strips = page.data['strips']
        for number, system, maximum, place in told['arenas']:
            row = 'main' if number == '0' else 'arena ' + number
            self.assertEqual((page.value(row, 'system'), page.value(row, 'in use')), told['stats'][place])
            self.assertEqual(page.value(row, 'maximum'), int(maximum))
            self.assertEqual(sum(n for a, n in page.figures if a == number), int(system))
            free = sum(page.value(row, key) for key in ('fast', 'bins'))
            self.assertEqual(page.value(row, 'stuck'), free)
            self.assertEqual(free + page.value(row, 'top') + page.value(row, 'in use'), int(system))
            used = ('live', 'trays', 'cached', 'structures', 'rest')
            self.assertEqual(sum(page.value(row, key) for key in used), page.value(row, 'in use'))
        self.assertEqual((page.value('all', 'system'), page.value('all', 'in use')), told['total'])
        self.assertEqual(page.value('mapped', 'maximum'), told['most'])
        self.assertEqual(sum(n for a, n in page.figures if a == 'mapped'), told['dials'])
        chunks, mapped = [], []
        for strip, (arena, length) in zip(strips, page.figures):
            entries = unpacked(strip)
            self.assertEqual((sum(e[1] for e in entries), strip['length']), (length, length))
            if arena == 'mapped':
                mapped += [e for e in entries if e[2] != 'lead']
            else:
                for one, two in zip(entries, entries[1:]):
                    self.assertEqual(one[0] + one[1], two[0])
                self.assertTrue(all(entries.index(e) == 0 for e in entries if e[2] == 'header'))
                chunks += [e for e in entries if e[2] != 'header']
        self.assertEqual(len(strips), len(page.figures))
        self.check_order(page, told)
        self.check_holes(page, strips)
        as_told = [('0x%012x' % (a + 16), str(n), p) for a, n, p in chunks]
        self.assertEqual(sorted(as_told), sorted(told['chunks']))
        self.assertEqual([('0x%012x' % (a + 16), str(n), p) for a, n, p in mapped],
                         [(a, n, p) for a, n, _, p in told['mapped']])
        counted = sum(int(row['all'][0]) for row in page.tables.get('calls', {}).values())
        self.assertEqual(counted, told['records'])
        if page.data['buckets']:
            self.assertLessEqual(len(page.data['buckets']), 600)

    def check_order(self, page, told):
        """The largest arena is first, in strips and table; only small ones are folded; many strips follow the table."""
        sizes = {number: int(system) for number, system, _, _ in told['arenas']}
        sizes['mapped'] = told['dials']
        shown = [sizes[arena] for arena, _ in page.figures]
        self.assertEqual(shown, sorted(shown, reverse=True))
        rows = list(page.tables['arenas'])
        self.assertEqual(rows[-2:], ['mapped', 'all'])
        inside = [page.value(row, 'system') for row in rows[:-2]]
        self.assertEqual(inside, sorted(inside, reverse=True))
        for size in shown[page.folded:] if page.folded is not None else []:
            self.assertLess(size, sum(shown) / 50)
        for row in page.small:
            self.assertLess(page.value(row, 'system'), told['total'][0] / 50)
        where = page.sections.index('Where the bytes are')
        self.assertEqual(where > page.sections.index('Bytes of each arena'), len(page.figures) >= 3)

    def check_holes(self, page, strips):
        """Each link leads to the largest hole of its row, and the first of all to the largest."""
        entries = [e for strip in strips for e in unpacked(strip)]
        holes = [n for _, n, place in entries if place.startswith(('bin', 'fast'))]
        self.assertEqual(page.value('all', 'hole'), max(holes or [0]))
        linked = [entries[i][1] for i in page.links]
        rows = [page.value(row, 'hole') for row in page.tables['arenas'] if page.value(row, 'hole')]
        self.assertEqual(linked, [max(holes)] + rows if holes else [])

    def check_picture(self, told):
        tree = ElementTree.parse(self.svg)
        space = '{http://www.w3.org/2000/svg}'
        groups = [g for g in tree.iter(space + 'g')]
        drawn = sum(int(g.find(space + 'title').text.split(': ')[1].split(' ')[0]) for g in groups)
        self.assertEqual(drawn, told['total'][0])
        for group in groups:
            whole = sum(area(path.get('d')) for path in group.iter(space + 'path'))
            self.assertAlmostEqual(whole / (1100 * 30), 1, places=2)

    def test_the_first_example(self):
        self.assertEqual(self.run_inside('-o', self.page, SMALL + '.report'), (0, ''))
        page = Page(self.read(self.page))
        wanted = {'system': 135168, 'maximum': 135168, 'in use': 736, 'live': 80, 'trays': 0, 'cached': 0,
                  'structures': 656, 'fast': 0, 'bins': 0, 'top': 134432, 'rest': 0, 'stuck': 0}
        self.assertEqual({key: page.value('main', key) for key in wanted}, wanted)
        self.assertEqual(page.tables['calls']['malloc']['all'], ['2'])
        self.assertEqual(page.data['buckets'], [[2, 32, 32, 1], [3, 80, 80, 2]])

    def test_holes(self):
        path = RECORDED + '.report'
        self.assertEqual(self.run_inside('-o', self.page, path), (0, ''))
        page, text = Page(self.read(self.page)), self.read(path)
        free = [int(n) for n in re.findall(r'^0x\w+ (\d+) (?:bin|fast) \d+$', text, re.M)]
        self.assertEqual((page.value('main', 'stuck'), page.value('main', 'hole')), (sum(free), max(free)))
        lists = re.findall(r'^(fast|bin) (\d+): (.*)$', text, re.M)
        entries = [e for strip in page.data['strips'] for e in unpacked(strip)]
        self.assertEqual([(name, ['0x%012x' % (entries[i][0] + 16) for i in ids])
                          for owner, name, ids in page.data['lists'] if owner == 'main'],
                         [('%s %s' % (kind, index), users.split(' ')) for kind, index, users in lists])

    def test_a_title(self):
        self.assertEqual(self.run_inside('-o', self.page, '--title', 'sed <1>, --mxfast 0', SMALL + '.report'), (0, ''))
        self.assertEqual(Page(self.read(self.page)).title, 'sed <1>, --mxfast 0')

    def test_small_arenas_are_folded(self):
        """Thirty arenas that are each a hundredth of main."""
        lines = ['ptmreport 1 serial', 'arena 0 system 13516800 max 13516800 list 0 last -',
                 '0x555555559010 13516800 top']
        for arena in range(1, 31):
            lines += ['arena %d system 135168 max 135168 list %d last -' % (arena, 31 - arena),
                      '0x7f%02x000008d0 132928 top' % (arena - 1)]
        lines += ['mapped', 'book free - next - limit 0', 'dials threshold 131072 trim 131072 mapped 0 bytes 0']
        for place, (system, used) in enumerate([(13516800, 0)] + [(135168, 2240)] * 30):
            lines += ['Arena %d:' % place, 'system bytes     = %10d' % system, 'in use bytes     = %10d' % used]
        lines += ['Total (incl. mmap):', 'system bytes     =   17571840', 'in use bytes     =      67200',
                  'max mmap regions =          0', 'max mmap bytes   =          0']
        self.assertEqual(self.run_inside('-o', self.page, self.write('many', '\n'.join(lines) + '\n')), (0, ''))
        page = Page(self.read(self.page))
        self.assertEqual((page.folded, len(page.figures), len(page.small)), (4, 31, 27))

    def test_the_heap_of_a_process(self):
        """No records, other headers, and no thread of a block: only the first line says that this is right."""
        whole = self.read(SMALL + '.report')
        places = whole[:whole.index('0 m 1')] + whole[whole.index('arena 0 system'):]
        self.refused(self.run_inside('-o', self.page, self.write('cut', places)), 'the threads of the records')
        process = places.replace('serial', 'places').replace('0x5555555', '0x55aa555')
        self.assertEqual(self.run_inside('-o', self.page, self.write('process', process)), (0, ''))
        page = Page(self.read(self.page))
        self.assertEqual((page.value('main', 'live'), page.data['buckets']), (80, []))
        self.refused(self.run_inside('-o', self.page, self.write('both', whole.replace('serial', 'places'))),
                     'have no records')
        self.refused(self.run_inside('-o', self.page, '--at', '1', self.write('process', process)), 'no lines of a trace')

    def test_a_timeline(self):
        table = self.write('table', 'line  system  live\n   1       0     0\n   2  135168    32\n   3  135168    80\n')
        self.assertEqual(self.run_inside('-o', self.page, '--svg', self.svg, '--timeline', table, SMALL + '.report'),
                         (0, ''))
        for path in (self.page, self.svg):
            self.assertIn('<title>line 2: 135,168 bytes from the system</title>', self.read(path))
        os.unlink(self.page)
        for wrong, words in (('', "doesn't name"), ('line live\n1 0\n', "doesn't name"), ('line system\n1\n', 'no number'),
                             ('line system\n1 x\n', 'no number'), ('line system\n4 5\n', 'of a trace of 3 lines'),
                             ('line system\n', 'not those of a trace')):
            self.refused(self.run_inside('-o', self.page, '--timeline', self.write('wrong', wrong), SMALL + '.report'),
                         words)
        self.assertFalse(os.path.exists(self.page))

    # ---- faulty reports

    def test_each_part_of_a_report_is_refused(self):
        whole = self.read(SMALL + '.report')
        for end in range(len(whole)):
            self.refused(self.run_inside('-o', self.page, self.write('cut', whole[:end])), 'cut: ')
        lines = whole.split('\n')[:-1]
        for at in range(len(lines)):
            for changed in (lines[:at] + lines[at + 1:], lines[:at + 1] + lines[at:]):
                result = self.run_inside('-o', self.page, self.write('cut', '\n'.join(changed) + '\n'))
                self.refused(result, 'cut: ')
        self.assertFalse(os.path.exists(self.page))

    def test_wrong_words_are_refused(self):
        whole = self.read(SMALL + '.report')
        for old, new, words in (
                ('ptmreport 1 serial', 'ptmreport 2 serial', 'line 1: no report begins so'),
                ('ptmreport 1 serial', 'ptmtrace 1', 'line 1: this is a trace'),
                ('ptmreport 1 serial', 'ptmsummary 1', 'line 1: this is a summary'),
                ('arena 0\narena', 'arena 0\n\narena', 'line 4: '),
                ('656 structure', '672 structure', 'line 6: the chunk begins before the one above it ends'),
                ('656 structure', '650 structure', 'multiples of 16'),
                ('48 live 0 2', '48 live 0 3', 'block 2 of thread 0'),
                ('48 live 0 2', '48 live 0', "line 7: the place 'live' has 2 numbers behind it"),
                ('48 live 0 2', '48 alive 0 2', "line 7: no chunk's line"),
                ('48 live 0 2', '48 bin 2', '0x5555555592c0 stands in no list of bin 2'),
                ('134432 top', '134448 top', 'arena 0 and its headers are 135184 bytes, its system bytes 135168'),
                ('in use bytes     =        736\nTotal', 'in use bytes     =        737\nTotal', '737 bytes in use'),
                ('system bytes     =     135168\nin use bytes     =        736\nmax', 'system bytes     =     135169\n'
                 'in use bytes     =        736\nmax', 'the totals say'),
                ('mapped 0 bytes 0', 'mapped 1 bytes 0', 'the dials say'),
                ('thread 0 arena 0', 'thread 0 arena 1', 'no such arena'),
                ('32 arena 0\n', '32 arena 0 \u00e9\n', 'line 2: a byte that no report has')):
            with self.subTest(new):
                self.assertIn(old, whole)
                self.refused(self.run_inside('-o', self.page, self.write('wrong', whole.replace(old, new, 1))), words)
        self.assertFalse(os.path.exists(self.page))

    def test_no_bytes_end_the_tool_otherwise(self):
        draw = random.Random(1)
        for path in SAMPLES + [SMALL + '.report']:
            with open(path, 'rb') as file:
                whole = file.read()
            for _ in range(150):
                data = bytearray(whole)
                for _ in range(draw.randrange(1, 4)):
                    at = draw.randrange(len(data))
                    if draw.randrange(2):
                        data[at] = draw.choice(b'0123456789abcdefx -\n>:')
                    else:
                        other = draw.randrange(len(data))
                        data[at:at + draw.randrange(40)] = data[other:other + draw.randrange(40)]
                status, error = self.run_inside('-o', self.page, self.write('random', bytes(data)))
                if status != 0:
                    self.refused((status, error), 'random: ')

    # ---- options and files

    def test_options(self):
        self.refused(self.run_inside('--color'), 'unrecognized arguments: --color', 2)
        self.refused(self.run_inside('--at', 'x', SMALL + '.report'), 'invalid int value', 2)
        self.refused(self.run_inside('--at', '0', SMALL + '.report'), '--at wants a line from 1 on', 2)
        self.refused(self.run_inside('--program', 'p', SMALL + '.report'), 'go with --at', 2)
        self.refused(self.run_inside(SMALL + '.report', '--', '--mxfast', '0'), 'go with --at', 2)
        self.refused(self.run_inside('one', 'two'), 'unrecognized arguments: two', 2)
        self.refused(self.run_inside('-o', self.page, '--svg', self.page, SMALL + '.report'), 'the same file', 2)
        mine = self.write('mine.report', self.read(SMALL + '.report'))
        self.refused(self.run_inside('-o', mine, mine), 'written over', 2)
        self.assertEqual(os.listdir(self.folder), ['mine.report'])

    def test_inputs(self):
        with open(SMALL + '.report', 'rb') as file:
            self.assertEqual(self.run_outside(stdin=file), (0, b'', ''))
        self.assertIn('standard input', self.read(self.page))
        self.refused(self.run_inside('-o', self.page, '/nowhere/at.report'), "/nowhere/at.report: can't be read")
        self.refused(self.run_inside('-o', self.page, self.folder), "can't be read: Is a directory")
        self.refused(self.run_outside(stdin=subprocess.DEVNULL), 'standard input: line 1: ')

    def test_a_name_is_only_text(self):
        name = self.write('<b>&"\'.report', self.read(SMALL + '.report'))
        self.assertEqual(self.run_inside('-o', self.page, '--svg', self.svg, name), (0, ''))
        self.assertEqual(Page(self.read(self.page)).title, 'Heap of <b>&"\'.report')
        self.assertNotIn('<b>&"', self.read(self.page))
        ElementTree.parse(self.svg)

    def test_nothing_is_half_written(self):
        self.write('heap.html', 'as it was')
        self.refused(self.run_inside('-o', '/nowhere/h.html', SMALL + '.report'), "/nowhere/h.html can't be written")
        self.refused(self.run_inside('-o', self.folder, SMALL + '.report'), "can't be written: Is a directory")
        self.refused(self.run_inside('-o', self.page, '--svg', '/nowhere/h.svg', SMALL + '.report'), '/nowhere/h.svg')
        limit = (4096, 4096)
        few = self.run_outside(SMALL + '.report', preexec_fn=lambda: resource.setrlimit(resource.RLIMIT_FSIZE, limit))
        self.refused(few, "heap.html can't be written: File too large")
        if os.path.exists('/dev/full'):
            self.refused(self.run_inside('-o', '/dev/full', SMALL + '.report'), 'No space left on device')
            self.refused(self.run_inside('-o', self.page, '--svg', '/dev/full', SMALL + '.report'), 'No space left')
            self.assertFalse(os.path.isfile('/dev/full'))
        self.assertEqual(os.listdir(self.folder), ['heap.html'])
        self.assertEqual(self.read(self.page), 'as it was')

    def test_a_file_keeps_its_mode_and_its_link(self):
        self.write('real.html', '')
        os.chmod(os.path.join(self.folder, 'real.html'), 0o640)
        os.symlink('real.html', self.page)
        self.assertEqual(self.run_inside('-o', self.page, SMALL + '.report'), (0, ''))
        self.assertTrue(os.path.islink(self.page))
        self.assertEqual(os.stat(self.page).st_mode & 0o777, 0o640)
        self.assertEqual(sorted(os.listdir(self.folder)), ['heap.html', 'real.html'])

    # ---- the heap behind some lines

    def stand_in(self, answers, status=0):
        """A program that has these answers, each for its input."""
        path = self.write('program', STAND_IN % (sys.executable, answers, status, status))
        os.chmod(path, 0o755)
        return path

    def test_at_a_line_by_a_stand_in(self):
        with open(SMALL + '.trace', 'rb') as file:
            trace = file.read()
        with open(SMALL + '.report', 'rb') as file:
            report = file.read()
        longer = trace + b'0 f 1\n'
        places = report.index(b'arena 0 system')
        more = report[:places] + b'0 f 1 -> cached\n' + report[places:].replace(
            b'32 live 0 1', b'32 cache 0').replace(b'mapped\n', b'mapped\ncache 0 0: 0x5555555592a0\n', 1)
        source = self.write('more.report', more)
        good = self.stand_in({longer: more, trace: report})

        def at(line, program, source=source):
            return self.run_inside('-o', self.page, '--at', str(line), '--program', program, source,
                                   '--', '--mxfast', '0')

        self.assertEqual(at(3, good), (0, ''))
        page = Page(self.read(self.page))
        self.assertEqual((page.title, page.value('main', 'live')),
                         ('Heap of more.report behind line 3, with --mxfast 0', 80))
        self.assertEqual(at(3, good, self.write('a.trace', longer)), (0, ''))
        os.unlink(self.page)
        self.refused(at(5, good), '--at 5: the trace has 4 lines')
        self.refused(at(2, good), 'the program ended with status 1 and said: another input')
        self.refused(at(3, self.stand_in({longer: more}, 8)), 'status 8 and said: ptmreplay: no memory')
        for wrong in (report[:99], report.replace(b'2c0 48 live', b'2d0 48 live')):
            self.refused(at(3, self.stand_in({longer: more, trace: wrong})), 'what the program wrote: line ')
        lines = more.split(b'\n')
        for line in range(len(lines)):
            other = b'\n'.join(lines[:line] + [lines[line] + b' '] + lines[line + 1:])
            result = at(3, self.stand_in({longer: other, trace: report}))
            self.refused(result, 'writes line %d otherwise than the report has it' % (line + 1))
        self.refused(at(3, '/nowhere/program'), "/nowhere/program can't be run")
        threads = [path for path in SAMPLES if self.read(path).startswith('ptmreport 1 threads')]
        self.refused(at(3, '/nowhere/program', threads[0]), 'this is a report of threads')
        self.assertFalse(os.path.exists(self.page))

    @unittest.skipUnless(os.access(BUILT, os.X_OK), 'ptmreplay is not built')
    def test_at_a_line_by_the_program(self):
        with open(RECORDED + '.trace', 'rb') as file:
            lines = file.read().split(b'\n')
        for line in (1, 2, 1500, len(lines) - 1):
            result = self.run_inside('-o', self.page, '--at', str(line), RECORDED + '.report')
            self.assertEqual(result, (0, ''))
            shown = Page(self.read(self.page))
            direct = subprocess.run([BUILT], input=b'\n'.join(lines[:line]) + b'\n', stdout=subprocess.PIPE, check=True)
            self.assertEqual(self.run_inside('-o', self.page, self.write('direct', direct.stdout)), (0, ''))
            self.assertEqual(shown.data, Page(self.read(self.page)).data)

    @unittest.skipUnless(os.access(BUILT, os.X_OK), 'ptmreplay is not built')
    def test_at_a_line_with_other_words(self):
        words = ['--top-pad', '0']
        with open(SMALL + '.trace', 'rb') as trace, open(SMALL + '.report', 'rb') as file:
            whole = subprocess.run([BUILT] + words, stdin=trace, stdout=subprocess.PIPE, check=True).stdout
            records = file.read().split(b'arena 0 system')[0]
        self.assertTrue(whole.startswith(records))
        report = self.write('short.report', whole)
        self.refused(self.run_inside('-o', self.page, '--at', '2', report), 'writes line 4 otherwise')
        self.assertFalse(os.path.exists(self.page))
        self.assertEqual(self.run_inside('-o', self.page, '--at', '2', report, '--', *words), (0, ''))
        self.assertEqual(Page(self.read(self.page)).value('main', 'system'), 4096)


if __name__ == '__main__':
    unittest.main(verbosity=0)
