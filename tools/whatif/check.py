"""Tests of whatif. Its numbers are compared with the reports' own lines, which are read here in another way."""

import glob
import os
import re
import shutil
import subprocess
import sys
import tempfile
import unittest
import xml.etree.ElementTree as ElementTree

sys.dont_write_bytecode = True
HERE = os.path.dirname(os.path.realpath(__file__))
ROOT = os.path.dirname(os.path.dirname(HERE))
TOOL = os.path.join(HERE, 'whatif')
MIXED = os.path.join(ROOT, 'tests', 'replay', 'options', 'mixed_calls')
RECORDED = os.path.join(ROOT, 'tests', 'replay', 'recorded')
BUILT = os.path.join(ROOT, 'crates', 'ptmreplay', 'out', 'ptmreplay')
COUNTS = os.path.join(ROOT, 'crates', 'kernel_calls', 'out', 'kernel_calls')
COLUMNS = ['system', 'max-arenas', 'max-mapped', 'in-use', 'stuck', 'mapped', 'most-mapped']

# Stands for the program over one trace: for `--mxfast=0` it gives what the file mixed_calls+mxfast_0 of the tests has.
STAND_IN = '''#!/bin/sh
name='%s'
for word; do name=$name+$(printf '%%s' "${word#--}" | tr -- -= __); done
[ -f "$name.report" ] || { echo 'ptmreplay: usage' >&2; exit 2; }
cat "$name.report"
[ ! -f "$name.stderr" ] || cat "$name.stderr" >&2
[ ! -f "$name.status" ] || exit "$(cat "$name.status")"
''' % MIXED

# Stands for the program that counts kernel calls: the total is the number of its words and the bytes of its input.
CALLS = '''#!/bin/sh
[ "$*" != --mxfast=24\\ --summary ] || { echo 'kernel_calls: no memory' >&2; exit 8; }
[ "$*" != --mxfast=160\\ --summary ] || exit 0
printf 'ptmcalls 1\\nbreak up 1\\ntotal %d%s\\n' $# "$(wc -c | tr -d ' ')"
'''

# Each run waits for the other one, half a minute at most.
BESIDE = '''#!/bin/sh
[ "$(wc -c)" -gt 11 ] || exit 0
: >"$0$1"
for turn in $(seq 300); do
    [ "$(ls "$0"-* | wc -l)" = 2 ] && exec cat '%s.report'
    sleep 0.1
done
''' % MIXED


def numbers_of(report):
    """The columns of a report, by its lines alone."""
    total = report[report.index('Total (incl. mmap):'):]

    def behind(words):
        return int(re.search('^%s *= *([0-9]+)$' % words, total, re.M).group(1))

    maxima = re.findall(r'^arena [0-9]+ system [0-9]+ max ([0-9]+) ', report, re.M)
    stuck = re.findall(r'^0x[0-9a-f]{12} ([0-9]+) (?:fast|bin) [0-9]+$', report, re.M)
    mapped = re.search('^dials .* mapped ([0-9]+) ', report, re.M).group(1)
    return [behind('system bytes'), sum(map(int, maxima)), behind('max mmap bytes'), behind('in use bytes'),
            sum(map(int, stuck)), int(mapped), behind('max mmap regions')]


def read(path):
    with open(path, encoding='utf-8') as file:
        return file.read()


def rows_of(table, columns=()):
    """The heading of a table, and its rows by value: numbers, or the text of a failure."""
    lines = [line.split(maxsplit=1) for line in table.split('\n')[:-1]]
    rows = {v: rest if rest.startswith('failed') else [int(w) for w in rest.split()] for v, rest in lines[1:]}
    assert lines[0][1].split() == COLUMNS + list(columns) and len(rows) == len(lines) - 1
    return lines[0][0], rows


class Whatif(unittest.TestCase):
    def setUp(self):
        room = tempfile.TemporaryDirectory()
        self.addCleanup(room.cleanup)
        self.room = room.name
        self.temporary = os.path.join(self.room, 'temporary')
        os.mkdir(self.temporary)
        self.picture = os.path.join(self.room, 'picture.svg')
        self.stand_in = self.script('stand in', STAND_IN)

    def script(self, name, content):
        path = os.path.join(self.room, name)
        with open(path, 'w', encoding='utf-8') as file:
            file.write(content)
        os.chmod(path, 0o755)
        return path

    def run_tool(self, *words, **more):
        """Status, output and standard error of the tool, which leaves nothing behind in its temporary folder."""
        env = dict(os.environ, TMPDIR=self.temporary, PATH=more.pop('path', os.environ['PATH']))
        done = subprocess.run([TOOL] + list(words), stdin=subprocess.DEVNULL, stdout=subprocess.PIPE,
                              stderr=subprocess.PIPE, universal_newlines=True, env=env, check=False, **more)
        self.assertEqual(os.listdir(self.temporary), [])
        return done.returncode, done.stdout, done.stderr

    def table(self, status, *words, **more):
        columns = more.pop('columns', ())
        result = self.run_tool(*words, **more)
        self.assertEqual((result[0], result[2]), (status, ''))
        return rows_of(result[1], columns)

    def refused(self, status, said, *words, **more):
        result = self.run_tool(*words, **more)
        self.assertEqual(result[:2], (status, ''), words)
        self.assertRegex(result[2], r'\Awhatif: [^\n]*\n\Z')
        self.assertIn(said, result[2])

    def failing(self):
        """Words for two values of --main-max, of which the first fails, over a stand-in that knows no others."""
        for name, content in (('.report', read(MIXED + '.report')), ('+main_max_4096.report', ''),
                              ('+main_max_4096.status', '8\n'), ('+main_max_4096.stderr', 'ptmreplay: no memory\n'),
                              ('+main_max_1048576.report', read(MIXED + '+main_max_1048576.report'))):
            self.script('failing' + name, content)
        program = self.script('failing', STAND_IN.replace(MIXED, os.path.join(self.room, 'failing')))
        return ['--program', program, MIXED + '.trace', '--main-max', '4096', '1048576']

    def cases(self, program):
        """Every option of which the tests have reports of several values, over the mixed calls."""
        values = {}
        for path in sorted(glob.glob(MIXED + '+*_[0-9]*.report')):
            found = re.fullmatch(r'([a-z_]+)_([0-9]+)\.report', path[len(MIXED) + 1:])
            if found and not os.path.exists(path[:-7] + '.status'):
                values.setdefault(found.group(1).replace('_', '-'), []).append(found.group(2))
        self.assertGreater(len(values), 5)
        for option, numbers in values.items():
            head, rows = self.table(0, '--program', program, MIXED + '.trace', option, 'default', *numbers)
            self.assertEqual((head, list(rows)), ('--' + option, ['default'] + numbers))
            self.assertEqual(rows.pop('default'), numbers_of(read(MIXED + '.report')))
            for value, row in rows.items():
                name = '%s+%s_%s.report' % (MIXED, option.replace('-', '_'), value)
                self.assertEqual(row, numbers_of(read(name)), name)

    def test_numbers_of_reports(self):
        self.cases(self.stand_in)

    @unittest.skipUnless(os.access(BUILT, os.X_OK), 'ptmreplay is not built')
    def test_numbers_of_the_program(self):
        self.cases(BUILT)
        for trace in sorted(glob.glob(os.path.join(RECORDED, '*.trace'))):
            words = ['--top-pad', '4096']
            _, rows = self.table(0, '--program', BUILT, trace, '--mmap-threshold', 'default', '65536', '--', *words)
            for value, row in rows.items():
                own = words if value == 'default' else words + ['--mmap-threshold', value]
                with open(trace, 'rb') as file:
                    direct = subprocess.run([BUILT] + own, stdin=file, stdout=subprocess.PIPE, check=True)
                self.assertEqual(row, numbers_of(direct.stdout.decode()))

    @unittest.skipUnless(os.access(BUILT, os.X_OK), 'ptmreplay is not built')
    def test_words_that_the_program_refuses(self):
        text = read(TOOL)
        ranges = dict(re.findall(r"'([a-z-]+)': '([^']+)'", text[text.index('RANGES = {'):text.index('class Usage')]))
        self.assertEqual(len(ranges), 15)
        for option, words in ranges.items():
            low, high = (int(n) for n in re.search('([0-9]+) to ([0-9]+)$', words).groups())
            tried = ['--program', BUILT, MIXED + '.trace', option]
            for value in {low - 1, high + 1} - {-1}:
                self.refused(2, 'refuses --%s %d; it takes %s' % (option, value, words), *tried, str(value))
            status, said, _ = self.run_tool(*tried, str(low), str(high))
            self.assertIn(status, (0, 1))
            self.assertEqual(len(said.split('\n')), 4)
        self.refused(2, 'refuses --mxfats 1; its options are --mxfast, ',
                     '--program', BUILT, MIXED + '.trace', 'mxfats', '1')
        self.refused(2, 'refuses --mxfast 1; it takes 0 to 160', '--program', BUILT, MIXED + '.trace', 'mxfast', '1',
                     '--', '--mxfast', '2')

    def test_kernel_calls(self):
        """They stand in a column of their own, whoever runs the programs; the program that counts fails as the other."""
        calls = self.script('ca lls', CALLS)
        words = ['--calls', calls, '--program', self.stand_in, MIXED + '.trace', 'mxfast', 'default', '0', '24', '160']
        size = os.path.getsize(MIXED + '.trace')
        for own in [[]] + ([['--parallel', '']] if shutil.which('parallel') else []):
            _, rows = self.table(1, '--svg', self.picture, *own, *words, columns=['kernel-calls'])
            self.assertEqual(rows['default'], numbers_of(read(MIXED + '.report')) + [int('1%d' % size)])
            self.assertEqual(rows['0'], numbers_of(read(MIXED + '+mxfast_0.report')) + [int('2%d' % size)])
            self.assertEqual(rows['24'], 'failed, status 8: kernel_calls: no memory')
            self.assertEqual(rows['160'], 'failed, no table of kernel calls')
            self.assertIn('<title>0, kernel calls: %s</title>' % format(int('2%d' % size), ','), read(self.picture))
        self.refused(1, "no-such can't be run", '--calls', self.picture + '/no-such', *words[2:])
        self.table(0, '--svg', self.picture, *words[2:])
        self.assertNotIn('ernel calls', read(self.picture))

    @unittest.skipUnless(os.access(BUILT, os.X_OK) and os.access(COUNTS, os.X_OK), 'the programs are not built')
    def test_kernel_calls_of_the_program(self):
        for trace in sorted(glob.glob(os.path.join(RECORDED, '*.trace'))):
            words = ['--calls', COUNTS, '--program', BUILT, trace, '--mmap-threshold', '65536', '--', '--top-pad', '0']
            _, rows = self.table(0, *words, columns=['kernel-calls'])
            with open(trace, 'rb') as file:
                direct = subprocess.run([COUNTS, '--top-pad', '0', '--mmap-threshold', '65536', '--by-thread'],
                                        stdin=file, stdout=subprocess.PIPE, check=True).stdout.decode()
            rows_behind = direct[direct.index('thread '):].split('\n')[1:-1]
            self.assertEqual(rows['65536'][-1], sum(int(row.split()[-1]) for row in rows_behind))

    def test_a_run_that_fails(self):
        words = ['--svg', self.picture] + self.failing()
        _, rows = self.table(1, *words)
        self.assertEqual(rows['4096'], 'failed, status 8: ptmreplay: no memory')
        self.assertEqual(rows['1048576'], numbers_of(read(MIXED + '+main_max_1048576.report')))
        self.assertIn('>4096 failed</text>', read(self.picture))
        os.unlink(self.picture)
        _, rows = self.table(1, *words[:-1])
        self.assertFalse(os.path.exists(self.picture))
        for content, said in (('exit 3', 'status 3: it said nothing'), ('kill -9 $$', 'status 137: '),
                              ('', 'no report: line 1: '),
                              ('echo ptmsummary 1', 'no report: line 1: this is a summary'),
                              ('head -n 20 %s.report' % MIXED, 'no report: line 21: ')):
            program = self.script('program', '#!/bin/sh\n%s\n' % content)
            _, rows = self.table(1, '--program', program, MIXED + '.trace', 'mxfast', '0')
            self.assertTrue(rows['0'].startswith('failed, ' + said), rows)

    def test_the_picture(self):
        values = ['default', '0', '24', '160']
        _, rows = self.table(0, '--svg', self.picture, '--program', self.stand_in, MIXED + '.trace', 'mxfast', *values)
        picture = read(self.picture)
        titles = [e.text for e in ElementTree.fromstring(picture).iter('{http://www.w3.org/2000/svg}title')]
        for value in values:
            shown = [int(t.rpartition(' ')[2].replace(',', '')) for t in titles if t.startswith(value + ', ')]
            self.assertEqual(sorted(shown), sorted(rows[value]))
        inside = picture.replace('xmlns="http://www.w3.org/2000/svg"', '')
        self.assertNotRegex(inside, 'href|src|url|import|http|script')
        self.assertIn('prefers-color-scheme:dark', picture)
        self.assertEqual(os.listdir(self.room).count('picture.svg'), 1)
        self.assertEqual([n for n in os.listdir(self.room) if n.startswith('.')], [])

    def test_colours_stand_out(self):
        def light(colour):
            parts = [int(colour[i:i + 2], 16) / 255 for i in (1, 3, 5)]
            parts = [p / 12.92 if p <= 0.03928 else ((p + 0.055) / 1.055) ** 2.4 for p in parts]
            return 0.2126 * parts[0] + 0.7152 * parts[1] + 0.0722 * parts[2]

        self.run_tool('--svg', self.picture, '--program', self.stand_in, MIXED + '.trace', 'mxfast', '0')
        for style in re.search('<style>(.*)</style>', read(self.picture)).group(1).split('@media'):
            colours = dict(re.findall(r'\.f-([a-z-]+)\{fill:(#[0-9a-f]{6})\}', style))
            for name, colour in colours.items():
                if name not in ('ground', 'line'):
                    pair = sorted((light(colour), light(colours['ground'])))
                    self.assertGreater((pair[1] + 0.05) / (pair[0] + 0.05), 4.5 if name in ('ink', 'soft') else 3)

    def test_many_values(self):
        for n in range(90):
            self.script('many+mxfast_%d.report' % n, read(MIXED + '.report'))
        self.script('many.report', read(MIXED + '.report'))
        program = self.script('many', STAND_IN.replace(MIXED, os.path.join(self.room, 'many')))
        _, rows = self.table(0, '-j', '3', '--svg', self.picture, '--program', program, MIXED + '.trace', 'mxfast',
                             *map(str, range(90)))
        self.assertEqual(list(rows), [str(n) for n in range(90)])
        ElementTree.fromstring(read(self.picture))

    def test_side_by_side(self):
        program = self.script('beside', BESIDE)
        self.table(0, '-j', '2', '--program', program, MIXED + '.trace', 'x', '1', '2')

    def test_names_with_odd_characters(self):
        folder = os.path.join(self.room, "a 'b' \"c\" $d; *")
        os.mkdir(folder)
        trace, program = os.path.join(folder, 't race'), os.path.join(folder, "pro'gram")
        shutil.copy(MIXED + '.trace', trace)
        shutil.copy(self.stand_in, program)
        _, rows = self.table(0, '--program', program, trace, 'mxfast', '0')
        self.assertEqual(rows['0'], numbers_of(read(MIXED + '+mxfast_0.report')))

    def test_parallel(self):
        words = ['--program', self.stand_in, MIXED + '.trace']
        self.script('parallel', '#!/bin/sh\necho parallel 1\n')
        self.refused(1, 'GNU parallel is not installed', '--parallel', '', *words, 'mxfast', '0',
                     path=self.room + ':' + os.environ['PATH'])
        os.unlink(os.path.join(self.room, 'parallel'))
        if not shutil.which('parallel'):
            self.skipTest('there is no GNU parallel')
        for own in ('', '-j 1', '--nice 1'):
            for tried, status in ((words + ['mxfast', 'default', '0', '24'], 0), (self.failing(), 1)):
                self.assertEqual(self.table(status, '--parallel', own, *tried), self.table(status, *tried))
        self.refused(1, 'parallel ended with status', '--parallel', '--no-such', *words, 'mxfast', '0')

    def test_bad_input(self):
        trace, program = MIXED + '.trace', ['--program', self.stand_in]
        with open(self.picture, 'w', encoding='utf-8') as file:
            file.write('what was there')
        svg = ['--svg', self.picture] + program
        for status, said, words in (
                (1, "no-such can't be read: No such file", svg + [trace + 'no-such', 'mxfast', '0']),
                (1, 'is no file', svg + [self.room, 'mxfast', '0']),
                (1, 'is no file', svg + ['/dev/null', 'mxfast', '0']),
                (1, "no-such can't be run", ['--program', self.picture + '/no-such', trace, 'mxfast', '0']),
                (2, 'refuses --mxfast 161; it takes 0 to 160', svg + [trace, 'mxfast', '0', '161']),
                (2, 'refuses --mxfats 0; its options are --mxfast,', svg + [trace, 'mxfats', '0']),
                (2, 'refuses the words behind --: --mxfats 1', svg + [trace, 'mxfast', '0', '--', '--mxfats', '1']),
                (2, "'MX' is no option", svg + [trace, 'MX', '0']),
                (2, "'---' is no option", svg + [trace, '---', '0']),
                (2, 'no values of mxfast', svg + [trace, 'mxfast']),
                (2, 'are wanted', svg + [trace]), (2, 'wanted', []),
                (2, 'given twice', svg + [trace, 'mxfast', '0', '24', '0']),
                (2, "'-1' is no value", svg + [trace, 'mxfast', '-1']),
                (2, "'' is no value", svg + [trace, 'mxfast', '']),
                (2, 'stand before TRACE', program + [trace, 'mxfast', '0', '--svg', self.picture]),
                (2, '--frob', ['--frob', trace, 'mxfast', '0']), (2, '-j wants', ['-j', '0', trace, 'mxfast', '0']),
                (2, '--parallel: ', ['--parallel', '"', trace, 'mxfast', '0']),
                (1, "can't be written: No such file", ['--svg', self.room + '/no/x'] + program +
                 [trace, 'mxfast', '0']),
                (1, "can't be written: it is no file", ['--svg', self.room] + program + [trace, 'mxfast', '0'])):
            self.refused(status, said, *words)
        self.assertEqual(read(self.picture), 'what was there')
        self.assertEqual(sorted(os.listdir(self.room)), ['picture.svg', 'stand in', 'temporary'])

    def test_an_output_that_fails(self):
        with open('/dev/full', 'w', encoding='utf-8') as full:
            done = subprocess.run([TOOL, '--program', self.stand_in, MIXED + '.trace', 'mxfast', '0'], stdout=full,
                                  stderr=subprocess.PIPE, universal_newlines=True, check=False)
        self.assertEqual(done.returncode, 1)
        self.assertEqual(done.stderr, "whatif: the table can't be written: No space left on device\n")

    def test_help(self):
        status, said, err = self.run_tool('--help')
        self.assertEqual((status, err), (0, ''))
        self.assertIn('[--parallel OPTIONS]\n           TRACE OPTION VALUE..', said)
        self.assertEqual(self.run_tool('-h')[1], said)

    @unittest.skipUnless(os.access(BUILT, os.X_OK) and os.access(COUNTS, os.X_OK), 'the programs are not built')
    def test_the_example(self):
        """What the page shows of the tool is what it writes."""
        shown = re.findall(r'^    tools/whatif/whatif (--svg .*)\n\n((?:    .*\n)+)', read(HERE + '/README.md'), re.M)
        self.assertEqual(len(shown), 1)
        words = shown[0][0].split()
        words[words.index('--svg') + 1] = self.picture
        status, said, err = self.run_tool('--program', BUILT, '--calls', COUNTS, *words, cwd=ROOT)
        self.assertEqual((status, err), (0, ''))
        self.assertEqual(re.sub('^', '    ', said.rstrip('\n'), flags=re.M) + '\n', shown[0][1])
        self.assertEqual(read(self.picture), read(HERE + '/example.svg'))


def main():
    result = unittest.TextTestRunner(stream=sys.stdout, verbosity=0).run(
        unittest.defaultTestLoader.loadTestsFromTestCase(Whatif))
    for test, why in result.skipped:
        print('%s skipped: %s' % (test.id().rpartition('.')[2], why))
    failed = len(result.failures) + len(result.errors)
    print('%d passed, %d failed' % (result.testsRun - failed - len(result.skipped), failed))
    return 1 if failed else 0


if __name__ == '__main__':
    sys.exit(main())
