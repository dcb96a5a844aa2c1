"""Tests of trace_of: on logs that mtrace and perf wrote, and on others that are made here."""

import os
import random
import shutil
import subprocess
import sys
import tempfile
import unittest

sys.dont_write_bytecode = True
HERE = os.path.dirname(os.path.abspath(__file__))
ROOT = os.path.dirname(os.path.dirname(HERE))
TOOL = os.path.join(HERE, 'trace_of')
CASES = os.path.join(HERE, 'cases')
GRAMMAR = os.path.join(ROOT, 'tools', 'record', 'check.awk')
MTRACE_CASE = '''#include <mcheck.h>
#include <stdlib.h>
int main(void) {
    void *block;
    mtrace();
    block = malloc(24);
    block = realloc(block, 4000);
    free(calloc(3, 50));
    free(block);
    return 0;
}
'''


def run(*words, **how):
    done = subprocess.run(words, stdout=subprocess.PIPE, stderr=subprocess.PIPE, check=False, timeout=60, **how)
    return done.returncode, done.stdout.decode(), done.stderr.decode()


def read(*path):
    with open(os.path.join(*path), encoding='ascii') as file:
        return file.read()


def event(thread, name, *values, after='', process=10, at=None):
    """A line of perf script."""
    at = at or {'malloc': 0x7000, 'calloc': 0x7300, 'realloc': 0x7200, 'free': 0x7100}[name]
    told = ' '.join('v%d=%d' % pair for pair in enumerate(values))
    return '  prog %d/%d [000]  1.000000: probe_libc:%s%s: (%x%s) %s' % (
        process, thread, name, after and '__return', at, ' <- 55aa' if after else '', told)


def both(thread, name, result, *values, **how):
    """A call and its return."""
    return [event(thread, name, *values, **how), event(thread, name, result, after='__return', **how)]


class Tests(unittest.TestCase):
    def setUp(self):
        folder = tempfile.TemporaryDirectory()
        self.addCleanup(folder.cleanup)
        self.folder = folder.name

    def made(self, kind, lines, *words):
        """What the tool makes of these lines: the trace's lines, and what it says."""
        path = os.path.join(self.folder, 'log')
        with open(path, 'w', encoding='ascii') as file:
            file.write('\n'.join(lines) + '\n')
        status, trace, said = run(TOOL, kind, *words, path)
        self.assertEqual(status, 0, said)
        self.is_trace(trace)
        return trace.splitlines()[1:], said

    def is_trace(self, text):
        if shutil.which('awk'):
            self.assertEqual(run('awk', '-f', GRAMMAR, input=text.encode()), (0, '', ''))

    def refused(self, words, kind, lines, *more, status=1):
        path = os.path.join(self.folder, 'log')
        with open(path, 'w', encoding='ascii') as file:
            file.write('\n'.join(lines) + '\n')
        done = run(TOOL, kind, *more, path)
        self.assertEqual(done[:2], (status, ''), done)
        self.assertRegex(done[2], r'\Atrace_of: [^\n]+\n\Z')
        self.assertIn(words, done[2])

    # ---- logs as they were written

    def test_logs(self):
        for kind, name in (('mtrace', 'calls'), ('perf', 'threads')):
            status, trace, said = run(TOOL, kind, os.path.join(CASES, '%s.%s' % (name, kind)))
            self.assertEqual((status, trace), (0, read(CASES, name + '.want')), said)
            self.is_trace(trace)

    def test_a_log_of_mtrace_here(self):
        source, program, log = (os.path.join(self.folder, name) for name in ('case.c', 'case', 'log'))
        with open(source, 'w', encoding='ascii') as file:
            file.write(MTRACE_CASE)
        if not shutil.which('cc') or run('cc', '-w', '-fno-builtin', '-o', program, source)[0]:
            self.skipTest('no compiler')
        library = [{}, {'LD_PRELOAD': 'libc_malloc_debug.so.0'}]     # its own since glibc 2.34
        for more in library:
            run(program, env=dict(os.environ, MALLOC_TRACE=log, **more))
        if not os.path.exists(log):
            self.skipTest('mtrace writes nothing here')
        trace = run(TOOL, 'mtrace', log)[1]
        self.assertEqual(trace.splitlines()[1:], ['0 m 1 24', '0 r 1 4000', '0 m 2 150', '0 f 2', '0 f 1'])

    # ---- mtrace

    def test_mtrace_lines(self):
        lines, said = self.made('mtrace', [
            '= Start', '@ p:(f+0x2)[0x1] + 0x5010 0x18', '@ p:[0x1] + (nil) 0xffffffff', '@ p:[0x1] - 0x4000',
            '@ p:[0x1] + 0x5010 0x20', '@ p:[0x1] < 0x4000', '@ p:[0x1] > 0x6010 0x30', '@ p:[0x1] ! 0x6010 0xfffffffff',
            '@ p:[0x1] < 0x6010', '= End'])
        self.assertEqual(lines, ['0 m 1 24', '0 f 1', '0 m 1 32', '0 m 2 48'])
        for words in ("2 left out: of blocks that weren't seen", '2 left out: refused by the system',
                      '1 frees that are missing', 'calloc and the aligned calls are written as malloc',
                      '1 left out: a realloc that the log ends in'):
            self.assertIn(words, said)

    def test_what_is_no_log_of_mtrace(self):
        self.refused("begins with '= Start'", 'mtrace', ['ptmtrace 1'])
        self.refused('line 2: no line of mtrace', 'mtrace', ['= Start', '@ p:[0x1] * 0x5010 0x18'])
        self.refused('line 2: not the line that is wanted here', 'mtrace', ['= Start', '@ p:[0x1] > 0x5010 0x18'])
        self.refused('line 2: not the line that is wanted here', 'mtrace', ['= Start', '@ p:[0x1] + 0x5010'])

    # ---- perf

    def test_threads_and_trays(self):
        lines, said = self.made('perf', [
            *both(10, 'malloc', 0x5010, 24), *both(12, 'calloc', 0x6010, 3, 50), event(10, 'free', 0x6010),
            *both(12, 'malloc', 0x6010, 8), '  prog 10/12 [000]  1.5: PERF_RECORD_EXIT(10:12):(10:10)',
            event(10, 'free', 0x6010)])
        self.assertEqual(lines, ['0 m 1 24', '1 c 1 3 50', '1 p 1 0', '0 t 2 0', '0 f 2', '1 m 1 8', '1 p 1 1', '1 x',
                                 '0 t 2 1', '0 f 2'])
        self.assertIn('2 threads; 2 handed over', said)

    def test_realloc_calls_malloc_and_free_itself(self):
        lines, said = self.made('perf', [
            event(10, 'realloc', 0, 24), *both(10, 'malloc', 0x5010, 24),
            event(10, 'realloc', 0x5010, after='r'), *both(10, 'realloc', 0x7010, 0x5010, 900),
            event(10, 'realloc', 0x7010, 0), event(10, 'free', 0x7010), event(10, 'realloc', 0, after='r')])
        self.assertEqual(lines, ['0 m 1 24', '0 r 1 900', '0 r 1 0'])
        self.assertEqual(said.count(';'), 0)

    def test_another_thread_has_the_place_while_realloc_runs(self):
        lines, _ = self.made('perf', [
            *both(10, 'malloc', 0x5010, 24), event(10, 'realloc', 0x5010, 900), *both(12, 'malloc', 0x5010, 24),
            event(10, 'realloc', 0x7010, after='r'), event(12, 'free', 0x5010)])
        self.assertEqual(lines, ['0 m 1 24', '1 m 1 24', '0 r 1 900', '1 f 1'])

    def test_gaps(self):
        lines, said = self.made('perf', [
            event(10, 'malloc', 24), *both(10, 'malloc', 0x5010, 32), event(10, 'malloc', 0x9010, after='r'),
            *both(10, 'malloc', 0x5010, 48), event(10, 'free', 0x4010), event(10, 'free', 0), event(10, 'free', 0x5010),
            '  prog 10/10 [000]  1.5: PERF_RECORD_LOST lost 7', *both(10, 'malloc', 0x5010, 24),
            event(10, 'realloc', 0x5010, 64)])
        self.assertEqual(lines, ['0 m 1 32', '0 f 1', '0 m 1 48', '0 f 1', '0 m 1 24'])
        for words in ('2 gaps: calls whose return is missing', '1 gaps: returns whose call is missing',
                      "1 left out: of blocks that weren't seen", '1 frees that are missing', '7 gaps: events that perf lost'):
            self.assertIn(words, said)

    def test_a_thread_gives_its_cache_back(self):
        lines, said = self.made('perf', [
            *both(10, 'malloc', 0x5010, 24), *both(12, 'malloc', 0x6010, 24), event(12, 'free', 0x6010),
            event(12, 'free', 0x6010), event(12, 'free', 0x6410),
            '  prog 10/12 [000]  1.5: PERF_RECORD_EXIT(10:12):(10:10)'])
        self.assertEqual(lines, ['0 m 1 24', '1 m 1 24', '1 f 1', '1 x'])
        self.assertNotIn('left out', said)

    def test_processes(self):
        log = [*both(10, 'malloc', 0x5010, 24), *both(20, 'malloc', 0x5010, 48, process=20)]
        lines, said = self.made('perf', log)
        self.assertEqual(lines, ['0 m 1 24'])
        self.assertIn('2 left out: events of other processes', said)
        self.assertEqual(self.made('perf', log, '--pid', '20')[0], ['0 m 1 48'])
        self.refused('in process 30', 'perf', log, '--pid', '30')

    def test_an_exec(self):
        lines, said = self.made('perf', [
            *both(10, 'malloc', 0x5010, 24), '  prog 10/10 [000]  1.5: PERF_RECORD_COMM exec: other:10/10',
            *both(10, 'malloc', 0x8010, 48, at=0x9000)])
        self.assertEqual(lines, ['0 m 1 48'])
        self.assertIn('1 left out: lines before an exec', said)

    def test_a_second_probe_of_a_name(self):
        lines, said = self.made('perf', [
            *both(10, 'calloc', 6, 77, 6, at=0x99000), *both(10, 'malloc', 0x5010, 24),
            *both(10, 'calloc', 0x6010, 3, 50), *both(10, 'calloc', 6, 77, 6, at=0x99000)])
        self.assertEqual(lines[-2:], ['0 m 2 24', '0 c 3 3 50'])
        self.assertIn('2 left out: events of a second probe of that name', said)

    def test_limits(self):
        lines, said = self.made('perf', [line for thread in range(10, 80) for line in both(
            thread, 'malloc', 0x5010 + thread * 32, 24)])
        self.assertEqual(len(lines), 64)
        self.assertIn('ended early: a 65th thread', said)

    def test_what_is_no_log_of_perf(self):
        self.refused('line 1: no line of perf script', 'perf', ['= Start'])
        self.refused("no event of the C library's malloc", 'perf', ['  prog 10/10 [000]  1.5: cycles: 7fff'])
        self.refused('has no value for each argument', 'perf', [event(10, 'calloc', 3)])

    def test_random_calls(self):
        """Calls of five threads with addresses that are given again: each is in the trace once, in its order."""
        draw, log, wanted = random.Random(7), [], []
        free, live = [0x100000 + 64 * i for i in range(60)], []
        for _ in range(3000):
            thread = draw.randrange(10, 15)
            what = draw.random()
            if what < 0.5 and free:
                at, size = free.pop(draw.randrange(len(free))), draw.randrange(5000)
                log += both(thread, 'malloc', at, size)
                live.append(at)
                wanted.append(('m', size))
            elif what < 0.6 and free and live:
                old, at = live.pop(draw.randrange(len(live))), free.pop(draw.randrange(len(free)))
                size = draw.randrange(1, 5000)
                log += both(thread, 'realloc', at, old, size)
                free.append(old)
                live.append(at)
                wanted.append(('r', size))
            elif live:
                at = live.pop(draw.randrange(len(live)))
                log.append(event(thread, 'free', at))
                free.append(at)
                wanted.append(('f', None))
        lines, said = self.made('perf', log)
        calls = [(w[1], int(w[3]) if w[1] in 'mr' else None) for w in map(str.split, lines) if w[1] in 'mrf']
        self.assertEqual(calls, wanted)
        self.assertNotRegex(said, 'left out|gaps|missing')

    # ---- words

    def test_words(self):
        self.refused('invalid choice', 'perl', [''], status=2)
        self.refused('--pid goes with perf', 'mtrace', [''], '--pid', '5', status=2)
        self.assertIn("can't be read: No such file", run(TOOL, 'perf', '/nowhere/log')[2])
        done = run(TOOL, 'mtrace', '-', input=b'= Start\n@ p:[0x1] + 0x5010 0x18\n')
        self.assertEqual(done[:2], (0, 'ptmtrace 2\n0 m 1 24\n'))
        self.assertIn("can't be", run(TOOL, 'mtrace', '-o', '/nowhere/t', '-', input=b'= Start\n')[2].replace(
            'No such file', "can't be"))


if __name__ == '__main__':
    unittest.main(verbosity=0)
