"""Tests of heap_of. The heap of a process that was recorded is compared with the model's replay of the recording."""

import os
import re
import shutil
import signal
import struct
import subprocess
import sys
import tempfile
import unittest

sys.dont_write_bytecode = True
HERE = os.path.dirname(os.path.abspath(__file__))
ROOT = os.path.dirname(os.path.dirname(HERE))
TOOL = os.path.join(HERE, 'heap_of')
RECORD = os.path.join(ROOT, 'tools', 'record')
PROGRAM = os.environ.get('PTMREPLAY') or os.path.join(ROOT, 'crates', 'ptmreplay', 'out', 'ptmreplay')
MODEL = (0x8c0, 0x20)       # the headers of an arena's first heap and of its others in glibc 2.31
HEAP_MAX = 64 << 20
LEAST = 0.99

sys.path.insert(0, HERE)
from heap_walk import Fault, Heap, Memory  # noqa: E402


def run(*words, **how):
    return subprocess.run(words, stdout=subprocess.PIPE, stderr=subprocess.PIPE, check=False, timeout=120, **how)


def why_not():
    """Why nothing can be compared here, or None."""
    compiler = os.environ.get('CC', 'cc')
    for tool in ('gdb', compiler, 'make'):
        if not shutil.which(tool):
            return 'no ' + tool
    probe = run('gdb', '-q', '-nx', '-batch', '-ex', 'python print(40 + 2)', stdin=subprocess.DEVNULL)
    return None if probe.stdout.strip() == b'42' else 'gdb has no python'


def chunks_of(text):
    """The chunks of a report, each as (heap, offset, size, place), where no word depends on where the heaps lie. A name
    isn't compared, as a process doesn't tell it."""
    found, heaps, start, shift = {}, {}, None, 0
    arena, mapped = None, False
    for line in text[text.index('\narena 0 ') + 1:].splitlines():
        head = re.match(r'arena (\d+) ', line)
        chunk = re.match(r'0x(\w{12}) (\d+) (?:lead (\d+) )?([a-z]+)(?: (\d+))?', line)
        if head:
            arena, start = int(head.group(1)), None
        elif line == 'mapped':
            mapped = True
        elif chunk:
            at, size, lead, word, number = int(chunk[1], 16) - 16, int(chunk[2]), chunk[3], chunk[4], chunk[5]
            place = word if word in ('live', 'top', 'fence', 'tray') else '%s %s' % (word, number)
            place = place.replace('tray', 'live')
            if mapped:
                found.setdefault(('mapped', int(lead) % 4096, size, place), []).append(at)
                continue
            if arena == 0:
                start = at if start is None else start
                heap, offset = 'main', at - start
            else:
                base = at & -HEAP_MAX
                known = heaps.setdefault(arena, {})
                if base not in known:
                    known[base] = (len(known), at - base - MODEL[bool(known)])
                heap, shift = (arena, known[base][0]), known[base][1]
                offset = at - base - shift
            found.setdefault((heap, offset, size, place), []).append(at)
    return found


def compared(real, model):
    """How many chunks there are in both, how many in the larger, and those that are in one alone."""
    same = sum(min(len(real.get(key, ())), len(at)) for key, at in model.items())
    count = max(sum(map(len, real.values())), sum(map(len, model.values())))
    other = sorted(map(str, set(real) ^ set(model)))
    return same, count, other


class Process:
    """The case, recorded, while it stands still with its heap filled."""

    def __init__(self, folder):
        self.trace = os.path.join(folder, 'mixed.trace')
        self.program = os.path.join(folder, 'mixed')
        done = run(os.environ.get('CC', 'cc'), '-O1', '-w', '-fno-builtin', '-o', self.program,
                   os.path.join(HERE, 'cases', 'mixed.c'), '-lpthread')
        assert done.returncode == 0, done.stderr
        assert run('make', '-s', '-C', RECORD).returncode == 0
        self.recorder = subprocess.Popen([os.path.join(RECORD, 'record'), '-o', self.trace, '--', self.program],
                                         stdout=subprocess.PIPE, stderr=subprocess.PIPE)
        self.pid = int(self.recorder.stdout.readline())

    def end(self):
        os.kill(self.pid, signal.SIGTERM)
        self.recorder.communicate(timeout=60)


class Compared(unittest.TestCase):
    @classmethod
    def setUpClass(cls):
        why = why_not()
        if why:
            print('skipped: ' + why)
            raise unittest.SkipTest(why)
        folder = tempfile.TemporaryDirectory()
        cls.addClassCleanup(folder.cleanup)
        cls.folder = folder.name
        process = Process(folder.name)
        cls.process = process
        cls.core = os.path.join(folder.name, 'core')
        try:
            cls.living = run(TOOL, '--pid', str(process.pid))
            saved = run('gdb', '-q', '-nx', '-batch', '-iex', 'set debuginfod enabled off', '-p', str(process.pid),
                        '-ex', 'generate-core-file ' + cls.core, stdin=subprocess.DEVNULL)
        finally:
            process.end()
        if b'symbols are missing' in cls.living.stderr:
            print('skipped: ' + cls.living.stderr.decode().strip())
            raise unittest.SkipTest('no symbols')
        if b'ptrace' in cls.living.stderr or b'not permitted' in cls.living.stderr:
            print("skipped: no process can be looked at here")
            raise unittest.SkipTest('no ptrace')
        assert saved.returncode == 0 and os.path.exists(cls.core), saved.stderr

    def test_a_living_process_is_what_the_model_says(self):
        self.assertEqual((self.living.returncode, self.living.stderr), (0, b''))
        if not os.access(PROGRAM, os.X_OK):
            print('skipped: the program is not built')
            self.skipTest('not built')
        with open(self.process.trace, 'rb') as trace:
            done = run(PROGRAM, stdin=trace)
        self.assertEqual(done.returncode, 0, done.stderr)
        same, count, other = compared(chunks_of(self.living.stdout.decode()), chunks_of(done.stdout.decode()))
        print('heap_of: %d of %d chunks are the model\'s' % (same, count))
        self.assertGreater(count, 1500)
        self.assertGreaterEqual(same / count, LEAST, other[:20])

    def test_a_core_is_the_living_process(self):
        done = run(TOOL, '--core', self.core, '--exe', self.process.program)
        self.assertEqual((done.returncode, done.stderr), (0, b''))
        self.assertEqual(done.stdout, self.living.stdout)

    def test_the_report_makes_a_page(self):
        page, source = os.path.join(self.folder, 'heap.html'), os.path.join(self.folder, 'report')
        done = run(TOOL, '--core', self.core, '--exe', self.process.program, '-o', source, '--page', page, '--title', 'A b')
        self.assertEqual((done.returncode, done.stdout, done.stderr), (0, b'', b''))
        with open(source, 'rb') as file:
            self.assertEqual(file.read(), self.living.stdout)
        with open(page, encoding='utf-8') as file:
            text = file.read()
        self.assertIn('arena 4', text)
        self.assertIn('<title>A b</title>', text)

    def test_a_heap_that_was_written_over(self):
        """A core with another size in a chunk in main's middle: the chunk is named."""
        chunk = re.findall(r'^(0x\w{12}) \d+ live 0 \d+$', self.living.stdout.decode(), re.M)[100]
        broken = os.path.join(self.folder, 'broken')
        with open(self.core, 'rb') as file:
            data = bytearray(file.read())
        offset = offset_in(data, int(chunk, 16) - 8)
        data[offset:offset + 8] = struct.pack('<Q', 0x4141414141414141)
        with open(broken, 'wb') as file:
            file.write(data)
        done = run(TOOL, '--core', broken, '--exe', self.process.program)
        self.assertEqual((done.returncode, done.stdout), (1, b''))
        self.assertIn('it was written over', done.stderr.decode())
        self.assertIn('Its block begins at 0x%x' % int(chunk, 16), done.stderr.decode())


def offset_in(data, address):
    """Where the byte of this address stands in a core."""
    table, = struct.unpack_from('<Q', data, 32)
    size, count = struct.unpack_from('<HH', data, 54)
    for i in range(count):
        kind, _, offset, start, _, length = struct.unpack_from('<IIQQQQ', data, table + i * size)
        if kind == 1 and start <= address < start + length:
            return offset + address - start
    raise AssertionError('no such address in the core')


class Words(unittest.TestCase):
    def refused(self, status, words, *given):
        done = run(TOOL, *given)
        self.assertEqual((done.returncode, done.stdout), (status, b''), done)
        self.assertRegex(done.stderr.decode(), r'\Aheap_of: [^\n]+\n\Z')
        self.assertIn(words, done.stderr.decode())

    def test_words(self):
        self.refused(2, 'one of --pid and --core is wanted')
        self.refused(2, 'one of --pid and --core is wanted', '--pid', '1', '--core', 'c', '--exe', 'e')
        self.refused(2, '--core and --exe go together', '--core', 'c')
        self.refused(2, 'invalid int value', '--pid', 'x')
        self.refused(2, '--title goes with --page', '--pid', '1', '--title', 't')
        self.refused(1, 'there is no process 999999999', '--pid', '999999999')
        self.refused(1, "/nowhere/core can't be read", '--core', '/nowhere/core', '--exe', TOOL)
        self.refused(1, 'is neither a program nor a core', '--core', TOOL, '--exe', TOOL)
        self.refused(1, 'there is no /nowhere/gdb here', '--pid', str(os.getpid()), '--gdb', '/nowhere/gdb')


class Made(unittest.TestCase):
    """Memories that are made here: what no case of a real process shows."""

    def test_memory_that_is_not_there(self):
        def read(at, length):
            raise Fault('the memory at 0x%x can\'t be read' % at)
        facts = {'version': (2, 36), 'main_arena': 0x1000, 'state': {name: 0 for name in (
            'mutex', 'system_mem', 'max_system_mem', 'top', 'last_remainder', 'next', 'next_free', 'fastbinsY', 'bins')}}
        with self.assertRaises(Fault):
            Heap(Memory(read), facts)

    def test_mapped_headers(self):
        page = bytearray(8192)
        struct.pack_into('<QQ', page, 0, 0, 8192 | 2)
        self.assertEqual(Heap.mapped_at(page, 0, 0x7000, 0x7000, 0x9000), (0x7000, 8192, 0))
        self.assertIsNone(Heap.mapped_at(page, 0, 0x7000, 0x7000, 0x8000))
        struct.pack_into('<QQ', page, 0, 0, 0)
        struct.pack_into('<QQ', page, 4080, 4080, (8192 - 4080) | 2)
        self.assertEqual(Heap.mapped_at(page, 0, 0x7000, 0x7000, 0x9000), (0x7000 + 4080, 8192 - 4080, 4080))


if __name__ == '__main__':
    unittest.main(verbosity=0)
