"""Reads what mtrace(3) of glibc writes. It has no threads; calloc and the aligned calls stand there as malloc."""

import re

from trace_lines import BIG, UNSEEN, Fault

CALL = re.compile(r'@ .* ([+<>!-]) (0x[0-9a-f]+|\(nil\))(?: (0x[0-9a-f]+|0))?\Z')


class Log:
    """One log. A realloc is two lines, `<` with the old address and `>` with the new one."""

    def __init__(self, trace):
        self.trace, self.old = trace, None
        self.thread = trace.thread(0, True)

    def line(self, number, line):
        if line.startswith('= ') or not line:
            return
        found = CALL.search(line)
        if not found:
            raise Fault('line %d: no line of mtrace' % number)
        sign, address, size = found.group(1), found.group(2), found.group(3)
        address = 0 if address == '(nil)' else int(address, 16)
        size = None if size is None else int(size, 16)
        if (size is None) != (sign in '-<') or (self.old is not None) != (sign == '>'):
            raise Fault('line %d: not the line that is wanted here' % number)
        {'+': self.made, '-': self.freed, '<': self.begun, '>': self.moved, '!': self.refused}[sign](address, size)

    def made(self, address, size):
        if address:
            self.trace.made(self.thread, 'm %%d %d' % size, address)
        elif size > BIG:
            self.trace.refused(self.thread, 'm %%d %d' % size)
        else:
            self.trace.counts['left out: refused by the system'] += 1

    def freed(self, address, _):
        self.trace.freed(self.thread, address)

    def begun(self, address, _):
        self.old = (address, self.trace.blocks.pop(address, None))

    def moved(self, address, size):
        (_, block), self.old = self.old, None
        if block is None:
            self.trace.counts[UNSEEN] += 1
            self.trace.made(self.thread, 'm %%d %d' % size, address)
        else:
            self.trace.resized(self.thread, block, size, address)

    def refused(self, address, size):
        block = self.trace.blocks.pop(address, None)
        if block is not None and size > BIG:
            self.trace.resized(self.thread, block, size, address)
        else:
            self.trace.counts['left out: refused by the system'] += 1
            if block is not None:
                self.trace.blocks[address] = block


def read(lines, trace, _):
    log = Log(trace)
    for number, line in enumerate(lines, 1):
        if number == 1 and not line.startswith(('= Start', '@ ')):
            raise Fault("line 1: mtrace's log begins with '= Start'")
        log.line(number, line)
    if log.old is not None:
        trace.counts['left out: a realloc that the log ends in'] += 1
