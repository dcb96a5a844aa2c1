"""Reads what `perf script` writes of uprobes on malloc, calloc, realloc and free of the C library, and on the returns of
the first three."""

import re

from trace_lines import BIG, UNSEEN, WORD, Fault

EVENT = re.compile(r'\s*(.*?)\s+(?:(\d+)/)?(\d+)\s+(?:\[\d+\]\s+)?\d+\.\d+:\s+(.*)\Z')
CALL = re.compile(r'[\w:]*?:(?:__libc_)?(malloc|calloc|realloc|free)(__return)?(?:_\d+)?:\s+\(([0-9a-f]+)(?: <- [0-9a-f]+)?\)'
                  r'((?:\s+\w+=\S+)*)\s*\Z')
EXEC = re.compile(r'PERF_RECORD_COMM exec: .*:(\d+)/\d+\Z')
EXIT = re.compile(r'PERF_RECORD_EXIT\((\d+):(\d+)\)')
LOST = re.compile(r'PERF_RECORD_LOST\S*\s+lost\s+(\d+)')
ARGUMENTS = {'malloc': 1, 'calloc': 2, 'realloc': 2, 'free': 1}


class Open:
    """A call of a thread that has begun; `depth` counts the probes that saw its begin."""

    def __init__(self, name, values, block):
        self.name, self.values, self.block, self.depth = name, values, block, 1


class Log:
    """The events of one process. A call is written where it returns, a free where it begins: so a block that is free is
    never given twice."""

    def __init__(self, trace, process):
        self.trace, self.process, self.open, self.seen = trace, process, {}, 0
        self.at = {}            # of each function its address
        self.unseen = {}        # of each thread how many frees of unseen blocks were its last events

    def line(self, number, line):
        found = EVENT.match(line)
        if not found:
            raise Fault('line %d: no line of perf script' % number)
        _, process, thread, said = found.groups()
        if self.process is None and process is not None and int(process) and 'PERF_RECORD' not in said:
            self.process = int(process)
        if 'PERF_RECORD' in said:
            self.record(said)
            return
        if process is not None and int(process) != self.process:
            self.trace.counts['left out: events of other processes (--pid names one)'] += 1
            return
        call = CALL.match(said)
        if not call:
            self.trace.counts['left out: events of other names'] += 1
            return
        if not self.is_function(call.group(1), int(call.group(3), 16)):
            self.trace.counts['left out: events of a second probe of that name'] += 1
            return
        values = [int(part.split('=')[1], 0) % WORD for part in call.group(4).split()]
        if len(values) < (1 if call.group(2) else ARGUMENTS[call.group(1)]):
            raise Fault('line %d: the probe of %s has no value for each argument' % (number, call.group(1)))
        self.seen += 1
        before = self.trace.counts[UNSEEN]
        self.event(int(thread), call.group(1), bool(call.group(2)), values)
        more = self.trace.counts[UNSEEN] - before
        self.unseen[int(thread)] = self.unseen.get(int(thread), 0) + more if more else 0

    def is_function(self, name, address):
        """Whether the probe is at the function: perf may put a second one at a place of the table of links, which is
        further from malloc."""
        known = self.at.setdefault(name, address)
        malloc = self.at.get('malloc', known)
        if abs(address - malloc) < abs(known - malloc):
            self.at[name] = known = address
        return known == address

    def begin(self):
        """Another program begins: its heap is empty."""
        self.trace.counts['left out: lines before an exec'] += len(self.trace.lines)
        self.trace.begin()
        self.open, self.unseen, self.at = {}, {}, {}

    def record(self, said):
        lost, ended, began = LOST.search(said), EXIT.search(said), EXEC.search(said)
        if began and int(began.group(1)) == self.process:
            self.begin()
        elif lost:
            self.trace.counts['gaps: events that perf lost'] += int(lost.group(1))
        elif ended and int(ended.group(1)) == self.process and int(ended.group(2)) != self.process:
            thread = int(ended.group(2))
            self.open.pop(thread, None)
            # A thread that ends gives its cache back by free, chunk by chunk; that is the line x.
            self.trace.counts[UNSEEN] -= self.unseen.pop(thread, 0)
            if thread in self.trace.threads and self.trace.threads[thread] not in self.trace.ended:
                self.trace.exited(self.trace.threads[thread])

    def event(self, thread, name, returned, values):
        number = self.trace.thread(thread, thread == self.process or (self.process is None and not self.trace.threads))
        if number in self.trace.ended:
            self.trace.counts['left out: calls of a thread behind its end'] += 1
        elif returned:
            self.returned(thread, number, name, values[-1])
        else:
            self.begun(thread, number, name, values)

    def begun(self, thread, number, name, values):
        outer = self.open.get(thread)
        if outer and outer.name == name and outer.values == values and name != 'free':
            outer.depth += 1                        # two probes saw it, as that of the table of links
            return
        if outer and outer.name == 'realloc' and name in ('malloc', 'free'):
            return                                  # realloc calls these itself
        if outer:
            self.lost(outer)
            del self.open[thread]
        if name == 'free':
            if values[0]:
                self.trace.freed(number, values[0])
            return
        block = self.trace.blocks.pop(values[0], None) if name == 'realloc' and values[0] else None
        self.open[thread] = Open(name, values, block)

    def lost(self, call):
        """The return of the call wasn't seen: what it gave isn't known."""
        self.trace.counts['gaps: calls whose return is missing'] += 1
        if call.block:
            self.trace.blocks[call.values[0]] = call.block

    def returned(self, thread, number, name, address):
        call = self.open.get(thread)
        if call and call.name == 'realloc' and name == 'malloc':
            return
        if not call or call.name != name:
            self.trace.counts['gaps: returns whose call is missing'] += 1
            return
        call.depth -= 1
        if call.depth == 0:
            del self.open[thread]
            self.served(number, call, address)

    def served(self, number, call, address):
        if call.name == 'realloc' and call.values[0]:
            self.resized(number, call, address)
            return
        size = call.values[-1] * (call.values[0] if call.name == 'calloc' else 1)
        line = 'c %%d %d %d' % tuple(call.values[:2]) if call.name == 'calloc' else 'm %%d %d' % call.values[-1]
        if address:
            self.trace.made(number, line, address)
        elif size > BIG:
            self.trace.refused(number, line)
        else:
            self.trace.counts['left out: refused by the system'] += 1

    def resized(self, number, call, address):
        old, size = call.values[:2]
        if call.block is None:
            self.trace.counts[UNSEEN] += 1
            if address:
                self.trace.made(number, 'm %%d %d' % size, address)
        elif address or size > BIG:
            self.trace.resized(number, call.block, size, address or old)
        elif size == 0:
            self.trace.resized(number, call.block, size, None)
        else:
            self.trace.counts['left out: refused by the system'] += 1
            self.trace.blocks[old] = call.block


def read(lines, trace, process):
    log = Log(trace, process)
    for number, line in enumerate(lines, 1):
        if line and not line.startswith('#'):
            log.line(number, line)
    if not log.seen:
        raise Fault("no event of the C library's malloc%s" % (' in process %d' % process if process else ''))
    for call in log.open.values():
        log.lost(call)
