"""Calls of malloc and free with real addresses become the lines of a trace: names, threads and trays."""

from collections import Counter

THREADS, TRAYS, BYTES, NAMES = 64, 65536, 67108864, 4294967295
UNSEEN = "left out: of blocks that weren't seen"
MISSING = 'frees that are missing, written before the next block there'
BIG = (1 << 63) - 1         # a larger size is refused whatever the system has
WORD = 1 << 64


class Fault(Exception):
    """What isn't a log, in one line."""


class Ended(Exception):
    """The trace has no room for the next call."""


class Block:
    __slots__ = ('thread', 'name', 'tray')

    def __init__(self, thread, name):
        self.thread, self.name, self.tray = thread, name, None


class Trace:
    """Lines, as they come. A post whose block nobody takes is dropped when the trace is finished."""

    def __init__(self):
        self.counts, self.why = Counter(), None
        self.begin()

    def begin(self):
        """Begins anew, as a process does that becomes another program."""
        self.lines, self.blocks, self.free_names, self.highest = [], {}, {}, {}
        self.threads, self.ended, self.posted, self.taken = {}, set(), 0, set()

    # ---- threads and names

    def thread(self, key, is_main=False):
        """The thread's number: of the main one 0, of others by their first call."""
        if key not in self.threads:
            number = 0 if is_main else max([0, *self.threads.values()]) + 1
            if number >= THREADS:
                raise Ended('a 65th thread')
            self.threads[key] = number
        return self.threads[key]

    def new_name(self, thread):
        free = self.free_names.setdefault(thread, [])
        if free:
            return free.pop()
        self.highest[thread] = self.highest.get(thread, 0) + 1
        if self.highest[thread] > NAMES:
            raise Ended('more than 4,294,967,295 names')
        return self.highest[thread]

    def give(self, thread, name):
        self.free_names.setdefault(thread, []).append(name)

    # ---- calls

    def write(self, text):
        self.lines.append(text)

    def made(self, thread, command, address):
        """A block that a call gave; `command` is the line with a place for the name."""
        if address in self.blocks:
            self.counts[MISSING] += 1
            self.freed(thread, address)
        name = self.new_name(thread)
        self.write('%d ' % thread + command % name)
        self.blocks[address] = Block(thread, name)

    def refused(self, thread, command):
        """A call whose size is too big by the rules."""
        name = self.new_name(thread)
        self.write('%d ' % thread + command % name)
        self.write('%d f %d' % (thread, name))
        self.give(thread, name)

    def post(self, block):
        block.tray = self.posted
        self.posted += 1
        self.write((block.thread, block.name, block.tray))

    def hand_over(self, thread, block):
        """The name under which this thread has the block: its own, or one under which it takes the owner's."""
        if block.thread == thread:
            return block.name
        if len(self.taken) == TRAYS:
            raise Ended('a tray past 65,535')
        if block.tray is None:
            self.post(block)
            self.give(block.thread, block.name)
        self.taken.add(block.tray)
        name = self.new_name(thread)
        self.write(('t', thread, name, block.tray))
        return name

    def freed(self, thread, address):
        block = self.blocks.pop(address, None)
        if block is None:
            self.counts[UNSEEN] += 1
            return
        name = self.hand_over(thread, block)
        self.write('%d f %d' % (thread, name))
        self.give(thread, name)

    def resized(self, thread, block, size, address):
        """The block, which stands under no address now, was given another size; its new address is None where it was
        freed."""
        name = self.hand_over(thread, block)
        self.write('%d r %d %d' % (thread, name, size))
        if address is None:
            self.give(thread, name)
            return
        if address in self.blocks:
            self.counts[MISSING] += 1
            self.freed(thread, address)
        self.blocks[address] = Block(thread, name)

    def exited(self, thread):
        """What the thread leaves is posted, since others may free it."""
        for block in self.blocks.values():
            if block.thread == thread and block.tray is None:
                self.post(block)
        self.write('%d x' % thread)
        self.ended.add(thread)

    # ---- the text

    def text(self):
        """The whole trace, and how many lines it has behind its header."""
        trays, out, length = {}, ['ptmtrace 2'], 11
        for line in self.lines:
            if isinstance(line, tuple):
                line = self.handing(line, trays)
                if line is None:
                    continue
            length += len(line) + 1
            if length > BYTES:
                self.why = 'more than 67,108,864 bytes'
                break
            out.append(line)
        return '\n'.join(out) + '\n', len(out) - 1

    def handing(self, line, trays):
        """A post or a take with the tray's number in the trace; None where nobody takes what is posted."""
        if line[0] == 't':
            return '%d t %d %d' % (line[1], line[2], trays[line[3]])
        thread, name, tray = line
        if tray not in self.taken:
            return None
        trays[tray] = len(trays)
        return '%d p %d %d' % (thread, name, trays[tray])
