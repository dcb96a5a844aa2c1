"""Walks the heap of glibc's malloc in a memory that can be read, and writes it as the places of a report.

Nothing here knows gdb: `facts` has the addresses and offsets that its symbols gave, `memory` reads bytes.
"""

import struct

PAGE, ALIGN, MIN_CHUNK, FENCE = 4096, 16, 32, 32
IN_USE, MAPPED, FLAGS = 1, 2, 7
HEAP_MAX = 64 << 20
PIECE = 1 << 20             # so many bytes are read at a time where a mapping is searched
SAFE_LINKS = (2, 32)        # from this version on a free chunk's link is mixed with its own address
MOST_LINKS = 1 << 26        # a list that is longer goes in a circle
LEADS = tuple((1 << power) - 16 for power in range(5, 13))


class Fault(Exception):
    """What ends the walk, in one line."""


class Memory:
    """Bytes and words of a process; `read` gives bytes, and raises Fault where there are none."""

    def __init__(self, read):
        self.read = read

    def word(self, at):
        return struct.unpack('<Q', self.read(at, 8))[0]

    def words(self, at, count):
        return struct.unpack('<%dQ' % count, self.read(at, 8 * count))


class Arena:
    """The record of an arena as it stands in memory."""

    def __init__(self, at, memory, facts):
        at_field = {name: at + offset for name, offset in facts['state'].items()}
        self.at, self.system, self.maximum = at, memory.word(at_field['system_mem']), memory.word(
            at_field['max_system_mem'])
        self.top, self.last = memory.word(at_field['top']), memory.word(at_field['last_remainder'])
        self.next, self.next_free = memory.word(at_field['next']), memory.word(at_field['next_free'])
        self.locked = struct.unpack('<i', memory.read(at_field['mutex'], 4))[0] != 0
        self.fast_heads = memory.words(at_field['fastbinsY'], facts['fast_bins'])
        self.bins_at, self.bins = at_field['bins'], memory.words(at_field['bins'], facts['bins'])
        self.number, self.place = 0, 0
        self.chunks, self.lists, self.covered = [], [], 0


class Heap:
    """What was found: arenas, mapped chunks, caches, and remarks of what isn't certain."""

    def __init__(self, memory, facts):
        self.memory, self.facts = memory, facts
        self.safe = facts['version'] >= SAFE_LINKS
        self.remarks, self.mapped, self.caches = [], [], []
        self.places = {}        # chunk -> (word of its place, its number), of all that isn't live
        self.arenas = self.read_arenas()

    # ---- arenas and lists

    def read_arenas(self):
        """All arenas, main first, and then by when they were made; the list has the newest behind main."""
        arenas, at = [], self.facts['main_arena']
        while not arenas or at != self.facts['main_arena']:
            if not at or len(arenas) > 65536:
                raise Fault('the list of arenas is broken')
            arenas.append(Arena(at, self.memory, self.facts))
            at = arenas[-1].next
        for place, arena in enumerate(arenas):
            arena.place, arena.number = place, (len(arenas) - place) % len(arenas)
            if arena.locked:
                self.remarks.append('a thread is inside malloc with arena %d: chunks there may be between two places'
                                    % arena.number)
        return sorted(arenas, key=lambda arena: arena.number)

    def link(self, at):
        """The next chunk's address that stands at this one, in a fast bin or a cache."""
        return self.memory.word(at) ^ (at >> 12 if self.safe else 0)

    def follow(self, first, offset, what):
        """The chunks of a list without an end mark: the link stands `offset` bytes behind what it leads to."""
        found, at = [], first
        while at:
            if at % ALIGN or len(found) > MOST_LINKS:
                raise Fault('%s is broken at 0x%x' % (what, at))
            found.append(at)
            at = self.link(at + offset)
        return found

    def read_lists(self, arena):
        for index, head in enumerate(arena.fast_heads):
            chunks = self.follow(head, 16, 'fast bin %d of arena %d' % (index, arena.number))
            self.add_list(arena, 'fast', index, chunks)
        for index in range(1, len(arena.bins) // 2):
            head, chunks = arena.bins_at + 16 * (index - 1) - 16, []
            at = arena.bins[2 * (index - 1)]
            while at not in (head, 0):
                if at % ALIGN or len(chunks) > MOST_LINKS:
                    raise Fault('bin %d of arena %d is broken at 0x%x' % (index, arena.number, at))
                chunks.append(at)
                at = self.memory.word(at + 16)
            self.add_list(arena, 'bin', index, chunks)

    def add_list(self, arena, kind, index, chunks):
        if chunks:
            arena.lists.append((kind, index, chunks))
            self.places.update((chunk, (kind, index)) for chunk in chunks)

    def read_caches(self):
        """The structure and the lists of each thread's cache."""
        for thread, (cache, _) in enumerate(self.facts['threads']):
            number = min(thread, 63)
            if not cache:
                continue
            self.places[cache - 16] = ('structure', number)
            heads = self.memory.words(cache + self.facts['cache_entries'], self.facts['cache_lists'])
            for index, head in enumerate(heads):
                users = self.follow(head, 0, 'list %d of thread %d' % (index, number))
                if users:
                    self.caches.append((number, index, users))
                    self.places.update((user - 16, ('cache', number)) for user in users)
        if len(self.facts['threads']) > 64:
            self.remarks.append('there are %d threads; those from the 64th on are written as thread 63'
                                % len(self.facts['threads']))

    # ---- chunks

    def walk(self, arena, start, end):
        """The chunks from start on, up to the top or the end; whether the top was met."""
        data, offset, length = self.memory.read(start, end - start), 0, end - start
        while offset < length:
            size = struct.unpack_from('<Q', data, offset + 8)[0] & ~FLAGS
            at, left = start + offset, length - offset
            if at == arena.top:
                self.add_chunk(arena, at, size, 'top')
                return True
            if size < MIN_CHUNK or (left <= 48 and left > size):
                self.add_chunk(arena, at, min(left, FENCE) if size == 16 else left, 'fence')
                return False
            if size % ALIGN or size > left or left - size < 16:
                before = ', and the one before it at 0x%x' % arena.chunks[-1][0] if arena.chunks else ''
                raise Fault('the chunk at 0x%x of arena %d says that it has %d bytes, which can\'t be: it was written '
                            'over, or isn\'t the C library\'s. Its block begins at 0x%x%s'
                            % (at, arena.number, size, at + 16, before))
            in_use = struct.unpack_from('<Q', data, offset + size + 8)[0] & IN_USE if left - size >= 16 else 1
            self.add_chunk(arena, at, size, None, bool(in_use))
            offset += size
        return False

    def add_chunk(self, arena, at, size, word, in_use=True):
        if word is None and not in_use and at not in self.places:
            self.remarks.append('the chunk at 0x%x is free and in no bin; it is written as live' % at)
        arena.chunks.append((at, size, word))
        arena.covered += size

    def walk_main(self, arena):
        first = self.facts['sbrk_base']
        if not arena.system or not first:
            return
        first += -first % ALIGN
        end = self.end_of_mapping(first)
        if first <= arena.top < end:
            end = min(end, arena.top + (self.memory.word(arena.top + 8) & ~FLAGS))
        met = self.walk(arena, first, end)
        if not met:
            self.walk_piece(arena)
        if arena.covered != arena.system:
            self.remarks.append('main has %d bytes from the system, and the chunks that were found %d: someone else '
                                'moved the break, or pieces of main weren\'t found' % (arena.system, arena.covered))

    def end_of_mapping(self, at):
        for low, high in self.facts['mappings']:
            if low <= at < high:
                return high
        raise Fault('the memory at 0x%x, where the heap begins, is not there' % at)

    def walk_piece(self, arena):
        """The region of top, which begins at a page somewhere before it in its mapping."""
        low = next((low for low, high in self.facts['mappings'] if low <= arena.top < high), None)
        size = self.memory.word(arena.top + 8) & ~FLAGS if low is not None else 0
        while low is not None and low <= arena.top:
            if self.leads_to(low, arena.top):
                self.walk(arena, low, arena.top + size)
                return
            low += PAGE
        self.remarks.append("main's top at 0x%x wasn't found" % arena.top)

    def leads_to(self, at, wanted):
        while at < wanted:
            size = self.memory.word(at + 8) & ~FLAGS
            if size < MIN_CHUNK or size % ALIGN:
                return False
            at += size
        return at == wanted

    def walk_heaps(self, arena):
        """The heaps of an arena beside main, from the one of its top back to its first."""
        fields, heaps = self.facts['heap'], []
        heap = arena.top & -HEAP_MAX
        while heap:
            if len(heaps) > 65536 or self.memory.word(heap + fields['ar_ptr']) != arena.at:
                raise Fault('the heap at 0x%x is none of arena %d' % (heap, arena.number))
            heaps.append((heap, self.memory.word(heap + fields['size'])))
            heap = self.memory.word(heap + fields['prev'])
        for heap, size in sorted(heaps):
            first = heap + self.facts['heap_bytes']
            if arena.at == first:
                first += self.facts['state_bytes']
            first += -first % ALIGN
            arena.covered += first - heap
            self.walk(arena, first, heap + size)
        if arena.covered != arena.system:
            self.remarks.append('arena %d has %d bytes from the system, and the chunks that were found %d'
                                % (arena.number, arena.system, arena.covered))

    # ---- mapped chunks

    def find_mapped(self):
        """No list has the mapped chunks: they are found by their headers, at the starts of pages."""
        if not self.facts['mapped']:
            return
        heaps = {chunk[0] & -HEAP_MAX for arena in self.arenas[1:] for chunk in arena.chunks}
        for low, high in self.facts['mappings']:
            if low & -HEAP_MAX in heaps or low <= self.facts['sbrk_base'] < high:
                continue
            self.search(low, high)
        count, size = len(self.mapped), sum(chunk[1] + chunk[2] for chunk in self.mapped)
        if (count, size) != (self.facts['mapped'], self.facts['mapped_bytes']):
            self.remarks.append('the C library counts %d mapped chunks of %d bytes, and %d of %d were found'
                                % (self.facts['mapped'], self.facts['mapped_bytes'], count, size))

    def search(self, low, high):
        at, data, start = low, b'', low
        while at < high:
            if not start <= at < start + len(data):
                start, length = at, min(PIECE, high - at)
                try:
                    data = self.memory.read(start, length)
                except Fault:
                    data, at = b'', at + length
                    continue
            found = self.mapped_at(data, at - start, at, low, high)
            if found:
                self.mapped.append(found)
                at = found[0] + found[1]
            else:
                at += PAGE

    @staticmethod
    def mapped_at(data, offset, at, low, high):
        """The mapped chunk of this page: its start, size and lead."""
        for lead in (0,) + LEADS:
            if offset + lead + 16 > len(data):
                continue
            before, size = struct.unpack_from('<QQ', data, offset + lead)
            size, flags = size & ~FLAGS, size & FLAGS
            if (flags == MAPPED and before % PAGE == lead and at + lead - before >= low and size >= MIN_CHUNK
                    and (size + lead) % PAGE == 0 and at + lead + size <= high):
                return at + lead, size, before
        return None

    # ---- all of it

    def read(self):
        self.read_caches()
        for arena in self.arenas:
            self.read_lists(arena)
        self.walk_main(self.arenas[0])
        for arena in self.arenas[1:]:
            self.walk_heaps(arena)
        self.find_mapped()


def user(chunk):
    return '0x%012x' % (chunk + 16)


class Writer:
    """The places of a report, line by line."""

    def __init__(self, heap):
        self.heap, self.name = heap, 0
        self.lines = ['ptmreport 1 places']
        self.totals = [0, 0]

    def place(self, at, word):
        if word:
            return word
        kind, number = self.heap.places.get(at, (None, 0))
        if kind:
            return '%s %d' % (kind, number)
        self.name += 1
        return 'live 0 %d' % self.name

    def arena(self, arena):
        last = '-' if not arena.last else user(arena.last)
        self.lines.append('arena %d system %d max %d list %d last %s'
                          % (arena.number, arena.covered, max(arena.maximum, arena.covered), arena.place, last))
        chunks = {at for at, _, _ in arena.chunks}
        for at, size, word in arena.chunks:
            self.lines.append('%s %d %s' % (user(at), size, self.place(at, word)))
        for kind, index, members in arena.lists:
            self.check_members(members, chunks, '%s %d of arena %d' % (kind, index, arena.number))
            self.lines.append('%s %d: %s' % (kind, index, ' '.join(map(user, members))))

    @staticmethod
    def check_members(members, chunks, what):
        for chunk in members:
            if chunk not in chunks:
                raise Fault('0x%x stands in %s and is no chunk: the heap was written over' % (chunk + 16, what))

    def statistics(self):
        for arena in sorted(self.heap.arenas, key=lambda arena: arena.place):
            free = sum(size for at, size, word in arena.chunks
                       if word == 'top' or self.heap.places.get(at, ('',))[0] in ('fast', 'bin'))
            self.pair('Arena %d:' % arena.place, arena.covered, arena.covered - free)
        mapped = sum(size + lead for _, size, lead in self.heap.mapped)
        self.totals = [total + mapped for total in self.totals]
        self.lines += self.pair_lines('Total (incl. mmap):', *self.totals)
        facts = self.heap.facts
        self.lines.append('max mmap regions = %10d' % max(facts['most_mapped'], len(self.heap.mapped)))
        self.lines.append('max mmap bytes   = %10d' % max(facts['most_mapped_bytes'], mapped))

    @staticmethod
    def pair_lines(head, system, used):
        return [head, 'system bytes     = %10d' % system, 'in use bytes     = %10d' % used]

    def pair(self, head, system, used):
        self.totals = [self.totals[0] + system, self.totals[1] + used]
        self.lines += self.pair_lines(head, system, used)

    def tail(self):
        heap, facts = self.heap, self.heap.facts
        numbers = {arena.at: arena.number for arena in heap.arenas}
        chunks = {at for arena in heap.arenas for at, _, _ in arena.chunks}
        for thread, index, users in heap.caches:
            self.check_members([at - 16 for at in users], chunks, 'list %d of thread %d' % (index, thread))
            self.lines.append('cache %d %d: %s' % (thread, index, ' '.join('0x%012x' % at for at in users)))
        for thread, (_, arena) in enumerate(facts['threads'][:64]):
            self.lines.append('thread %d arena %s' % (thread, numbers.get(arena, '-')))
        free, at = [], facts['free_arenas']
        while at in numbers and len(free) < len(numbers):
            free.append(str(numbers[at]))
            at = next(arena.next_free for arena in heap.arenas if arena.at == at)
        self.lines.append('book free %s next %s limit %d' % (','.join(free) or '-', numbers.get(
            facts['next_arena'], '-'), facts['arena_limit']))
        self.lines.append('dials threshold %d trim %d mapped %d bytes %d' % (
            facts['mmap_threshold'], facts['trim_threshold'], len(heap.mapped),
            sum(size + lead for _, size, lead in heap.mapped)))

    def text(self):
        for arena in self.heap.arenas:
            self.arena(arena)
        self.lines.append('mapped')
        for at, size, lead in sorted(self.heap.mapped):
            self.lines.append('%s %d lead %d %s' % (user(at), size, lead, self.place(at, None)))
        self.tail()
        self.statistics()
        return '\n'.join(self.lines) + '\n'


def report_of(memory, facts):
    """The text of the report, and remarks."""
    heap = Heap(memory, facts)
    heap.read()
    return Writer(heap).text(), heap.remarks
