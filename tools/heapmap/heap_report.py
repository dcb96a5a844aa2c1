"""Reads a report of ptmreplay, and checks that it fits together."""

import re

KINDS = ('live', 'cache', 'structure', 'tray', 'fast', 'bin', 'top', 'fence', 'header', 'lead')
LIVE, CACHE, STRUCTURE, TRAY, FAST, BIN, TOP, FENCE, HEADER, LEAD = range(len(KINDS))

PAGE = 4096
PIECES = 0x5a0000000000     # main's pieces begin here; its break ends below
HEADERS = (0x8c0, 0x20)     # of an arena's first heap, with the arena's record, and of its other heaps

# The words behind an address and a size: of each place its kind and how many numbers follow it.
PLACES = {'live': (LIVE, 2), 'cache': (CACHE, 1), 'structure': (STRUCTURE, 1), 'tray': (TRAY, 1),
          'fast': (FAST, 1), 'bin': (BIN, 1), 'top': (TOP, 0), 'fence': (FENCE, 0)}
MAPPED_PLACES = ('live', 'structure', 'tray')

FIRST_LINES = ('ptmreport 1 serial', 'ptmreport 1 threads', 'ptmreport 1 places')
RECORD = re.compile(r'[0-9]+ [a-z](?: -?[0-9]+)* -> [^ ].*\Z')
ARENA = re.compile(r'arena ([0-9]+) system ([0-9]+) max ([0-9]+) list ([0-9]+) last (-|0x[0-9a-f]{12})\Z')
LIST = re.compile(r'(fast|bin|links|cache) ([0-9]+(?: [0-9]+)?):((?: 0x[0-9a-f]{12})+)\Z')
THREAD = re.compile(r'thread ([0-9]+) arena (-|[0-9]+)\Z')
BOOK = re.compile(r'book free (-|[0-9]+(?:,[0-9]+)*) next (-|[0-9]+) limit ([0-9]+)\Z')
DIALS = re.compile(r'dials threshold ([0-9]+) trim ([0-9]+) mapped ([0-9]+) bytes ([0-9]+)\Z')
CHUNK = re.compile(r'0x([0-9a-f]{12}) ([0-9]+) (?:lead ([0-9]+) )?([a-z]+)(?: ([0-9]+))?(?: ([0-9]+))?\Z')
NUMBER = re.compile(r'(?:0|[1-9][0-9]*)\Z')


class Fault(Exception):
    """The report isn't one; the text says why in one line."""


class Chunk:
    """A chunk of an arena, or a mapped one: its user's address, its size, its place, and its lead."""
    __slots__ = ('user', 'size', 'kind', 'thread', 'number', 'lead')

    def __init__(self, user, size, kind, thread, number, lead=0):
        self.user, self.size, self.kind = user, size, kind
        self.thread, self.number, self.lead = thread, number, lead


class Region:
    """Bytes in a row that an arena has from the system: its header, and then the chunks from first up to last."""

    def __init__(self, name, start, header, first):
        self.name, self.start, self.header, self.first = name, start, header, first
        self.last, self.length = first, header


class Arena:
    def __init__(self, number, system, maximum, place, last):
        self.number, self.system, self.maximum, self.place, self.last = number, system, maximum, place, last
        self.chunks, self.lists, self.regions = [], [], []
        self.sums = [0] * len(KINDS)

    def bytes_of(self, *kinds):
        return sum(self.sums[kind] for kind in kinds)

    def headers(self):
        return sum(r.header for r in self.regions)

    def in_use(self):
        return self.system - self.bytes_of(FAST, BIN, TOP)

    def name(self):
        return 'main' if self.number == 0 else 'arena %d' % self.number


class Report:
    """What a report says. `statistics` are its pairs of system and in-use bytes in the order of the list of arenas,
    and `total` the pair of all."""

    def __init__(self):
        self.form = 'serial'
        self.records, self.arenas, self.mapped, self.caches, self.threads = [], [], [], [], []
        self.book = self.dials = self.total = self.most_mapped = None
        self.statistics = []

    @property
    def threads_form(self):
        return self.form == 'threads'

    @property
    def of_process(self):
        """Whether it is the heap of a process at one moment, as heap_of writes it: no records, and real headers."""
        return self.form == 'places'


class Lines:
    """The lines of a text, one after another, with the number of the one that was read last."""

    def __init__(self, text):
        self.all = text.split('\n')
        if self.all[-1] != '':
            raise Fault('line %d: it has no newline; the report is cut' % len(self.all))
        self.all.pop()
        self.at = 0

    def peek(self):
        return self.all[self.at] if self.at < len(self.all) else ''

    def next(self, what):
        if self.at == len(self.all):
            raise Fault('line %d: the report ends before %s' % (self.at + 1, what))
        self.at += 1
        return self.all[self.at - 1]

    def fault(self, why):
        return Fault('line %d: %s' % (self.at, why))


def read_report(data):
    """The report that these bytes are; raises Fault where they aren't one."""
    try:
        lines = Lines(data.decode('ascii'))
    except UnicodeDecodeError as error:
        raise Fault('line %d: a byte that no report has' % (data[:error.start].count(b'\n') + 1))
    report = Report()
    read_first(lines, report)
    while lines.peek() and not lines.peek().startswith(('arena ', 'journal ')):
        if not RECORD.match(lines.next('the arenas')):
            raise lines.fault('no record, and no line of an arena')
        report.records.append(lines.all[lines.at - 1])
        if report.records[-1].endswith(' -> stats'):
            while not lines.next('the end of the statistics').startswith('max mmap bytes '):
                pass
    while lines.peek().startswith('journal ') or lines.peek()[:1].isdigit():
        lines.next('the arenas')
    while lines.peek().startswith('arena '):
        report.arenas.append(read_arena(lines, report))
    if not report.arenas:
        lines.next('the arenas')
        raise lines.fault('no line of an arena')
    read_mapped(lines, report)
    read_caches(lines, report)
    read_tail(lines, report)
    read_statistics(lines, report)
    while lines.peek().startswith(('trim ', 'discard ')):      # the chunks above are those before such a trim
        lines.next('')
    if lines.at < len(lines.all):
        lines.next('')
        raise lines.fault('a line behind the statistics')
    check_lists(report)
    check_totals(report)
    return report


def read_first(lines, report):
    first = lines.next('its first line')
    if first.startswith('ptmtrace '):
        raise lines.fault('this is a trace, not a report; ./ptmreplay < TRACE gives one')
    if first.startswith('ptmsummary '):
        raise lines.fault('this is a summary, which has no heap')
    if first not in FIRST_LINES:
        raise lines.fault("no report begins so; its first line is 'ptmreport 1 serial' or 'ptmreport 1 threads'")
    report.form = first.split(' ')[2]


def number(lines, word):
    if not NUMBER.match(word):
        raise lines.fault('%.40r is no number' % word)
    return int(word)


def read_chunk(lines, line, places, with_lead):
    found = CHUNK.match(line)
    if not found or found.group(4) not in places or (found.group(3) is not None) != with_lead:
        raise lines.fault("no chunk's line: its address, size and place are wanted" if not with_lead else
                          "no mapped chunk's line: its address, size, lead and place are wanted")
    address, size, lead, place, first, second = found.groups()
    kind, numbers = PLACES[place]
    if numbers != (first is not None) + (second is not None):
        raise lines.fault("the place '%s' has %d numbers behind it" % (place, numbers))
    user, size, lead, first, second = int(address, 16), int(size), int(lead or 0), int(first or 0), int(second or 0)
    if user % 16 or size % 16 or lead % 16 or size < 32:
        raise lines.fault('addresses, sizes and leads are multiples of 16, and sizes 32 at least')
    if kind == LIVE:
        thread, name = first, second
    else:
        thread, name = (first, 0) if kind in (CACHE, STRUCTURE) else (0, first)
    if thread > 63 or name > 0xffffffff:
        raise lines.fault('no thread is above 63, and no name above 4294967295')
    return Chunk(user, size, kind, thread, name, lead)


def read_arena(lines, report):
    wanted = len(report.arenas)
    found = ARENA.match(lines.next('an arena'))
    if not found or int(found.group(1)) != wanted:
        raise lines.fault('the line of arena %d is wanted here' % wanted)
    arena = Arena(*(int(word) for word in found.groups()[:4]), last=found.group(5))
    began = lines.at
    while lines.peek().startswith('0x'):
        add_chunk(lines, report, arena, read_chunk(lines, lines.next('a chunk'), PLACES, False))
    covered = sum(r.length for r in arena.regions)
    if covered != arena.system:
        raise Fault('line %d: the chunks of arena %d and its headers are %d bytes, its system bytes %d'
                    % (began, arena.number, covered, arena.system))
    while True:
        found = LIST.match(lines.peek())
        if not found or found.group(1) == 'cache':
            return arena
        lines.next('a list')
        kind, index, addresses = found.groups()
        if kind != 'links':
            arena.lists.append((kind, number(lines, index), [int(w, 16) for w in addresses.split()], lines.at))


def add_chunk(lines, report, arena, chunk):
    """Puts the chunk behind the others: in their region, or in a new one where there is a gap, or where a fence of a
    piece ended one."""
    at = chunk.user - 16
    region = arena.regions[-1] if arena.regions else None
    if region is not None:
        end = region.start + region.length
        if at < end:
            raise lines.fault('the chunk begins before the one above it ends')
        closed = arena.chunks[-1].kind == FENCE and at >= PIECES and at % PAGE == 0
        if at > end or closed:
            region = None
    if region is None:
        region = new_region(lines, report, arena, at)
        arena.regions.append(region)
    arena.chunks.append(chunk)
    arena.sums[chunk.kind] += chunk.size
    region.last += 1
    region.length += chunk.size


def new_region(lines, report, arena, at):
    header = 0 if report.of_process and arena.number == 0 else at % PAGE
    wanted = 0 if arena.number == 0 else HEADERS[bool(arena.regions)]
    if header != wanted and not report.of_process:
        raise lines.fault('no region of arena %d begins so; a chunk before it is missing' % arena.number)
    count = len(arena.regions)
    if arena.number:
        name = 'arena %d, heap %d' % (arena.number, count)
    elif at < PIECES:
        name = "main's break" if count == 0 else "main's break, part %d" % (count + 1)
    else:
        name = "main's piece %d" % (1 + sum(r.start >= PIECES for r in arena.regions))
    return Region(name, at - header, header, len(arena.chunks))


def read_mapped(lines, report):
    if lines.next("the line 'mapped'") != 'mapped':
        raise lines.fault("a chunk, a list, the next arena or the line 'mapped' is wanted here")
    while lines.peek().startswith('0x'):
        chunk = read_chunk(lines, lines.next('a chunk'), MAPPED_PLACES, True)
        if report.mapped and chunk.user - chunk.lead < report.mapped[-1].user + report.mapped[-1].size:
            raise lines.fault('the mapping begins before the one above it ends')
        report.mapped.append(chunk)


def read_caches(lines, report):
    while lines.peek().startswith('cache '):
        found = LIST.match(lines.next('a cache'))
        if not found or ' ' not in found.group(2):
            raise lines.fault("no list of a cache: 'cache THREAD INDEX: ADDRESS ..' is wanted")
        thread, index = (number(lines, word) for word in found.group(2).split(' '))
        report.caches.append((thread, index, [int(w, 16) for w in found.group(3).split()], lines.at))


def read_tail(lines, report):
    while lines.peek().startswith('thread '):
        found = THREAD.match(lines.next('a thread'))
        if not found:
            raise lines.fault("no thread's line")
        if found.group(2) != '-' and int(found.group(2)) >= len(report.arenas):
            raise lines.fault('there is no such arena')
        report.threads.append((int(found.group(1)), found.group(2)))
    report.book = BOOK.match(lines.next('the book of arenas'))
    if not report.book:
        raise lines.fault("a thread's line or the book of arenas is wanted here")
    found = DIALS.match(lines.next('the dials'))
    if not found:
        raise lines.fault('the dials are wanted here')
    report.dials = dict(zip(('threshold', 'trim', 'mapped', 'bytes'), map(int, found.groups())))


def read_statistics(lines, report):
    def after(label):
        line = lines.next('the end of the statistics')
        if not line.startswith(label + ' = ') or not line[len(label) + 3:].strip(' ').isdigit():
            raise lines.fault("'%s = ' and a number are wanted here" % label)
        return int(line[len(label) + 3:])

    def pair(head):
        if lines.next('the end of the statistics') != head:
            raise lines.fault("'%s' is wanted here" % head)
        return after('system bytes    '), after('in use bytes    ')

    report.statistics = [pair('Arena %d:' % i) for i in range(len(report.arenas))]
    report.total = pair('Total (incl. mmap):')
    report.most_mapped = after('max mmap regions'), after('max mmap bytes  ')


def check_lists(report):
    """Each chunk of a bin or of a cache stands once in a list of it, and nothing else does."""
    cached = {}
    for arena in report.arenas:
        where = {c.user: (c.kind, c.number) for c in arena.chunks if c.kind in (FAST, BIN)}
        cached.update((c.user, c.thread) for c in arena.chunks if c.kind == CACHE)
        for kind, index, users, line in arena.lists:
            for user in users:
                if where.pop(user, None) != (PLACES[kind][0], index):
                    raise Fault('line %d: 0x%012x is no chunk of %s %d, or stands here twice'
                                % (line, user, kind, index))
        for user, (kind, index) in where.items():
            raise Fault('arena %d: 0x%012x stands in no list of %s %d' % (arena.number, user, KINDS[kind], index))
    for thread, index, users, line in report.caches:
        for user in users:
            if cached.pop(user, None) != thread:
                raise Fault('line %d: 0x%012x is no chunk of cache %d, or stands here twice' % (line, user, thread))
    for user, thread in cached.items():
        raise Fault('0x%012x stands in no list of cache %d' % (user, thread))


def check_totals(report):
    """The statistics are those of the chunks."""
    if sorted(a.place for a in report.arenas) != list(range(len(report.arenas))):
        raise Fault('the list places of the arenas are no list')
    for arena in report.arenas:
        if report.statistics[arena.place] != (arena.system, arena.in_use()):
            raise Fault('arena %d: the statistics say %d bytes in use of %d, its chunks %d of %d'
                        % ((arena.number,) + report.statistics[arena.place][::-1] + (arena.in_use(), arena.system)))
        if arena.maximum < arena.system:
            raise Fault('arena %d: its maximum is below its system bytes' % arena.number)
    mapped = sum(c.size + c.lead for c in report.mapped)
    if (report.dials['mapped'], report.dials['bytes']) != (len(report.mapped), mapped):
        raise Fault('the dials say %d mapped chunks of %d bytes, their lines %d of %d'
                    % (report.dials['mapped'], report.dials['bytes'], len(report.mapped), mapped))
    summed = tuple(sum(pair[i] for pair in report.statistics) + mapped for i in (0, 1))
    if report.total != summed:
        raise Fault('the totals say %d bytes in use of %d, the arenas and mappings %d of %d'
                    % (report.total[::-1] + summed[::-1]))
