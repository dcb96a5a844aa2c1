"""Follows the names through the records of a report: live bytes and calls over the lines, and the trace again."""

from heap_report import LIVE, TRAY, Fault

BUCKETS = 600       # the lines are gathered into so many columns at most

COMMANDS = {'m': 'malloc', 'c': 'calloc', 'r': 'realloc', 'a': 'posix_memalign', 'f': 'free',
            'p': 'to a tray', 't': 'from a tray', 'x': 'end of a thread', 's': 'malloc_stats', 'o': 'mallopt'}

# Where a call was served, takes first; what follows 'other' stands for all that takes and gives nothing.
ANSWERS = ('from a cache', 'from an arena', 'mapped', 'kept', 'to a cache', 'to a fast bin', 'to an arena',
           'unmapped', 'null', 'other')
TAKES, GIVES, NULL, OTHER = (0, 1, 2, 3), (4, 5, 6, 7), 8, 9
TAKEN = {'cached': 0, 'arena': 1, 'mapped': 2, 'kept': 3}
FREED = {'cached': 4, 'fast': 5, 'binned': 6, 'unmapped': 7}


class Story:
    """What the records tell. A bucket has its first line, the least and the most live bytes behind a line of it, the
    blocks behind its last, and how many calls were answered how. Blocks in trays are live; but a report of threads
    has its records thread by thread, where a take may stand above its post, and so only named blocks count there."""

    def __init__(self, trays_count):
        self.trays_count = trays_count
        self.buckets = []
        self.calls = {}         # by command and answer, how many
        self.peak = (0, 0, 1)   # live bytes, live blocks, line
        self.live = {}          # (thread, name) -> (user, size)
        self.trays = {}         # tray -> size; negative where its take stands above its post
        self.borders = []       # in a report of threads: (thread, its first record)
        self.total = self.blocks = 0
        self.system = []        # from a table beside: (line, bytes from the system behind it)

    def put(self, key, block):
        """The name has this block from now on, or none."""
        old = self.live.pop(key, None)
        if block:
            self.live[key] = block
        self.total += (block[1] if block else 0) - (old[1] if old else 0)
        self.blocks += bool(block) - bool(old)

    def tray(self, number, size):
        """So many bytes went into the tray, or were taken."""
        self.trays[number] = self.trays.get(number, 0) + size
        if self.trays_count:
            self.total += size
            self.blocks += 1 if size > 0 else -1

    def step(self, line, fields, said):
        """One record, whose answer and block these are."""
        answer, block = answer_of(said.split(' '))
        thread, command = int(fields[0]), fields[1]
        key = (thread, int(fields[2])) if command in 'mcraftp' else None
        old = self.live.get(key)
        if old and command in 'mcat':
            raise Fault('line %d: the name %d of thread %d has a block already' % (line, key[1], thread))
        if command == 'p' and said == 'posted' and old:
            self.put(key, None)
            self.tray(int(fields[3]), old[1])
        elif command == 't' and block:
            self.put(key, block)
            self.tray(int(fields[3]), -block[1])
        elif block and command in 'mcra':
            self.put(key, block)
        elif block:
            raise ValueError
        elif answer in GIVES and command in 'fr' and old:
            self.put(key, None)
        self.calls[command, answer] = self.calls.get((command, answer), 0) + 1
        return answer


def answer_of(words):
    """Which of ANSWERS these words of an answer are, and the address and size in them, or None."""
    first = words[0]
    if first.startswith('0x') and len(words) > 2:
        where = words[3] if words[2] == 'moved' and len(words) > 3 else words[2]
        return TAKEN.get(where, OTHER), (int(first, 16), int(words[1]))
    if first == 'freed' and len(words) > 1:
        first = words[1]
    if first == 'taken' and len(words) > 2:
        return OTHER, (int(words[1], 16), int(words[2]))
    return FREED.get(first, NULL if first == 'null' else OTHER), None


def follow(report):
    """The story of the records; raises Fault where they don't lead to the chunks of the report."""
    story = Story(not report.threads_form)
    if report.of_process:
        if report.records:
            raise Fault('line 2: the places of a process have no records')
        return story
    width = max(1, -(-len(report.records) // BUCKETS))
    before = bucket = None
    for at, record in enumerate(report.records):
        line = at + 2
        call, _, said = record.partition(' -> ')
        fields = call.split(' ')
        if at % width == 0:
            bucket = [line, None, 0, 0, [0] * len(ANSWERS)]
            story.buckets.append(bucket)
        try:
            bucket[4][story.step(line, fields, said)] += 1
        except (ValueError, IndexError):
            raise Fault('line %d: no answer of a record is so' % line)
        total = story.total
        bucket[1] = total if bucket[1] is None else min(bucket[1], total)
        bucket[2], bucket[3] = max(bucket[2], total), story.blocks
        if total > story.peak[0]:
            story.peak = (total, story.blocks, line)
        if report.threads_form and fields[0] != before:
            before = fields[0]
            story.borders.append((int(before), line))
    check(report, story)
    return story


def system_of(text, count):
    """The bytes from the system over the lines, of a table whose first line names its columns, `line` and `system` among
    them; the trace has so many lines."""
    rows = [line.split() for line in text.splitlines() if line.strip()]
    if not rows or 'line' not in rows[0] or 'system' not in rows[0]:
        raise Fault("its first line doesn't name the columns 'line' and 'system'")
    line, system = rows[0].index('line'), rows[0].index('system')
    try:
        found = sorted((int(row[line]), int(row[system])) for row in rows[1:])
    except (ValueError, IndexError):
        raise Fault('a row has no number for each column')
    if not found or found[0][0] < 1 or found[-1][0] > count:
        raise Fault('its lines are not those of a trace of %d lines' % count)
    return found


def check(report, story):
    """What is live by the records is what is live in the places, and the threads are the same."""
    threads = {int(record.partition(' ')[0]) for record in report.records}
    if sorted(threads) != [thread for thread, _ in report.threads]:
        raise Fault('the threads of the records are not those that have a line')
    places, trays = {}, {}
    for chunk in [c for a in report.arenas for c in a.chunks] + report.mapped:
        if chunk.kind == LIVE:
            places[chunk.thread, chunk.number] = (chunk.user, chunk.size)
        elif chunk.kind == TRAY:
            trays[chunk.number] = chunk.size
    if places != story.live:
        wrong = [k for k in list(places) + list(story.live) if places.get(k) != story.live.get(k)]
        raise Fault('the block %d of thread %d is another in the records than among the chunks' % min(wrong)[::-1])
    if trays != {tray: size for tray, size in story.trays.items() if size}:
        raise Fault('the trays have other blocks in the records than among the chunks')


def trace_of(report, lines):
    """The first lines of the trace that the report is of, as bytes."""
    if report.threads_form:
        raise Fault("this is a report of threads, whose records don't stand in the order of the trace")
    if report.of_process:
        raise Fault('this is the heap of a process, which has no lines of a trace')
    calls = [record.partition(' -> ')[0] for record in report.records[:lines - 1]]
    wide = any(int(f[2]) > 65535 for f in (c.split(' ') for c in calls) if f[1] in 'mcraftp')
    return ('\n'.join(['ptmtrace %d' % (2 if wide else 1)] + calls) + '\n').encode('ascii')
