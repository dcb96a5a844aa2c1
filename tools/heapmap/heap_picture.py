"""Colours, strips and curves, and the SVG that is made of them."""

from html import escape

from heap_records import ANSWERS, GIVES, NULL, TAKES
from heap_report import FAST, BIN, CACHE, FENCE, HEADER, KINDS, LEAD, LIVE, STRUCTURE, TOP, TRAY

# Told apart by people with protanopia, deuteranopia and tritanopia too; what is free is hatched besides.
LIGHT = {'live-from': '#0b4f8a', 'live-to': '#a6d3f2', 'live-one': '#2b7bbf', 'cache': '#e69f00',
         'structure': '#4a2f00', 'tray': '#d98cc4', 'fast': '#f0e442', 'bin': '#d53e00', 'top': '#dfe2e6',
         'fence': '#000000', 'header': '#7d8590', 'lead': '#7d8590', 'ground': '#ffffff', 'panel': '#f6f7f9',
         'ink': '#15191f', 'soft': '#535b66', 'line': '#c9ced6', 'focus': '#0b4f8a'}
DARK = {'live-from': '#1f6db5', 'live-to': '#b5dcf7', 'live-one': '#3f8fd6', 'cache': '#e69f00',
        'structure': '#7a5200', 'tray': '#c04c96', 'fast': '#f0e442', 'bin': '#d55e00', 'top': '#3a414b',
        'fence': '#ffffff', 'header': '#9aa0a8', 'lead': '#9aa0a8', 'ground': '#14181d', 'panel': '#1b2027',
        'ink': '#e8ebef', 'soft': '#a7b0bb', 'line': '#3d4550', 'focus': '#8cc4f2'}

LEGEND = ((LIVE, 'live: a block under a name'), (CACHE, "in a thread's cache"), (STRUCTURE, 'structure of a cache'),
          (TRAY, 'in a tray'), (FAST, 'free, in a fast bin'), (BIN, 'free, in a bin'), (TOP, 'top'),
          (FENCE, 'fence'), (HEADER, "header of a heap, or a mapping's lead"))

# Of each answer the colour that its calls have in the curve.
ANSWER_COLOURS = ('cache', 'live-one', 'header', 'live-to', 'cache', 'fast', 'bin', 'header', 'fence', 'top')

WIDTH = 1100


def mixed(low, high, share):
    pairs = [(int(low[i:i + 2], 16), int(high[i:i + 2], 16)) for i in (1, 3, 5)]
    return '#' + ''.join('%02x' % round(a + (b - a) * share) for a, b in pairs)


def with_threads(colours, threads):
    """The colours with one for the live blocks of each of the threads, 'live 0' and so on, dark to light."""
    colours = dict(colours)
    for rank, thread in enumerate(threads):
        colours['live %d' % thread] = colours['live-one'] if len(threads) == 1 else mixed(
            colours['live-from'], colours['live-to'], rank / (len(threads) - 1))
    return colours


def threads_of(report):
    """The threads that have live blocks."""
    chunks = [c for a in report.arenas for c in a.chunks] + report.mapped
    return sorted({c.thread for c in chunks if c.kind == LIVE})


class Strip:
    """A heap from its first byte to its last: entries (address, size, kind, thread, number). Those of the mapped
    chunks lie one behind another, whatever is between them."""

    def __init__(self, name, arena, start, entries):
        self.name, self.arena, self.start, self.entries = name, arena, start, entries
        self.length = sum(e[1] for e in entries)


def strips_of(report):
    """The strips, those of the largest arena first; the mapped chunks count as an arena."""
    strips = []
    for arena in by_size(report.arenas):
        for region in arena.regions:
            entries = [(region.start, region.header, HEADER, 0, 0)] if region.header else []
            entries += [(c.user - 16, c.size, c.kind, c.thread, c.number)
                        for c in arena.chunks[region.first:region.last]]
            strips.append(Strip(region.name, arena.number, region.start, entries))
    if report.mapped:
        entries = []
        for c in report.mapped:
            if c.lead:
                entries.append((c.user - 16 - c.lead, c.lead, LEAD, 0, 0))
            entries.append((c.user - 16, c.size, c.kind, c.thread, c.number))
        mapped = Strip('mapped chunks', None, entries[0][0], entries)
        before = next((i for i, strip in enumerate(strips) if strip.arena is not None
                       and report.arenas[strip.arena].system < mapped.length), len(strips))
        strips.insert(before, mapped)
    return strips


def by_size(arenas):
    return sorted(arenas, key=lambda arena: (-arena.system, arena.number))


FEW, SMALL = 4, 0.02


def first_small(sizes):
    """Of sizes that fall, from which on they are small beside all, and at least two; their count where none are."""
    whole = sum(sizes)
    first = next((i for i, size in enumerate(sizes) if i >= FEW and size < SMALL * whole), len(sizes))
    return first if len(sizes) - first > 1 else len(sizes)


def colour_of(kind, thread):
    return 'live %d' % thread if kind == LIVE else KINDS[kind]


def columns_of(strip, width):
    """What of each pixel column is whose, as a dictionary from colour to share."""
    columns = [{} for _ in range(width)]
    scale, offset = width / strip.length, 0
    for _, size, kind, thread, _ in strip.entries:
        colour = colour_of(kind, thread)
        at, end = offset * scale, (offset + size) * scale
        offset += size
        column = int(at)
        while column < width and at < end:
            upto = min(end, column + 1)
            columns[column][colour] = columns[column].get(colour, 0) + upto - at
            at, column = upto, column + 1
    return columns


def heights(shares, high, least):
    """How high each share of a column is drawn: by its bytes, but none so low that nobody sees it."""
    total, few = sum(shares) or 1, min(least, high / len(shares))
    rest = sum(share for share in shares if share / total * high >= few)
    left = high - few * sum(share / total * high < few for share in shares)
    return [few if share / total * high < few else share / rest * left for share in shares]


def strip_shapes(strip, x, y, width, height, colours):
    """The strip as one path for each colour. A column in which several have a share is divided by height."""
    paths = {}
    columns = columns_of(strip, width)
    at = 0
    while at < width:
        shares = columns[at]
        upto = at + 1
        if len(shares) == 1:
            while upto < width and columns[upto].keys() == shares.keys():
                upto += 1
        low, names = 0.0, sorted(shares)
        for colour, part in zip(names, heights([shares[name] for name in names], height, 2)):
            paths.setdefault(colour, []).append('M%d %sh%dv%sh%dz' % (
                x + at, short(y + low), upto - at, short(part), at - upto))
            low += part
        at = upto
    out = ['<path d="%s" fill="%s"/>' % (''.join(d), colours[colour]) for colour, d in sorted(paths.items())]
    out.append('<rect x="%s" y="%s" width="%d" height="%d" fill="none" stroke="%s"/>'
               % (x - 0.5, y - 0.5, width + 1, height + 1, colours['soft']))
    return out


def short(number):
    return ('%.2f' % number).rstrip('0').rstrip('.')


def text(x, y, words, colours, size=12, ink='ink', anchor='start', weight='normal'):
    return ('<text x="%s" y="%s" font-size="%d" fill="%s" text-anchor="%s" font-weight="%s">%s</text>'
            % (x, y, size, colours[ink], anchor, weight, escape(words)))


def number(n):
    return format(n, ',d')


def bytes_short(n):
    for unit, word in ((1 << 30, 'GiB'), (1 << 20, 'MiB'), (1 << 10, 'KiB')):
        if n >= unit:
            return short(n / unit) + ' ' + word
    return '%d B' % n


def ticks(most):
    """Round numbers of bytes from 0 up to about the most, three to six of them."""
    step = 1
    while most / step > 5:
        step *= 2
    return range(0, int(most) + 1, step)


HIGH, CALLS_HIGH, GAP, MARGIN = 150, 110, 34, 70


def live_shapes(story, colours, left, y, inner, lines):
    """Live bytes over the lines: an area up to the most of each bucket, and a band from its least to its most; above
    them the bytes from the system, where they are known."""
    out, buckets = [], story.buckets
    most = max([1, story.peak[0]] + [system for _, system in story.system])
    each = inner / len(buckets)

    def up(n):
        return short(y + HIGH - HIGH * n / most)

    for tick in ticks(most):
        out.append('<path d="M%s %sh%s" stroke="%s"/>' % (left, up(tick), short(inner), colours['line']))
        out.append(text(left - 6, float(up(tick)) + 4, bytes_short(tick), colours, 11, 'soft', 'end'))
    ends = [(short(left + i * each), short(left + (i + 1) * each)) for i in range(len(buckets))]
    top = ['%s %sH%s' % (low, up(b[2]), high) for b, (low, high) in zip(buckets, ends)]
    bottom = ['%s %sH%s' % (high, up(b[1]), low) for b, (low, high) in reversed(list(zip(buckets, ends)))]
    base = short(y + HIGH)
    out.append('<path d="M%s %sL%sV%sz" fill="%s"/>' % (left, base, 'L'.join(top), base, colours['live-one']))
    out.append('<path d="M%sL%sz" fill="%s" stroke="%s" stroke-width="1"/>'
               % ('L'.join(top), 'L'.join(bottom), colours['live-from'], colours['live-from']))
    if story.system:
        count = max(1, lines - 1)
        points = ['%s %s' % (short(left + inner * max(0, line - 2) / count), up(system)) for line, system in story.system]
        out.append('<path d="M%s" fill="none" stroke="%s" stroke-width="2"/>' % ('L'.join(points), colours['bin']))
        out += ['<circle cx="%s" cy="%s" r="2.5" fill="%s"><title>line %s: %s bytes from the system</title></circle>'
                % (*point.split(' '), colours['bin'], number(line), number(system))
                for point, (line, system) in zip(points, story.system)]
    return out


def call_shapes(story, colours, left, middle, inner):
    """How many calls of each bucket were served how: takes and nulls above the line, gives below it."""
    paths, buckets = {}, story.buckets
    each, full = inner / len(buckets), max(sum(b[4]) for b in buckets)
    for i, bucket in enumerate(buckets):
        for group, sign in ((TAKES + (NULL,), -1), (GIVES, 1)):
            level = 0.0
            for answer in group:
                part = bucket[4][answer] / full * CALLS_HIGH / 2
                if part:
                    paths.setdefault(answer, []).append('M%s %sh%sv%sh-%sz' % (
                        short(left + i * each), short(middle + sign * level), short(each), short(sign * part),
                        short(each)))
                level += part
    out = ['<path d="%s" fill="%s"/>' % (''.join(paths[a]), colours[ANSWER_COLOURS[a]]) for a in sorted(paths)]
    out.append('<path d="M%s %sh%s" stroke="%s"/>' % (left, short(middle), short(inner), colours['ink']))
    for word, side in (('takes', -1), ('gives', 1)):
        out.append(text(left - 6, middle + side * CALLS_HIGH / 4 + 4, word, colours, 11, 'soft', 'end'))
    return out


def curve_shapes(report, story, colours, x, y, width):
    """Live bytes, and below them the calls, over the lines of the trace. Gives shapes and the height they take."""
    left, inner, count = x + MARGIN, width - MARGIN, len(report.records)
    calls = y + HIGH + GAP
    names = 'names' if report.threads_form else 'names and in trays'
    head = 'Live bytes behind each line: the sizes of the chunks under ' + names
    if story.system:
        head = 'Bytes from the system (line), and live (area): the sizes of the chunks under ' + names
    out = [text(left, y - 8, head, colours, 12, weight='bold'),
           text(left, calls - 8, 'Calls: takes above the line, gives below it', colours, 12, weight='bold')]
    if story.buckets:
        out += live_shapes(story, colours, left, y, inner, count)
        out += call_shapes(story, colours, left, calls + CALLS_HIGH / 2, inner)
    for _, line in story.borders:
        out.append('<path d="M%s %sV%s" stroke="%s"/>'
                   % (short(left + (line - 2) / count * inner), y, calls + CALLS_HIGH, colours['soft']))
    under = calls + CALLS_HIGH + 14
    out.append(text(left, under, 'line 2', colours, 11, 'soft'))
    out.append(text(left + inner, under, 'line %s' % number(count + 1), colours, 11, 'soft', 'end'))
    at = left
    for answer in TAKES + (NULL,) + GIVES:
        out.append('<rect x="%d" y="%d" width="10" height="10" fill="%s" stroke="%s"/>'
                   % (at, under + 7, colours[ANSWER_COLOURS[answer]], colours['soft']))
        out.append(text(at + 14, under + 16, ANSWERS[answer], colours, 11))
        at += 30 + 6.4 * len(ANSWERS[answer])
    return out, under + 26 - y


def legend_shapes(threads, colours, x, y, width):
    out, at, line = [], x, 0
    items = [(colours['live %d' % t], 'live, thread %d' % t) for t in threads[:8]]
    if len(threads) > 8:
        items = [(colours['live %d' % threads[0]], 'live, thread %d' % threads[0]),
                 (colours['live %d' % threads[-1]], 'to thread %d, dark to light' % threads[-1])]
    items += [(colours[KINDS[kind]], words) for kind, words in LEGEND if kind != LIVE]
    for colour, words in items:
        need = 34 + int(6.6 * len(words))
        if at + need > x + width:
            at, line = x, line + 1
        out.append('<rect x="%d" y="%d" width="12" height="12" fill="%s" stroke="%s"/>'
                   % (at, y + line * 20, colour, colours['soft']))
        out.append(text(at + 17, y + line * 20 + 10, words, colours))
        at += need
    return out, line * 20 + 24


TABLE = (('arena', 0), ('system', 160), ('maximum', 290), ('in use', 420), ('live', 550), ('cached', 680),
         ('free in bins', 810), ('top', 940), ('stuck', 1070))


def table_shapes(rows, colours, x, y):
    """The table an arena, in the few columns that a picture has room for."""
    out = []
    for name, at in TABLE:
        out.append(text(x + at, y, name, colours, 12, 'soft', 'start' if at == 0 else 'end'))
    for i, row in enumerate(rows):
        under = y + 20 * (i + 1)
        stuck = row['fast'] + row['bins']
        words = [row['name']] + ['' if n is None else number(n) for n in (
            row['system'], row['maximum'], row['in use'], row['live'], row['cached'], stuck, row['top'])]
        words.append('%.1f %%' % (100 * stuck / row['system']) if row['system'] else '-')
        for (_, at), word in zip(TABLE, words):
            out.append(text(x + at, under, word, colours, 12, 'ink', 'start' if at == 0 else 'end',
                            'bold' if row['name'] == 'all' else 'normal'))
    return out, 20 * (len(rows) + 1)


def svg_of(report, story, rows, title):
    """The whole picture: legend, strips, table and curves."""
    threads = threads_of(report)
    colours = with_threads(LIGHT, threads)
    out, x, y = [text(20, 30, title, colours, 18, weight='bold')], 20, 46
    shapes, high = legend_shapes(threads, colours, x, y, WIDTH)
    out += shapes
    y += high + 22
    for strip in strips_of(report):
        out.append(text(x, y, '%s, %s bytes from 0x%012x' % (strip.name, number(strip.length), strip.start), colours))
        out.append('<g><title>%s: %d bytes</title>' % (escape(strip.name), strip.length))
        out += strip_shapes(strip, x, y + 6, WIDTH, 30, colours) + ['</g>']
        y += 62
    y += 10
    shapes, high = table_shapes(rows, colours, x, y)
    out += shapes
    y += high + 36
    shapes, high = curve_shapes(report, story, colours, x, y, WIDTH)
    out += shapes
    y += high + 10
    return ('<svg xmlns="http://www.w3.org/2000/svg" viewBox="0 0 %d %d" width="%d" height="%d" '
            'font-family="sans-serif">\n<rect width="100%%" height="100%%" fill="%s"/>\n%s\n</svg>\n'
            % (WIDTH + 40, y, WIDTH + 40, y, colours['ground'], '\n'.join(out)))
