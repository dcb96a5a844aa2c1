"""The self-contained page: tables as HTML, chunks as packed numbers that strips.js draws."""

import base64
import json
import os
from html import escape

from heap_picture import (DARK, LEGEND, LIGHT, WIDTH, by_size, bytes_short, curve_shapes, first_small, number,
                          strip_shapes, strips_of, threads_of, with_threads)
from heap_records import ANSWERS, COMMANDS
from heap_report import BIN, CACHE, FAST, FENCE, KINDS, LEAD, LIVE, STRUCTURE, TOP, TRAY

COLUMNS = (('system', 'from the system'), ('maximum', 'at most'), ('in use', 'in use (malloc_stats)'),
           ('live', 'live under names'), ('trays', 'in trays'), ('cached', 'in caches'),
           ('structures', 'cache structures'), ('fast', 'free in fast bins'), ('bins', 'free in bins'),
           ('top', 'top'), ('rest', 'headers, fences, leads'))


ONE_SCALE = 3       # from so many strips on they are drawn to one scale, and the table stands before them


class Html(str):
    """Words of a cell that are HTML already."""


def rows_of(report):
    """The table an arena: a row for each arena, the largest first, for the mapped chunks, and for all, as numbers of
    bytes. `hole_at` is the user's address of the largest hole."""
    rows = []
    for arena in by_size(report.arenas):
        hole = max((c for c in arena.chunks if c.kind in (FAST, BIN)), key=lambda c: c.size, default=None)
        rows.append({'name': arena.name(), 'system': arena.system, 'maximum': arena.maximum, 'in use': arena.in_use(),
                     'live': arena.bytes_of(LIVE), 'trays': arena.bytes_of(TRAY), 'cached': arena.bytes_of(CACHE),
                     'structures': arena.bytes_of(STRUCTURE), 'fast': arena.bytes_of(FAST),
                     'bins': arena.bytes_of(BIN), 'top': arena.bytes_of(TOP),
                     'rest': arena.headers() + arena.bytes_of(FENCE), 'hole': hole.size if hole else 0,
                     'hole_at': hole.user if hole else None,
                     'threads': [t for t, a in report.threads if a == str(arena.number)]})
    sizes = {kind: sum(c.size for c in report.mapped if c.kind == kind) for kind in (LIVE, STRUCTURE, TRAY)}
    whole = report.dials['bytes']
    rows.append({'name': 'mapped', 'system': whole, 'maximum': report.most_mapped[1], 'in use': whole,
                 'live': sizes[LIVE], 'trays': sizes[TRAY], 'cached': 0, 'structures': sizes[STRUCTURE], 'fast': 0,
                 'bins': 0, 'top': 0, 'rest': sum(c.lead for c in report.mapped), 'hole': 0, 'hole_at': None,
                 'threads': []})
    total = {key: sum(row[key] for row in rows) for key, _ in COLUMNS}
    largest = max(rows, key=lambda row: row['hole'])
    total.update(name='all', maximum=None, hole=largest['hole'], hole_at=largest['hole_at'], threads=[])
    return rows + [total]


def varint(out, n):
    while n > 127:
        out.append(n & 127 | 128)
        n >>= 7
    out.append(n)


def packed(strip):
    """The entries of a strip: for each the gap before it and its size, both in 16 bytes, its kind, and the numbers
    that its kind has."""
    out, end = bytearray(), strip.start
    for address, size, kind, thread, name in strip.entries:
        varint(out, (address - end) // 16)
        varint(out, size // 16)
        out.append(kind)
        if kind in (LIVE, CACHE, STRUCTURE):
            varint(out, thread)
        if kind in (LIVE, TRAY, FAST, BIN):
            varint(out, name)
        end = address + size
    return base64.b64encode(bytes(out)).decode('ascii')


def numbers_of(report):
    """Of each free and cached chunk its number among the entries of all strips, by the user's address."""
    places, at = {}, 0
    for strip in strips_of(report):
        for entry in strip.entries:
            if entry[2] in (CACHE, FAST, BIN):
                places[entry[0] + 16] = at
            at += 1
    return places


def lists_of(report, places):
    """The lists of bins and caches: the arena or None, what it is, and the numbers of its chunks."""
    lists = [(a.name(), '%s %d' % (kind, index), [places[u] for u in users])
             for a in report.arenas for kind, index, users, _ in a.lists]
    return lists + [('cache of thread %d' % thread, 'cache list %d' % index, [places[u] for u in users])
                    for thread, index, users, _ in report.caches]


def table(name, heads, rows, caption, small=()):
    """A table whose first column is text and whose others are numbers. A row is (name, cells), a cell (value, words,
    key); the value stands in the page too, for whoever reads it by a program. Rows that are small can be folded."""
    out = ['<div class="wide"><table id="%s"><caption>%s</caption><thead><tr>' % (name, escape(caption))]
    out += ['<th scope="col">%s</th>' % escape(head) for head in heads]
    out.append('</tr></thead><tbody>')
    for row, cells in rows:
        out.append('<tr data-row="%s"%s><th scope="row">%s</th>'
                   % (escape(row), ' data-small' if row in small else '', escape(row)))
        out += ['<td data-of="%s" data-value="%s">%s</td>'
                % (key, '' if value is None else value, words if isinstance(words, Html) else escape(words))
                for value, words, key in cells]
        out.append('</tr>')
    return '\n'.join(out) + '</tbody></table></div>'


def share(part, whole):
    return '%.1f\u00a0%%' % (100 * part / whole) if whole else '-'


def link_to(user, places, words):
    """Words that lead to a chunk in its strip."""
    return Html('<button type="button" class="link" data-go="%d">%s</button>' % (places[user], escape(words)))


def arenas_table(rows, places):
    small = [row['name'] for row in rows[first_small([row['system'] for row in rows[:-2]]):-2]]
    heads = ['arena'] + [words for _, words in COLUMNS] + ['stuck: free, not top', 'share', 'largest hole', 'threads']
    lines = []
    for row in rows:
        cells = [(row[key], '-' if row[key] is None else number(row[key]), key) for key, _ in COLUMNS]
        stuck = row['fast'] + row['bins']
        cells += [(stuck, number(stuck), 'stuck'), (None, share(stuck, row['system']), 'share'),
                  (row['hole'], link_to(row['hole_at'], places, number(row['hole'])) if row['hole'] else '0', 'hole'),
                  (None, ', '.join(map(str, row['threads'])) or '-', 'threads')]
        lines.append((row['name'], cells))
    return table('arenas', heads, lines, 'Bytes of each arena and of the mapped chunks. Chunks in caches and trays '
                 'count as in use; stuck is what is free and in a bin, so that only a block that fits there can use it.', small)


def calls_table(story):
    heads = ['call'] + list(ANSWERS) + ['all']
    lines = []
    for command in COMMANDS:
        counts = [story.calls.get((command, i), 0) for i in range(len(ANSWERS))]
        if any(counts):
            lines.append((COMMANDS[command], [(n, number(n) if n else '-', 'answer') for n in counts]
                          + [(sum(counts), number(sum(counts)), 'all')]))
    return table('calls', heads, lines, 'Calls, and where they were served. A realloc counts where its block is then.')


def facts(report, story, rows, places):
    total = rows[-1]
    stuck = total['fast'] + total['bins']
    shown = (('from the system', total['system']), ('live', total['live'] + total['trays']),
             ('in caches', total['cached']), ('stuck: free, not top', stuck), ('top', total['top']))
    if story.buckets and not report.threads_form:
        shown += (('most live bytes', story.peak[0]),)
    out = []
    for words, value in shown:
        note = '%s bytes' % number(value)
        if words.startswith('most'):
            note += ', line %s' % number(story.peak[2])
        elif not words.startswith('from'):
            note += ', ' + share(value, total['system'])
        out.append('<div><dt>%s</dt><dd>%s<small>%s</small></dd></div>' % (words, bytes_short(value), note))
    if total['hole']:
        out.append('<div><dt>largest hole</dt><dd>%s<small>%s bytes, %s</small></dd></div>' % (
            bytes_short(total['hole']), number(total['hole']), link_to(total['hole_at'], places, 'show it')))
    return '<dl class="facts">%s</dl>' % ''.join(out)


def legend(threads):
    items = [('live %d' % t, 'live, thread %d' % t) for t in threads[:8]]
    if len(threads) > 8:
        items = [('live %d' % threads[0], 'live, thread %d' % threads[0]),
                 ('live %d' % threads[-1], 'up to thread %d, from dark to light' % threads[-1])]
    items += [(KINDS[kind], words) for kind, words in LEGEND if kind != LIVE]
    return '<ul class="legend"><li><span class="tick"></span>above a strip: live blocks that are less than a tenth there' \
           '</li>%s</ul>' % ''.join(
        '<li><span class="swatch" style="background-color:var(--%s)"%s></span>%s</li>'
        % (key.replace(' ', '-'), ' data-free' if key in ('bin', 'fast') else '', escape(words))
        for key, words in items)


def variables(colours):
    return ''.join('--%s:%s;' % (key.replace(' ', '-'), value) for key, value in sorted(colours.items()))


def figures(report, colours):
    """A figure for each strip. Without a script it shows the same strip as an image that can't be zoomed."""
    out, strips = [], strips_of(report)
    weights = [report.dials['bytes'] if s.arena is None else report.arenas[s.arena].system for s in strips]
    small = first_small(weights)
    for i, strip in enumerate(strips):
        if i == small:
            out.append('<details class="small"><summary>%d small strips, %s bytes together</summary>'
                       % (len(strips) - small, number(sum(s.length for s in strips[small:]))))
        chunks = sum(1 for e in strip.entries if e[2] < LEAD - 1)
        image = ''.join(strip_shapes(strip, 0.5, 0.5, WIDTH, 40, colours)) if len(strip.entries) else ''
        out.append('<figure class="strip" data-strip="%d" data-arena="%s" data-bytes="%d"><figcaption>'
                   '<span><b>%s</b>, %s bytes from <code>0x%012x</code>, %s chunk%s</span><span class="tools"></span>'
                   '</figcaption>'
                   '<noscript><svg viewBox="0 0 %d 41" width="100%%" height="44" preserveAspectRatio="none">%s</svg>'
                   '</noscript></figure>'
                   % (i, 'mapped' if strip.arena is None else strip.arena, strip.length, escape(strip.name[0].upper()
                      + strip.name[1:]), number(strip.length), strip.start, number(chunks), '' if chunks == 1 else 's',
                      WIDTH + 1, image))
    if small < len(strips):
        out.append('</details>')
    return '\n'.join(out) or '<p>Nothing was asked from the system.</p>'


def curves(report, story, threads):
    keys = list(with_threads(LIGHT, threads))
    colours = {key: 'var(--%s)' % key.replace(' ', '-') for key in keys}
    shapes, high = curve_shapes(report, story, colours, 0, 30, WIDTH)
    note = ''
    if not report.records:
        return '<p id="reading">The trace has no calls.</p><svg id="curves" width="0" height="0"></svg>'
    if report.threads_form:
        note = ('<p class="note">The records of this report stand thread by thread, not in the order in which they '
                'were served; the curve runs through them so. Upright lines show where a thread begins.</p>')
    return ('<div class="wide"><svg id="curves" role="img" aria-label="Live bytes and calls over the lines of the '
            'trace" viewBox="0 0 %d %d">%s</svg></div><p id="reading" class="note" aria-live="polite">%s</p>%s'
            % (WIDTH, high + 40, '\n'.join(shapes), '' if report.threads_form else
               'The most were %s live bytes, in %s blocks, behind line %s.' % tuple(map(number, story.peak)), note))


def other_lines(report):
    book, dials = report.book.groups(), report.dials
    return ('<p>A block is mapped from %s bytes on, and top is trimmed from %s bytes on. Most mapped chunks at once: '
            '%s, with %s bytes at most. Arenas that no thread is attached to: %s; the next to be reused: %s; limit on '
            'arenas: %s.</p>' % (number(dials['threshold']), number(dials['trim']), number(report.most_mapped[0]),
                                 number(report.most_mapped[1]), 'none' if book[0] == '-' else book[0].replace(',', ', '),
                                 'none yet' if book[1] == '-' else book[1],
                                 'not settled' if book[2] == '0' else book[2]))


def page_of(report, story, rows, title, note):
    folder = os.path.dirname(os.path.abspath(__file__))
    parts = {}
    for name in ('page.css', 'strips.js', 'tables.js'):
        with open(os.path.join(folder, name), encoding='utf-8') as file:
            parts[name] = file.read()
    threads = threads_of(report)
    light, dark = with_threads(LIGHT, threads), with_threads(DARK, threads)
    places, strips = numbers_of(report), strips_of(report)
    data = {'kinds': KINDS, 'light': light, 'dark': dark,
            'strips': [{'name': s.name, 'start': s.start, 'length': s.length, 'count': len(s.entries),
                        'packed': packed(s)} for s in strips],
            'lists': lists_of(report, places), 'buckets': [b[:4] for b in story.buckets], 'lines': len(report.records) + 1,
            'width': WIDTH}
    style = (':root{%s}\n@media (prefers-color-scheme: dark){:root{%s}}\n@media print{:root{%s}}\n'
             % (variables(light), variables(dark), variables(light)))
    where = WHERE % {'legend': legend(threads), 'figures': figures(report, light),
                     'checked': ' checked' if len(strips) >= ONE_SCALE else ''}
    each = EACH % {'arenas': arenas_table(rows, places), 'other': other_lines(report)}
    return PAGE % {
        'title': escape(title), 'note': escape(note), 'style': style + parts['page.css'],
        'script': parts['strips.js'] + '\n' + parts['tables.js'],
        'data': json.dumps(data, separators=(',', ':')).replace('</', '<\\/'),
        'facts': facts(report, story, rows, places), 'hidden': ' hidden' if report.of_process else '',
        'sections': each + where if len(strips) >= ONE_SCALE else where + each, 'calls': calls_table(story),
        'curves': curves(report, story, threads)}


WHERE = '''<section><h2>Where the bytes are</h2>
%(legend)s
<p class="note screen">Point at a chunk, or go to a strip with Tab: left and right go from chunk to chunk, n and p to the
next live block and the one before, h and g to the next hole and the one before, + and - zoom, Page Up and Page Down move
the view, Home and End go to the ends, Escape shows the whole strip. Dragging zooms into what was marked, a double click
shows the whole.</p>
<p class="screen"><label><input type="checkbox" id="onescale"%(checked)s> all strips to one scale</label></p>
<p id="chosen" aria-live="polite">No chunk is chosen.</p>
%(figures)s
</section>
'''

EACH = '''<section><h2>Bytes of each arena</h2>
%(arenas)s
%(other)s
</section>
'''

PAGE = '''<!doctype html>
<html lang="en">
<head>
<meta charset="utf-8">
<meta name="viewport" content="width=device-width, initial-scale=1">
<title>%(title)s</title>
<link rel="icon" href="data:,">
<style>
%(style)s</style>
</head>
<body>
<header><h1>%(title)s</h1><p class="note">%(note)s</p></header>
<main>
%(facts)s
%(sections)s<section%(hidden)s><h2>Over the lines of the trace</h2>
%(curves)s
%(calls)s
</section>
<section class="screen"><h2>Look up a chunk</h2>
<form id="search">
<label>address, place or heap <input id="words" type="text" autocomplete="off" spellcheck="false" size="22"
 placeholder="0x5555555592a0, bin 79, arena 1"></label>
<label>place <select id="kind"><option value="">any</option></select></label>
<label>order <select id="order"><option value="address">by address</option><option value="size">largest
first</option></select></label>
<button type="button" id="earlier">earlier</button><button type="button" id="later">later</button>
<span id="found" aria-live="polite"></span>
</form>
<div class="wide"><table id="chunks"><thead><tr><th scope="col">user's address</th><th scope="col">size</th>
<th scope="col">place</th><th scope="col">where</th></tr></thead><tbody></tbody></table></div>
</section>
<section><h2>Lists of bins and caches</h2>
<p class="note">From the front of each list, as the allocator walks it; those of a cache from the newest chunk.</p>
<div id="lists"></div>
</section>
</main>
<div id="tip" role="tooltip" hidden></div>
<script type="application/json" id="data">%(data)s</script>
<script>
%(script)s</script>
</body>
</html>
'''
