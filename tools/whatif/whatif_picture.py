"""The picture of a table of whatif, as an SVG: bytes, stuck bytes, mapped chunks and kernel calls over the values."""

from html import escape

from heap_picture import bytes_short, number, short, ticks

# Each series has a colour, a mark and a dash of its own, so that no colour need be seen to tell them apart.
SERIES = {'system': ('circle', '', 'from the system'), 'max-arenas': ('square', '7 4', 'maximum of the arenas'),
          'max-mapped': ('triangle', '2 3', 'maximum of the mappings'), 'in-use': ('diamond', '10 3 2 3', 'in use'),
          'stuck': ('cross', '', 'stuck: free and not top'), 'mapped': ('circle', '', 'mapped at the end'),
          'most-mapped': ('square', '7 4', 'most at once'), 'kernel-calls': ('diamond', '', 'kernel calls')}
PANELS = (('Bytes', 230, ('max-arenas', 'max-mapped', 'in-use', 'system'), bytes_short),
          ('Stuck bytes', 100, ('stuck',), bytes_short),
          ('Mapped chunks', 100, ('most-mapped', 'mapped'), number),
          ('Kernel calls', 100, ('kernel-calls',), number))

LIGHT = {'ground': '#ffffff', 'ink': '#15191f', 'soft': '#535b66', 'line': '#d5dae0', 'system': '#0072b2',
         'max-arenas': '#c24f00', 'max-mapped': '#00805c', 'in-use': '#9c4a85', 'stuck': '#c24f00',
         'mapped': '#0072b2', 'most-mapped': '#c24f00', 'kernel-calls': '#9c4a85'}
DARK = {'ground': '#14181d', 'ink': '#e8ebef', 'soft': '#a7b0bb', 'line': '#3d4550', 'system': '#56b4e9',
        'max-arenas': '#ff9a4d', 'max-mapped': '#35c79a', 'in-use': '#e79bc8', 'stuck': '#ff9a4d',
        'mapped': '#56b4e9', 'most-mapped': '#ff9a4d', 'kernel-calls': '#e79bc8'}

LEFT, INNER, RIGHT, GAP = 90, 760, 20, 62


def style_of(colours):
    """`f-` fills with a colour and `s-` strokes with it."""
    return ''.join('.f-%s{fill:%s}.s-%s{stroke:%s}' % (name, colour, name, colour) for name, colour in colours.items())


def text(x, y, words, size=12, ink='ink', anchor='start', weight='normal'):
    return ('<text class="f-%s" x="%s" y="%s" font-size="%d" text-anchor="%s" font-weight="%s">%s</text>'
            % (ink, short(x), short(y), size, anchor, weight, escape(words)))


def mark(series, x, y, words):
    """The mark of a series at a point, with words for whoever points at it. Hollow marks leave others to be seen."""
    kind = SERIES[series][0]
    paths = {'square': 'M-6-6h12v12h-12z', 'triangle': 'M0-7L7 5H-7z', 'diamond': 'M0-6L6 0L0 6L-6 0z',
             'cross': 'M-5-5L5 5M-5 5L5-5'}
    shape = ('<circle class="f-%s" r="4"/>' % series if kind == 'circle' else
             '<path class="s-%s" d="%s" fill="none" stroke-width="2"/>' % (series, paths[kind]))
    return '<g transform="translate(%s %s)"><title>%s</title>%s</g>' % (short(x), short(y), escape(words), shape)


def legend(names, x, y):
    out = []
    for name in names:
        out.append('<path class="s-%s" d="M%s %sh34" stroke-width="2" stroke-dasharray="%s"/>'
                   % (name, short(x), short(y - 4), SERIES[name][1] or 'none'))
        out.append(mark(name, x + 17, y - 4, SERIES[name][2]))
        out.append(text(x + 41, y, SERIES[name][2]))
        x += 60 + 6.6 * len(SERIES[name][2])
    return out


def runs_of(rows):
    """The places of values that are joined by lines: neither a failed run nor a run without the option is."""
    runs = [[]]
    for i, (value, row) in enumerate(rows):
        if value == 'default' or not isinstance(row, dict):
            runs.append([])
        else:
            runs[-1].append(i)
    return [run for run in runs if len(run) > 1]


def panel_shapes(panel, rows, places, top):
    name, high, series, form = panel
    out = [text(20, top - 14, name, 13, weight='bold')] + legend(reversed(series), 150, top - 14)
    good = [row for _, row in rows if isinstance(row, dict)]
    most = max([1] + [row[s] for row in good for s in series])

    def up(n):
        return top + high - high * n / most

    for tick in ticks(most):
        out.append('<path class="s-line" d="M%d %sh%d"/>' % (LEFT, short(up(tick)), INNER))
        out.append(text(LEFT - 8, up(tick) + 4, form(tick), 11, 'soft', 'end'))
    runs = runs_of(rows)
    joined, step = {i for run in runs for i in run}, 1 + len(rows) // 40
    marked = {i for i in range(len(rows)) if i % step == 0 or i not in joined}
    for s in series:
        for run in runs:
            points = 'L'.join('%s %s' % (short(places[i]), short(up(rows[i][1][s]))) for i in run)
            out.append('<path class="s-%s" d="M%s" fill="none" stroke-width="2" stroke-dasharray="%s"/>'
                       % (s, points, SERIES[s][1] or 'none'))
        for i, (x, (value, row)) in enumerate(zip(places, rows)):
            if isinstance(row, dict) and i in marked:
                out.append(mark(s, x, up(row[s]), '%s, %s: %s' % (value, SERIES[s][2], number(row[s]))))
    return out


def value_shapes(rows, places, top):
    """The values below the panels; where they don't fit only each second, third, .. of them."""
    each = INNER / len(rows)
    wide = max(len(value if isinstance(row, dict) else value + ' failed') for value, row in rows) * 6.8 + 10
    step = max(1, -int(-wide // each))
    out = []
    for i, (x, (value, row)) in enumerate(zip(places, rows)):
        if i % step == 0:
            words = value if isinstance(row, dict) else value + ' failed'
            out.append(text(x, top, words, 11, 'soft', 'middle'))
    out.append(text(LEFT, top + 20, 'The values stand in the order of the table, equally far apart, whatever lies '
                                    'between them.', 11, 'soft'))
    return out


def svg_of(title, rows):
    """The whole picture of these rows: pairs of a value and its numbers, or a text where the run failed. A panel whose
    numbers no row has is left out."""
    places = [LEFT + INNER * (i + 0.5) / len(rows) for i in range(len(rows))]
    out, y = [text(20, 28, title, 16, weight='bold')], 78
    for panel in PANELS:
        if not any(isinstance(row, dict) and panel[2][0] in row for _, row in rows):
            continue
        out += panel_shapes(panel, rows, places, y)
        y += panel[1] + GAP
    out += value_shapes(rows, places, y - GAP + 20)
    wide, high = LEFT + INNER + RIGHT, y - GAP + 56
    return ('<svg xmlns="http://www.w3.org/2000/svg" viewBox="0 0 %d %d" width="%d" height="%d" '
            'font-family="sans-serif">\n<style>%s@media(prefers-color-scheme:dark){%s}</style>\n'
            '<rect class="f-ground" width="100%%" height="100%%"/>\n%s\n</svg>\n'
            % (wide, high, wide, high, style_of(LIGHT), style_of(DARK), '\n'.join(out)))
