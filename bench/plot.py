"""Draws the times as an SVG of two panels: on the left every curve's times sorted, on the right each first plan against gringo with clasp on the same catalogue."""
import math

WIDTH, HEIGHT = 1020, 500
TOP, BOTTOM = 46, 400
LEFT_PANEL, RIGHT_PANEL = (70, 470), (580, 980)
POINTS = 150
GREY, BLACK = '#d9d9d9', '#222222'
FAMILY_COLOURS = {'chain': '#0072b2', 'dense': '#d55e00', 'loose': '#009e73'}
CURVE_COLOURS = ['#0072b2', '#56b4e9', '#d55e00', '#cc79a7']


class Axis:
    """A logarithmic axis in seconds from one place of the drawing to another, whole powers of ten at its ends."""

    def __init__(self, times, start, end):
        self.low, self.high = math.floor(math.log10(min(times))), math.ceil(math.log10(max(times)))
        self.start, self.end = start, end

    def place(self, time):
        return self.start + (math.log10(time) - self.low) / (self.high - self.low) * (self.end - self.start)

    def ticks(self):
        return [(self.place(10.0 ** power), tick_name(power)) for power in range(self.low, self.high + 1)]


def tick_name(power):
    unit = {-2: 'µs', -1: 'ms', 0: 's'}[power // 3]
    return '%d %s' % (10 ** (power % 3), unit)


def text(x, y, words, anchor='middle', colour=BLACK, turn=''):
    return '<text x="%.0f" y="%.0f" text-anchor="%s" fill="%s"%s>%s</text>' % (x, y, anchor, colour, turn, words)


def line(x1, y1, x2, y2, colour=GREY, dashes=''):
    return '<path d="M%.1f %.1fL%.1f %.1f" stroke="%s"%s/>' % (x1, y1, x2, y2, colour, dashes)


def title(panel, words):
    return text(sum(panel) / 2, TOP - 16, words)


def upright(axis, panel, words):
    """The vertical axis with a line across the panel at each tick."""
    drawn = []
    for y, name in axis.ticks():
        drawn += [line(panel[0], y, panel[1], y), text(panel[0] - 6, y + 4, name, 'end')]
    middle = (TOP + BOTTOM) / 2
    return drawn + [text(panel[0] - 52, middle, words, turn=' transform="rotate(-90 %d %d)"' % (panel[0] - 52, middle))]


def legend(panel, names):
    """Below the panel, two names to a row, each beside a square of its colour."""
    drawn = []
    for k, (name, colour) in enumerate(names.items()):
        x, y = panel[0] + k % 2 * (panel[1] - panel[0]) / 2, BOTTOM + 54 + 18 * (k // 2)
        drawn += ['<rect x="%d" y="%d" width="10" height="10" fill="%s"/>' % (x, y, colour), text(x + 15, y + 9, name, 'start')]
    return drawn


def sorted_times(curves):
    """The left panel; `curves` has the times of each by its name."""
    axis = Axis([time for times in curves.values() for time in times], BOTTOM, TOP)
    most = max(len(times) for times in curves.values())
    across = LEFT_PANEL[1] - LEFT_PANEL[0]
    drawn = upright(axis, LEFT_PANEL, 'time')
    for share in range(5):
        drawn.append(text(LEFT_PANEL[0] + across * share / 4, BOTTOM + 18, '%d' % (most * share / 4)))
    for colour, times in zip(CURVE_COLOURS, curves.values()):
        ordered = sorted(times)
        ranks = sorted({round(k * (len(ordered) - 1) / (POINTS - 1)) for k in range(POINTS)})
        places = ['%.1f %.1f' % (LEFT_PANEL[0] + across * (rank + 1) / most, axis.place(ordered[rank])) for rank in ranks]
        drawn.append('<path d="M%s" stroke="%s" stroke-width="2"/>' % ('L'.join(places), colour))
    drawn += legend(LEFT_PANEL, dict(zip(curves, CURVE_COLOURS)))
    drawn.append(text(sum(LEFT_PANEL) / 2, BOTTOM + 38, 'catalogues and settings, each curve sorted by time'))
    return drawn + [title(LEFT_PANEL, 'All times, sorted')]


def one_by_one(pairs):
    """The right panel; `pairs` has gringo with clasp's time and boxplan's of each catalogue and setting, by family."""
    every = [pair for some in pairs.values() for pair in some]
    across, up = Axis([theirs for theirs, _ in every], *RIGHT_PANEL), Axis([ours for _, ours in every], BOTTOM, TOP)
    drawn = upright(up, RIGHT_PANEL, 'boxplan, first plan')
    for x, name in across.ticks():
        drawn += [line(x, TOP, x, BOTTOM), text(x, BOTTOM + 18, name)]
    for family, some in pairs.items():
        dots = ''.join('M%.1f %.1fh0' % (across.place(theirs), up.place(ours)) for theirs, ours in some)
        drawn.append('<path d="%s" stroke="%s" stroke-width="3.5" stroke-linecap="round" stroke-opacity="0.55"/>' % (dots, FAMILY_COLOURS[family]))
    for times in (1, 10, 100, 1000):
        drawn += ratio_line(across, up, times)
    drawn += legend(RIGHT_PANEL, {family: FAMILY_COLOURS[family] for family in pairs})
    drawn.append(text(sum(RIGHT_PANEL) / 2, BOTTOM + 38, 'gringo and clasp, CPU time of both'))
    return drawn + [title(RIGHT_PANEL, 'Each catalogue and setting')]


def ratio_line(across, up, times):
    """Where boxplan is so many times faster, within the panel."""
    low = max(10.0 ** across.low, times * 10.0 ** up.low)
    high = min(10.0 ** across.high, times * 10.0 ** up.high)
    if low >= high:
        return []
    ends = [(across.place(x), up.place(x / times)) for x in (low, high)]
    (x1, y1), (x2, y2) = ends
    name = 'equal' if times == 1 else '%d times faster' % times
    x, y = x1 + 8, y1 - (y1 - y2) / (x2 - x1) * 8
    turn = ' transform="rotate(%.1f %.0f %.0f)"' % (math.degrees(math.atan2(y2 - y1, x2 - x1)), x, y)
    return [line(x1, y1, x2, y2, BLACK, ' stroke-dasharray="4 3"'), text(x, y - 4, name, 'start', BLACK, turn)]


def drawing(curves, pairs):
    parts = sorted_times(curves) + (one_by_one(pairs) if pairs else [])
    opening = '<svg xmlns="http://www.w3.org/2000/svg" viewBox="0 0 %d %d" font-family="sans-serif" font-size="12" fill="none">' % (WIDTH, HEIGHT)
    return '\n'.join([opening, '<rect width="%d" height="%d" fill="white"/>' % (WIDTH, HEIGHT)] + parts + ['</svg>']) + '\n'
