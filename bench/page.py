"""Writes docs/bench.md and docs/bench.svg from the times, and prints the page's first tables: page.py TIMES FOLDER."""
import json
import math
import pathlib
import sys
import textwrap

import hard
import longest
import plot
from families import FAMILIES

FASTER, SLOWEST = 100, 0.050
MODES = ['npm', 'cargo', 'pip']
COMMAND = '''which builds the C functions and the program, makes the catalogues, takes all times and prints the first tables below. `bench/run N` takes the seeds 1
to N, 100 if not told; this run took %(seeds)d. What each step of the search is worth, and how deep it goes, stands in [search.md](search.md).'''
FAMILIES_RUN = '''Three families of catalogues (`bench/families.py`: chain, dense, loose; 64 entries at most, up to 256 slots), seeds 1 to %(seeds)d, in six
settings: npm, cargo and pip, each with cycles forbidden and allowed; root 0; objectives 0 1 2. That makes %(cases)d cases. All that is compared was run in one go,
for each catalogue one right after the other.'''
OWN = '''- boxplan, by the C functions: the first plan, and eight plans (or all, where there are fewer, with the 11 that ends them). A time is wall time from the
tables and the text: each call surveys the catalogue and reads every constraint anew. It is the median of nine in one process, of fewer where nine would take over a
quarter of a second. Buffers were cleared first, outside the clock: for each of the nine the plan buffer was filled with 255, and the tables of read with 0. Between
the eight plans the buffer keeps the plan before, as next wants it.'''
SURVEY = '- The survey alone is a check of the empty set, which ends at condition 1; check is that of plan 1.'
CLASP = '''- gringo and clasp, the one piped into the other, with no options that bear on the search and a limit of %(limit)d s: the cost of one best plan, proved
best; not the least table, nor a second plan. CPU time is that of both processes, wall time from the start of the first to the end of both; the median of
%(repeats)d runs.'''
NO_CLASP = '- gringo and clasp are not both installed here, so nothing was compared with them.'
Z3 = '''- z3, its optimiser, asked for the same by `assert-soft`, with ranks where cycles are forbidden, always with objectives 0 1 2: run once, CPU time, a limit
of %(limit)d s.'''
NO_Z3 = '- z3 is not installed here, so nothing was compared with it.'
SAME_COST = "- Wherever boxplan and a peer both ended, the peer's cost was that of plan 1, or neither found a plan: the command stops where they differ."
PROGRAM = '''The program `boxplan` on the same texts (cargo, cycles forbidden; it prints up to eight plans), wall time from its start to its exit, the median of
%(repeats)d. `true`, which does nothing, is started and timed alike.'''
HARD = '''Made to be hard, for boxplan or for others (`bench/hard.py`), in growing sizes up to 64 entries. Each was run by itself with a limit of %(hard_limit)d s:
boxplan once for the first plan and once for eight, each peer for one best plan. Where many plans cost the same, boxplan finds the one with the least table, which
the peers are not asked for. Peers' times are CPU times.'''


def shown(seconds):
    """A time with three figures, below a millisecond with three places."""
    if seconds < 0.000_999_5:
        return '%.3f ms' % (1e3 * seconds)
    number, unit = (1e3 * seconds, 'ms') if seconds < 0.9995 else (seconds, 's')
    return ('%#.3g' % number).rstrip('.') + ' ' + unit


def mean(numbers):
    """The geometric mean."""
    return math.exp(sum(map(math.log, numbers)) / len(numbers))


def table(head, rows):
    return ['| %s |' % ' | '.join(head), '|%s' % ('---|' * len(head))] + ['| %s |' % ' | '.join(row) for row in rows] + ['']


def prose(words):
    """A paragraph, or a point of a list, in lines of 200 letters at most."""
    indent = '  ' if words.startswith('- ') else ''
    return textwrap.wrap(words, 200, subsequent_indent=indent, break_long_words=False, break_on_hyphens=False)


def met(holds):
    return 'met' if holds else '**missed**'


def setting_words(setting):
    mode, cycles, objectives = setting
    return '%s, cycles %s, objective%s %s' % (MODES[mode], 'allowed' if cycles else 'forbidden', '' if len(objectives) == 1 else 's', ' '.join(map(str, objectives)))


class Times:
    """The lines of a run by what they are about, and what comes up often of them."""

    def __init__(self, rows):
        self.rows = rows
        self.machine, self.run = self.about('machine')[0], self.about('run')[0]
        self.plans = self.about('plans')
        self.clasp = 'clasp_wall' in self.plans[0]
        self.z3 = 'z3_wall' in self.plans[0]

    def about(self, what):
        return [row for row in self.rows if row['of'] == what]

    def groups(self):
        """The rows of each family, then all."""
        return [(family, [row for row in self.plans if row['family'] == family]) for family in FAMILIES] + [('all', self.plans)]


def both(row):
    """CPU seconds of gringo and clasp."""
    return row['clasp_gringo'] + row['clasp_clasp']


def ratios(rows, measure, theirs=both):
    return [theirs(row) / row[measure] for row in rows]


def slower(rows, measure, theirs=both):
    return sum(ratio < 1 for ratio in ratios(rows, measure, theirs))


def opening(times):
    words = dict(times.run, cases=len(times.plans))
    points = [OWN, SURVEY, CLASP if times.clasp else NO_CLASP, Z3 if times.z3 else NO_Z3] + [SAME_COST] * (times.clasp or times.z3)
    return (['# How long it takes', '', 'This page and its plot are written by', '', '    bench/run', ''] + prose(COMMAND % words) + ['', '## What was run', '']
            + prose(FAMILIES_RUN % words) + [''] + [line for point in points for line in prose(point % words)] + [''] + machine(times))


def machine(times):
    m = times.machine
    return prose('Machine: %s, %d cores, %.0f GiB of memory, %s%s.' % (
        m['processor'], m['cores'], m['memory'], m['system'], ''.join('; ' + version for version in m['peers'].values()))) + ['']


def targets(times):
    worst = max(row['first'] for row in times.plans)
    rows = []
    if times.clasp:
        ratio = mean(ratios(times.plans, 'first'))
        counts = [slower(times.plans, measure) for measure in ('first', 'eight')]
        rows = [['first plan against gringo and clasp, CPU time, geometric mean', 'at least %d times faster' % FASTER, '%.0f times' % ratio, met(ratio >= FASTER)],
                ['first plans slower than gringo and clasp', 'none', '%d of %d' % (counts[0], len(times.plans)), met(counts[0] == 0)],
                ['eight plans slower than gringo and clasp with one', 'none', '%d of %d' % (counts[1], len(times.plans)), met(counts[1] == 0)]]
    rows.append(['slowest first plan', 'under %d ms' % (1e3 * SLOWEST), shown(worst), met(worst < SLOWEST)])
    return ['## Targets', ''] + table(['what', 'target', 'measured', ''], rows)


def own_times(times):
    measures = [('survey', 'survey'), ('check', 'check of plan 1'), ('first', 'first plan'), ('eight', 'eight plans')]
    rows = []
    for name, some in times.groups():
        cells = [name, str(len(some))]
        for measure, _ in measures:
            taken = [row[measure] for row in some if measure in row]
            cells += [shown(mean(taken)), shown(max(taken))]
        rows.append(cells)
    head = ['family', 'cases'] + [cell for _, words in measures for cell in ('%s: mean' % words, 'worst')]
    return ['## boxplan by the C functions', '', 'Means are geometric.', ''] + table(head, rows)


def limit_words(stopped, times):
    counted = '; it counts as the time that was taken till then' if stopped else ''
    return ['%s of %d cases hit the limit of %d s%s.' % (stopped or 'None', len(times.plans), times.run['limit'], counted), '']


def beside_clasp(times):
    if not times.clasp:
        return []
    stopped = sum(not row['clasp_ended'] for row in times.plans)
    rows, counts = [], []
    for name, some in times.groups():
        cpu, wall = [both(row) for row in some], [row['clasp_wall'] for row in some]
        cells = [name, shown(mean(cpu)), shown(max(cpu)), shown(mean(wall)), shown(max(wall))]
        for measure in ('first', 'eight'):
            found = ratios(some, measure)
            cells += ['%.0f' % mean(found), '%.1f' % min(found)]
        rows.append(cells)
        counts.append([name, str(len(some))] + [str(slower(some, measure, theirs)) for theirs in (both, lambda row: row['clasp_wall'], lambda row: row['clasp_clasp'])
                                                for measure in ('first', 'eight')])
    return (['## Beside gringo and clasp', '', 'How many times faster boxplan is: gringo and clasp\'s CPU time by boxplan\'s, case by case.', '']
            + table(['family', 'CPU of both: mean', 'worst', 'wall: mean', 'worst', 'first plan is faster: mean', 'worst', 'eight plans are faster: mean', 'worst'],
                    rows)
            + ['In how many cases boxplan is the slower one, by what it is held against:', '']
            + table(['family', 'cases', 'CPU of both: first', 'eight', 'wall of both: first', 'eight', 'CPU of clasp alone: first', 'eight'], counts)
            + limit_words(stopped, times))


def beside_z3(times):
    if not times.z3:
        return []
    stopped = sum(not row['z3_ended'] for row in times.plans)
    rows = []
    for name, some in times.groups():
        taken, found = [row['z3_z3'] for row in some], ratios(some, 'first', lambda row: row['z3_z3'])
        rows.append([name, shown(mean(taken)), shown(max(taken)), '%.0f' % mean(found), '%.1f' % min(found)])
    return (['## Beside z3', ''] + table(['family', 'CPU: mean', 'worst', 'first plan is faster: mean', 'worst'], rows)
            + limit_words(stopped, times))


def program(times):
    rows = []
    for name in list(FAMILIES) + ['all']:
        some = [row for row in times.about('program') if name in (row['family'], 'all')]
        taken = [row['program'] for row in some]
        rows.append([name, str(len(some)), shown(mean(taken)), shown(max(taken)), shown(mean([row['nothing'] for row in some]))])
    return (['## As a program', ''] + prose(PROGRAM % times.run)
            + [''] + table(['family', 'texts', 'mean', 'worst', '`true`: mean'], rows))


def longest_texts(times):
    rows = [[longest.TEXTS[row['text']][0], shown(row['read']), shown(row['survey'])] for row in times.about('longest')]
    return ['## The longest text', '', 'Texts of 65,535 bytes with 64 entries and 256 slots (`bench/longest.py`).', ''] + table(['text', 'read', 'survey'], rows)


def hard_times(times):
    peers = [(name, words) for name, words in (('clasp', 'gringo and clasp'), ('z3', 'z3')) if getattr(times, name)]
    lines = ['## Hard catalogues', ''] + prose(HARD % times.run) + ['']
    for number, kind in enumerate(hard.KINDS):
        rows = [hard_row(row, [name for name, _ in peers], times.run['hard_limit']) for row in times.about('hard') if row['kind'] == number]
        lines += prose('**%s**: %s Asked with %s.' % (kind.name.capitalize(), kind.about, setting_words(kind.setting))) + ['']
        lines += table(['size', 'entries', 'slots', 'first plan', 'eight plans'] + [words for _, words in peers], rows)
    return lines


def hard_row(row, peers, limit):
    over = 'over %d s' % limit
    first = shown(row['first']) if 'first' in row else over
    return [str(row['size']), str(row['entries']), str(row['slots']), first, eight_plans(row, over)] + [peer_time(row, peer, over) for peer in peers]


def eight_plans(row, over):
    if 'eight' not in row:
        return over
    return shown(row['eight']) + ('' if row['plans'] == 8 else ' (no plan)' if row['plans'] == 0 else ' (all %d)' % row['plans'])


def peer_time(row, peer, over):
    if peer + '_wall' not in row:
        return 'not asked'
    if not row[peer + '_ended']:
        return over
    return shown(both(row) if peer == 'clasp' else row['z3_z3'])


def plot_of(times):
    curves = {'boxplan, first plan': [row['first'] for row in times.plans], 'boxplan, eight plans': [row['eight'] for row in times.plans]}
    pairs = {}
    if times.clasp:
        curves['gringo and clasp, CPU time'] = [both(row) for row in times.plans]
        pairs = {family: [(both(row), row['first']) for row in some] for family, some in times.groups() if family != 'all'}
    if times.z3:
        curves['z3, CPU time'] = [row['z3_z3'] for row in times.plans]
    return plot.drawing(curves, pairs)


def main(path, folder):
    times = Times([json.loads(line) for line in pathlib.Path(path).read_text().splitlines()])
    first_tables = targets(times) + own_times(times) + beside_clasp(times)
    lines = opening(times) + first_tables + ['![The times as a plot](bench.svg)', '']
    lines += beside_z3(times) + program(times) + longest_texts(times) + hard_times(times)
    pathlib.Path(folder, 'bench.md').write_text('\n'.join(lines).rstrip('\n') + '\n')
    pathlib.Path(folder, 'bench.svg').write_text(plot_of(times))
    print('\n'.join(first_tables))


if __name__ == '__main__':
    main(sys.argv[1], sys.argv[2])
