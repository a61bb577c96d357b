"""Takes all the times and writes them as lines of JSON, with a key `of` that says what a line is about: measure.py SEEDS FOLDER.

A catalogue of the families is put to boxplan's C functions, to gringo with clasp, to z3 and to the program boxplan one right after the other, so that what is
compared was run in the same seconds. Wherever two end, their costs are compared, and a difference ends the run.
"""
import json
import os
import pathlib
import platform
import shutil
import statistics
import subprocess
import sys

import families
import hard
import longest
import peers
from children import run

BENCH = 'target/bench/build/release/bench'
PROGRAM = 'target/bin/boxplan'
OBJECTIVES = [0, 1, 2]
SETTINGS = [(mode, cycles, OBJECTIVES) for mode in range(3) for cycles in range(2)]
PROGRAM_SETTING = (1, 0, OBJECTIVES)
# Seconds that clasp and z3 may take for a catalogue of the families, that anything may take for a hard one, and how often clasp and the programs are run.
LIMIT, HARD_LIMIT, REPEATS = 20, 10, 3


def named(setting):
    mode, cycles, objectives = setting
    return '%d%d%s' % (mode, cycles, ''.join(map(str, objectives)))


def measures(output):
    """What the C functions' timer printed: for each setting a dictionary of its measures."""
    found = {}
    for line in output.splitlines():
        setting, measure, value = line.split('\t')
        number = [int(part) for part in value.split()] if measure == 'cost' else int(value) if measure == 'plans' else float(value)
        found.setdefault(setting, {})[measure] = number
    return found


def by_functions(what, path, settings, limit=None):
    """The times of the C functions; where the limit stops them, those that were taken before."""
    command = [BENCH, what, path] + [named(setting) for setting in settings]
    try:
        printed = subprocess.run(command, stdout=subprocess.PIPE, check=True, timeout=limit).stdout
    except subprocess.TimeoutExpired as stopped:
        printed = stopped.stdout or b''
    return measures(printed.decode())


def plans_by_functions(path, settings, limit=None):
    """For each setting the times of the first plan and of eight."""
    first, eight = (by_functions(what, path, settings, limit) for what in ('first', 'eight'))
    return [first.get(named(setting), {}) | eight.get(named(setting), {}) for setting in settings]


def medians(ask, times):
    """Asks so often, but not again once the limit was hit, and takes the median of each time."""
    answers = [ask()]
    while len(answers) < times and answers[-1]['ended']:
        answers.append(ask())
    found = answers[-1]
    for key in set(found) & {'wall', 'gringo', 'clasp'}:
        found[key] = statistics.median(answer[key] for answer in answers)
    return found


def same_cost(about, ours, theirs):
    """Ends the run where boxplan and a peer differ on the cost of the best plan."""
    if 'first' in ours and theirs['ended'] and ours.get('cost') != theirs['cost']:
        raise SystemExit('%s: boxplan finds %s, the peer %s' % (about, ours.get('cost'), theirs['cost']))


def peer_answers(about, catalogue, setting, ours, folder, limit, times):
    """What gringo with clasp, and z3 where all objectives are asked for, say and take; those that are not installed are left out."""
    found = {}
    if peers.GRINGO and peers.CLASP:
        found['clasp'] = medians(lambda: peers.ask_clasp(catalogue, setting, folder, limit), times)
    if peers.Z3 and setting[2] == OBJECTIVES:
        found['z3'] = peers.ask_z3(catalogue, setting, folder, limit)
    for name, answer in found.items():
        same_cost('%s, setting %s, %s' % (about, named(setting), name), ours, answer)
    return found


def by_program(path, ours):
    """Wall times of the program and of one that does nothing, from start to exit."""
    ran = [run([[os.path.abspath(PROGRAM)]], path) for _ in range(REPEATS)]
    printed = len({line.split(',')[0] for line in ran[0].output.splitlines()[1:]})
    if printed != max(1, ours['plans']) or ran[0].output.startswith('refusal') != ('cost' not in ours):
        raise SystemExit('%s: the program prints other plans than the C functions find' % path)
    nothing = [run([[shutil.which('true')]], path) for _ in range(REPEATS)]
    return dict(program=statistics.median(one.wall for one in ran), nothing=statistics.median(one.wall for one in nothing))


def family_rows(seeds, folder):
    path = pathlib.Path(folder, 'catalogue.csv')
    for family in families.FAMILIES:
        for seed in range(1, seeds + 1):
            catalogue = families.catalogue(family, seed)
            path.write_bytes(catalogue.text().encode())
            found = plans_by_functions(path, SETTINGS)
            for setting, ours in zip(SETTINGS, found):
                about = '%s, seed %d' % (family, seed)
                answers = peer_answers(about, catalogue, setting, ours, folder, LIMIT, REPEATS)
                yield dict(of='plans', family=family, seed=seed, setting=named(setting), **ours, **prefixed(answers))
            yield dict(of='program', family=family, seed=seed, **by_program(path, found[SETTINGS.index(PROGRAM_SETTING)]))
        print('bench: %s measured' % family, file=sys.stderr)


def prefixed(answers):
    """One dictionary of all that the peers said: clasp_wall, z3_ended and so on."""
    return {'%s_%s' % (name, key): value for name, answer in answers.items() for key, value in answer.items() if key != 'cost'}


def hard_rows(folder):
    path = pathlib.Path(folder, 'hard.csv')
    for number, kind in enumerate(hard.KINDS):
        for size in kind.sizes:
            catalogue = kind.make(size)
            path.write_bytes(catalogue.text().encode())
            ours, = plans_by_functions(path, [kind.setting], HARD_LIMIT)
            answers = peer_answers('%s, %d' % (kind.name, size), catalogue, kind.setting, ours, folder, HARD_LIMIT, 1)
            yield dict(of='hard', kind=number, size=size, entries=len(catalogue.entries), slots=len(catalogue.slots), **ours, **prefixed(answers))
        print('bench: %s measured' % kind.name, file=sys.stderr)


def longest_rows(folder):
    path = pathlib.Path(folder, 'longest.csv')
    for name, (_, make) in longest.TEXTS.items():
        path.write_bytes(make().encode())
        yield dict(of='longest', text=name, **by_functions('read', path, [])['-'], **plans_by_functions(path, [PROGRAM_SETTING])[0])


def machine():
    """The processor, its cores, memory, system and the peers that are there."""
    models = [line.split(':')[1].strip() for line in pathlib.Path('/proc/cpuinfo').read_text().splitlines() if line.startswith('model name')]
    memory = os.sysconf('SC_PAGE_SIZE') * os.sysconf('SC_PHYS_PAGES') / 2 ** 30
    return dict(of='machine', processor=models[0] if models else platform.machine(), cores=os.cpu_count(), memory=memory,
                system=platform.freedesktop_os_release()['PRETTY_NAME'], peers=peers.versions())


def main(seeds, folder):
    rows = [machine(), dict(of='run', seeds=seeds, limit=LIMIT, hard_limit=HARD_LIMIT, repeats=REPEATS)]
    for some in (family_rows(seeds, folder), longest_rows(folder), hard_rows(folder)):
        rows += some
    pathlib.Path(folder, 'times.jsonl').write_text(''.join(json.dumps(row) + '\n' for row in rows))


if __name__ == '__main__':
    main(int(sys.argv[1]), sys.argv[2])
