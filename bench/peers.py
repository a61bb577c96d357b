"""The same question put to gringo with clasp and to z3: a catalogue and a setting as a program of theirs, their answers, and the time they take.

clasp's answer is a set of entries, z3's three numbers; either is made the cost of plan 1, or none where there is no plan.
"""
import pathlib
import re
import shutil
import subprocess

from children import run

GRINGO, CLASP, Z3 = (shutil.which(name) for name in ('gringo', 'clasp', 'z3'))
NUMBERS = ['W@%d,E : in(E), weight(E,W)', '1@%d,E : in(E), not root(E)', '1@%d,E : double(E)']
RULES = '''in(E) :- root(E).
1 { choice(S,E) : fit(S,E) } 1 :- slot(S,O), in(O).
in(E) :- choice(S,E).
:- in(A), in(B), clash(A,B).
double(E) :- in(E), package(E,P), in(F), package(F,P), F < E.
#show in/1.
'''
ACYCLIC = '#edge (O,E) : choice(S,E), slot(S,O).\n'
# clasp's exit codes: a plan where nothing is minimised, the optimum, no plan, and the two of a run that the limit stopped.
FOUND, OPTIMUM, NONE, STOPPED = 10, 30, 20, (1, 11)


def asp(catalogue, setting):
    """For gringo. That a member is reached needs no rule: what stands in a stable model has a reason that goes back to the root."""
    mode, cycles, objectives = setting
    facts = ['root(0).']
    facts += ['weight(%d,%d). package(%d,%d).' % (e, weight, e, package) for e, (package, _, weight) in enumerate(catalogue.entries)]
    facts += ['slot(%d,%d).' % (s, owner) for s, (owner, _, _) in enumerate(catalogue.slots)]
    facts += ['fit(%d,%d).' % (s, e) for s, entries in enumerate(catalogue.fitting()) for e in entries]
    facts += ['clash(%d,%d).' % pair for pair in catalogue.clashes(mode)]
    minima = ['#minimize { %s }.' % NUMBERS[code] % (3 - place) for place, code in enumerate(objectives)]
    return '\n'.join(facts + minima) + '\n' + RULES + ('' if cycles else ACYCLIC)


def smt(catalogue, setting):
    """For z3, with objectives 0 1 2. That a member is reached needs no rule: without those that are not, a plan costs less."""
    mode, cycles, _ = setting
    entries, lines = range(len(catalogue.entries)), ['(assert e0)']
    lines[:0] = ['(declare-const e%d Bool) (declare-const d%d Bool) (declare-const r%d Int)' % (e, e, e) for e in entries]
    for s, ((owner, _, _), fitting) in enumerate(zip(catalogue.slots, catalogue.fitting())):
        lines += ['(declare-const c%d-%d Bool) (assert (=> c%d-%d e%d))' % (s, e, s, e, e) for e in fitting]
        lines.append('(assert (=> e%d (or false %s)))' % (owner, ' '.join('c%d-%d' % (s, e) for e in fitting)))
        if not cycles:
            lines += ['(assert (=> c%d-%d (< r%d r%d)))' % (s, e, owner, e) for e in fitting]
    lines += ['(assert (not (and e%d e%d)))' % pair for pair in catalogue.clashes(mode)]
    lines += ['(assert (=> (and e%d e%d) d%d))' % (low, high, high) for low, high in catalogue.clashes(2)]
    lines += ['(assert-soft (not e%d) :weight %d :id n0)' % (e, catalogue.entries[e][2]) for e in entries if catalogue.entries[e][2]]
    lines += ['(assert-soft (not %s%d) :weight 1 :id n%d)' % (letter, e, code) for code, letter in ((1, 'e'), (2, 'd')) for e in entries if e]
    return '\n'.join(lines) + '\n(check-sat)\n(get-objectives)\n'


def ask_clasp(catalogue, setting, folder, limit):
    """Asks once: seconds, whether it ended within the limit, and if so the cost of the optimum."""
    program = pathlib.Path(folder, 'program.lp')
    program.write_text(asp(catalogue, setting))
    ran = run([[GRINGO, '--warn=none'], [CLASP, '--quiet=1', '--time-limit=%d' % limit]], program)
    answer = dict(wall=ran.wall, gringo=ran.cpu[0], clasp=ran.cpu[1], ended=ran.code in (FOUND, OPTIMUM, NONE))
    if ran.code in (FOUND, OPTIMUM):
        answer['cost'] = catalogue.cost([int(entry) for entry in re.findall(r'in\((\d+)\)', ran.output)], setting[2])
    elif ran.code == NONE:
        answer['cost'] = None
    elif ran.code not in STOPPED:
        raise SystemExit('clasp ended with %d:\n%s' % (ran.code, ran.output))
    return answer


def ask_z3(catalogue, setting, folder, limit):
    """The same of z3."""
    program = pathlib.Path(folder, 'program.smt2')
    program.write_text(smt(catalogue, setting))
    ran = run([[Z3, '-T:%d' % limit, '-in']], program)
    word = ran.output.split()[0]
    answer = dict(wall=ran.wall, z3=ran.cpu[0], ended=word in ('sat', 'unsat'))
    if word == 'sat':
        numbers = dict(re.findall(r'\(n(\d) (\d+)\)', ran.output))
        answer['cost'] = [int(numbers.get(str(code), 0)) for code in range(3)]
    elif word == 'unsat':
        answer['cost'] = None
    elif word != 'timeout':
        raise SystemExit('z3 says:\n' + ran.output)
    return answer


def versions():
    """The first line of each peer that is installed says its version."""
    return {name: subprocess.run([path, '--version'], capture_output=True, text=True).stdout.splitlines()[0]
            for name, path in (('gringo', GRINGO), ('clasp', CLASP), ('z3', Z3)) if path}
