"""Texts of exactly 65,535 bytes, the longest that boxplan reads: 64 entries and 256 slots with sane constraints."""
from catalogue import HEADER

LENGTH = 65535
ENTRIES, SLOTS = 64, 256


def constraint(length):
    """A sane constraint of so many bytes, 9 or more, without great depth."""
    if length > 24:
        left = (length - 6) // 2
        return '(or %s %s)' % (constraint(left), constraint(length - 6 - left))
    if length > 21:
        return '(or * %s)' % constraint(length - 7)
    digits = length - 6
    return '(= %s %s %s)' % tuple('1' * ((digits + k) // 3) for k in range(3))


def text(entries, wanted):
    """These entries' records, four slots below each, with constraints that make up the length."""
    names = [',,,%s,' % name for name in wanted]
    left = LENGTH - len(HEADER) - 2 - sum(len(line) + 2 for line in entries + names)
    needs = [name + constraint((left + k) // SLOTS) for k, name in enumerate(names)]
    each = SLOTS // ENTRIES
    lines = [HEADER] + [line for e, entry in enumerate(entries) for line in [entry] + needs[each * e:each * e + each]]
    return '\r\n'.join(lines) + '\r\n'


def of_names():
    """320 packages whose names differ in their last three letters alone."""
    return text(['%s%03d,1.0.0,0,,' % ('n' * 29, e) for e in range(ENTRIES)], ['%s%03d' % ('n' * 29, ENTRIES + s) for s in range(SLOTS)])


def of_constraints():
    """One package, so every constraint is tried on every version."""
    return text(['p,1.0.%d,0,,' % e for e in range(ENTRIES)], ['p'] * SLOTS)


TEXTS = {
    'names': ('320 packages with names of 32 letters that differ in the last three', of_names),
    'constraints': ('one package of 64 versions, each of 256 constraints tried on all', of_constraints),
}
