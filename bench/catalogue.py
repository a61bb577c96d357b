"""A catalogue: what it is made of, the text that boxplan reads, and what its constraints come down to.

Constraints are tuples: ('*',), ('=', version), ('<=', version), ('>=', version), ('^', version), ('and', one, other), ('or', one, other). The root is entry 0.
"""
import dataclasses

HEADER = 'package,version,weight,needs,constraint'


@dataclasses.dataclass
class Catalogue:
    """Entries as (package, version, weight) and slots as (owner, wanted package, constraint), owners never falling."""
    entries: list
    slots: list

    def text(self):
        lines = [HEADER]
        for entry, (package, version, weight) in enumerate(self.entries):
            lines.append('p%d,%d.%d.%d,%d,,' % (package, *version, weight))
            lines += [',,,p%d,%s' % (wanted, written(constraint)) for owner, wanted, constraint in self.slots if owner == entry]
        return '\r\n'.join(lines) + '\r\n'

    def fitting(self):
        """For each slot the entries that it may name."""
        return [[entry for entry, (package, version, _) in enumerate(self.entries) if package == wanted and fits(constraint, version)]
                for _, wanted, constraint in self.slots]

    def clashes(self, mode):
        """The pairs of entries that may not stand together, the lower first. Mode 0 is npm, 1 cargo, 2 pip."""
        def clash(one, other):
            return one[0] == other[0] and (mode == 2 or mode == 1 and one[1][0] == other[1][0])
        return [(low, high) for high in range(len(self.entries)) for low in range(high) if clash(self.entries[low], self.entries[high])]

    def cost(self, members, objectives):
        """The cost of a set of entries: one number for each objective, then zeros."""
        packages = {self.entries[entry][0] for entry in members}
        amounts = [sum(self.entries[entry][2] for entry in members), len(members) - 1, len(members) - len(packages)]
        return [amounts[code] for code in objectives] + [0] * (3 - len(objectives))


def fits(constraint, version):
    form = constraint[0]
    if form == '*':
        return True
    if form == 'and':
        return fits(constraint[1], version) and fits(constraint[2], version)
    if form == 'or':
        return fits(constraint[1], version) or fits(constraint[2], version)
    bound = constraint[1]
    if form == '^':
        return caret(bound, version)
    return {'=': version == bound, '<=': version <= bound, '>=': version >= bound}[form]


def caret(bound, version):
    if version[0] != bound[0]:
        return False
    if bound[0] > 0:
        return version[1:] >= bound[1:]
    return version == bound if bound[1] == 0 else version[1] == bound[1] and version[2] >= bound[2]


def written(constraint):
    if constraint[0] == '*':
        return '*'
    if constraint[0] in ('and', 'or'):
        return '(%s %s %s)' % (constraint[0], written(constraint[1]), written(constraint[2]))
    return '(%s %d %d %d)' % (constraint[0], *constraint[1])


def any_of(versions):
    """A constraint that these versions alone fit, its halves as deep as each other."""
    if len(versions) == 1:
        return ('=', versions[0])
    half = len(versions) // 2
    return ('or', any_of(versions[:half]), any_of(versions[half:]))
