"""Catalogues made to be hard, in growing sizes. What each kind is stands with it in KINDS, at the end."""
import random
import typing

from catalogue import Catalogue, any_of

ROOT = (0, (1, 0, 0), 0)
ANY = ('*',)


class Kind(typing.NamedTuple):
    """A maker of catalogues by size, the setting they are asked in, and what the page says of them."""
    name: str
    about: str
    setting: tuple
    sizes: list
    make: typing.Callable


def major(number):
    return (number, 0, 0)


def hitting_set(size):
    r = random.Random('hitting %d' % size)
    entries = [ROOT] + [(1, major(v), r.randint(1, 20)) for v in range(size)]
    return Catalogue(entries, [(0, 1, any_of([major(v) for v in sorted(r.sample(range(size), 3))])) for _ in range(min(255, 4 * size))])


def ties(size):
    entries = [ROOT] + [(p, major(v), 1) for p in range(1, size + 1) for v in (1, 2)]
    return Catalogue(entries, [(0, p, ANY) for p in range(1, size + 1)])


def tied_ladder(size):
    entries = [ROOT] + [(p, major(v), 1) for p in range(1, size + 1) for v in (1, 2)]
    slots = [(0, 1, ANY), (0, 1, ANY)]
    slots += [(e, p + 1, ANY) for e, (p, _, _) in enumerate(entries) if 0 < p < size for _ in range(2)]
    return Catalogue(entries, slots)


def forced_chain(size):
    entries = [ROOT] + [(p, major(1), 1) for p in range(1, size + 1)]
    return Catalogue(entries, [(p, p + 1, ANY) for p in range(size) for _ in range(4)])


def dead_chain(size):
    entries = [ROOT] + [(p, major(v), v) for p in range(1, size + 1) for v in (1, 2)]
    return Catalogue(entries, [(0, 1, ANY)] + [(e, p + 1, ANY) for e, (p, _, _) in enumerate(entries) if p])


def parity(size, equations, planted):
    """An equation fixes the parity of some bits of two packages: by a hidden choice of all bits where one is planted, else by chance."""
    r = random.Random('parity %d %d' % (size, equations))
    entries = [ROOT] + [(p, major(v), r.randint(0, 20)) for p in range(1, size + 1) for v in range(4)]
    hidden = [r.randrange(4) for _ in range(size + 1)]
    slots = [(0, p, ANY) for p in range(1, size + 1)]
    for low, high in sorted(sorted(r.sample(range(1, size + 1), 2)) for _ in range(equations)):
        mask, other = r.randint(1, 3), r.randint(1, 3)
        odd = odds(hidden[low] & mask, hidden[high] & other) if planted else r.randrange(2)
        for v in range(4):
            slots.append((4 * low - 3 + v, high, any_of([major(w) for w in range(4) if odds(v & mask, w & other) == odd])))
    return Catalogue(entries, sorted(slots, key=lambda slot: slot[0]))


def odds(one, other):
    return (one.bit_count() + other.bit_count()) % 2


def cycles_everywhere(size):
    r = random.Random('cycles %d' % size)
    entries, slots = [ROOT], [(0, p, ANY) for p in range(1, size + 1)]
    for p in range(1, size + 1):
        entries += [(p, major(2), 0), (p, major(1), r.randint(1, 20))]
        others = [q for q in range(1, size + 1) if q != p]
        slots += [(2 * p - 1, q, ANY) for q in sorted(r.sample(others, min(4, len(others))))]
    return Catalogue(entries, slots)


def order_alone(size):
    r = random.Random('order %d' % size)
    entries = [(p, major(v), 0) for p in range(size) for v in (1, 2)]
    return Catalogue(entries, [(e, r.randrange(size), ANY) for e in range(2 * size) for _ in range(4)])


ALL = [0, 1, 2]
KINDS = [
    Kind('hitting sets by weight',
         'One package of so many versions, weights 1 to 20, and four times as many root slots (255 at most) that three versions each fit.',
         (0, 0, ALL), [16, 24, 32, 40, 48, 63], hitting_set),
    Kind('hitting sets by count',
         'The same, where the fewest members are wanted.',
         (1, 0, [1]), [8, 16, 24, 32, 40], hitting_set),
    Kind('ties by the million',
         'So many packages of two versions that weigh the same, all wanted by the root: two to that power plans of one cost.',
         (0, 0, ALL), [10, 20, 31], ties),
    Kind('a ladder of ties',
         'So many packages of two versions that weigh the same; each version has two slots for the next package, which both of its versions fit.',
         (0, 0, ALL), [5, 10, 15, 20, 31], tied_ladder),
    Kind('a forced chain',
         'So many packages of one version, each wanted four times by the one before.',
         (0, 0, ALL), [16, 32, 63], forced_chain),
    Kind('a chain to nowhere',
         'So many packages of two versions, each needing any of the next; those of the last need a package without entries, so there is no plan.',
         (0, 1, ALL), [10, 20, 31], dead_chain),
    Kind('parity with plans',
         'So many packages of four versions, which stand for two bits each; equations between the bits of two packages, three fewer than bits, met by a hidden plan.',
         (2, 0, ALL), [6, 9, 12, 15], lambda size: parity(size, 2 * size - 3, True)),
    Kind('parity by chance',
         'The same with four equations to a package, their right sides by chance, so there is hardly ever a plan.',
         (2, 0, ALL), [6, 9, 12, 15], lambda size: parity(size, 4 * size, False)),
    Kind('cycles everywhere, pip',
         'So many packages, all wanted by the root: a version of weight 0 that needs four others and one of weight 1 to 20 that needs nothing.',
         (2, 0, ALL), [8, 16, 24, 31], cycles_everywhere),
    Kind('cycles everywhere, npm',
         'The same where both versions of a package may stand together.',
         (0, 0, ALL), [8, 12, 16, 20, 24], cycles_everywhere),
    Kind('the order of tables alone',
         'So many packages of two versions that weigh nothing, each version with four slots for any packages, which both of their versions fit; by weight alone, so '
         'every plan costs 0 and only the order of tables is left.',
         (0, 1, [0]), [4, 6, 8, 10, 12, 32], order_alone),
    Kind('the same by all objectives',
         'The same catalogues, where plans do differ in cost.',
         (0, 1, ALL), [4, 8, 16, 32], order_alone),
]
