"""The three families of catalogues: 64 entries at most and up to 256 slots.

chain, whose needs lead mostly onward; dense, with few packages of many versions and needs in all directions; loose, whose constraints are mostly `*`. A catalogue is
fixed by its family's name and its seed.
"""
import random

from catalogue import Catalogue

FAMILIES = {
    'chain': dict(packages=20, versions=3, needs=4, loose=0.3, weight=7, forward=0.8),
    'dense': dict(packages=12, versions=5, needs=4, loose=0.2, weight=20, forward=0.2),
    'loose': dict(packages=16, versions=4, needs=4, loose=0.7, weight=2, forward=0.5),
}
VERSIONS = [(x, y, z) for x in range(4) for y in range(4) for z in range(3)]


def constraint(r, versions, loose, depth=0):
    x = r.random()
    if x < loose:
        return ('*',)
    if depth < 2 and x < loose + 0.1:
        return (r.choice(['and', 'or']), constraint(r, versions, loose, depth + 1), constraint(r, versions, loose, depth + 1))
    return (r.choice(['<=', '>=', '^', '^', '=']), r.choice(versions))


def catalogue(family, seed):
    f, r = FAMILIES[family], random.Random('%s %d' % (family, seed))
    versions = {p: sorted(r.sample(VERSIONS, f['versions']), reverse=True) for p in range(1, f['packages'])}
    entries = [(0, (1, 0, 0), 0)] + [(p, v, r.randint(0, f['weight'])) for p in versions for v in versions[p]]
    slots = []
    for owner, (package, _, _) in enumerate(entries[:64]):
        needs = max(3, r.randint(0, f['needs'])) if owner == 0 else r.randint(0, f['needs'])
        for _ in range(needs):
            low = package + 1 if r.random() < f['forward'] else 1
            if low < f['packages'] and len(slots) < 256:
                wanted = r.randint(low, f['packages'] - 1)
                slots.append((owner, wanted, constraint(r, versions[wanted], f['loose'])))
    return Catalogue(entries[:64], slots)
