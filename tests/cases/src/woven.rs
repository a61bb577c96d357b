//! Sane catalogues with choices everywhere, up to the limits of entries and slots: they have far
//! too many tables to try, and mostly many plans or none.

use crate::constraints;
use crate::inputs::Lent;
use crate::random::Random;

/// How a catalogue is woven.
#[derive(Clone, Copy, Debug)]
pub struct Weave {
    /// The number of packages beside the root's.
    pub packages: usize,
    /// The number of versions of each.
    pub versions: usize,
    /// How many slots an entry has at most. The root has as many.
    pub needs: usize,
    /// Of eight slots so many lead onward, to a package of a higher number; the others anywhere.
    pub onward: usize,
    /// A bound that the weights stay below.
    pub heaviest: usize,
}

/// Needs that lead mostly onward; few packages of many versions; and weights that are mostly equal.
pub const WEAVES: [Weave; 3] = [
    Weave {
        packages: 19,
        versions: 3,
        needs: 4,
        onward: 6,
        heaviest: 8,
    },
    Weave {
        packages: 12,
        versions: 5,
        needs: 4,
        onward: 2,
        heaviest: 21,
    },
    Weave {
        packages: 15,
        versions: 4,
        needs: 4,
        onward: 4,
        heaviest: 3,
    },
];

/// A catalogue of one root and of packages of several versions, in any order. The settings are the
/// caller's to choose, but for the root.
pub fn woven(random: &mut Random, weave: Weave) -> Lent {
    let mut lent = Lent::default();
    let entries = 1 + weave.packages * weave.versions;
    lent.root = random.below(entries) as u16;
    let mut packages: Vec<u16> = (0..entries - 1)
        .map(|entry| (1 + entry / weave.versions) as u16)
        .collect();
    packages.insert(lent.root.into(), 0);
    for package in packages {
        push_version(random, &mut lent, package, weave.heaviest);
    }
    for owner in 0..entries {
        push_needs(random, &mut lent, owner, weave);
    }
    lent.buffer = vec![255; lent.slot_count()];
    lent
}

/// An entry of the package with a version that it does not have yet.
fn push_version(random: &mut Random, lent: &mut Lent, package: u16, heaviest: usize) {
    loop {
        let version = [4, 4, 3].map(|bound| random.below(bound) as u16);
        let known = |entry| lent.package(entry) == package && lent.version(entry) == version;
        if !(0..lent.entry_count()).any(known) {
            return lent.push_entry(package, version, random.below(heaviest) as u16);
        }
    }
}

/// The slots of one entry, as long as there is room.
fn push_needs(random: &mut Random, lent: &mut Lent, owner: usize, weave: Weave) {
    let package = usize::from(lent.package(owner));
    let needs = match package {
        0 => weave.needs,
        _ => random.below(weave.needs + 1),
    };
    for _ in 0..needs {
        let least = if random.below(8) < weave.onward {
            package + 1
        } else {
            1
        };
        if least > weave.packages || lent.slot_count() == 256 {
            continue;
        }
        let wanted = (least + random.below(weave.packages + 1 - least)) as u16;
        let of_wanted = |entry: &usize| lent.package(*entry) == wanted;
        let versions: Vec<usize> = (0..lent.entry_count()).filter(of_wanted).collect();
        let about = lent.version(random.pick(&versions));
        let constraint = constraints::about(random, about);
        lent.push_slot(owner as u16, wanted, &constraint);
    }
}
