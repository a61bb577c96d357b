//! Sane catalogues that have far too many tables to try, up to the limits of entries and slots, yet
//! few free choices: most slots fit one entry.

use std::ops::Range;

use crate::catalogues::any_settings;
use crate::inputs::Lent;
use crate::random::Random;

/// How wide a catalogue is.
#[derive(Clone, Copy, Debug)]
pub struct Width {
    /// The number of entries, up to 64.
    pub entries: usize,
    /// The number of slots, up to 256, and at least one per entry.
    pub slots: usize,
    /// How many of the slots leave a choice.
    pub free: usize,
}

/// The versions of a package that free slots want: under cargo the first two don't go together.
const VERSIONS: [[u16; 3]; 3] = [[1, 0, 0], [1, 1, 0], [2, 0, 0]];

/// A slot before the entries are put in their order.
#[derive(Clone, Copy)]
struct Need {
    owner: usize,
    package: usize,
    constraint: &'static [u8],
}

/// Packages of one version each, every one but the first wanted by an earlier one; and for every
/// two free slots a package of three versions, of which the first and the last can always be had.
/// The root is the first of all, put anywhere.
pub fn wide(random: &mut Random, width: Width) -> Lent {
    let shared = width.free.div_ceil(2);
    let single = width.entries - VERSIONS.len() * shared;
    let mut lent = Lent::default();
    let places = shuffled(random, width.entries);
    push_entries(random, &mut lent, single, &places);
    any_settings(random, &mut lent);
    lent.root = places[0] as u16;
    let mut needs = needs(random, width, single, lent.cycles == 1);
    needs.sort_by_key(|need| places[need.owner]);
    for need in needs {
        let owner = places[need.owner] as u16;
        lent.push_slot(owner, need.package as u16, need.constraint);
    }
    lent.buffer = vec![255; lent.slot_count()];
    lent
}

/// The numbers below the length in any order.
fn shuffled(random: &mut Random, length: usize) -> Vec<usize> {
    let mut places: Vec<usize> = (0..length).collect();
    for last in (1..length).rev() {
        places.swap(last, random.below(last + 1));
    }
    places
}

/// The entries, each at its place: first one of each single package, then the shared ones.
fn push_entries(random: &mut Random, lent: &mut Lent, single: usize, places: &[usize]) {
    let heaviest = random.pick(&[1, 5, 65_536]);
    let mut rows = vec![[0; 5]; places.len()];
    for (entry, place) in places.iter().enumerate() {
        let (package, [x, y, z]) = match entry.checked_sub(single) {
            None => (entry, [1, 0, 0]),
            Some(more) => (single + more / 3, VERSIONS[more % 3]),
        };
        let weight = random.below(heaviest) as u16;
        rows[*place] = [package as u16, x, y, z, weight];
    }
    lent.entries = rows.concat();
}

/// The slots. Owners of free slots stand in the front half of the single packages, and what the
/// shared ones need in the back half, so these make no cycle. A few slots more may make one: `back`
/// lets any lead back, else those of second versions alone do, and the others stay free of cycles.
fn needs(random: &mut Random, width: Width, single: usize, back: bool) -> Vec<Need> {
    let mut needs: Vec<Need> = (1..single)
        .map(|package| fixed(random, package, 0..package))
        .collect();
    for free in 0..width.free {
        needs.push(Need {
            owner: random.below(single / 2),
            package: single + free / 2,
            constraint: b"*",
        });
    }
    while needs.len() < width.slots {
        let need = match random.below(8) {
            0 => {
                let package = random.below(single);
                let second = single + 3 * random.below((width.entries - single) / 3) + 1;
                let owners = if back { 0..single } else { second..second + 1 };
                fixed(random, package, owners)
            }
            1..4 => {
                let package = single / 2 + random.below(single - single / 2);
                fixed(random, package, single..width.entries)
            }
            _ => {
                let package = 1 + random.below(single - 1);
                fixed(random, package, 0..package)
            }
        };
        needs.push(need);
    }
    needs
}

/// A slot of one of the owners for a package of one version.
fn fixed(random: &mut Random, package: usize, owners: Range<usize>) -> Need {
    Need {
        owner: owners.start + random.below(owners.len()),
        package,
        constraint: random.pick(&[&b"*"[..], b"(= 1 0 0)", b"(^ 1 0 0)"]),
    }
}
