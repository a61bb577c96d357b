//! Constraints (01, "Constraints"): reading one into a tree, and fitting a version to it.

/// Major, minor and patch. Comparing two compares "major, then minor, then patch".
pub type Version = [u16; 3];

/// A constraint that has been read.
pub(crate) enum Constraint {
    /// `*`
    Any,
    /// `(= x y z)`
    Exactly(Version),
    /// `(<= x y z)`
    AtMost(Version),
    /// `(>= x y z)`
    AtLeast(Version),
    /// `(^ x y z)`
    Caret(Version),
    /// `(and C C)`
    Both(Box<Constraint>, Box<Constraint>),
    /// `(or C C)`
    Either(Box<Constraint>, Box<Constraint>),
}

/// "At most depth 16 and 255 bytes."
const DEPTH: usize = 16;
const BYTES: usize = 255;

/// Makes a constraint of a bound's version.
type Bound = fn(Version) -> Constraint;
/// Makes a constraint of a pair's two sides.
type Pair = fn(Box<Constraint>, Box<Constraint>) -> Constraint;

/// How each bound opens.
const BOUNDS: [(&[u8], Bound); 4] = [
    (b"(= ", Constraint::Exactly),
    (b"(<= ", Constraint::AtMost),
    (b"(>= ", Constraint::AtLeast),
    (b"(^ ", Constraint::Caret),
];

/// How each pair opens.
const PAIRS: [(&[u8], Pair); 2] = [(b"(and ", Constraint::Both), (b"(or ", Constraint::Either)];

impl Constraint {
    /// The whole of `bytes` as a constraint; none if it is outside the rules.
    pub fn read(bytes: &[u8]) -> Option<Constraint> {
        if bytes.len() > BYTES {
            return None;
        }
        let (constraint, rest) = read_constraint(bytes)?;
        (rest.is_empty() && constraint.depth() <= DEPTH).then_some(constraint)
    }

    /// "`*` and the four bounds have depth 1, a pair one more than its deeper side."
    fn depth(&self) -> usize {
        match self {
            Constraint::Both(left, right) | Constraint::Either(left, right) => {
                1 + left.depth().max(right.depth())
            }
            _ => 1,
        }
    }

    /// Whether the version fits.
    pub fn fits(&self, version: Version) -> bool {
        match self {
            Constraint::Any => true,
            Constraint::Exactly(bound) => version == *bound,
            Constraint::AtMost(bound) => version <= *bound,
            Constraint::AtLeast(bound) => version >= *bound,
            Constraint::Caret(bound) => caret_fits(*bound, version),
            Constraint::Both(left, right) => left.fits(version) && right.fits(version),
            Constraint::Either(left, right) => left.fits(version) || right.fits(version),
        }
    }
}

/// "`^` needs the same major and then:"
fn caret_fits(bound: Version, version: Version) -> bool {
    let [bound_major, bound_minor, bound_patch] = bound;
    let [major, minor, patch] = version;
    if major != bound_major {
        return false;
    }
    match (bound_major, bound_minor) {
        // "major 0 and the bound's minor 0: minor 0 and the same patch"
        (0, 0) => minor == 0 && patch == bound_patch,
        // "major 0, bound's minor above 0: the same minor, patch at least the bound's"
        (0, _) => minor == bound_minor && patch >= bound_patch,
        // "major above 0: same minor and patch at least the bound's, or a higher minor"
        _ => (minor == bound_minor && patch >= bound_patch) || minor > bound_minor,
    }
}

/// A constraint at the front of `bytes`, and what stands after it.
fn read_constraint(bytes: &[u8]) -> Option<(Constraint, &[u8])> {
    if let Some(rest) = bytes.strip_prefix(b"*") {
        return Some((Constraint::Any, rest));
    }
    for (opening, bound) in BOUNDS {
        if let Some(rest) = bytes.strip_prefix(opening) {
            let (version, rest) = read_version(rest)?;
            return Some((bound(version), rest.strip_prefix(b")")?));
        }
    }
    for (opening, pair) in PAIRS {
        if let Some(rest) = bytes.strip_prefix(opening) {
            let (left, rest) = read_constraint(rest)?;
            let (right, rest) = read_constraint(rest.strip_prefix(b" ")?)?;
            let made = pair(Box::new(left), Box::new(right));
            return Some((made, rest.strip_prefix(b")")?));
        }
    }
    None
}

/// The `x y z` of a bound, "one space between parts", and what stands after it.
fn read_version(bytes: &[u8]) -> Option<(Version, &[u8])> {
    let (major, rest) = read_number(bytes)?;
    let (minor, rest) = read_number(rest.strip_prefix(b" ")?)?;
    let (patch, rest) = read_number(rest.strip_prefix(b" ")?)?;
    Some(([major, minor, patch], rest))
}

/// The number made of all the digits at the front, and what stands after it.
fn read_number(bytes: &[u8]) -> Option<(u16, &[u8])> {
    let digits = bytes.iter().take_while(|byte| byte.is_ascii_digit());
    let (digits, rest) = bytes.split_at(digits.count());
    Some((number(digits)?, rest))
}

/// "Numbers are decimal, 0 to 65535, no leading zero but `0` itself."
pub(crate) fn number(digits: &[u8]) -> Option<u16> {
    let leading_zero = digits.len() > 1 && digits[0] == b'0';
    if leading_zero || !digits.iter().all(u8::is_ascii_digit) {
        return None;
    }
    std::str::from_utf8(digits).ok()?.parse().ok()
}
