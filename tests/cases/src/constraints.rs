//! Constraints: of every form with nesting, at the limits, and outside the rules.

use second::Version;

use crate::random::Random;

/// Constraints outside the rules, each in its own way; those of length and depth stand in
/// [`damaged`].
const DAMAGED: [&[u8]; 60] = [
    b"",
    b" ",
    b"(",
    b")",
    b"()",
    b"(*)",
    b"**",
    b"* ",
    b" *",
    b"*)",
    b"* *",
    b"\0",
    b"\xff",
    b"*\0",
    b"= 1 2 3",
    b"(= 1 2 3",
    b"(= 1 2 3))",
    b"((= 1 2 3))",
    b"(= 1 2)",
    b"(= 1 2 3 4)",
    b"(= 01 2 3)",
    b"(= 1 00 3)",
    b"(= 1 2 007)",
    b"(= 65536 0 0)",
    b"(= 0 65536 0)",
    b"(= 0 0 65536)",
    b"(= 131071 0 0)",
    b"(= 4294967296 0 0)",
    b"(= 18446744073709551616 0 0)",
    b"(= -1 0 0)",
    b"(= +1 0 0)",
    b"(=  1 2 3)",
    b"( = 1 2 3)",
    b"(= 1 2 3 )",
    b"(= 1\t2 3)",
    b"(= 1.2.3)",
    b"(= a b c)",
    b"(= 1 2 )",
    b"(=1 2 3)",
    b"(== 1 2 3)",
    b"(< 1 2 3)",
    b"(> 1 2 3)",
    b"(=< 1 2 3)",
    b"(~ 1 2 3)",
    b"(^1 2 3)",
    b"(^  1 2 3)",
    b"(and *)",
    b"(and * * *)",
    b"(and * *",
    b"(and **)",
    b"(and  * *)",
    b"(and * * )",
    b"(or *)",
    b"(or * (= 1 2))",
    b"(or (= 1 2 3)(= 1 2 3))",
    b"(AND * *)",
    b"(not *)",
    b"(xor * *)",
    b"(= 1 2 3)\r\n",
    b"latest",
];

/// How many ways to be outside the rules [`damaged`] knows.
pub const WAYS: usize = DAMAGED.len() + 4;

/// The constraint that is outside the rules in the given way.
pub fn damaged(way: usize) -> Vec<u8> {
    match way.checked_sub(DAMAGED.len()) {
        None => DAMAGED[way].to_vec(),
        Some(0) => of_depth(17, Side::Left),
        Some(1) => of_depth(17, Side::Right),
        Some(2) => of_length(256),
        Some(_) => of_length(300),
    }
}

/// A constraint at a limit: depth 16, 255 bytes, or the greatest numbers.
pub fn at_a_limit(random: &mut Random) -> Vec<u8> {
    match random.below(4) {
        0 => of_depth(16, Side::Left),
        1 => of_depth(16, Side::Right),
        2 => of_length(255),
        _ => b"(<= 65535 65535 65535)".to_vec(),
    }
}

/// A constraint of any form whose bounds lie about the version.
pub fn about(random: &mut Random, version: Version) -> Vec<u8> {
    match random.below(20) {
        0..9 => b"*".to_vec(),
        9..16 => bound(random, version),
        _ => pair(random, version, 3),
    }
}

/// A pair with at most so many levels below it.
fn pair(random: &mut Random, version: Version, levels: usize) -> Vec<u8> {
    let word = random.pick(&[&b"(and "[..], b"(or "]);
    let mut side = || {
        if levels > 1 && random.one_in(3) {
            pair(random, version, levels - 1)
        } else if random.one_in(5) {
            b"*".to_vec()
        } else {
            bound(random, version)
        }
    };
    let (left, right) = (side(), side());
    [word, &left, b" ", &right, b")"].concat()
}

/// A bound that is mostly the version itself, and else near it.
fn bound(random: &mut Random, version: Version) -> Vec<u8> {
    let word = random.pick(&["=", "<=", ">=", "^"]);
    let [x, y, z] = if random.one_in(3) {
        near(random, version)
    } else {
        version
    };
    format!("({word} {x} {y} {z})").into_bytes()
}

/// A version that differs from the given one in one number, or in none.
pub fn near(random: &mut Random, version: Version) -> Version {
    let mut other = version;
    let place = random.below(3);
    other[place] = match random.below(6) {
        0 => 0,
        1 => 65535,
        2 => version[place],
        3 | 4 => version[place].saturating_add(1),
        _ => version[place].saturating_sub(1),
    };
    other
}

/// On which side of its pairs a constraint is deep.
#[derive(Clone, Copy)]
enum Side {
    Left,
    Right,
}

/// A constraint of the depth.
fn of_depth(depth: usize, side: Side) -> Vec<u8> {
    (1..depth).fold(b"*".to_vec(), |inner, _| match side {
        Side::Left => [b"(or ", &inner[..], b" *)"].concat(),
        Side::Right => [b"(or * ", &inner[..], b")"].concat(),
    })
}

/// A constraint of the length, which is 9 or more, without great depth.
pub fn of_length(length: usize) -> Vec<u8> {
    match length {
        // Six bytes and three numbers of one to five digits.
        0..=21 => {
            let digits = length - 6;
            let [x, y] = [digits / 3, (digits - digits / 3) / 2];
            let number = |digits| "1".repeat(digits);
            format!("(= {} {} {})", number(x), number(y), number(digits - x - y)).into_bytes()
        }
        22..=24 => [b"(and * ", &of_length(length - 8)[..], b")"].concat(),
        _ => {
            let left = (length - 7) / 2;
            let right = length - 7 - left;
            [
                b"(and ",
                &of_length(left)[..],
                b" ",
                &of_length(right),
                b")",
            ]
            .concat()
        }
    }
}
