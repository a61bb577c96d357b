//! Constraints: each form, each way of being outside the rules, and the limits.

use crate::program::fits;
use second::{FitsAnswer, Version};

fn assert_fits(constraint: &str, fitting: &[Version], others: &[Version]) {
    for (versions, expected) in [(fitting, true), (others, false)] {
        for version in versions {
            assert_eq!(
                fits(constraint.as_bytes(), *version),
                FitsAnswer {
                    refusal: 0,
                    fits: expected
                },
                "{constraint} against {version:?}"
            );
        }
    }
}

fn assert_refused(constraint: &[u8]) {
    assert_eq!(
        fits(constraint, [1, 2, 3]),
        FitsAnswer {
            refusal: 4,
            fits: false
        },
        "{}",
        constraint.escape_ascii()
    );
}

fn assert_passes(constraint: &[u8]) {
    assert_eq!(
        fits(constraint, [1, 2, 3]).refusal,
        0,
        "{}",
        constraint.escape_ascii()
    );
}

/// `(or * ` and so on around a `*`, up to the depth.
fn nested(depth: usize) -> Vec<u8> {
    let mut constraint = b"*".to_vec();
    for _ in 1..depth {
        constraint = [b"(or * ", &constraint[..], b")"].concat();
    }
    constraint
}

#[test]
fn star_takes_every_version() {
    assert_fits("*", &[[0, 0, 0], [1, 2, 3], [65535, 65535, 65535]], &[]);
}

#[test]
fn equal() {
    assert_fits(
        "(= 1 2 3)",
        &[[1, 2, 3]],
        &[[1, 2, 4], [1, 3, 3], [2, 2, 3], [0, 2, 3], [3, 2, 1]],
    );
}

#[test]
fn at_most_compares_major_then_minor_then_patch() {
    assert_fits(
        "(<= 1 2 3)",
        &[[1, 2, 3], [1, 2, 2], [1, 1, 9], [0, 9, 9], [0, 0, 0]],
        &[[1, 2, 4], [1, 3, 0], [2, 0, 0], [65535, 0, 0]],
    );
}

#[test]
fn at_least_compares_major_then_minor_then_patch() {
    assert_fits(
        "(>= 1 2 3)",
        &[
            [1, 2, 3],
            [1, 2, 4],
            [1, 3, 0],
            [2, 0, 0],
            [65535, 65535, 65535],
        ],
        &[[1, 2, 2], [1, 1, 9], [0, 9, 9], [0, 0, 0]],
    );
}

#[test]
fn caret_examples_of_01() {
    assert_fits("(^ 0 0 3)", &[[0, 0, 3]], &[[0, 0, 4], [0, 1, 0]]);
    assert_fits("(^ 0 2 1)", &[[0, 2, 5]], &[[0, 2, 0], [0, 3, 0]]);
    assert_fits("(^ 1 2 3)", &[[1, 3, 0]], &[[1, 2, 2], [2, 0, 0]]);
}

#[test]
fn caret_by_its_three_cases() {
    assert_fits(
        "(^ 0 0 0)",
        &[[0, 0, 0]],
        &[[0, 0, 1], [0, 1, 0], [1, 0, 0]],
    );
    assert_fits("(^ 0 0 3)", &[], &[[0, 0, 2], [0, 1, 3], [1, 0, 3]]);
    assert_fits(
        "(^ 0 2 1)",
        &[[0, 2, 1], [0, 2, 65535]],
        &[[0, 1, 9], [0, 3, 9], [1, 2, 1], [0, 0, 1]],
    );
    assert_fits(
        "(^ 1 2 3)",
        &[[1, 2, 3], [1, 2, 4], [1, 65535, 0]],
        &[[0, 9, 9], [1, 1, 9], [1, 0, 0], [2, 2, 3]],
    );
    assert_fits(
        "(^ 1 0 0)",
        &[[1, 0, 0], [1, 0, 1], [1, 1, 0]],
        &[[0, 0, 0], [2, 0, 0]],
    );
}

#[test]
fn pairs() {
    assert_fits(
        "(and (>= 1 0 0) (<= 1 9 9))",
        &[[1, 0, 0], [1, 9, 9]],
        &[[0, 9, 9], [1, 9, 10], [2, 0, 0]],
    );
    assert_fits(
        "(or (= 1 0 0) (= 2 0 0))",
        &[[1, 0, 0], [2, 0, 0]],
        &[[1, 0, 1]],
    );
    assert_fits(
        "(or (and (^ 1 0 0) (<= 1 5 0)) (= 3 0 0))",
        &[[1, 5, 0], [3, 0, 0]],
        &[[1, 5, 1], [2, 0, 0]],
    );
    assert_fits("(and * *)", &[[9, 9, 9]], &[]);
    assert_fits("(and (= 1 0 0) (= 2 0 0))", &[], &[[1, 0, 0], [2, 0, 0]]);
}

#[test]
fn numbers_from_0_to_65535_without_leading_zero() {
    assert_fits("(= 65535 0 65535)", &[[65535, 0, 65535]], &[]);
    for bad in [
        "65536",
        "70000",
        "99999999999999999999999",
        "00",
        "01",
        "007",
        "-1",
        "+1",
    ] {
        for place in 0..3 {
            let mut numbers = ["1"; 3];
            numbers[place] = bad;
            assert_refused(format!("(= {})", numbers.join(" ")).as_bytes());
        }
    }
    for bad in ["", "x", "1a", "a1", "1.0", "0x1", "*"] {
        assert_refused(format!("(= {bad} 1 1)").as_bytes());
        assert_refused(format!("(= 1 1 {bad})").as_bytes());
    }
}

#[test]
fn one_space_between_parts_and_no_other_blanks() {
    for bad in [
        " *",
        "* ",
        "\t*",
        "*\n",
        "( = 1 2 3)",
        "(=  1 2 3)",
        "(= 1  2 3)",
        "(= 1 2  3)",
        "(= 1 2 3 )",
        "(= 1 2 3) ",
        " (= 1 2 3)",
        "(=\t1 2 3)",
        "(= 1\n2 3)",
        "(=1 2 3)",
        "(and  * *)",
        "(and *  *)",
        "(and * * )",
        "( and * *)",
        "(and **)",
        "(and* *)",
        "(or (= 1 2 3)(= 1 2 3))",
    ] {
        assert_refused(bad.as_bytes());
    }
}

#[test]
fn every_other_break_of_the_form() {
    for bad in [
        "",
        "(",
        ")",
        "()",
        "**",
        "(*)",
        "(= 1 2)",
        "(= 1 2 3 4)",
        "(= 1 2 3",
        "= 1 2 3",
        "(= 1 2 3))",
        "((= 1 2 3))",
        "(=)",
        "(= )",
        "(== 1 2 3)",
        "(< 1 2 3)",
        "(> 1 2 3)",
        "(=< 1 2 3)",
        "(=> 1 2 3)",
        "(~ 1 2 3)",
        "(!= 1 2 3)",
        "(and *)",
        "(and)",
        "(and )",
        "(and * * *)",
        "(and * *",
        "(and * *))",
        "(or *)",
        "(or * * *)",
        "(AND * *)",
        "(Or * *)",
        "(xor * *)",
        "(not *)",
        "(* *)",
        "(= 1 2 3)*",
        "*(= 1 2 3)",
        "(and * (= 1 2))",
        "(or (= 1 2 3) )",
        "(= 1,2,3)",
        "(= 1.2.3)",
        "1.2.3",
        "latest",
    ] {
        assert_refused(bad.as_bytes());
    }
    for bad in [
        &b"\0"[..],
        b"*\0",
        b"\xff",
        b"(= 1 2 \xb3)",
        b"(\x88 1 2 3)",
        b"(= 1 2 3)\r\n",
    ] {
        assert_refused(bad);
    }
}

#[test]
fn depth_16_passes_and_17_does_not() {
    assert_passes(&nested(15));
    assert_passes(&nested(16));
    assert_refused(&nested(17));
    // The deeper side counts, wherever it stands.
    let deep = nested(15);
    assert_passes(&[b"(and ", &deep[..], b" *)"].concat());
    let too_deep = nested(16);
    assert_refused(&[b"(and ", &too_deep[..], b" *)"].concat());
    assert_refused(&[b"(and * ", &too_deep[..], b")"].concat());
}

#[test]
fn length_255_passes_and_256_does_not() {
    // A bound of 21 bytes; pairs of two n-byte sides have 2n + 7 (and) or 2n + 6 (or) bytes.
    let pair = |word: &str, side: &str| format!("({word} {side} {side})");
    let bytes_21 = "(= 65535 65535 65535)";
    let bytes_49 = pair("and", bytes_21);
    let bytes_105 = pair("and", &bytes_49);
    // 7 + 105 + 143, where 143 = 8 + 135 and 135 = 7 + 105 + 23 and 23 = 8 + 15.
    let bytes_23 = "(and * (= 10 100 1000))";
    let bytes_143 = format!("(and * (and {bytes_105} {bytes_23}))");
    let bytes_255 = format!("(and {bytes_105} {bytes_143})");
    assert_eq!(bytes_255.len(), 255);
    assert_passes(bytes_255.as_bytes());
    let bytes_256 = bytes_255.replacen("(= 10 ", "(<= 10 ", 1);
    assert_eq!(bytes_256.len(), 256);
    assert_refused(bytes_256.as_bytes());
}
