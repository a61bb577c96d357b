//! What `boxplan` prints, by the library and by the binary.

use std::io::Write;
use std::process::{Command, Stdio};

use second::{boxplan, text_combinations};

/// The input of 01 with its line ends.
fn input() -> Vec<u8> {
    lines(&[
        "package,version,weight,needs,constraint",
        "box,1.0.0,0,,",
        ",,,player,*",
        ",,,guide,(^ 1 0 0)",
        "player,2.0.0,0,,",
        ",,,codec,(>= 2 0 0)",
        "player,1.4.0,5,,",
        ",,,codec,(^ 1 0 0)",
        "guide,1.1.0,0,,",
        ",,,codec,(<= 1 9 9)",
        "codec,2.0.0,0,,",
        "codec,1.3.0,3,,",
    ])
}

/// The output of 01 with its line ends.
fn output() -> Vec<u8> {
    lines(&[
        "plan,package,version",
        "1,box,1.0.0",
        "1,player,2.0.0",
        "1,guide,1.1.0",
        "1,codec,2.0.0",
        "1,codec,1.3.0",
        "2,box,1.0.0",
        "2,player,1.4.0",
        "2,guide,1.1.0",
        "2,codec,1.3.0",
    ])
}

fn lines(lines: &[&str]) -> Vec<u8> {
    lines
        .iter()
        .flat_map(|line| [line.as_bytes(), b"\r\n"].concat())
        .collect()
}

/// Records after the header.
fn text(records: &[&str]) -> Vec<u8> {
    [
        &lines(&["package,version,weight,needs,constraint"])[..],
        &lines(records),
    ]
    .concat()
}

fn assert_refused(records: &[&str], refusal: &str) {
    assert_eq!(boxplan(&text(records)), lines(&["refusal", refusal]));
}

#[test]
fn input_and_output_of_01() {
    assert_eq!(boxplan(&input()), output());
}

#[test]
fn the_binary_prints_the_same() {
    let mut program = Command::new(env!("CARGO_BIN_EXE_boxplan2"))
        .stdin(Stdio::piped())
        .stdout(Stdio::piped())
        .spawn()
        .unwrap();
    program.stdin.take().unwrap().write_all(&input()).unwrap();
    let finished = program.wait_with_output().unwrap();
    assert!(finished.status.success());
    assert_eq!(finished.stdout, output());
}

#[test]
fn the_tables_tried_for_the_input() {
    // Player has 2 that fit, guide 1, and the codecs 1, 1 and 1; each slot may also hold 255.
    assert_eq!(text_combinations(&input()), 3 * 2 * 2 * 2 * 2);
    assert_eq!(text_combinations(b""), 0);
}

#[test]
fn the_root_alone() {
    assert_eq!(
        boxplan(&text(&["box,1.0.0,0,,"])),
        lines(&["plan,package,version", "1,box,1.0.0"])
    );
}

#[test]
fn at_most_eight_plans() {
    // Nine versions of a, all of weight 0, and the same with eight and with seven.
    let nine: Vec<String> = (0..9).map(|patch| format!("a,1.0.{patch},0,,")).collect();
    for versions in [7, 8, 9] {
        let mut records = vec!["box,65535.0.0,65535,,", ",,,a,*"];
        records.extend(nine[..versions].iter().map(String::as_str));
        let mut expected = vec!["plan,package,version".to_string()];
        for plan in 1..=versions.min(8) {
            expected.push(format!("{plan},box,65535.0.0"));
            expected.push(format!("{plan},a,1.0.{}", plan - 1));
        }
        let expected: Vec<&str> = expected.iter().map(String::as_str).collect();
        assert_eq!(boxplan(&text(&records)), lines(&expected));
    }
}

#[test]
fn members_rise_by_entry_number_and_the_root_is_entry_0() {
    let records = [
        "b,1.0.0,0,,",
        ",,,c,*",
        "a,1.0.0,0,,",
        "c,1.0.0,0,,",
        ",,,a,*",
    ];
    assert_eq!(
        boxplan(&text(&records)),
        lines(&[
            "plan,package,version",
            "1,b,1.0.0",
            "1,a,1.0.0",
            "1,c,1.0.0"
        ])
    );
}

#[test]
fn weight_then_dependencies_then_duplicates() {
    // The costs of the four x, as they are declared: 0 4 0, 0 3 1, 0 3 0 and 1 1 0.
    let records = [
        "box,1.0.0,0,,",
        ",,,x,*",
        "x,3.0.0,0,,",
        ",,,p,*",
        ",,,q,*",
        ",,,r,*",
        "x,2.0.0,0,,",
        ",,,y,(= 1 0 0)",
        ",,,y,(= 2 0 0)",
        "x,1.0.0,0,,",
        ",,,p,*",
        ",,,q,*",
        "x,0.1.0,1,,",
        "p,1.0.0,0,,",
        "q,1.0.0,0,,",
        "r,1.0.0,0,,",
        "y,1.0.0,0,,",
        "y,2.0.0,0,,",
    ];
    let output = [
        "plan,package,version",
        "1,box,1.0.0",
        "1,x,1.0.0",
        "1,p,1.0.0",
        "1,q,1.0.0",
        "2,box,1.0.0",
        "2,x,2.0.0",
        "2,y,1.0.0",
        "2,y,2.0.0",
        "3,box,1.0.0",
        "3,x,3.0.0",
        "3,p,1.0.0",
        "3,q,1.0.0",
        "3,r,1.0.0",
        "4,box,1.0.0",
        "4,x,0.1.0",
    ];
    assert_eq!(boxplan(&text(&records)), lines(&output));
}

#[test]
fn cargo_and_cycles_forbidden() {
    // Two versions of one major may not stand together.
    let records = [
        "box,1.0.0,0,,",
        ",,,a,(= 1 0 0)",
        ",,,a,(= 1 1 0)",
        "a,1.0.0,0,,",
        "a,1.1.0,0,,",
    ];
    assert_refused(&records, "11");
    assert_refused(
        &["box,1.0.0,0,,", ",,,a,*", "a,1.0.0,0,,", ",,,box,*"],
        "11",
    );
}

#[test]
fn refusals_before_any_plan() {
    assert_eq!(boxplan(b""), lines(&["refusal", "12"]));
    assert_eq!(boxplan(&text(&[])), lines(&["refusal", "1"]));
    assert_refused(&["box,1.0.0,0,,", ",,,a,*"], "11");
    assert_refused(&["box,1.0.0,0,,", "box,1.0.0,1,,"], "2");
    assert_refused(&["box,1.0.0,0,,", ",,,a,latest"], "4");
    assert_refused(&["box,1.0.0,0,,", "box,1.0.0,1,,", ",,,a,latest"], "2");
    assert_refused(&["box,1.0.0,0,,", ",,,a,*,"], "12");
    assert_refused(&[",,,a,*"], "12");
    let many = vec![",,,a,*"; 257];
    assert_refused(&[&["box,1.0.0,0,,"], &many[..]].concat(), "3");
    assert_eq!(boxplan(&vec![b'a'; 65_536]), lines(&["refusal", "12"]));
}
