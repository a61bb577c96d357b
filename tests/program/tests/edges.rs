//! The edges of every limit and rule of the layout, each with the output worked out by hand.

use program::{refusal, run};

const HEADER: &str = "package,version,weight,needs,constraint\r\n";

/// A text of the header and these records.
fn text(records: &str) -> Vec<u8> {
    format!("{HEADER}{records}").into_bytes()
}

/// The output of one plan.
fn plan(members: &[&str]) -> Vec<u8> {
    let records = members.iter().map(|member| format!("1,{member}\r\n"));
    format!("plan,package,version\r\n{}", records.collect::<String>()).into_bytes()
}

#[test]
fn an_entry_alone() {
    let expected = plan(&["box,1.0.0"]);
    assert_eq!(run(&text("box,1.0.0,0,,\r\n")), expected);
    assert_eq!(
        run(&text("box,1.0.0,0,,")),
        expected,
        "the last CR LF may be missing"
    );
    assert_eq!(
        run(&text("box,1.0.0,0,,\r\n\r\n")),
        refusal(12),
        "a blank record"
    );
}

#[test]
fn a_header_alone_or_none() {
    assert_eq!(run(b""), refusal(12));
    assert_eq!(run(HEADER.as_bytes()), refusal(1));
    assert_eq!(run(HEADER.trim_end().as_bytes()), refusal(1));
    assert_eq!(run(b"package,version,weight,needs\r\n"), refusal(12));
    assert_eq!(
        run(b"Package,version,weight,needs,constraint\r\nbox,1.0.0,0,,\r\n"),
        refusal(12)
    );
    assert_eq!(run(b"box,1.0.0,0,,\r\n"), refusal(12));
}

#[test]
fn records_outside_the_layout() {
    for records in [
        "box,1.0.0,0,,\n",
        "box,1.0.0,0,,\r",
        "box,1.0.0,0,,\r\rcodec,1.0.0,0,,\r\n",
        "box,1.0.0,0,,\ncodec,1.0.0,0,,\r\n",
        ",,,player,*\r\nbox,1.0.0,0,,\r\n",
        "box,1.0.0,0,,,\r\n",
        "box,1.0.0,0,\r\n",
        "box,1.0.0,0,player,*\r\n",
        "box,,0,,\r\n",
        ",1.0.0,0,,\r\n",
        "box,1.0.0,,,\r\n",
        "box,1.0,0,,\r\n",
        "box,1.0.0.0,0,,\r\n",
        "box,01.0.0,0,,\r\n",
        "box,1.0.0,00,,\r\n",
        "box,65536.0.0,0,,\r\n",
        "box,1.65536.0,0,,\r\n",
        "box,1.0.65536,0,,\r\n",
        "box,1.0.0,65536,,\r\n",
        "box,1.0.0,-1,,\r\n",
        "Box,1.0.0,0,,\r\n",
        "box_image,1.0.0,0,,\r\n",
        "box, 1.0.0,0,,\r\n",
        "\"box\",1.0.0,0,,\r\n",
        "box,1.0.0,0,,\r\n,,,player,\r\n",
        "box,1.0.0,0,,\r\n,,,,*\r\n",
        "box,1.0.0,0,,\r\n,,,player,\"*\"\r\n",
        "box,1.0.0,0,,\r\n,,,player,*,\r\n",
        "box,1.0.0,0,,\r\n,,player,*\r\n",
        "box,1.0.0,0,,\r\n,,,player,*\n\r\n",
    ] {
        assert_eq!(run(&text(records)), refusal(12), "{records:?}");
    }
}

#[test]
fn the_greatest_numbers_and_names() {
    let letters = "a".repeat(32);
    let member = format!("{letters},65535.65535.65535");
    let records = format!("{member},65535,,\r\n");
    assert_eq!(run(&text(&records)), plan(&[&member]));
    assert_eq!(run(&text(&format!("a{records}"))), refusal(12));
}

/// So many entries of one package, of which the first is the root.
fn entries(count: usize) -> String {
    let records = (0..count).map(|entry| format!("box,1.0.{entry},0,,\r\n"));
    records.collect()
}

#[test]
fn the_number_of_entries() {
    assert_eq!(run(&text(&entries(64))), plan(&["box,1.0.0"]));
    assert_eq!(run(&text(&entries(65))), refusal(1));
}

#[test]
fn sixty_four_members_with_the_longest_fields() {
    let member = |entry: usize| format!("{entry:032},65535.65535.{}", 10_000 + entry);
    let mut records = String::new();
    for entry in 0..64 {
        records += &format!("{},0,,\r\n", member(entry));
        if entry < 63 {
            records += &format!(",,,{:032},*\r\n", entry + 1);
        }
    }
    let members: Vec<String> = (0..64).map(member).collect();
    let members: Vec<&str> = members.iter().map(String::as_str).collect();
    assert_eq!(run(&text(&records)), plan(&members));
}

#[test]
fn the_number_of_slots() {
    let needs = |count| {
        let slots = ",,,codec,*\r\n".repeat(count);
        text(&format!("box,1.0.0,0,,\r\n{slots}codec,1.0.0,0,,\r\n"))
    };
    assert_eq!(run(&needs(256)), plan(&["box,1.0.0", "codec,1.0.0"]));
    assert_eq!(run(&needs(257)), refusal(3));
}

/// A text of so many bytes, which a long constraint makes up.
fn of_length(length: usize) -> Vec<u8> {
    let mut text = text("box,1.0.0,0,,\r\n,,,codec,");
    text.resize(length - 2, b'*');
    text.extend(b"\r\n");
    text
}

#[test]
fn the_length_of_the_text() {
    assert_eq!(
        run(&of_length(65_535)),
        refusal(4),
        "the constraint is too long"
    );
    assert_eq!(run(&of_length(65_536)), refusal(12));
    assert_eq!(run(&of_length(65_537)), refusal(12));
    let full = text(&"box,1.0.0,0,,\r\n".repeat(5_000))[..65_536].to_vec();
    assert_eq!(run(&full), refusal(12));
}

#[test]
fn refusals_past_read() {
    assert_eq!(run(&text("box,1.0.0,0,,\r\nbox,1.0.0,5,,\r\n")), refusal(2));
    assert_eq!(
        run(&text("box,1.0.0,0,,\r\n,,,player,(^ 1 0\r\n")),
        refusal(4)
    );
    assert_eq!(run(&text("box,1.0.0,0,,\r\n,,,player,*\r\n")), refusal(11));
    assert_eq!(
        run(&text("box,1.0.0,0,,\r\n,,,player,\0\u{80}\r\n")),
        refusal(4)
    );
}

#[test]
fn at_most_eight_plans() {
    let versions = (1..=9).map(|patch| format!("codec,1.0.{patch},{patch},,\r\n"));
    let versions: String = versions.collect();
    let mut expected = String::from("plan,package,version\r\n");
    for number in 1..=8 {
        expected += &format!("{number},box,1.0.0\r\n{number},codec,1.0.{number}\r\n");
    }
    assert_eq!(
        run(&text(&format!("box,1.0.0,0,,\r\n,,,codec,*\r\n{versions}"))),
        expected.into_bytes()
    );
}
