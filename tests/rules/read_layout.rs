//! The layout of the text, clause by clause: what is 12, and what just passes.

use crate::program::read;
use second::{ENTRY_NUMBERS, ReadAnswer, SLOT_NUMBERS};

const HEADER: &str = "package,version,weight,needs,constraint";

/// Read with tables of the right size.
fn read_text(text: &[u8]) -> ReadAnswer {
    read(text, &mut [7; ENTRY_NUMBERS], &mut [7; SLOT_NUMBERS])
}

fn assert_refused(text: &[u8], refusal: u8) {
    let expected = ReadAnswer {
        refusal,
        entries: 0,
        slots: 0,
    };
    assert_eq!(read_text(text), expected, "{}", text.escape_ascii());
}

fn assert_read(text: &[u8], entries: usize, slots: usize) {
    let expected = ReadAnswer {
        refusal: 0,
        entries,
        slots,
    };
    assert_eq!(read_text(text), expected, "{}", text.escape_ascii());
}

/// The header, an entry and a slot of it, then the records given.
fn after_entry(records: &[u8]) -> Vec<u8> {
    let sane = format!("{HEADER}\r\nbox,1.0.0,0,,\r\n,,,a,*\r\n");
    [sane.as_bytes(), records].concat()
}

#[test]
fn the_header_byte_for_byte() {
    let entry = "\r\nbox,1.0.0,0,,\r\n";
    assert_read(format!("{HEADER}{entry}").as_bytes(), 1, 0);
    for header in [
        "Package,version,weight,needs,constraint",
        "package,version,weight,needs",
        "package,version,weight,needs,constraint,",
        "package, version,weight,needs,constraint",
        "package,version,weight,needs,constraint ",
        " package,version,weight,needs,constraint",
        "\u{feff}package,version,weight,needs,constraint",
        "\"package\",version,weight,needs,constraint",
        "package;version;weight;needs;constraint",
        "version,package,weight,needs,constraint",
        "",
    ] {
        assert_refused(format!("{header}{entry}").as_bytes(), 12);
    }
    assert_refused(b"", 12);
    assert_refused(b"\r\n", 12);
    assert_refused(b"box,1.0.0,0,,\r\n", 12);
    assert_refused(b"package,version,weight,needs,constrain", 12);
}

#[test]
fn the_header_alone_is_1() {
    assert_refused(HEADER.as_bytes(), 1);
    assert_refused(format!("{HEADER}\r\n").as_bytes(), 1);
    assert_refused(format!("{HEADER}\r\n\r\n").as_bytes(), 12);
}

#[test]
fn cr_lf_ends_a_record_and_the_last_may_lack_it() {
    assert_read(&after_entry(b""), 1, 1);
    assert_read(&after_entry(b",,,b,*"), 1, 2);
    assert_read(&after_entry(b"b,1.0.0,0,,"), 2, 1);
    assert_read(&after_entry(b"b,1.0.0,0,,\r\n"), 2, 1);
    for bad in [
        &b"\r\n"[..],
        b"\r",
        b"\n",
        b",,,b,*\r",
        b",,,b,*\n",
        b",,,b,*\n\r",
        b",,,b,*\r\r\n",
        b"b,1.0.0,0,,\n,,,c,*",
        b"b,1.0.0,0,,\r,,,c,*",
        b"b,1.0.0,0,,\r\n\r\n",
        b"\r\nb,1.0.0,0,,",
        b"b,1.0.0,0,,\r\n\r\n,,,c,*",
        b"b,1.0.0,0,,\r\n\n",
    ] {
        assert_refused(&after_entry(bad), 12);
    }
    assert_refused(format!("{HEADER}\nbox,1.0.0,0,,\n").as_bytes(), 12);
    assert_refused(format!("{HEADER}\r").as_bytes(), 12);
    assert_refused(format!("{HEADER}\n").as_bytes(), 12);
}

#[test]
fn no_field_holds_a_comma_quote_cr_or_lf() {
    for bad in [
        &b"\"b\",1.0.0,0,,"[..],
        b"b\",1.0.0,0,,",
        b"b,\"1.0.0\",0,,",
        b"b,1.0.0,\"0\",,",
        b"b,1.0.0,0,\"\",",
        b",,,\"b\",*",
        b",,,b,\"*\"",
        b",,,b,*\"",
        b",,,b,*,*",
        b",,,b,*\r*",
        b",,,b,*\n*",
        b",,,b,\"\"",
        b",,,b,\"",
        b",,,b,\r",
        b",,,b,\n",
    ] {
        assert_refused(&after_entry(bad), 12);
    }
}

#[test]
fn five_fields_no_fewer_and_no_more() {
    for bad in [
        "b",
        "b,",
        "b,1.0.0",
        "b,1.0.0,0",
        "b,1.0.0,0,",
        "b,1.0.0,0,,,",
        ",,,b",
        ",,,b,*,",
        ",,b,*",
        ",,,,b,*",
        ",,,b,*,x",
    ] {
        assert_refused(&after_entry(bad.as_bytes()), 12);
    }
}

#[test]
fn three_filled_and_two_empty_or_three_empty_and_two_filled() {
    // Every way to fill five fields; only the two that 01 names pass.
    let filled = ["b", "1.0.0", "0", "c", "*"];
    for ways in 0..32 {
        let field = |place: usize| {
            if ways >> place & 1 == 1 {
                filled[place]
            } else {
                ""
            }
        };
        let record = [0, 1, 2, 3, 4].map(field).join(",");
        match ways {
            0b00111 => assert_read(&after_entry(record.as_bytes()), 2, 1),
            0b11000 => assert_read(&after_entry(record.as_bytes()), 1, 2),
            _ => assert_refused(&after_entry(record.as_bytes()), 12),
        }
    }
}

#[test]
fn a_slot_before_any_entry() {
    assert_refused(format!("{HEADER}\r\n,,,a,*").as_bytes(), 12);
    assert_refused(
        format!("{HEADER}\r\n,,,a,*\r\nbox,1.0.0,0,,\r\n").as_bytes(),
        12,
    );
}

#[test]
fn names_of_1_to_32_letters() {
    let letters_32 = "abcdefghijklmnopqrstuvwxyz0123-9";
    for name in ["a", "z", "0", "9", "-", "--", "m-4", letters_32] {
        assert_read(&after_entry(format!("{name},1.0.0,0,,").as_bytes()), 2, 1);
        assert_read(&after_entry(format!(",,,{name},*").as_bytes()), 1, 2);
    }
    let letters_33 = format!("{letters_32}a");
    for name in [
        &letters_33,
        "A",
        "Z",
        "a_b",
        "a.b",
        "a b",
        " a",
        "a ",
        "a/b",
        "@a",
        "a`",
        "a{",
        "\u{e9}",
        "a\0",
        "a\t",
        "/",
        ":",
        ",",
    ] {
        assert_refused(&after_entry(format!("{name},1.0.0,0,,").as_bytes()), 12);
        assert_refused(&after_entry(format!(",,,{name},*").as_bytes()), 12);
    }
}

#[test]
fn versions_of_three_numbers() {
    for version in ["0.0.0", "65535.65535.65535", "10.20.30", "1.0.65535"] {
        assert_read(&after_entry(format!("b,{version},0,,").as_bytes()), 2, 1);
    }
    for version in [
        "1",
        "1.0",
        "1.0.0.0",
        "1.0.",
        ".1.0",
        "1..0",
        "..",
        "01.0.0",
        "1.00.0",
        "1.0.01",
        "65536.0.0",
        "1.65536.0",
        "1.0.65536",
        "v1.0.0",
        "1.0.0a",
        "1.0.x",
        "-1.0.0",
        "+1.0.0",
        "1.0.0 ",
        " 1.0.0",
        "1. 0.0",
        "1 0 0",
        "1.0.*",
        "99999999999999999999.0.0",
    ] {
        assert_refused(&after_entry(format!("b,{version},0,,").as_bytes()), 12);
    }
}

#[test]
fn weights_of_one_number() {
    for weight in ["0", "1", "10", "65535"] {
        assert_read(&after_entry(format!("b,1.0.0,{weight},,").as_bytes()), 2, 1);
    }
    for weight in [
        "00",
        "01",
        "65536",
        "-0",
        "+1",
        "1.0",
        " 1",
        "1 ",
        "a",
        "0x1",
        "1e3",
        "4294967296",
    ] {
        assert_refused(&after_entry(format!("b,1.0.0,{weight},,").as_bytes()), 12);
    }
}

#[test]
fn any_other_byte_in_the_constraint() {
    for byte in 0..=255u8 {
        let record = [b",,,b,", &[byte][..]].concat();
        match byte {
            b',' | b'"' | b'\r' | b'\n' => assert_refused(&after_entry(&record), 12),
            _ => assert_read(&after_entry(&record), 1, 2),
        }
    }
    assert_read(&after_entry(b",,,b, \xff\0 not a constraint"), 1, 2);
}

#[test]
fn length_65535_passes_and_65536_does_not() {
    let padded = |length: usize| {
        let mut text = after_entry(b",,,b,");
        text.resize(length, b'x');
        text
    };
    assert_read(&padded(65_535), 1, 2);
    assert_refused(&padded(65_536), 12);
    // The last record's CR LF counts too.
    let mut ended = padded(65_533);
    ended.extend(b"\r\n");
    assert_read(&ended, 1, 2);
    let mut past = padded(65_534);
    past.extend(b"\r\n");
    assert_refused(&past, 12);
}
