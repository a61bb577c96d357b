//! What read writes, the sizes of its tables, and the order in which it tests.

use crate::program::read;
use second::{ENTRY_NUMBERS, ReadAnswer, SLOT_NUMBERS};

const HEADER: &str = "package,version,weight,needs,constraint\r\n";

/// As many entries, then as many slots of the last, then more records.
fn text(entries: usize, slots: usize, more: &str) -> Vec<u8> {
    let mut text = HEADER.to_string();
    for patch in 0..entries {
        text += &format!("a,1.0.{patch},0,,\r\n");
    }
    text += &",,,a,*\r\n".repeat(slots);
    text += more;
    text.into_bytes()
}

/// Reads into tables of the sizes, every number 7 before; asserts that a refusal writes nothing.
fn assert_refused(text: &[u8], entry_numbers: usize, slot_numbers: usize, refusal: u8) {
    let mut entries = vec![7; entry_numbers];
    let mut slots = vec![7; slot_numbers];
    let expected = ReadAnswer {
        refusal,
        entries: 0,
        slots: 0,
    };
    assert_eq!(read(text, &mut entries, &mut slots), expected);
    assert!(entries.iter().chain(&slots).all(|number| *number == 7));
}

/// Reads and gives the counts with the front of both tables; asserts that the rest is untouched.
fn front(text: &[u8]) -> (ReadAnswer, Vec<u16>, Vec<u16>) {
    let mut entries = vec![7; ENTRY_NUMBERS];
    let mut slots = vec![7; SLOT_NUMBERS];
    let answer = read(text, &mut entries, &mut slots);
    let behind_entries = entries.split_off(5 * answer.entries);
    let behind_slots = slots.split_off(4 * answer.slots);
    assert!(
        behind_entries
            .iter()
            .chain(&behind_slots)
            .all(|number| *number == 7)
    );
    (answer, entries, slots)
}

#[test]
fn the_tables_of_the_input() {
    let input = "package,version,weight,needs,constraint\r\n\
                 box,1.0.0,0,,\r\n\
                 ,,,player,*\r\n\
                 ,,,guide,(^ 1 0 0)\r\n\
                 player,2.0.0,0,,\r\n\
                 ,,,codec,(>= 2 0 0)\r\n\
                 player,1.4.0,5,,\r\n\
                 ,,,codec,(^ 1 0 0)\r\n\
                 guide,1.1.0,0,,\r\n\
                 ,,,codec,(<= 1 9 9)\r\n\
                 codec,2.0.0,0,,\r\n\
                 codec,1.3.0,3,,\r\n";
    let (answer, entries, slots) = front(input.as_bytes());
    assert_eq!(
        answer,
        ReadAnswer {
            refusal: 0,
            entries: 6,
            slots: 5
        }
    );
    #[rustfmt::skip]
    assert_eq!(entries, [
        0, 1, 0, 0, 0,
        1, 2, 0, 0, 0,
        1, 1, 4, 0, 5,
        2, 1, 1, 0, 0,
        3, 2, 0, 0, 0,
        3, 1, 3, 0, 3,
    ]);
    #[rustfmt::skip]
    assert_eq!(slots, [
        0, 1, 66, 67,
        0, 2, 78, 87,
        1, 3, 116, 126,
        2, 3, 155, 164,
        3, 3, 192, 202,
    ]);
}

#[test]
fn packages_are_numbered_by_first_appearance_in_either_column() {
    let text =
        format!("{HEADER}c,1.0.0,0,,\r\n,,,b,*\r\n,,,c,*\r\na,9.8.7,6,,\r\n,,,d,*\r\nb,1.0.0,1,,");
    let (answer, entries, slots) = front(text.as_bytes());
    assert_eq!(
        answer,
        ReadAnswer {
            refusal: 0,
            entries: 3,
            slots: 3
        }
    );
    // The header has 41 bytes, an entry here 13 and a slot 8; its constraint is the sixth byte.
    #[rustfmt::skip]
    assert_eq!(entries, [
        0, 1, 0, 0, 0,
        2, 9, 8, 7, 6,
        1, 1, 0, 0, 1,
    ]);
    #[rustfmt::skip]
    assert_eq!(slots, [
        0, 1, 59, 60,
        0, 0, 67, 68,
        1, 3, 88, 89,
    ]);
}

#[test]
fn the_greatest_numbers_and_the_last_mark() {
    let mut text = format!("{HEADER}a,65535.65535.65535,65535,,\r\n,,,a,").into_bytes();
    let start = text.len() as u16;
    text.resize(65_535, b'*');
    let (answer, entries, slots) = front(&text);
    assert_eq!(
        answer,
        ReadAnswer {
            refusal: 0,
            entries: 1,
            slots: 1
        }
    );
    assert_eq!(entries, [0, 65535, 65535, 65535, 65535]);
    assert_eq!(slots, [0, 0, start, 65535]);
}

#[test]
fn equal_entries_and_bad_constraints_pass() {
    let text = format!("{HEADER}a,1.0.0,0,,\r\na,1.0.0,0,,\r\n,,,a,latest\r\n");
    let (answer, entries, slots) = front(text.as_bytes());
    assert_eq!(
        answer,
        ReadAnswer {
            refusal: 0,
            entries: 2,
            slots: 1
        }
    );
    assert_eq!(entries, [0, 1, 0, 0, 0, 0, 1, 0, 0, 0]);
    assert_eq!(slots, [1, 0, 72, 78]);
}

#[test]
fn tables_of_another_size_are_7() {
    let sane = text(1, 1, "");
    for numbers in [0, 5, 319, 321, 1024] {
        assert_refused(&sane, numbers, SLOT_NUMBERS, 7);
    }
    for numbers in [0, 4, 320, 1023, 1025] {
        assert_refused(&sane, ENTRY_NUMBERS, numbers, 7);
    }
    assert_refused(&sane, SLOT_NUMBERS, ENTRY_NUMBERS, 7);
}

#[test]
fn entries_up_to_64_and_slots_up_to_256() {
    assert_eq!(
        front(&text(64, 256, "")).0,
        ReadAnswer {
            refusal: 0,
            entries: 64,
            slots: 256
        }
    );
    assert_refused(&text(65, 0, ""), ENTRY_NUMBERS, SLOT_NUMBERS, 1);
    assert_refused(&text(1, 257, ""), ENTRY_NUMBERS, SLOT_NUMBERS, 3);
    // The limit is on all slots together, whoever owns them.
    let more = format!("b,1.0.0,0,,\r\n{}", ",,,a,*\r\n".repeat(129));
    assert_refused(&text(1, 128, &more), ENTRY_NUMBERS, SLOT_NUMBERS, 3);
}

#[test]
fn tests_7_then_12_then_1_then_3() {
    let (entries, slots) = (ENTRY_NUMBERS, SLOT_NUMBERS);
    assert_refused(b"", 0, slots, 7);
    assert_refused(&text(65, 257, "?"), entries, 0, 7);
    assert_refused(&text(0, 0, ""), entries, 0, 7);
    assert_refused(&text(1, 257, ""), 0, slots, 7);
    assert_refused(&text(0, 0, "?"), entries, slots, 12);
    // A fault after the 65th entry or the 257th slot is still 12.
    assert_refused(&text(65, 0, "b,1.0.0,00,,"), entries, slots, 12);
    assert_refused(&text(1, 257, ",,,A,*"), entries, slots, 12);
    assert_refused(&text(65, 257, "\r\n"), entries, slots, 12);
    assert_refused(&text(65, 257, ""), entries, slots, 1);
}
