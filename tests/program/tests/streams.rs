//! How input arrives and where output goes: in pieces, none, far too much, from what cannot be
//! read, and to what is closed.

use std::fs::{File, read};
use std::os::unix::process::ExitStatusExt;
use std::process::{Command, Stdio};
use std::thread::sleep;
use std::time::Duration;

use program::{boxplan, finish, hand, refusal, root, start};

/// The signal that ends a program whose output nobody reads.
const BROKEN_PIPE: i32 = 13;

fn example(extension: &str) -> Vec<u8> {
    read(root().join("examples/example").with_extension(extension)).unwrap()
}

#[test]
fn input_in_small_pieces() {
    for size in [1, 7, 100] {
        let mut child = start();
        for piece in example("csv").chunks(size) {
            assert!(hand(&mut child, piece));
            sleep(Duration::from_micros(200));
        }
        assert_eq!(finish(child), example("out"), "pieces of {size}");
    }
}

#[test]
fn the_longest_text_in_pieces() {
    let mut text = example("csv");
    text.extend(b",,,codec,");
    text.resize(65_535, b'*');
    for (length, number) in [(65_535, 4), (65_536, 12)] {
        text.resize(length, b'*');
        let mut child = start();
        for piece in text.chunks(4_097) {
            assert!(hand(&mut child, piece));
            sleep(Duration::from_micros(200));
        }
        assert_eq!(finish(child), refusal(number), "{length} bytes");
    }
}

#[test]
fn a_hundred_megabytes() {
    let megabyte = vec![b'a'; 1_000_000];
    let mut child = start();
    let handed = (0..100).take_while(|_| hand(&mut child, &megabyte)).count();
    assert!(handed < 100, "what is past 65,536 bytes is not read");
    assert_eq!(finish(child), refusal(12));
}

#[test]
fn input_that_is_empty_or_cannot_be_read() {
    let inputs = [Stdio::null(), Stdio::from(File::open(root()).unwrap())];
    for input in inputs {
        let output = Command::new(boxplan()).stdin(input).output().unwrap();
        assert!(output.status.success());
        assert_eq!(output.stdout, refusal(12));
    }
}

#[test]
fn an_output_that_nobody_reads() {
    let mut child = start();
    drop(child.stdout.take());
    hand(&mut child, &example("csv"));
    drop(child.stdin.take());
    let status = child.wait().unwrap();
    assert!(
        status.success() || status.signal() == Some(BROKEN_PIPE),
        "{status}"
    );
}

#[test]
fn an_output_that_is_closed_or_full() {
    for output in [">&-", "> /dev/full"] {
        let mut shell = Command::new("sh");
        shell.args(["-c", &format!("exec \"$0\" {output}")]);
        let mut child = shell.arg(boxplan()).stdin(Stdio::piped()).spawn().unwrap();
        hand(&mut child, &example("csv"));
        drop(child.stdin.take());
        assert!(child.wait().unwrap().success(), "{output}");
    }
}
