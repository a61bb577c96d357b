//! Runs the program `boxplan` on a text. It is the one that `tools/build` makes, or the one
//! that the variable `BOXPLAN` names.

use std::io::{ErrorKind, Read, Write};
use std::path::PathBuf;
use std::process::{Child, Command, Stdio};

/// The root of the repository.
pub fn root() -> PathBuf {
    PathBuf::from(concat!(env!("CARGO_MANIFEST_DIR"), "/../.."))
}

/// The program.
///
/// # Panics
/// If it is not built.
pub fn boxplan() -> PathBuf {
    let path = std::env::var_os("BOXPLAN").map_or(root().join("target/bin/boxplan"), PathBuf::from);
    assert!(
        path.exists(),
        "{} is not built: tools/build",
        path.display()
    );
    path
}

/// The program, waiting for its input.
pub fn start() -> Child {
    let mut command = Command::new(boxplan());
    command.stdin(Stdio::piped()).stdout(Stdio::piped());
    command.spawn().expect("boxplan starts")
}

/// Hands the program a piece of its input; false if it reads no more.
pub fn hand(child: &mut Child, piece: &[u8]) -> bool {
    let stdin = child.stdin.as_mut().expect("an input");
    match stdin.write_all(piece) {
        Ok(()) => true,
        Err(error) if error.kind() == ErrorKind::BrokenPipe => false,
        Err(error) => panic!("{error}"),
    }
}

/// Ends the input and takes what the program writes.
///
/// # Panics
/// If the program does not end with status 0.
pub fn finish(mut child: Child) -> Vec<u8> {
    drop(child.stdin.take());
    let mut output = Vec::new();
    let mut stdout = child.stdout.take().expect("an output");
    stdout
        .read_to_end(&mut output)
        .expect("the output can be read");
    assert!(child.wait().expect("boxplan ends").success());
    output
}

/// What the program writes for a text.
pub fn run(text: &[u8]) -> Vec<u8> {
    let mut child = start();
    hand(&mut child, text);
    finish(child)
}

/// The output of a refusal.
pub fn refusal(number: u8) -> Vec<u8> {
    format!("refusal\r\n{number}\r\n").into_bytes()
}
