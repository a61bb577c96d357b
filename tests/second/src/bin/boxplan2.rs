//! `boxplan2`: reads standard input and writes what `boxplan` would, by the second program.

use std::io::{Read, Result, Write, stdin, stdout};

fn main() -> Result<()> {
    let mut text = Vec::new();
    stdin().read_to_end(&mut text)?;
    stdout().write_all(&second::boxplan(&text))
}
